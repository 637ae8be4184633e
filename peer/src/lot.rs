//! Runs and sheets drawn by lot, the same ones every time for the same seed.

use crate::line::{Header, Line, Marks};
use crate::number::MOST_BITS;
use crate::sheet::Record;

/// Tables of a number that are no longer are short.
const SHORT: usize = 4_096;

/// SplitMix64.
pub struct Lot(pub u64);

impl Lot {
    pub fn word(&mut self) -> u64 {
        self.0 = self.0.wrapping_add(0x9e37_79b9_7f4a_7c15);
        let mut z = self.0;
        z = (z ^ (z >> 30)).wrapping_mul(0xbf58_476d_1ce4_e5b9);
        z = (z ^ (z >> 27)).wrapping_mul(0x94d0_49bb_1331_11eb);
        z ^ (z >> 31)
    }

    /// A number below `end`.
    pub fn below(&mut self, end: u64) -> u64 {
        self.word() % end
    }

    pub fn byte(&mut self) -> u8 {
        self.word() as u8
    }

    /// A ballot byte: any of the known ones, or any byte.
    pub fn ballot(&mut self) -> u8 {
        let byte = self.byte();
        let other = self.pick(&[3, 254, byte]);
        self.pick(&[0, 1, 2, 255, other])
    }

    pub fn one_in(&mut self, many: u64) -> bool {
        self.below(many) == 0
    }

    pub fn pick<T: Copy>(&mut self, from: &[T]) -> T {
        from[self.below(from.len() as u64) as usize]
    }

    pub fn shuffle<T>(&mut self, list: &mut [T]) {
        for end in (1..list.len()).rev() {
            list.swap(end, self.below(end as u64 + 1) as usize);
        }
    }

    /// A line of at most `most` stations that is accepted.
    pub fn line(&mut self, most: u8) -> Line {
        loop {
            let n = 1 + self.below(most.into()) as u8;
            let upper = self.below(u64::from(n).div_ceil(2)) as u8;
            let t = self.below(u64::from(upper) + 1) as u8;
            if let Ok(line) = Line::new(n, t, upper) {
                return line;
            }
        }
    }

    /// Marks on `count` of the line's stations.
    pub fn marks(&mut self, line: &Line, count: u32) -> Marks {
        let mut marks = Marks(0);
        while marks.count() < count {
            marks.0 |= 1 << self.below(line.n() as u64);
        }
        marks
    }

    /// A header of one bit that is accepted, with any number of bad stations.
    pub fn header(&mut self, most: u8) -> Header {
        let line = self.line(most);
        let f = self.below(line.n() as u64 + 1) as u32;
        let marks = self.marks(&line, f);
        let sender = 1 + self.below(line.n() as u64) as u8;
        let value = self.below(2) as u8;
        Header { n: line.n() as u8, t: line.t(), upper: line.upper(), sender, value, w: 0, marks }
    }

    /// The same header with a number of any width.
    pub fn numbered(&mut self, header: &Header) -> Header {
        self.number_within(header, MOST_BITS)
    }

    /// The same header with a number whose tables are short, seldom of any width, since long tables take long.
    pub fn numbered_short(&mut self, header: &Header) -> Header {
        let widest = if self.one_in(300) { MOST_BITS } else { widest_short(header) };
        self.number_within(header, widest)
    }

    /// The same header with a number of at most so many bits.
    fn number_within(&mut self, header: &Header, widest: u8) -> Header {
        let w = self.below(u64::from(widest) + 1) as u8;
        let largest = u8::MAX >> (MOST_BITS - w.max(1));
        let any = self.byte() & largest;
        Header { w, value: self.pick(&[0, largest, any, any]), ..*header }
    }

    /// A header that is accepted, with f near one of the thresholds.
    pub fn header_near_thresholds(&mut self, most: u8) -> (Header, Line) {
        let mut header = self.header(most);
        let line = header.judge().expect("an accepted header");
        let f = self.pick(&[header.t, header.upper, header.upper + 1]);
        header.marks = self.marks(&line, u32::from(f.min(header.n)));
        (header, line)
    }

    /// A table's bytes, by one of several habits of bad stations.
    pub fn table(&mut self, line: &Line) -> Vec<u8> {
        self.ballots(line, line.table_len())
    }

    /// As many bytes of a table.
    pub fn ballots(&mut self, line: &Line, len: usize) -> Vec<u8> {
        let habit = self.below(6);
        let seldom = self.pick(&[line.n(), line.round_len()]) as u64;
        let split = 1 + self.below(line.n() as u64) as usize;
        let byte = |lot: &mut Lot, place: usize| match habit {
            0 => lot.byte(),
            1 => lot.pick(&[0, 1, 2, 255, 77]),
            2 => lot.below(2) as u8,
            3 => u8::from(place % line.n() < split) ^ u8::from(lot.one_in(20)),
            4 if lot.one_in(seldom) => lot.ballot(),
            4 => lot.pick(&[0, 1, 255]),
            _ => lot.pick(&[0, 1, 1, 2]),
        };
        (0..len).map(|place| byte(self, place)).collect()
    }

    /// The tables of a header's number, each bit's by a habit of its own.
    pub fn tables(&mut self, header: &Header) -> Vec<u8> {
        let line = header.judge().expect("an accepted header");
        let bits = header.width().expect("an accepted header").bits();
        bits.flat_map(|_| self.table(&line)).collect()
    }

    /// Records that the reader accepts with this header: all different, from bad stations.
    pub fn records(&mut self, header: &Header) -> Vec<Record> {
        let line = header.judge().expect("an accepted header");
        let bits = header.width().expect("an accepted header").count();
        let mut records: Vec<Record> = Vec::new();
        if header.marks.count() == 0 {
            return records;
        }
        let bad: Vec<u8> = line.stations().filter(|&i| header.marks.bad(i)).collect();
        for _ in 0..self.below(40) {
            let round = 1 + self.below(line.rounds().into()) as u8;
            let (from, to) = (self.pick(&bad), 1 + self.below(line.n() as u64) as u8);
            let bit = if bits == 1 { 0 } else { self.below(bits as u64) as u8 };
            let record = Record { bit, round, from, to, ballot: self.ballot() };
            if !records.iter().any(|other| other.place(&line) == record.place(&line)) {
                records.push(record);
            }
        }
        records
    }

    /// Numbers of a line, n, t and T, that are often near the edge of what is allowed.
    pub fn edge_numbers(&mut self) -> (u8, u8, u8) {
        let n = self.pick(&[0, 1, 2, 3, 4, 5, 7, 31, 32, 33, 255]);
        let t: u8 = self.pick(&[0, 0, 1, 1, 2, 10, 11, 255]);
        let upper = self.pick(&[t, t, t.wrapping_sub(1), t.wrapping_add(1), 0, 15, 16]);
        (n, t, upper)
    }

    /// Marks that are often near bit n.
    pub fn edge_marks(&mut self, n: u8) -> u32 {
        let near = 1u64 << n.min(32);
        self.pick(&[0, 1, near - 1, near, near >> 1]) as u32
    }

    /// A length that is now and then one off.
    pub fn near(&mut self, exact: usize) -> usize {
        match self.below(9) {
            0 => exact + 1,
            1 => exact.saturating_sub(1),
            _ => exact,
        }
    }
}

/// The largest w that keeps the tables of a header's line short; 1 where none does.
pub fn widest_short(header: &Header) -> u8 {
    let line = Line::new(header.n, header.t, header.upper);
    let short = line.map_or(1, |line| SHORT / line.table_len());
    short.clamp(1, MOST_BITS.into()) as u8
}
