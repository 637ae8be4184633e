//! The inputs that a fuzz goes on from: for each signature that came, the shortest input that made it.

use std::collections::hash_map::{Entry, HashMap};
use std::rc::Rc;

use super::mutate::mutate;
use crate::lot::Lot;

/// Coarse features of an input and its answer, unused ones 0.
pub type Features = [u8; 8];

/// An answer told coarsely: the call's place in the list, its number, and the features.
pub type Signature = (usize, u8, Features);

/// No more bytes are kept, an input that stands several times counted as often.
const MOST_BYTES: usize = 128 << 20;

/// What an input is to a call.
#[derive(Clone, Copy)]
pub enum Shape {
    Sheet,
    Line,
    Station,
}

/// The inputs by the shape that they are kept for, the accepted ones apart. One that makes several signatures
/// stands once for each.
pub struct Pool {
    seeds: Vec<Rc<[u8]>>,
    groups: [Vec<Rc<[u8]>>; 6],
    places: HashMap<Signature, usize>,
    bytes: usize,
    most_bytes: usize,
}

fn group(shape: Shape, accepted: bool) -> usize {
    2 * shape as usize + usize::from(accepted)
}

impl Pool {
    /// The seeds stand with the accepted sheets, and stay for good.
    pub fn new(seeds: &[&[u8]]) -> Pool {
        let seeds: Vec<Rc<[u8]>> = seeds.iter().map(|&seed| seed.into()).collect();
        let bytes = seeds.iter().map(|seed| seed.len()).sum();
        let mut groups: [Vec<Rc<[u8]>>; 6] = Default::default();
        groups[group(Shape::Sheet, true)] = seeds.clone();
        Pool { seeds, groups, places: HashMap::new(), bytes, most_bytes: MOST_BYTES }
    }

    /// The input of a turn: the seeds as they are come first.
    pub fn input(&self, turn: u64, lot: &mut Lot) -> Rc<[u8]> {
        match self.seeds.get(turn as usize) {
            Some(seed) => seed.clone(),
            None => self.mutated(lot),
        }
    }

    /// An input that was made of one in the pool.
    fn mutated(&self, lot: &mut Lot) -> Rc<[u8]> {
        let (mut input, other) = (self.drawn(lot).to_vec(), self.drawn(lot));
        mutate(lot, &mut input, other);
        input.into()
    }

    /// An input of any group, of each as often, however many there are in it.
    fn drawn(&self, lot: &mut Lot) -> &[u8] {
        let shape = lot.pick(&[Shape::Sheet, Shape::Line, Shape::Station]);
        let drawn = &self.groups[group(shape, lot.one_in(2))];
        let drawn = if drawn.is_empty() { &self.groups[group(Shape::Sheet, true)] } else { drawn };
        &drawn[lot.below(drawn.len() as u64) as usize]
    }

    /// Keeps an input that made this signature, if none did and there is room, or only longer ones did.
    pub fn keep(&mut self, shape: Shape, signature: Signature, input: &Rc<[u8]>) {
        let group = &mut self.groups[group(shape, signature.1 == 0)];
        match self.places.entry(signature) {
            Entry::Vacant(place) if self.bytes + input.len() <= self.most_bytes => {
                place.insert(group.len());
                group.push(input.clone());
                self.bytes += input.len();
            }
            Entry::Vacant(_) => {}
            Entry::Occupied(place) => {
                let kept = &mut group[*place.get()];
                if input.len() < kept.len() {
                    self.bytes -= kept.len() - input.len();
                    *kept = input.clone();
                }
            }
        }
    }

    /// How many signatures have an input.
    pub fn signatures(&self) -> usize {
        self.places.len()
    }

    /// The bytes of all inputs, one that stands several times counted as often.
    pub fn bytes(&self) -> usize {
        self.bytes
    }
}

#[cfg(test)]
mod tests {
    use super::*;

    fn signature(feature: u8) -> Signature {
        (0, 0, [feature, 0, 0, 0, 0, 0, 0, 0])
    }

    #[test]
    fn the_shortest_of_a_signature() {
        let mut pool = Pool::new(&[b"seed"]);
        pool.keep(Shape::Line, signature(1), &(*b"longer").into());
        pool.keep(Shape::Line, signature(1), &(*b"than").into());
        pool.keep(Shape::Line, signature(1), &(*b"other").into());
        pool.keep(Shape::Station, signature(2), &(*b"other").into());
        let kept: Vec<&[u8]> = pool.groups.iter().flatten().map(|input| &**input).collect();
        assert_eq!(kept, [&b"seed"[..], b"than", b"other"]);
        assert_eq!((pool.signatures(), pool.bytes()), (2, 13));
    }

    #[test]
    fn no_more_than_there_is_room_for() {
        let mut pool = Pool { most_bytes: 9, ..Pool::new(&[b"seed"]) };
        pool.keep(Shape::Sheet, signature(1), &(*b"other").into());
        pool.keep(Shape::Sheet, signature(2), &(*b"a").into());
        assert_eq!((pool.signatures(), pool.bytes()), (1, 9));
        pool.keep(Shape::Sheet, signature(1), &(*b"less").into());
        pool.keep(Shape::Sheet, signature(2), &(*b"a").into());
        assert_eq!((pool.signatures(), pool.bytes()), (2, 9));
        assert_eq!(pool.groups.iter().flatten().map(|input| input.len()).sum::<usize>(), 9);
    }

    #[test]
    fn every_input_is_drawn() {
        let mut pool = Pool::new(&[b"a"]);
        pool.keep(Shape::Sheet, signature(1), &(*b"b").into());
        pool.keep(Shape::Station, signature(2), &(*b"c").into());
        let mut lot = Lot(1);
        let drawn: Vec<u8> = (0..60).map(|_| pool.drawn(&mut lot)[0]).collect();
        assert!(b"abc".iter().all(|input| drawn.contains(input)));
    }

    #[test]
    fn seeds_come_first() {
        let pool = Pool::new(&[b"a", b"b"]);
        assert_eq!([0, 1].map(|turn| pool.input(turn, &mut Lot(1))), [(*b"a").into(), (*b"b").into()]);
        assert!((0..8).any(|seed| pool.input(2, &mut Lot(seed)).len() != 1));
    }
}
