/*
 * The calls on a whole line, in libexports.a: the reader and the writer of run
 * sheets, the generator of noisy runs, the rehearsal of a number's broadcasts,
 * the checker of logs, the graded exchange had alone. A controller needs none of
 * them; the numbers of refusals are in vembopu.h.
 *
 * R = 3t + 6 is the number of rounds, vembopu_rounds(t). A table has the byte
 * for round r, from i, to j at ((r-1)*n + (i-1))*n + (j-1). Any byte may stand
 * there; in a run it counts as in a row of vembopu_advance. In marks, bit i-1 is
 * set if station i is marked, which is to say bad. An outcome is four bytes a
 * station, VEMBOPU_OUTCOME: value, grade 0 to 2, flag 0 or 1, and garbled, the
 * count of the rounds in which a ballot that the station expected was garbled,
 * 0 to R; a bad station's are 255.
 *
 * A number has w bits, w from 1 to 8, where 0 stands for 1; W is the bits of w,
 * vembopu_bits(w). Each bit is one broadcast, all with the same marks and
 * sender. Tables and logs of a number have the bits' tables one after another,
 * bit 0 first, so that bit b's begins at b*R*n*n. The outcome of a number is the
 * number, the smallest of its bits' grades, 1 if any bit's flag is 1, and the
 * largest of its bits' counts. 255 can be a number: whether a station is bad is
 * told by its grade, vembopu_is_bad. The checker and the exchange are of one
 * bit: a number's log is checked bit by bit, each part with the outcomes of a
 * rehearsal of that bit alone.
 *
 * Each call answers with the number of the refusal, 0 if accepted;
 * vembopu_sheet_len, vembopu_write and vembopu_check with 64 bits, laid out as
 * vembopu.h has it of every such answer. Any content may be handed in. A call
 * reads nothing but its arguments and the bytes that they point to, keeps
 * nothing, and the same arguments always give the same answer and the same
 * bytes. It writes only what is said below; if it is refused, every byte is as
 * it was. It calls nothing but memcpy, memmove and memset, which it takes from
 * the C library.
 *
 * A pointer has to point to as many bytes as its length says, which nobody else
 * writes during the call. It may be NULL only if that length is 0. No call
 * accepts a length of 0: a header or a sheet to be read, of no bytes, is refused
 * by 1, any other buffer by 8, if no other number comes first in the order said
 * below. A buffer that is written must not overlap another one, and nobody else
 * reads it during the call; buffers that are only read may overlap.
 */
#ifndef VEMBOPU_EXPORTS_H
#define VEMBOPU_EXPORTS_H

#include "vembopu.h"

#ifdef __cplusplus
extern "C" {
#endif

/* Bytes of a station's outcome; the most bits of a number; bytes of the largest
   table of one bit, and of all bits. */
enum {
    VEMBOPU_OUTCOME = 4,
    VEMBOPU_MOST_BITS = 8,
    VEMBOPU_LARGEST_TABLE = 36864,
    VEMBOPU_LARGEST_TABLES = 294912
};

/* W, the bits of w: 1 for 0. A w above 8, which every call refuses, is given
   back as it is. */
static inline int vembopu_bits(uint8_t w)
{
    return w == 0 ? 1 : w;
}

/* Of a station's four bytes of outcome: 1 if it is a bad station's. */
static inline int vembopu_is_bad(const uint8_t *outcome)
{
    return outcome[1] == VEMBOPU_NOTHING;
}

/*
 * Bytes of stack that a call needs at most, as in vembopu.h, with memcpy,
 * memmove and memset of the GNU C library. Where these are bound at their first use, the
 * dynamic linker needs more in the first call.
 */
enum {
    VEMBOPU_STACK_READ = 54016,
    VEMBOPU_STACK_READ_BIT = 54016,
    VEMBOPU_STACK_SHEET_LEN = 256,
    VEMBOPU_STACK_WRITE = 512,
    VEMBOPU_STACK_GENERATE = 192,
    VEMBOPU_STACK_REHEARSE = 3328,
    VEMBOPU_STACK_CHECK = 3072,
    VEMBOPU_STACK_EXCHANGE = 5120
};

/*
 * Reads a run sheet into the run tables of all its bits.
 *
 * sheet      12 bytes of header: n, t, upper, sender, value, w, index of the
 *            first record or 0 (two bytes), marks (four bytes); then k records
 *            of 8, k at most 4,096: round, from, to, ballot, next index or 0
 *            (two bytes), bit, 0. Low bytes first; records are counted from 1,
 *            bits from 0. Only read.
 * sheet_len  12 + 8k
 * table      the bits' run tables; written: the chained records' ballots in
 *            their places, 255 everywhere else
 * table_len  W*R*n*n, with the n, the t and the w of the header; 294,912 at
 *            most
 *
 * The header's numbers are taken from the sheet: n is sheet[0], t sheet[1], upper
 * sheet[2], sender sheet[3], value sheet[4], w sheet[5], marks sheet[8] to
 * sheet[11], low byte first. Look at sheet_len before you read them.
 *
 * Refused: by 1; then by 15; then by the lowest of 2, 3, 4, 5, 6, 8; then 9 or
 * 10 on the way through the chain; then 11, 12 or 13, by the first record in the
 * order of the chain that is refused, the lowest of the three.
 */
uint8_t vembopu_read(const uint8_t *sheet, size_t sheet_len,
                     uint8_t *table, size_t table_len);

/*
 * Reads one bit of a run sheet into a run table, for whoever runs the bits one
 * after another in one table. What it writes is that bit's part of what
 * vembopu_read writes; the whole sheet is judged, all its bits.
 *
 * sheet      and sheet_len as for vembopu_read
 * bit        0 to W-1
 * table      the run table of that bit; written as above
 * table_len  R*n*n, of one bit, with the n and the t of the header; 36,864 at
 *            most
 *
 * Refused: as vembopu_read, with this table_len; by 11, after 8 and before 9 and
 * 10, also if bit isn't below W.
 */
uint8_t vembopu_read_bit(const uint8_t *sheet, size_t sheet_len, uint8_t bit,
                         uint8_t *table, size_t table_len);

/*
 * The bytes of the sheet that vembopu_write makes of a header and the run tables
 * of a number's bits.
 *
 * header      n, t, upper, sender, value, w, two bytes that are not looked at,
 *             marks (four bytes). Only read.
 * header_len  12
 * table       the bits' run tables. Each byte of a marked sender that is not 255
 *             is a record; the bytes of unmarked senders have no effect. Only
 *             read.
 * table_len   W*R*n*n, with the n, the t and the w of the header
 *
 * Gives the bytes, 12 + 8k for k records of all bits.
 * Refused: by 1; then by 15; then by the lowest of 2, 3, 4, 5, 6, 8; then by 14,
 * if k is above 4,096; it gives 0 then.
 */
uint64_t vembopu_sheet_len(const uint8_t *header, size_t header_len,
                           const uint8_t *table, size_t table_len);

/*
 * Writes the run sheet of a header and the run tables of a number's bits. Its
 * length is asked for first:
 *
 *     uint8_t sheet[32780];  the longest
 *     uint64_t len = vembopu_sheet_len(header, 12, table, table_len);
 *     uint64_t made = vembopu_write(header, 12, table, table_len, sheet,
 *                                   vembopu_needed_bytes(len));
 *
 * Where the first is refused, the second is too, by the same number: to look at
 * vembopu_refusal(made) is enough.
 *
 * header     and table, with their lengths, as for vembopu_sheet_len
 * sheet      written: the header as it is handed in, but for the index of the
 *            first record, which is 1, or 0 without records; then the records
 *            in the table's order, by bit, then round, then from, then to, each
 *            with the index of the next one, the last with 0
 * sheet_len  what vembopu_sheet_len gives, 12 + 8k
 *
 * vembopu_read accepts what is written, and gives the tables with 255 for every
 * unmarked sender. To write the first 12 bytes of a sheet and the table that is
 * read from it leaves out the records that are not chained and those of
 * silence; to do so again changes nothing.
 *
 * Gives the number of records, k.
 * Refused: as vembopu_sheet_len; after these, by 8, if sheet_len isn't 12 + 8k;
 * it gives 0 then.
 */
uint64_t vembopu_write(const uint8_t *header, size_t header_len,
                       const uint8_t *table, size_t table_len,
                       uint8_t *sheet, size_t sheet_len);

/* Of vembopu_sheet_len: the bytes that the sheet needs; 0 if refused. */
static inline uint32_t vembopu_needed_bytes(uint64_t answer)
{
    if (vembopu_refusal(answer) != 0)
        return 0;
    return (uint32_t)(answer & 0xffffffffu);
}

/* Of vembopu_write: the records that are written; 0 if refused, and if there
   are none. */
static inline uint32_t vembopu_records(uint64_t answer)
{
    if (vembopu_refusal(answer) != 0)
        return 0;
    return (uint32_t)(answer & 0xffffffffu);
}

/*
 * Generates the run tables of a noisy run: what the marked stations send is made
 * from a seed, so that two lines with one header have the same noisy run.
 *
 * header      as for vembopu_sheet_len; upper, sender and value are judged, and
 *             have no effect. Only read.
 * header_len  12
 * seed        any number but 0
 * table       the bits' run tables; written: what is generated for every marked
 *             sender, 255 for every other
 * table_len   W*R*n*n, with the n, the t and the w of the header
 *
 * A state of 32 bits starts as the seed. A step exclusive-ors it with itself
 * shifted left by 13, then right by 17, then left by 5; bits beyond 32 are
 * dropped. For each round, marked sender and receiver in the table's order it
 * steps once, and the new state mod 4 is the byte, 255 where that is 3. From one
 * bit's table to the next the state runs on.
 *
 * vembopu_rehearse takes the tables as they are. vembopu_write makes their sheet,
 * which may need more than 4,096 records.
 *
 * Refused: by 1; then by 15; then by the lowest of 2, 3, 4, 5, 6; then by 16, if
 * seed is 0; then by 8.
 */
uint8_t vembopu_generate(const uint8_t *header, size_t header_len, uint32_t seed,
                         uint8_t *table, size_t table_len);

/*
 * Rehearses the broadcasts of a number, one for each bit: bit b of the number is
 * what the sender sends in the broadcast of bit b.
 *
 * n, t, upper   as in vembopu.h
 * sender        1 to n
 * value         the number that the sender broadcasts, below 2 to the power W,
 *               also where the sender is marked
 * w             how many bits it has, 1 to 8; 0 stands for 1
 * marks         the bad stations
 * table         the bits' run tables. Only the bytes of marked senders have
 *               effect, and of these only the ones of a round in which that
 *               station should speak. Only read.
 * log           written, laid out like the tables: what each good station sends,
 *               255 where it doesn't speak; a bad one's bytes as in the tables
 * outcomes      written
 * table_len     W*R*n*n, 294,912 at most
 * log_len       W*R*n*n
 * outcomes_len  4*n
 *
 * With 1 for w each bit's part of table and log, and that bit as the value, are
 * a rehearsal of their own, with that bit's outcomes.
 *
 * Refused: by 15; then by the lowest of 2, 3, 4, 5, 6, 8.
 */
uint8_t vembopu_rehearse(uint8_t n, uint8_t t, uint8_t upper, uint8_t sender,
                         uint8_t value, uint8_t w, uint32_t marks,
                         const uint8_t *table, size_t table_len,
                         uint8_t *log, size_t log_len,
                         uint8_t *outcomes, size_t outcomes_len);

/*
 * Checks the log of a run and its outcomes, whoever's program made them: gives
 * the set of the stations that broke the rules.
 *
 * n, t, upper   as in vembopu.h
 * sender        1 to n
 * log           laid out like a run table of one bit: what each station sent to
 *               each in each round, 255 where it sent nothing. Only read.
 * outcomes      what each station ended with, its count too. Only read.
 * log_len       R*n*n
 * outcomes_len  4*n
 *
 * A station is in the set exactly if no value of its own, 0 or 1, with the rows
 * that it received in the log, makes it send its logged bytes, to all and in
 * every round, and end with its logged outcome. Its own value matters only at
 * the sender. As marks, the set is the least under which the log is a run, with
 * the outcomes of unmarked stations as logged; if vembopu_rehearse wrote the two
 * buffers, of one bit, it is the marks that were handed to it.
 *
 * It speaks of this log alone: a station that isn't in the set kept the rules in
 * it, and may break them in another run. Whether the log is true to what was
 * sent, the call can't tell.
 *
 * Gives the set as marks.
 * Refused: the lowest of 2, 3, 4, 8; it gives 0 then.
 */
uint64_t vembopu_check(uint8_t n, uint8_t t, uint8_t upper, uint8_t sender,
                       const uint8_t *log, size_t log_len,
                       const uint8_t *outcomes, size_t outcomes_len);

/* Of vembopu_check: the stations that broke the rules, as marks; 0 if there are
   none. All 32 bits if refused: no station then passes for one that kept them. */
static inline uint32_t vembopu_broke(uint64_t answer)
{
    if (vembopu_refusal(answer) != 0)
        return 0xffffffffu;
    return (uint32_t)(answer & 0xffffffffu);
}

/*
 * The graded exchange of a whole line.
 *
 * n, t, upper   as in vembopu.h
 * marks         the bad stations
 * inputs        station i's input, 0 or 1, at inputs[i - 1]; a marked station's
 *               isn't looked at. Only read.
 * table         like a run table, of two rounds. Only the bytes of marked
 *               senders have effect. Only read.
 * outcomes      written; the flag is 1 if the grade is below 2, the count is of
 *               the two rounds, 0 to 2
 * inputs_len    n
 * table_len     2*n*n
 * outcomes_len  4*n
 *
 * Refused: the lowest of 2, 3, 5, 6, 8; by 5 only if inputs_len is n.
 */
uint8_t vembopu_exchange(uint8_t n, uint8_t t, uint8_t upper, uint32_t marks,
                         const uint8_t *inputs, size_t inputs_len,
                         const uint8_t *table, size_t table_len,
                         uint8_t *outcomes, size_t outcomes_len);

#ifdef __cplusplus
}
#endif

#endif
