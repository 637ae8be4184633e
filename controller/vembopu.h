/*
 * One station of a line, for the controller of a bonder.
 *
 * The five numbers, the same in every call for one station:
 *
 *     n         stations on the line, 1 to 32
 *     t, upper  thresholds, t at most upper, t + 2*upper below n; upper is
 *               document 01's T
 *     sender    number of the station whose value is broadcast, 1 to n
 *     own       number of this station, 1 to n
 *
 * The words:
 *
 *     bad       a station that at any time of a run, for whatever reason,
 *               doesn't do what these calls tell it, or whose ballots to or from
 *               a good one don't arrive in time; otherwise it is good
 *     value     a bit: 0 keeps the old recipe, 1 changes over; or one bit of a
 *               recipe's number
 *     round     each station sends at most one byte to all and receives what
 *               the others send. A run has R = 3t + 6 rounds, counted from 1
 *     ballot    the byte that is sent: 0, 1, or 2, blank, which counts for
 *               neither
 *     silence   255: a station doesn't speak in a round, or nothing came from
 *               it
 *     row       the n bytes that a station received in a round
 *     exchange  two rounds: all send their value, then their z, which is that
 *               value if at least n - upper ballots had it, otherwise blank.
 *               The new value is 1 if more z are ones than zeros, otherwise 0
 *     grade     how many z have it: 2 if at least n - t, else 1 if at least
 *               n - upper, else 0
 *     flag      1 exactly if the last grade is below 2. At a good station a
 *               flag of 1 says that more than t stations are bad
 *     garbled   a ballot that came, but as a byte without a meaning in its
 *               round: not 0, 1 or 255, in the second round of an exchange not
 *               2 either. It counts as silence does in a vote, and is told
 *               apart from it: where ballots arrive garbled, maintenance swaps
 *               the card, and where none arrive, it looks at the power. A
 *               station counts the rounds in which at least one ballot that it
 *               expected was garbled. It expects one from all in both rounds of
 *               an exchange, its own included, otherwise only one from the
 *               sender or the king
 *
 * A station needs no memory of its own. The controller keeps the five numbers
 * and the station's state of five bytes, which it takes from one answer and
 * hands to the next call:
 *
 *     open, then for each round: ballot, send it, receive a row, advance;
 *     when result says done: value, grade, flag and the count of garbled
 *     rounds.
 *
 * Where power may be cut, an offer and its acceptance take the place of
 * advance: "First look, then step", below, says what is written to stable
 * memory, and when.
 *
 * A number of up to eight bits is agreed on by a station for each bit, all with
 * the same five numbers: README.md, "A recipe number".
 *
 * What a controller owes these calls on the wire, and what to do with value,
 * grade, flag and count: README.md, "On the wire".
 *
 * Any content may be handed in: what is not allowed is refused, by number, and
 * nothing else happens. What C makes of a wider number before the call is not
 * seen: an int of 263 comes in as 7. A call reads nothing but its arguments, for
 * a row the row_len bytes at row, for a lent station its ten bytes; it calls
 * nothing, keeps nothing, and the same arguments always give the same answer.
 * vembopu_advance_lent and vembopu_accept_lent alone write, and only those ten
 * bytes; the six calls on numbers write nothing. So any number of stations may
 * run in one process, and in any threads.
 *
 * open, ballot, advance and result are in libcontroller.a, vembopu_advance_lent
 * is in liblent.a, and offer, accept and vembopu_accept_lent are in
 * liboffer_calls.a.
 */
#ifndef VEMBOPU_H
#define VEMBOPU_H

#include <stddef.h>
#include <stdint.h>

/*
 * Document 01 with requests 1 to N is version 1.N. With the minor number the
 * layout of the state, of the struct or of an answer may change, and what a
 * station makes of its rows: a state kept by one version is never handed to
 * another, and all stations of a line have one version. The libraries don't
 * tell theirs: take them and the headers from one version.
 */
#define VEMBOPU_VERSION_MAJOR 1
#define VEMBOPU_VERSION_MINOR 8
#define VEMBOPU_VERSION "1.8"

#ifdef __cplusplus
extern "C" {
#endif

/* Ballot bytes other than 0 and 1, and what the helpers at the end of this file
   give in place of a value, grade, flag or count that isn't there. */
enum {
    VEMBOPU_BLANK = 2,
    VEMBOPU_SILENCE = 255,
    VEMBOPU_NOTHING = 255
};

/* R, the rounds of a run and the rows that a station takes, for any t. */
static inline int vembopu_rounds(uint8_t t)
{
    return 3 * t + 6;
}

/*
 * Why a call is refused, by the numbers of documents 01 and 02. A station's
 * calls give 2, 3, 4, 5, 7, 8 and 17; the others are given by the calls of
 * exports.h.
 */
enum {
    VEMBOPU_ACCEPTED = 0,
    VEMBOPU_BAD_SHEET = 1,        /* sheet_len not 12 + 8k with k from 0 to
                                     4,096, or a header handed in by itself
                                     not of 12 bytes */
    VEMBOPU_BAD_N = 2,            /* n outside 1 to 32 */
    VEMBOPU_BAD_THRESHOLDS = 3,   /* t above upper, or t + 2*upper not
                                     below n */
    VEMBOPU_BAD_NUMBER = 4,       /* sender or own outside 1 to n */
    VEMBOPU_BAD_VALUE = 5,        /* a number of 2 to the power w or above (w 0
                                     stands for 1); a station's value, or an
                                     unmarked station's input, not 0 or 1 */
    VEMBOPU_BAD_MARKS = 6,        /* a mark beyond station n */
    VEMBOPU_BAD_STATE = 7,        /* round outside 1 to R + 1, value above 1, z
                                     or grade above 2, garbled not below round;
                                     or a ballot or row wanted of a done
                                     station */
    VEMBOPU_BAD_LENGTH = 8,       /* a row, table, log, outcomes, inputs or
                                     sheet to be written not of its exact
                                     length */
    VEMBOPU_CHAIN_LEAVES = 9,     /* the chain reaches an index above k */
    VEMBOPU_CHAIN_REPEATS = 10,   /* the chain reaches a record again */
    VEMBOPU_BAD_RECORD = 11,      /* round outside 1 to R, a station outside 1
                                     to n, a bit not below w (w 0 stands for
                                     1), or the last byte not zero; or a bit to
                                     be read not below w */
    VEMBOPU_UNMARKED_SENDER = 12, /* a record's from is not marked */
    VEMBOPU_DUPLICATE = 13,       /* an earlier chained record has the same
                                     bit, round, from and to */
    VEMBOPU_TOO_MANY_RECORDS = 14,
                                  /* more than 4,096 records are to be
                                     written */
    VEMBOPU_BAD_WIDTH = 15,       /* w, the bits of a number, above 8 */
    VEMBOPU_BAD_SEED = 16,        /* a seed of 0 */
    VEMBOPU_BAD_OFFER = 17        /* the offer isn't the one that this station
                                     and row give */
};

/*
 * Bytes of stack that a call needs at most, its arguments, its return address
 * and its red zone included: measured on the libraries for x86-64 (stack.c),
 * not proved, and rounded up. What an interrupt lays on the same stack comes on
 * top. The calls keep to the System V ABI and use SSE registers: a task or an
 * interrupt that calls them has these saved. The machine has SSE4.2
 * (x86-64-v2).
 */
enum {
    VEMBOPU_STACK_OPEN = 32,
    VEMBOPU_STACK_BALLOT = 32,
    VEMBOPU_STACK_ADVANCE = 128,
    VEMBOPU_STACK_RESULT = 32,
    VEMBOPU_STACK_OFFER = 256,
    VEMBOPU_STACK_ACCEPT = 384,
    VEMBOPU_STACK_ADVANCE_LENT = 128,
    VEMBOPU_STACK_ACCEPT_LENT = 384
};

/*
 * Every 64-bit answer, here and in exports.h, has the refusal number in its
 * highest byte, 0 if accepted, and what the call gives in the seven bytes
 * below, the lowest first; those that it doesn't use are 0. This stays so in
 * later versions. Take an answer apart with the helpers at the end of this
 * file.
 *
 * A state is five bytes, the lowest of 64 bits, lowest first: round, value, z,
 * grade, garbled, the last being the count of garbled rounds. The three bytes
 * above them are not looked at where a state is handed in, so that an accepted
 * answer of open, advance or accept may be handed on as it is. An offer's isn't
 * handed on as a state: that is the station's only when it is accepted.
 */

/*
 * A station before round 1.
 *
 * value    the bit to broadcast. It matters only at the sender, and has to be
 *          0 or 1 at every station.
 *
 * Gives the state.
 * Refused: the lowest of 2, 3, 4, 5; it gives 0 then, a state that every later
 * call refuses, by 7 if no lower number comes first.
 */
uint64_t vembopu_open(uint8_t n, uint8_t t, uint8_t upper, uint8_t sender,
                      uint8_t own, uint8_t value);

/*
 * The ballot for the current round, to be sent to all others and put into the
 * own row: 0, 1, or 2 (blank); 255 if the station doesn't speak.
 *
 * state    from the last accepted open, advance or accept of this station. Any
 *          64 bits may be handed in. A round outside 1 to R + 1, a value above
 *          1, a z or a grade above 2, or a count that isn't below the round is
 *          refused by 7. The round of a done station is R + 1, and this call
 *          refuses that by 7 as well.
 *
 * Gives the ballot.
 * Refused: the lowest of 2, 3, 4, 7; it gives 0 then.
 */
uint64_t vembopu_ballot(uint8_t n, uint8_t t, uint8_t upper, uint8_t sender,
                        uint8_t own, uint64_t state);

/*
 * The station after the row that it received in the current round.
 *
 * state    as for vembopu_ballot, a done station refused by 7 as well.
 * row      row[i - 1] is the byte received from station i, 255 where nothing
 *          came. row[own - 1] is the ballot that vembopu_ballot gave in this
 *          round, 255 where this station doesn't speak. That isn't checked: a
 *          station that is handed another byte there is none that the promises
 *          speak of, and counts as bad. Any byte may stand in a row. In both
 *          rounds of an exchange one other than 0 or 1 counts for neither
 *          value. In round 1 only the sender's byte matters, and one other than
 *          0 or 1 is read as 0. In round 3p + 1, after an exchange, only that
 *          of station p matters, the king, and at grade 0 only: 0 or 1 is the
 *          new value, any other leaves the station with the exchange's. If a
 *          byte that matters to this round, the king's at any grade, is
 *          garbled, the count grows by 1, however many are. The row is only
 *          read, and only during the call.
 * row_len  the number of bytes at row, which nobody writes during the call. Any
 *          other number than n is refused by 8. row may be NULL only if row_len
 *          is 0.
 *
 * Gives the new state, to be kept in place of the old one.
 * Refused: the lowest of 2, 3, 4, 7, 8; it gives the five bytes of the state
 * handed in then, so that the station stays where it was and another row may be
 * tried.
 */
uint64_t vembopu_advance(uint8_t n, uint8_t t, uint8_t upper, uint8_t sender,
                         uint8_t own, uint64_t state, const uint8_t *row,
                         size_t row_len);

/*
 * The result: running, with the round; or, after exactly R accepted rows, done,
 * with value, grade, flag and the count of garbled rounds, 0 to R.
 *
 * state    as for vembopu_ballot, but that a done station is accepted.
 *
 * Gives, lowest byte first: 0, round, 0, 0, 0; or 1, value, grade, flag,
 * garbled.
 * Refused: the lowest of 2, 3, 4, 7; it gives 0 then.
 */
uint64_t vembopu_result(uint8_t n, uint8_t t, uint8_t upper, uint8_t sender,
                        uint8_t own, uint64_t state);

/* ---- First look, then step ---- */

/*
 * vembopu_offer shows what a row makes of the station, and the ballot that it
 * tells then; vembopu_accept takes the row. Together they do what
 * vembopu_advance does. Where power may be cut, stable memory holds the five
 * numbers, the run's number and VEMBOPU_VERSION, the state in a word of 64
 * bits, and a row with the round that it is for. They are written in this order:
 *
 *     1. To open: 0 as the state, by one write; the five numbers, run and
 *        version, and 0 as the row's round; then the state of vembopu_open, by
 *        one write.
 *     2. When a row is received: the row, whole; then its round. From then on
 *        the row stands, and isn't written again before the step.
 *     3. vembopu_offer on the stored state and row. Its ballot may be shown,
 *        or sent ahead where the clock allows. Nothing is written.
 *     4. vembopu_accept on them, with that offer. If it is accepted: the new
 *        state, by one write. This write is the step.
 *
 * One write happens whole or not at all: an aligned store of 64 bits, where
 * processor and memory take so many at once. Where they don't, but a byte is
 * changed whole or not at all, there are two places for a state and a byte that
 * names the one in use: the state goes to the other place, then the byte is
 * changed. Where not even a byte is, as in an EEPROM or a page of flash, each
 * place has a state, a count and a checksum, and shares no page with anything
 * else; of the places with a right checksum the one with the higher count is in
 * use. So a cut of power at any instruction leaves the station before the row
 * or after it, and never between.
 *
 * After a cut the stored state is the station's, if run and version are; 0 is
 * none: open it, or sit out. If vembopu_result says done, no row is to come. If
 * the row's round is the state's, which is the state's lowest byte, the row
 * stands: go on with 3. The offer equals the first, so that what was shown or
 * sent holds. Otherwise no row of this round was complete: it is still to be
 * received, or the station sits out (README.md, "A restart in the middle of a
 * run").
 *
 * Compiler and memory must keep to this order, also from 4 to the 2 of the next
 * round: by volatile, a barrier, a flush, or whatever the memory wants. A lent
 * station doesn't lie in stable memory, as its ten bytes aren't stored at once:
 * make it from what is stored, and after an accepted vembopu_accept_lent write
 * vembopu_state_of(s) as in 4. The state that an offer shows is never stored,
 * nor handed to ballot, advance or result in place of an accepted one. offer.c
 * shows how this is done.
 */

/*
 * What vembopu_advance makes of the station, and its ballot then: a look, which
 * leaves the station alone.
 *
 * state, row and row_len as for vembopu_advance.
 *
 * Gives, lowest byte first, the five bytes of the following state and the
 * ballot that vembopu_ballot gives of it, 255 if that state is done.
 * Refused: the lowest of 2, 3, 4, 7, 8; it gives 0 then.
 */
uint64_t vembopu_offer(uint8_t n, uint8_t t, uint8_t upper, uint8_t sender,
                       uint8_t own, uint64_t state, const uint8_t *row,
                       size_t row_len);

/*
 * The station after the row, as vembopu_advance gives it, if the offer is the
 * one that this station and row give.
 *
 * state, row and row_len as for vembopu_advance: those that were offered on.
 * offer    the answer of vembopu_offer, as it is. Any 64 bits may be handed in:
 *          all of them are compared, and none is taken over.
 *
 * Gives the new state, to be kept in place of the old one.
 * Refused: the lowest of 2, 3, 4, 7, 8; then by 17, if vembopu_offer answers
 * these numbers, this state and this row by other 64 bits. It gives the five
 * bytes of the state handed in then, so that the station stays where it was and
 * the right offer may be tried.
 */
uint64_t vembopu_accept(uint8_t n, uint8_t t, uint8_t upper, uint8_t sender,
                        uint8_t own, uint64_t state, const uint8_t *row,
                        size_t row_len, uint64_t offer);

/* ---- The station lent ---- */

/*
 * A station in ten bytes: the five numbers and the state, each byte of it by
 * its name. vembopu_station_of makes it from the numbers, vembopu_state_of
 * gives its state for ballot, offer and result.
 */
struct vembopu_station {
    uint8_t n, t, upper, sender, own;
    uint8_t round, value, z, grade, garbled;
};

/*
 * vembopu_advance on a station that the caller keeps: the station takes the
 * row that it received in the current round, where it stands.
 *
 * s        points to ten bytes, which the row doesn't overlap and nobody else
 *          reads or writes during the call; never NULL. Any bytes may stand
 *          there.
 * row      and row_len as for vembopu_advance, the own ballot unchecked at
 *          row[own - 1] too.
 *
 * Answers 0 if the row is taken: round, value, z, grade and garbled at s are
 * then those after the row, the five numbers as they were.
 * Refused: the lowest of 2, 3, 4, 7, 8; nothing is written then, so that
 * another row may be tried.
 */
uint8_t vembopu_advance_lent(struct vembopu_station *s, const uint8_t *row,
                             size_t row_len);

/*
 * vembopu_accept on a station that the caller keeps.
 *
 * s        as for vembopu_advance_lent, and not in stable memory.
 * row      and row_len as for vembopu_advance: those that were offered on.
 * offer    as for vembopu_accept: what vembopu_offer answers for the station's
 *          five numbers and vembopu_state_of(s).
 *
 * Answers 0 if the row is taken: round, value, z, grade and garbled at s are
 * then those after the row, the five numbers as they were.
 * Refused: the lowest of 2, 3, 4, 7, 8; then by 17, if the offer is another.
 * Nothing is written then, so that the right offer may be tried.
 */
uint8_t vembopu_accept_lent(struct vembopu_station *s, const uint8_t *row,
                            size_t row_len, uint64_t offer);

/* The station with these numbers and this state, that of an accepted open,
   advance or accept. */
static inline struct vembopu_station
vembopu_station_of(uint8_t n, uint8_t t, uint8_t upper, uint8_t sender,
                   uint8_t own, uint64_t state)
{
    struct vembopu_station s = {n, t, upper, sender, own, 0, 0, 0, 0, 0};
    s.round = (uint8_t)(state & 0xffu);
    s.value = (uint8_t)((state >> 8) & 0xffu);
    s.z = (uint8_t)((state >> 16) & 0xffu);
    s.grade = (uint8_t)((state >> 24) & 0xffu);
    s.garbled = (uint8_t)((state >> 32) & 0xffu);
    return s;
}

/* The station's state, for a call on numbers. */
static inline uint64_t vembopu_state_of(const struct vembopu_station *s)
{
    return (uint64_t)s->round | (uint64_t)s->value << 8 | (uint64_t)s->z << 16 |
           (uint64_t)s->grade << 24 | (uint64_t)s->garbled << 32;
}

/* ---- Taking an answer apart ---- */

/*
 * Of a refused answer, and of a result that is running, no helper gives what
 * could be taken for a ballot, a value, a grade or a flag of 0, 1 or 2, or for
 * a count: it is 255. In C that is true, and above every grade and count:
 * compare by ==, and look at the flag first. flag == 0 says at once that the
 * call was accepted, that the station is done, and that its value may be used.
 *
 * A helper can't tell which call an answer is from. Hand it none but those of
 * the calls that it names: an accepted open's would pass for a done result.
 */

/* Of any call on numbers, and of vembopu_sheet_len, vembopu_write and
   vembopu_check: the refusal number, 0 if accepted. Ask this first. */
static inline uint32_t vembopu_refusal(uint64_t answer)
{
    return (uint32_t)(answer >> 56);
}

/* Of open, advance and accept: the state. Of a refused open 0, which every
   later call refuses; of a refused advance or accept the state that was handed
   in. Of offer: the following state, to be shown; 0 if refused. */
static inline uint64_t vembopu_state(uint64_t answer)
{
    return answer & 0xffffffffffu;
}

/* Of ballot: the byte to send. 255 means send nothing: the station doesn't
   speak, or the call is refused. */
static inline uint8_t vembopu_ballot_byte(uint64_t answer)
{
    if (answer > VEMBOPU_BLANK)
        return VEMBOPU_SILENCE;
    return (uint8_t)answer;
}

/* Of offer: the ballot of the following round, to be shown. 255 if the station
   doesn't speak in it, or is done then, or if the call is refused. */
static inline uint8_t vembopu_offered_ballot(uint64_t answer)
{
    if (answer >> 40 > VEMBOPU_BLANK)
        return VEMBOPU_SILENCE;
    return (uint8_t)(answer >> 40);
}

/* Of result: 1 if accepted and done, 0 if running or refused. A done result has
   nothing above its count, and its grade and flag agree, which those of a
   ballot's answer don't. */
static inline int vembopu_done(uint64_t answer)
{
    unsigned grade = (unsigned)((answer >> 16) & 0xffu);
    unsigned flag = (unsigned)((answer >> 24) & 0xffu);
    return answer >> 40 == 0 && (answer & 0xffu) == 1 && flag == (grade < 2);
}

/* Of result: 1 if accepted and running, 0 if done or refused. A running result
   has nothing above its round. */
static inline int vembopu_running(uint64_t answer)
{
    return answer >> 16 == 0 && (answer & 0xffu) == 0;
}

/* Of result: the current round, 1 to R; 0 if done or refused. */
static inline uint8_t vembopu_round(uint64_t answer)
{
    if (!vembopu_running(answer))
        return 0;
    return (uint8_t)((answer >> 8) & 0xffu);
}

/* Of result: the bit that is decided, 0 or 1; 255 if running or refused. */
static inline uint8_t vembopu_value(uint64_t answer)
{
    if (!vembopu_done(answer))
        return VEMBOPU_NOTHING;
    return (uint8_t)((answer >> 8) & 0xffu);
}

/* Of result: the last grade, 0 to 2; 255 if running or refused. */
static inline uint8_t vembopu_grade(uint64_t answer)
{
    if (!vembopu_done(answer))
        return VEMBOPU_NOTHING;
    return (uint8_t)((answer >> 16) & 0xffu);
}

/* Of result: the flag, 1 exactly if the grade is below 2, otherwise 0; 255 if
   running or refused. */
static inline uint8_t vembopu_flag(uint64_t answer)
{
    if (!vembopu_done(answer))
        return VEMBOPU_NOTHING;
    return (uint8_t)((answer >> 24) & 0xffu);
}

/* Of result: the count of the rounds in which a ballot that the station expected
   was garbled, 0 to R; 255 if running or refused. */
static inline uint8_t vembopu_garbled(uint64_t answer)
{
    if (!vembopu_done(answer))
        return VEMBOPU_NOTHING;
    return (uint8_t)((answer >> 32) & 0xffu);
}

#ifdef __cplusplus
}
#endif

#endif
