/*
 * The order of parameters, and of a lent station's fields, as C sees it. Each
 * call has examples with the answers that the documents give. For every two
 * parameters of one type there is an example whose answer changes when the two
 * are exchanged: the program exchanges them and looks. Where the documents treat
 * two of them alike, exchanging them must never change an answer.
 */
#define _DEFAULT_SOURCE
#include "check.h"
#include "exports.h"

#include <string.h>

enum { NUMBERS = 5, BYTES = 10, BUFFERS = 3, SPACE = 256 };

/* A call's arguments of one byte in the order of its header; after these the
   state's round, value, z, grade and garbled, or the whole lent station alone;
   marks, or a seed; buffers; an offer, which may be exchanged with the state. */
struct arguments {
    uint8_t byte[BYTES];
    uint32_t marks, seed;
    uint8_t *at[BUFFERS];
    size_t len[BUFFERS];
    uint64_t offer;
    int exchanged;
};

/* ---- The calls: each answers with its 64 bits, or with its number ---- */

#define FIVE_NUMBERS(a) (a)->byte[0], (a)->byte[1], (a)->byte[2], (a)->byte[3], (a)->byte[4]
#define BUFFER(a, k) (a)->at[k], (a)->len[k]

/* The bytes after the five numbers as a state. */
static uint64_t state(const struct arguments *a)
{
    uint64_t bits = 0;
    for (int k = NUMBERS; k < BYTES; k++)
        bits |= (uint64_t)a->byte[k] << 8 * (k - NUMBERS);
    return bits;
}

static uint64_t run_open(struct arguments *a)
{
    return vembopu_open(FIVE_NUMBERS(a), a->byte[5]);
}

static uint64_t run_ballot(struct arguments *a)
{
    return vembopu_ballot(FIVE_NUMBERS(a), state(a));
}

static uint64_t run_result(struct arguments *a)
{
    return vembopu_result(FIVE_NUMBERS(a), state(a));
}

/* The new state takes the old one's place. */
static uint64_t kept(struct arguments *a, uint64_t answer)
{
    for (int k = NUMBERS; k < BYTES; k++)
        a->byte[k] = (uint8_t)(vembopu_state(answer) >> 8 * (k - NUMBERS) & 255);
    return vembopu_refusal(answer);
}

static uint64_t run_advance(struct arguments *a)
{
    return kept(a, vembopu_advance(FIVE_NUMBERS(a), state(a), BUFFER(a, 0)));
}

static uint64_t run_offer(struct arguments *a)
{
    return vembopu_offer(FIVE_NUMBERS(a), state(a), BUFFER(a, 0));
}

static uint64_t run_accept(struct arguments *a)
{
    uint64_t first = a->exchanged ? a->offer : state(a), last = a->exchanged ? state(a) : a->offer;
    return kept(a, vembopu_accept(FIVE_NUMBERS(a), first, BUFFER(a, 0), last));
}

/* A lent call, with the station by the names of its fields, before and after. */
static uint64_t run_lent(struct arguments *a, int accepts)
{
    struct vembopu_station s;
    uint8_t *const field[BYTES] = {&s.n,     &s.t,     &s.upper, &s.sender, &s.own,
                                   &s.round, &s.value, &s.z,     &s.grade,  &s.garbled};
    for (int k = 0; k < BYTES; k++)
        *field[k] = a->byte[k];
    uint64_t number = accepts ? vembopu_accept_lent(&s, BUFFER(a, 0), a->offer)
                              : vembopu_advance_lent(&s, BUFFER(a, 0));
    for (int k = 0; k < BYTES; k++)
        a->byte[k] = *field[k];
    return number;
}

static uint64_t run_advance_lent(struct arguments *a)
{
    return run_lent(a, 0);
}

static uint64_t run_accept_lent(struct arguments *a)
{
    return run_lent(a, 1);
}

static uint64_t run_read(struct arguments *a)
{
    return vembopu_read(BUFFER(a, 0), BUFFER(a, 1));
}

static uint64_t run_read_bit(struct arguments *a)
{
    return vembopu_read_bit(BUFFER(a, 0), a->byte[0], BUFFER(a, 1));
}

static uint64_t run_sheet_len(struct arguments *a)
{
    return vembopu_sheet_len(BUFFER(a, 0), BUFFER(a, 1));
}

static uint64_t run_write(struct arguments *a)
{
    return vembopu_write(BUFFER(a, 0), BUFFER(a, 1), BUFFER(a, 2));
}

static uint64_t run_generate(struct arguments *a)
{
    return vembopu_generate(BUFFER(a, 0), a->seed, BUFFER(a, 1));
}

static uint64_t run_rehearse(struct arguments *a)
{
    return vembopu_rehearse(FIVE_NUMBERS(a), a->byte[5], a->marks, BUFFER(a, 0), BUFFER(a, 1), BUFFER(a, 2));
}

static uint64_t run_check(struct arguments *a)
{
    return vembopu_check(a->byte[0], a->byte[1], a->byte[2], a->byte[3], BUFFER(a, 0), BUFFER(a, 1));
}

static uint64_t run_exchange(struct arguments *a)
{
    return vembopu_exchange(a->byte[0], a->byte[1], a->byte[2], a->marks, BUFFER(a, 0), BUFFER(a, 1), BUFFER(a, 2));
}

/* `state` is the first byte of a state, or 0 where all bytes are of one kind;
   the two of `alike` and of `alike_len` may be exchanged. */
static const struct call {
    const char *name;
    uint64_t (*run)(struct arguments *);
    int bytes, state, buffers;
    int alike[2], alike_len[2];
} calls[] = {
    {"vembopu_open", run_open, 6, 0, 0, {3, 4}, {0, 0}},
    {"vembopu_ballot", run_ballot, BYTES, NUMBERS, 0, {0, 0}, {0, 0}},
    {"vembopu_advance", run_advance, BYTES, NUMBERS, 1, {0, 0}, {0, 0}},
    {"vembopu_result", run_result, BYTES, NUMBERS, 0, {3, 4}, {0, 0}},
    {"vembopu_advance_lent", run_advance_lent, BYTES, 0, 1, {0, 0}, {0, 0}},
    {"vembopu_offer", run_offer, BYTES, NUMBERS, 1, {0, 0}, {0, 0}},
    {"vembopu_accept", run_accept, BYTES, NUMBERS, 1, {0, 0}, {0, 0}},
    {"vembopu_accept_lent", run_accept_lent, BYTES, 0, 1, {0, 0}, {0, 0}},
    {"vembopu_read", run_read, 0, 0, 2, {0, 0}, {0, 0}},
    {"vembopu_read_bit", run_read_bit, 1, 0, 2, {0, 0}, {0, 0}},
    {"vembopu_sheet_len", run_sheet_len, 0, 0, 2, {0, 0}, {0, 0}},
    {"vembopu_write", run_write, 0, 0, 3, {0, 0}, {0, 0}},
    {"vembopu_generate", run_generate, 0, 0, 2, {0, 0}, {0, 0}},
    {"vembopu_rehearse", run_rehearse, 6, 0, 3, {0, 0}, {0, 1}},
    {"vembopu_check", run_check, 4, 0, 2, {0, 0}, {0, 0}},
    {"vembopu_exchange", run_exchange, 3, 0, 3, {0, 0}, {0, 0}},
};

enum {
    OPEN, BALLOT, ADVANCE, RESULT, ADVANCE_LENT, OFFER, ACCEPT, ACCEPT_LENT,
    READ, READ_BIT, SHEET_LEN, WRITE, GENERATE, REHEARSE, CHECK, EXCHANGE,
    CALLS
};

/* ---- The examples ---- */

struct example {
    int call;
    uint8_t byte[BYTES];
    uint32_t marks, seed;
    const uint8_t *before[BUFFERS];
    size_t len[BUFFERS];
    uint64_t offer;
    uint64_t answer;
    const uint8_t *state;          /* the state after the call, if another */
    const uint8_t *after[BUFFERS]; /* of those that are written */
};

/* One sender's bytes to four receivers, one round's, five rounds'. */
#define TO_ALL(b) b, b, b, b
#define ROUND(a, b, c, d) TO_ALL(a), TO_ALL(b), TO_ALL(c), TO_ALL(d)
#define FIVE(round) round, round, round, round, round

/* Case B: n 4, t 0, T 1, sender 4, station 4 bad. It sends 1, 0, 0 in round 1;
   9 stands for what has no effect. */
#define LIAR 1, 0, 0, 255
#define NO_EFFECT ROUND(9, 9, 9, 255)
#define SILENT ROUND(255, 255, 255, 255)
static const uint8_t b_sheet[] = {
    4, 0, 1, 4, 0, 0, 1, 0, 8, 0, 0, 0,
    1, 4, 1, 1, 2, 0, 0, 0,
    1, 4, 2, 0, 3, 0, 0, 0,
    1, 4, 3, 0, 0, 0, 0, 0,
};
static const uint8_t b_read[] = {TO_ALL(255), TO_ALL(255), TO_ALL(255), LIAR, FIVE(SILENT)};
static const uint8_t b_table[] = {TO_ALL(9), TO_ALL(9), TO_ALL(9), LIAR, FIVE(NO_EFFECT)};
/* Its header with another first index: written with that table, it is the sheet. */
static const uint8_t b_header[] = {4, 0, 1, 4, 0, 0, 77, 88, 8, 0, 0, 0};
/* x is 1, 0, 0, and silence counts for neither: every z is blank, y 0 with grade
   0; the king, station 1, sends 0; then three zeros are grade 1. */
static const uint8_t b_log[] = {TO_ALL(255), TO_ALL(255), TO_ALL(255), LIAR, ROUND(1, 0, 0, 255),
                                ROUND(2, 2, 2, 255), ROUND(0, 255, 255, 255), ROUND(0, 0, 0, 255),
                                ROUND(0, 0, 0, 255)};
static const uint8_t b_outcomes[] = {0, 1, 1, 0, 0, 1, 1, 0, 0, 1, 1, 0, TO_ALL(255)};

/* The same line, none bad, station 3 sends a one. */
static const uint8_t good_table[] = {NO_EFFECT, FIVE(NO_EFFECT)};
static const uint8_t good_log[] = {ROUND(255, 255, 1, 255), ROUND(1, 1, 1, 1), ROUND(1, 1, 1, 1),
                                   ROUND(1, 255, 255, 255), ROUND(1, 1, 1, 1), ROUND(1, 1, 1, 1)};
static const uint8_t good_outcomes[] = {1, 2, 0, 0, 1, 2, 0, 0, 1, 2, 0, 0, 1, 2, 0, 0};

/* Case B with blanks from station 4 to station 1 in round 3 and to station 2 in
   rounds 4 and 5: garbled in round 5 alone, as in round 3 a blank has a meaning,
   and in round 4 the king is another. */
#define TOLD_BY_4(one, two) TO_ALL(9), TO_ALL(9), TO_ALL(9), one, two, 255, 255
#define HEARD_OF_4(a, b, c, one, two) TO_ALL(a), TO_ALL(b), TO_ALL(c), one, two, 255, 255
static const uint8_t garbled_table[] = {TO_ALL(9), TO_ALL(9), TO_ALL(9), LIAR, NO_EFFECT, TOLD_BY_4(2, 255),
                                        TOLD_BY_4(255, 2), TOLD_BY_4(255, 2), NO_EFFECT};
static const uint8_t garbled_log[] = {TO_ALL(255), TO_ALL(255), TO_ALL(255), LIAR, ROUND(1, 0, 0, 255),
                                      HEARD_OF_4(2, 2, 2, 2, 255), HEARD_OF_4(0, 255, 255, 255, 2),
                                      HEARD_OF_4(0, 0, 0, 255, 2), ROUND(0, 0, 0, 255)};
static const uint8_t garbled_outcomes[] = {0, 1, 1, 0, 0, 1, 1, 1, 0, 1, 1, 0, TO_ALL(255)};

/* Two bits of the same line, as a sheet whose chain is in no order, and written
   anew: by bit, then round. */
#define FROM_4(a, b, c, d) TO_ALL(255), TO_ALL(255), TO_ALL(255), a, b, c, d
#define TWO_0 SILENT, SILENT, SILENT, SILENT, FROM_4(255, 255, 255, 1), SILENT
#define TWO_1 SILENT, FROM_4(0, 255, 255, 255), FROM_4(255, 7, 255, 255), SILENT, SILENT, SILENT
static const uint8_t two_sheet[] = {
    4, 0, 1, 3, 1, 2, 1, 0, 8, 0, 0, 0,
    3, 4, 2, 7, 2, 0, 1, 0,
    2, 4, 1, 0, 3, 0, 1, 0,
    5, 4, 4, 1, 0, 0, 0, 0,
};
static const uint8_t two_header[] = {4, 0, 1, 3, 1, 2, 77, 88, 8, 0, 0, 0};
static const uint8_t two_read[] = {TWO_0, TWO_1}, two_bit_0[] = {TWO_0}, two_bit_1[] = {TWO_1};
static const uint8_t two_written[] = {
    4, 0, 1, 3, 1, 2, 1, 0, 8, 0, 0, 0,
    5, 4, 4, 1, 2, 0, 0, 0,
    2, 4, 1, 0, 3, 0, 1, 0,
    3, 4, 2, 7, 0, 0, 1, 0,
};

/* What station 4 sends to all in each round, generated: from seed 1 for both bits,
   the second's where the first's end, whose states are 270369, 67634689,
   2647435461, 307599695 and so on; from a seed of four bytes for one bit. */
#define LONG_SEED 0x89abcdefu
static const uint8_t two_generated[] = {FROM_4(1, 1, 1, 255), FROM_4(1, 0, 2, 2), FROM_4(1, 0, 255, 255),
                                        FROM_4(2, 2, 1, 1), FROM_4(0, 0, 1, 1), FROM_4(255, 1, 255, 255),
                                        FROM_4(2, 1, 1, 0), FROM_4(255, 2, 255, 0), FROM_4(1, 0, 0, 0),
                                        FROM_4(2, 2, 2, 255), FROM_4(1, 2, 255, 255), FROM_4(255, 1, 1, 0)};
static const uint8_t long_generated[] = {FROM_4(0, 0, 0, 0), FROM_4(255, 2, 1, 1), FROM_4(255, 255, 2, 1),
                                         FROM_4(255, 1, 0, 1), FROM_4(2, 2, 255, 1), FROM_4(2, 255, 2, 1)};

/* Its run with another table: station 3, good, sends the number 1, a one in bit 0
   and a zero in bit 1. Station 4 is silent in bit 0, which has grade 1 and a
   flag. In bit 1 it keeps the rules, but that in round 3 what station 2 gets is
   garbled: grade 2 in the end, and a count of 1 at station 2. */
#define ZERO_OF_4 ROUND(9, 9, 9, 0)
#define ALL_ONES ROUND(1, 1, 1, 255)
#define ALL_ZEROS ROUND(0, 0, 0, 0)
static const uint8_t two_table[] = {NO_EFFECT, FIVE(NO_EFFECT),
                                    NO_EFFECT, ZERO_OF_4, TO_ALL(9), TO_ALL(9), TO_ALL(9), 0, 7, 0, 0,
                                    NO_EFFECT, ZERO_OF_4, ZERO_OF_4};
static const uint8_t two_log[] = {ROUND(255, 255, 1, 255), ALL_ONES, ALL_ONES, ROUND(1, 255, 255, 255), ALL_ONES,
                                  ALL_ONES,
                                  ROUND(255, 255, 0, 255), ALL_ZEROS, TO_ALL(0), TO_ALL(0), TO_ALL(0), 0, 7, 0, 0,
                                  ROUND(0, 255, 255, 255), ALL_ZEROS, ALL_ZEROS};
static const uint8_t two_outcomes[] = {1, 1, 1, 0, 1, 1, 1, 1, 1, 1, 1, 0, TO_ALL(255)};

/* One station alone that agrees on the largest number: in each of eight bits a one
   in every round. */
#define SIX(b) b, b, b, b, b, b
static const uint8_t alone_table[] = {SIX(9), SIX(9), SIX(9), SIX(9), SIX(9), SIX(9), SIX(9), SIX(9)};
static const uint8_t alone_log[] = {SIX(1), SIX(1), SIX(1), SIX(1), SIX(1), SIX(1), SIX(1), SIX(1)};
static const uint8_t alone_outcomes[] = {255, 2, 0, 0};

/* Case B's first exchange, had alone: neither zeros nor ones. Garbled in no round,
   in the second, in both. */
static const uint8_t inputs[] = {1, 0, 0, 9};
static const uint8_t exchange_table[] = {TO_ALL(9), TO_ALL(9), TO_ALL(9), 255, 255, 2, 255,
                                         TO_ALL(9), TO_ALL(9), TO_ALL(9), 2, 3, 254, 255};
static const uint8_t exchange_outcomes[] = {0, 0, 1, 0, 0, 0, 1, 1, 0, 0, 1, 2, TO_ALL(255)};

/* Another exchange of the same line: station 4 tells station 1 a one, whose z is 1
   then, the others' blank; and in the second round stations 1 and 2 a zero. These
   have a zero and a one, and leave it with 0; station 3 has the one alone. */
static const uint8_t balance_inputs[] = {1, 1, 0, 9};
static const uint8_t balance_table[] = {TO_ALL(9), TO_ALL(9), TO_ALL(9), 1, 255, 255, 255,
                                        TO_ALL(9), TO_ALL(9), TO_ALL(9), 0, 0, 2, 255};
static const uint8_t balance_outcomes[] = {0, 0, 1, 0, 0, 0, 1, 0, 1, 0, 1, 0, TO_ALL(255)};

/* Rows of a line of 16 with t 2 and T 5: n-T is 11, n-t is 14. The second has
   garbled ballots. */
static const uint8_t from_9[16] = {0, 0, 0, 0, 0, 0, 0, 0, 1, 0, 0, 0, 0, 0, 0, 0};
static const uint8_t eleven_ones[16] = {1, 1, 1, 1, 1, 1, 1, 1, 1, 1, 1, 0, 2, 255, 7, 0};
static const uint8_t thirteen_zeros[16] = {0, 0, 0, 0, 0, 0, 0, 0, 0, 0, 0, 0, 0, 1, 1, 2};
static const uint8_t king_1[16] = {0, 1, 1, 1, 1, 1, 1, 1, 1, 1, 1, 1, 1, 1, 1, 1};
static const uint8_t after_sender[] = {2, 1, 2, 0, 0}, after_first[] = {3, 1, 1, 2, 2},
                     after_second[] = {4, 0, 1, 1, 2}, after_king[] = {5, 0, 2, 0, 3}, after_last[] = {13, 0, 1, 1, 2};

/* The offer of a row: the state after it, the lowest byte last, and above it the
   ballot: its value, its z, silence as another is king, its value; as a king its
   value; silence when it is done. */
#define OF_SENDER 0x010000020102u
#define OF_FIRST 0x010202010103u
#define OF_SECOND 0xff0201010004u
#define OF_KING 0x000300020005u
#define AS_KING 0x000201010004u
#define OF_LAST 0xff020101000du

/* A row, to a station by value and to a lent one, and by offer and acceptance;
   then with the offer of another. */
#define ROW(row, ...) .byte = {__VA_ARGS__}, .before = {row}, .len = {sizeof row}
#define TAKES(row, after, shown, ...)                                                  \
    {.call = ADVANCE, ROW(row, __VA_ARGS__), .state = after},                          \
    {.call = ADVANCE_LENT, ROW(row, __VA_ARGS__), .state = after},                     \
    {.call = OFFER, ROW(row, __VA_ARGS__), .answer = shown},                           \
    {.call = ACCEPT, ROW(row, __VA_ARGS__), .offer = shown, .state = after},           \
    {.call = ACCEPT_LENT, ROW(row, __VA_ARGS__), .offer = shown, .state = after},      \
    {.call = ACCEPT, ROW(row, __VA_ARGS__), .offer = shown ^ 0x10000u, .answer = 17},  \
    {.call = ACCEPT_LENT, ROW(row, __VA_ARGS__), .offer = shown ^ 0x10000u, .answer = 17}

static const struct example examples[] = {
    /* round 1, value 0, z blank, grade 0 */
    {.call = OPEN, .byte = {7, 1, 2, 3, 4, 0}, .answer = 0x00020001u},
    /* king 3 sends its y in round 10; in the second round of an exchange, z */
    {.call = BALLOT, .byte = {16, 2, 5, 7, 3, 10, 1, 2, 0, 4}, .answer = 1},
    {.call = BALLOT, .byte = {16, 2, 5, 7, 3, 3, 1, 0, 2, 2}, .answer = 0},
    TAKES(from_9, after_sender, OF_SENDER, 16, 2, 5, 9, 7, 1, 0, 2, 0, 0),
    TAKES(eleven_ones, after_first, OF_FIRST, 16, 2, 5, 9, 7, 2, 1, 0, 2, 1),
    TAKES(thirteen_zeros, after_second, OF_SECOND, 16, 2, 5, 9, 7, 3, 1, 1, 0, 2),
    TAKES(thirteen_zeros, after_second, AS_KING, 16, 2, 5, 9, 1, 3, 1, 1, 0, 2),
    TAKES(king_1, after_king, OF_KING, 16, 2, 5, 9, 7, 4, 1, 2, 0, 3),
    TAKES(thirteen_zeros, after_last, OF_LAST, 16, 2, 5, 9, 1, 12, 1, 1, 0, 2),
    /* running in round 5; done after R = 12, with value 0, grade 1, flag 1, and
       seven garbled rounds */
    {.call = RESULT, .byte = {16, 2, 5, 9, 7, 5, 1, 2, 0, 3}, .answer = 0x00000500u},
    {.call = RESULT, .byte = {16, 2, 5, 9, 7, 13, 0, 2, 1, 7}, .answer = 0x0701010001u},
    {.call = READ, .before = {b_sheet}, .len = {sizeof b_sheet, sizeof b_read}, .after = {NULL, b_read}},
    {.call = READ, .before = {two_sheet}, .len = {sizeof two_sheet, sizeof two_read}, .after = {NULL, two_read}},
    {.call = READ_BIT, .byte = {0}, .before = {two_sheet}, .len = {sizeof two_sheet, sizeof two_bit_0},
     .after = {NULL, two_bit_0}},
    {.call = READ_BIT, .byte = {1}, .before = {two_sheet}, .len = {sizeof two_sheet, sizeof two_bit_1},
     .after = {NULL, two_bit_1}},
    {.call = SHEET_LEN, .before = {two_header, two_read}, .len = {sizeof two_header, sizeof two_read},
     .answer = sizeof two_written},
    {.call = WRITE, .before = {two_header, two_read},
     .len = {sizeof two_header, sizeof two_read, sizeof two_written}, .answer = 3, .after = {NULL, NULL, two_written}},
    {.call = SHEET_LEN, .before = {b_header, b_table}, .len = {sizeof b_header, sizeof b_table},
     .answer = sizeof b_sheet},
    /* three records */
    {.call = WRITE, .before = {b_header, b_table}, .len = {sizeof b_header, sizeof b_table, sizeof b_sheet},
     .answer = 3, .after = {NULL, NULL, b_sheet}},
    {.call = GENERATE, .seed = 1, .before = {two_header}, .len = {sizeof two_header, sizeof two_generated},
     .after = {NULL, two_generated}},
    {.call = GENERATE, .seed = LONG_SEED, .before = {b_header}, .len = {sizeof b_header, sizeof long_generated},
     .after = {NULL, long_generated}},
    {.call = GENERATE, .seed = 0, .before = {b_header}, .len = {sizeof b_header, sizeof long_generated}, .answer = 16},
    {.call = REHEARSE, .byte = {4, 0, 1, 4, 0}, .marks = 8, .before = {b_table},
     .len = {sizeof b_table, sizeof b_log, sizeof b_outcomes}, .after = {NULL, b_log, b_outcomes}},
    {.call = REHEARSE, .byte = {4, 0, 1, 3, 1}, .marks = 0, .before = {good_table},
     .len = {sizeof good_table, sizeof good_log, sizeof good_outcomes}, .after = {NULL, good_log, good_outcomes}},
    /* w 1 is what 0 stands for */
    {.call = REHEARSE, .byte = {4, 0, 1, 3, 1, 1}, .marks = 0, .before = {good_table},
     .len = {sizeof good_table, sizeof good_log, sizeof good_outcomes}, .after = {NULL, good_log, good_outcomes}},
    {.call = REHEARSE, .byte = {4, 0, 1, 3, 1, 2}, .marks = 8, .before = {two_table},
     .len = {sizeof two_table, sizeof two_log, sizeof two_outcomes}, .after = {NULL, two_log, two_outcomes}},
    {.call = REHEARSE, .byte = {1, 0, 0, 1, 255, 8}, .marks = 0, .before = {alone_table},
     .len = {sizeof alone_table, sizeof alone_log, sizeof alone_outcomes},
     .after = {NULL, alone_log, alone_outcomes}},
    {.call = REHEARSE, .byte = {4, 0, 1, 4, 0}, .marks = 8, .before = {garbled_table},
     .len = {sizeof garbled_table, sizeof garbled_log, sizeof garbled_outcomes},
     .after = {NULL, garbled_log, garbled_outcomes}},
    /* station 4, whose outcome is 255; nobody; station 4 again, and station 2 too
       where its count is another */
    {.call = CHECK, .byte = {4, 0, 1, 4}, .before = {b_log, b_outcomes}, .len = {sizeof b_log, sizeof b_outcomes},
     .answer = 8},
    {.call = CHECK, .byte = {4, 0, 1, 3}, .before = {good_log, good_outcomes},
     .len = {sizeof good_log, sizeof good_outcomes}},
    {.call = CHECK, .byte = {4, 0, 1, 4}, .before = {garbled_log, garbled_outcomes},
     .len = {sizeof garbled_log, sizeof garbled_outcomes}, .answer = 8},
    {.call = CHECK, .byte = {4, 0, 1, 4}, .before = {garbled_log, b_outcomes},
     .len = {sizeof garbled_log, sizeof b_outcomes}, .answer = 8 | 2},
    {.call = EXCHANGE, .byte = {4, 0, 1}, .marks = 8, .before = {inputs, exchange_table},
     .len = {sizeof inputs, sizeof exchange_table, sizeof exchange_outcomes},
     .after = {NULL, NULL, exchange_outcomes}},
    {.call = EXCHANGE, .byte = {4, 0, 1}, .marks = 8, .before = {balance_inputs, balance_table},
     .len = {sizeof balance_inputs, sizeof balance_table, sizeof balance_outcomes},
     .after = {NULL, NULL, balance_outcomes}},
};

enum { EXAMPLES = sizeof examples / sizeof examples[0] };

/* ---- Exchanging two arguments ---- */

enum kind { BYTE, LENGTH, POINTER, WHOLE, WORD, KINDS };
static const char *const kind_name[KINDS] = {"bytes", "lengths", "pointers", "buffers", "state and offer"};

struct pair {
    enum kind kind;
    int p, q;
};

/* Done twice, it is undone. */
static void exchange(struct arguments *a, struct pair x)
{
    const struct arguments old = *a;
    if (x.kind == BYTE) {
        a->byte[x.p] = old.byte[x.q];
        a->byte[x.q] = old.byte[x.p];
    }
    if (x.kind == LENGTH || x.kind == WHOLE) {
        a->len[x.p] = old.len[x.q];
        a->len[x.q] = old.len[x.p];
    }
    if (x.kind == POINTER || x.kind == WHOLE) {
        a->at[x.p] = old.at[x.q];
        a->at[x.q] = old.at[x.p];
    }
    if (x.kind == WORD)
        a->exchanged = !old.exchanged;
}

/* ---- An example's call ---- */

static uint8_t space[BUFFERS][SPACE];

static void lay(uint8_t *to, const uint8_t *bytes, size_t len)
{
    memset(to, UNWRITTEN, SPACE);
    if (bytes != NULL)
        memcpy(to, bytes, len);
}

static struct arguments arguments_of(const struct example *e)
{
    struct arguments a;
    memcpy(a.byte, e->byte, BYTES);
    a.marks = e->marks;
    a.seed = e->seed;
    a.offer = e->offer;
    a.exchanged = 0;
    for (int k = 0; k < BUFFERS; k++) {
        lay(space[k], e->before[k], e->len[k]);
        a.at[k] = space[k];
        a.len[k] = e->len[k];
    }
    return a;
}

static int as_after(const struct example *e, const struct arguments *a)
{
    uint8_t want[SPACE];
    const uint8_t *after = e->state ? e->state : e->byte + NUMBERS;
    int same = memcmp(a->byte, e->byte, NUMBERS) == 0 && memcmp(a->byte + NUMBERS, after, BYTES - NUMBERS) == 0;
    for (int k = 0; k < BUFFERS; k++) {
        lay(want, e->after[k] ? e->after[k] : e->before[k], e->len[k]);
        same = same && memcmp(space[k], want, SPACE) == 0;
    }
    return same;
}

/* 1 if answer and bytes are the example's, with two arguments exchanged for the
   call and back after it. */
static int as_expected(const struct example *e, struct pair x)
{
    struct arguments a = arguments_of(e);
    exchange(&a, x);
    uint64_t answer = calls[e->call].run(&a);
    exchange(&a, x);
    return answer == e->answer && as_after(e, &a);
}

static void straight(void)
{
    static const struct pair none = {BYTE, 0, 0};
    for (int k = 0; k < EXAMPLES; k++)
        check(as_expected(&examples[k], none), "%s: example %d", calls[examples[k].call].name, k + 1);
}

/* ---- Every pair ---- */

/* 1 if one of the call's examples changes. */
static int is_seen(int call, struct pair x)
{
    int seen = 0;
    for (int k = 0; k < EXAMPLES; k++)
        if (examples[k].call == call)
            seen = seen || !as_expected(&examples[k], x);
    return seen;
}

static uint64_t answer_with(const struct example *e, struct pair x, int one, int other)
{
    struct arguments a = arguments_of(e);
    if (x.kind == BYTE) {
        a.byte[x.p] = (uint8_t)one;
        a.byte[x.q] = (uint8_t)other;
    } else {
        a.len[x.p] = (size_t)one;
        a.len[x.q] = (size_t)other;
    }
    return calls[e->call].run(&a);
}

/* Any two values below SPACE in place of the two, in each example of the call:
   how many give another answer when exchanged. */
static unsigned long changed(int call, struct pair x)
{
    unsigned long count = 0;
    for (int i = 0; i < EXAMPLES * SPACE * SPACE; i++) {
        const struct example *e = &examples[i / (SPACE * SPACE)];
        int one = i / SPACE % SPACE, other = i % SPACE;
        if (e->call == call && one < other)
            count += answer_with(e, x, one, other) != answer_with(e, x, other, one);
    }
    return count;
}

static int is_alike(const struct call *c, struct pair x)
{
    const int *alike = x.kind == BYTE ? c->alike : c->alike_len;
    return (x.kind == BYTE || x.kind == LENGTH) && alike[0] == x.p && alike[1] == x.q;
}

static void try_pair(int call, struct pair x)
{
    const struct call *c = &calls[call];
    if (is_alike(c, x))
        check(!is_seen(call, x) && changed(call, x) == 0, "%s: %s %d and %d are not alike", c->name,
              kind_name[x.kind], x.p + 1, x.q + 1);
    else
        check(is_seen(call, x), "%s: %s %d and %d exchanged, and no example changes", c->name, kind_name[x.kind],
              x.p + 1, x.q + 1);
}

/* How many parameters of 64 bits there are to exchange: a state and an offer, or
   none. */
static int words(int call)
{
    return call == ACCEPT ? 2 : 0;
}

/* A state's bytes are not exchanged with the numbers. */
static void try_kind(int call, enum kind kind)
{
    const struct call *c = &calls[call];
    int last = kind == BYTE ? c->bytes : kind == WORD ? words(call) : c->buffers;
    for (int i = 0; i < last * last; i++) {
        struct pair x = {kind, i / last, i % last};
        if (x.p < x.q && (kind != BYTE || (x.p < c->state) == (x.q < c->state)))
            try_pair(call, x);
    }
}

static void try_call(int call)
{
    unsigned long before = passed + failed;
    for (int kind = 0; kind < KINDS; kind++)
        try_kind(call, (enum kind)kind);
    printf("%s: %lu pairs\n", calls[call].name, passed + failed - before);
}

/* The header's ten fields, in document 01's order, the count last. */
static void offsets(void)
{
#define OFFSET(field) offsetof(struct vembopu_station, field)
    static const size_t offset[BYTES] = {OFFSET(n),     OFFSET(t),     OFFSET(upper), OFFSET(sender), OFFSET(own),
                                         OFFSET(round), OFFSET(value), OFFSET(z),     OFFSET(grade),  OFFSET(garbled)};
    for (size_t k = 0; k < BYTES; k++)
        check(offset[k] == k, "field %lu of the station stands at %lu", (unsigned long)k, (unsigned long)offset[k]);
    check(sizeof(struct vembopu_station) == BYTES, "a station has %lu bytes",
          (unsigned long)sizeof(struct vembopu_station));
}

/* Each name of a refusal is its number in document 01 or 02. */
static void numbers(void)
{
    static const int named[] = {VEMBOPU_ACCEPTED,        VEMBOPU_BAD_SHEET,     VEMBOPU_BAD_N,
                                VEMBOPU_BAD_THRESHOLDS,  VEMBOPU_BAD_NUMBER,    VEMBOPU_BAD_VALUE,
                                VEMBOPU_BAD_MARKS,       VEMBOPU_BAD_STATE,     VEMBOPU_BAD_LENGTH,
                                VEMBOPU_CHAIN_LEAVES,    VEMBOPU_CHAIN_REPEATS, VEMBOPU_BAD_RECORD,
                                VEMBOPU_UNMARKED_SENDER, VEMBOPU_DUPLICATE,     VEMBOPU_TOO_MANY_RECORDS,
                                VEMBOPU_BAD_WIDTH,       VEMBOPU_BAD_SEED,      VEMBOPU_BAD_OFFER};
    for (int k = 0; k < 18; k++)
        check(named[k] == k, "the name of refusal %d is %d", k, named[k]);
}

int main(void)
{
    straight();
    offsets();
    numbers();
    for (int call = 0; call < CALLS; call++)
        try_call(call);
    return closing_count();
}
