/*
 * The station's calls, the writer's, the generator and the checker written once
 * more, in C from documents 01 and 02 (requests 1 to 8), for the tests: the
 * judgement, the steps of a station that is accepted, the sheet that is written,
 * the tables that are generated, and the set of stations that broke the rules.
 * Shares no code with the library.
 */
#ifndef MODEL_H
#define MODEL_H

#include <stddef.h>
#include <stdint.h>

/* What a call is handed; open looks at value, the others at the state, those that
   take a row or look at one at the row too. `other` has the bits in which an
   acceptance is handed another offer than the one of this station and row. */
struct call {
    int n, t, T, sender, own;
    int value;
    int round, x, z, grade, garbled;
    const uint8_t *row;
    size_t row_len;
    uint64_t other;
};

/* "The outcome becomes four bytes a station" */
enum { OUTCOME = 4 };

static inline uint64_t bytes5(int a, int b, int c, int d, int e)
{
    return (uint64_t)a | (uint64_t)b << 8 | (uint64_t)c << 16 | (uint64_t)d << 24 | (uint64_t)e << 32;
}

static inline uint64_t state_bits(const struct call *c)
{
    return bytes5(c->round, c->x, c->z, c->grade, c->garbled);
}

static inline uint64_t answer(int refusal, uint64_t values)
{
    return (uint64_t)refusal << 56 | values;
}

static inline int rounds(int t)
{
    return 3 * t + 6;
}

/* ---- "Refused causes", the lowest number first ---- */

/* 2, 3 and 4: of every call. */
static inline int judge_numbers(const struct call *c)
{
    if (c->n < 1 || c->n > 32)
        return 2;
    if (c->t > c->T || c->t + 2 * c->T >= c->n)
        return 3;
    if (c->sender < 1 || c->sender > c->n || c->own < 1 || c->own > c->n)
        return 4;
    return 0;
}

static inline int judge_open(const struct call *c)
{
    int number = judge_numbers(c);
    if (number == 0 && c->value != 0 && c->value != 1)
        return 5;
    return number;
}

/* "0 standing for 1" */
static inline int bits_of(int w)
{
    return w == 0 ? 1 : w;
}

/* 15 first, then 2 to 5: "A number of 2 to the power w or above is refused by
   5", "w above 8 by 15". Of a c whose own number is its sender's. */
static inline int judge_number(const struct call *c, int w)
{
    if (w > 8)
        return 15;
    int number = judge_numbers(c);
    if (number == 0 && c->value >= 1 << bits_of(w))
        return 5;
    return number;
}

static inline int judge_result(const struct call *c)
{
    int number = judge_numbers(c);
    if (number != 0)
        return number;
    if (c->round < 1 || c->round > rounds(c->t) + 1)
        return 7;
    if (c->x > 1 || c->z > 2 || c->grade > 2)
        return 7;
    /* "A state whose count is not below its round is refused by 7." */
    return c->garbled < c->round ? 0 : 7;
}

static inline int judge_ballot(const struct call *c)
{
    int number = judge_result(c);
    if (number == 0 && c->round == rounds(c->t) + 1)
        return 7;
    return number;
}

static inline int judge_advance(const struct call *c)
{
    int number = judge_ballot(c);
    if (number == 0 && c->row_len != (size_t)c->n)
        return 8;
    return number;
}

/* ---- "The graded exchange" and "The broadcast" ---- */

/* The king of round 3p+1, 0 in a round that isn't a king's. */
static inline int king_of(int round)
{
    return round > 1 && round % 3 == 1 ? (round - 1) / 3 : 0;
}

/* In round 1 "a byte other than 0 or 1 is read as 0". */
static inline int senders_bit(uint8_t byte)
{
    return byte == 1 ? 1 : 0;
}

/* "a king's unreadable ballot leaves a grade 0 station with its own y" */
static inline int kings_bit(uint8_t byte, int y)
{
    return byte <= 1 ? byte : y;
}

static inline int ballot_of(const struct call *c)
{
    if (c->round == 1)
        return c->own == c->sender ? c->x : 255;
    if (king_of(c->round) != 0)
        return c->own == king_of(c->round) ? c->x : 255;
    return c->round % 3 == 2 ? c->x : c->z;
}

/* Steps 1 and 2: z. "In the first round of an exchange a byte other than 0 or 1
   now counts for neither value": it equals no x. */
static inline void first_row(struct call *c)
{
    int same = 0;
    for (int i = 0; i < c->n; i++)
        if (c->row[i] == c->x)
            same++;
    c->z = same >= c->n - c->T ? c->x : 2;
}

/* Steps 3 to 5: y and the grade. "In step 4 equal counts now give 0". */
static inline void second_row(struct call *c)
{
    int zeros = 0, ones = 0;
    for (int i = 0; i < c->n; i++) {
        zeros += c->row[i] == 0;
        ones += c->row[i] == 1;
    }
    c->x = ones > zeros ? 1 : 0;
    int count = c->x == 0 ? zeros : ones;
    c->grade = count >= c->n - c->t ? 2 : count >= c->n - c->T ? 1 : 0;
}

/* ---- "Garbled is not silent" ---- */

/* "A byte is garbled if it is not 255 and its round has no meaning for it; blank
   is garbled outside the second round of an exchange." */
static inline int is_garbled(int round, uint8_t byte)
{
    if (byte == 2)
        return round % 3 != 0;
    return byte > 2 && byte < 255;
}

/* "from all in exchange rounds, else from the sender or the king" */
static inline int is_expected(const struct call *c, int from)
{
    if (c->round == 1)
        return from == c->sender;
    return king_of(c->round) == 0 || from == king_of(c->round);
}

/* "A station counts the rounds in which at least one ballot it expected was
   garbled" */
static inline void count_garbled(struct call *c)
{
    int some = 0;
    for (int from = 1; from <= c->n; from++)
        some = some || (is_expected(c, from) && is_garbled(c->round, c->row[from - 1]));
    c->garbled += some;
}

/* What a row doesn't set stays. */
static inline void take_row(struct call *c)
{
    count_garbled(c);
    if (c->round == 1)
        c->x = senders_bit(c->row[c->sender - 1]);
    else if (c->round % 3 == 2)
        first_row(c);
    else if (c->round % 3 == 0)
        second_row(c);
    else if (c->grade == 0)
        c->x = kings_bit(c->row[king_of(c->round) - 1], c->x);
    c->round++;
}

/* ---- The answers ---- */

static inline uint64_t model_open(const struct call *c)
{
    int number = judge_open(c);
    return answer(number, number ? 0 : bytes5(1, c->value, 2, 0, 0));
}

static inline uint64_t model_ballot(const struct call *c)
{
    int number = judge_ballot(c);
    return answer(number, number ? 0 : (uint64_t)ballot_of(c));
}

static inline uint64_t model_advance(const struct call *c)
{
    struct call next = *c;
    int number = judge_advance(c);
    if (number == 0)
        take_row(&next);
    return answer(number, state_bits(&next));
}

/* "the following state and its ballot (255 if that state is done)", or as a row
   that isn't taken. */
static inline uint64_t model_offer(const struct call *c)
{
    struct call next = *c;
    int number = judge_advance(c);
    if (number != 0)
        return answer(number, 0);
    take_row(&next);
    uint64_t ballot = next.round > rounds(next.t) ? 255 : (uint64_t)ballot_of(&next);
    return answer(0, state_bits(&next) | ballot << 40);
}

/* The offer that an acceptance is handed. */
static inline uint64_t handed_offer(const struct call *c)
{
    return model_offer(c) ^ c->other;
}

/* "is refused by 17, after the causes of the station and the row only" */
static inline int judge_accept(const struct call *c)
{
    int number = judge_advance(c);
    if (number == 0 && handed_offer(c) != model_offer(c))
        return 17;
    return number;
}

/* "Offer and acceptance together do what taking the row did", or "the station
   stays". */
static inline uint64_t model_accept(const struct call *c)
{
    int number = judge_accept(c);
    return number == 0 ? model_advance(c) : answer(number, state_bits(c));
}

static inline uint64_t model_result(const struct call *c)
{
    int number = judge_result(c);
    if (number != 0)
        return answer(number, 0);
    if (c->round <= rounds(c->t))
        return answer(0, bytes5(0, c->round, 0, 0, 0));
    return answer(0, bytes5(1, c->x, c->grade, c->grade < 2, c->garbled));
}

/* ---- The writer of run sheets: document 02, requests 1 and 5 ---- */

/* What the writer is handed; vembopu_sheet_len has no sheet. */
struct writing {
    const uint8_t *header;
    size_t header_len;
    const uint8_t *table;
    size_t table_len;
    size_t sheet_len;
};

static inline int is_marked(const uint8_t *header, int station)
{
    return header[8 + (station - 1) / 8] >> (station - 1) % 8 & 1;
}

/* 1, 15, 2 to 6: "A header not of 12 bytes is 1", then as a sheet's. */
static inline int judge_header(const uint8_t *header, size_t len)
{
    if (len != 12)
        return 1;
    struct call c = {header[0], header[1], header[2], header[3], header[3], header[4], 0, 0, 0, 0, 0, NULL, 0, 0};
    int number = judge_number(&c, header[5]);
    for (int i = c.n + 1; number == 0 && i <= 32; i++)
        if (is_marked(header, i))
            number = 6;
    return number;
}

/* The bytes of one bit's table, and of all bits'. */
static inline size_t table_bytes(const uint8_t *header)
{
    return (size_t)rounds(header[1]) * header[0] * header[0];
}

static inline size_t tables_bytes(const uint8_t *header)
{
    return (size_t)bits_of(header[5]) * table_bytes(header);
}

/* "one record for each byte of a marked sender that is not 255" */
static inline int is_record(const struct writing *w, size_t place)
{
    size_t n = w->header[0];
    return is_marked(w->header, (int)(place / n % n) + 1) && w->table[place] != 255;
}

static inline size_t records_of(const struct writing *w)
{
    size_t k = 0;
    for (size_t place = 0; place < w->table_len; place++)
        k += (size_t)is_record(w, place);
    return k;
}

/* "by round, then from, then to, chained 1, 2, 3", and "by bit before round" */
static inline void put_records(const struct writing *w, uint8_t *record)
{
    size_t n = w->header[0], one = table_bytes(w->header), k = records_of(w), index = 0;
    for (size_t place = 0; place < w->table_len; place++) {
        if (!is_record(w, place))
            continue;
        index++;
        size_t next = index < k ? index + 1 : 0;
        *record++ = (uint8_t)(place % one / n / n + 1);
        *record++ = (uint8_t)(place / n % n + 1);
        *record++ = (uint8_t)(place % n + 1);
        *record++ = w->table[place];
        *record++ = (uint8_t)(next % 256);
        *record++ = (uint8_t)(next / 256);
        *record++ = (uint8_t)(place / one);
        *record++ = 0;
    }
}

/* "After the header's causes a table of wrong length is 8, then more than 4,096
   records to write 14" */
static inline int judge_sheet_len(const struct writing *w)
{
    int number = judge_header(w->header, w->header_len);
    if (number != 0)
        return number;
    if (w->table_len != tables_bytes(w->header))
        return 8;
    return records_of(w) > 4096 ? 14 : 0;
}

/* "then a sheet buffer not of the needed length 8" */
static inline int judge_write(const struct writing *w)
{
    int number = judge_sheet_len(w);
    if (number == 0 && w->sheet_len != 12 + 8 * records_of(w))
        return 8;
    return number;
}

static inline uint64_t model_sheet_len(const struct writing *w)
{
    int number = judge_sheet_len(w);
    return answer(number, number ? 0 : 12 + 8 * records_of(w));
}

/* "none writes anything" */
static inline uint64_t model_write(const struct writing *w, uint8_t *sheet)
{
    int number = judge_write(w);
    if (number != 0)
        return answer(number, 0);
    for (int b = 0; b < 12; b++)
        sheet[b] = w->header[b];
    sheet[6] = records_of(w) > 0;
    sheet[7] = 0;
    put_records(w, sheet + 12);
    return answer(0, records_of(w));
}

/* ---- The generator of noisy runs: document 02, request 7 ---- */

struct generating {
    const uint8_t *header;
    size_t header_len;
    uint32_t seed;
    size_t table_len;
};

/* "exclusive-or with itself shifted left 13, then right 17, then left 5, bits
   beyond 32 dropped" */
static inline uint32_t next_state(uint32_t state)
{
    state ^= state << 13;
    state ^= state >> 17;
    state ^= state << 5;
    return state;
}

/* "the new state mod 4, with 255 for 3" */
static inline uint8_t byte_of(uint32_t state)
{
    return state % 4 == 3 ? 255 : (uint8_t)(state % 4);
}

/* "Seed zero is refused by 16, after the header's causes and before 8." */
static inline int judge_generate(const struct generating *g)
{
    int number = judge_header(g->header, g->header_len);
    if (number != 0)
        return number;
    if (g->seed == 0)
        return 16;
    return g->table_len == tables_bytes(g->header) ? 0 : 8;
}

/* "For each round, marked sender and receiver in table order it steps once", and
   "Other bytes are 255": one bit's table, and the state after it. */
static inline uint32_t generate_bit(const uint8_t *header, uint32_t state, uint8_t *table)
{
    for (int round = 1; round <= rounds(header[1]); round++)
        for (int from = 1; from <= header[0]; from++)
            for (int to = 1; to <= header[0]; to++) {
                int marked = is_marked(header, from);
                state = marked ? next_state(state) : state;
                *table++ = marked ? byte_of(state) : 255;
            }
    return state;
}

/* "With several bits the state runs on from one bit's table to the next." */
static inline int model_generate(const struct generating *g, uint8_t *table)
{
    int number = judge_generate(g);
    uint32_t state = g->seed;
    for (int b = 0; number == 0 && b < bits_of(g->header[5]); b++)
        state = generate_bit(g->header, state, table + (size_t)b * table_bytes(g->header));
    return number;
}

/* ---- The checker of logs: document 02, request 3 ---- */

struct checking {
    int n, t, T, sender;
    const uint8_t *log;
    size_t log_len;
    const uint8_t *outcomes;
    size_t outcomes_len;
};

static inline int judge_check(const struct checking *k)
{
    struct call c = {k->n, k->t, k->T, k->sender, k->sender, 0, 0, 0, 0, 0, 0, NULL, 0, 0};
    int number = judge_numbers(&c);
    if (number != 0)
        return number;
    if (k->log_len != (size_t)(rounds(k->t) * k->n * k->n) || k->outcomes_len != (size_t)(OUTCOME * k->n))
        return 8;
    return 0;
}

static inline uint8_t logged_byte(const struct checking *k, int round, int from, int to)
{
    return k->log[((round - 1) * k->n + (from - 1)) * k->n + (to - 1)];
}

/* 1 if this value of its own, "with the rows it received, makes it send its
   logged bytes and end with its logged outcome" */
static inline int keeps_rules(const struct checking *k, int own, int value)
{
    uint8_t row[32];
    struct call c = {k->n, k->t, k->T, k->sender, own, value, 1, value, 2, 0, 0, row, (size_t)k->n, 0};
    const uint8_t *end = k->outcomes + OUTCOME * (own - 1);
    int sent = 1;
    while (c.round <= rounds(c.t)) {
        for (int other = 1; other <= c.n; other++) {
            sent = sent && logged_byte(k, c.round, own, other) == ballot_of(&c);
            row[other - 1] = logged_byte(k, c.round, other, own);
        }
        take_row(&c);
    }
    return sent && end[0] == c.x && end[1] == c.grade && end[2] == (c.grade < 2) && end[3] == c.garbled;
}

/* "A station is in it exactly if no value of its own" does. */
static inline uint64_t model_check(const struct checking *k)
{
    uint32_t set = 0;
    int number = judge_check(k);
    if (number != 0)
        return answer(number, 0);
    for (int own = 1; own <= k->n; own++)
        if (!keeps_rules(k, own, 0) && !keeps_rules(k, own, 1))
            set |= (uint32_t)1 << (own - 1);
    return answer(0, set);
}

#endif
