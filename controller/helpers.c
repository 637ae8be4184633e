/*
 * The headers' helpers on answers of every kind: refused by each number, running
 * in each round, done with each value, grade and count, every ballot, told and
 * offered, sheets of few and of many records, logs of which none, one and all
 * broke the rules; as the library answers, and with any bytes below a refusal.
 * Then a state and a station made of each other, the number of rounds, the bits
 * of every width, who is bad by an outcome, the state of a refused open, and the
 * version.
 */
#define _DEFAULT_SOURCE
#include "check.h"
#include "exports.h"
#include "inputs.h"
#include "model.h"

#if VEMBOPU_VERSION_MAJOR != 1 || VEMBOPU_VERSION_MINOR < 0
#error "the version's numbers are for #if too"
#endif

enum { NONE = 255, MOST_T = 10, MOST_ROUNDS = 36, NUMBERS = 18 };

/* What the helpers make of an answer, but for the state. */
struct parts {
    uint32_t refusal;
    int ballot, done, running, round, value, grade, flag, garbled;
};

/* 1 if the helpers make this of it; says the first few that differ. */
static int held(uint64_t a, struct parts want)
{
    static int told;
    struct parts got = {vembopu_refusal(a), vembopu_ballot_byte(a), vembopu_done(a),
                        vembopu_running(a), vembopu_round(a),       vembopu_value(a),
                        vembopu_grade(a),   vembopu_flag(a),        vembopu_garbled(a)};
    if (memcmp(&got, &want, sizeof got) == 0 && vembopu_state(a) == a % ((uint64_t)1 << 40))
        return 1;
    if (told++ < MOST_TOLD)
        printf("%016llx: refusal %lu ballot %d done %d running %d round %d value %d grade %d flag %d garbled %d "
               "state %010llx\n",
               (unsigned long long)a, (unsigned long)got.refusal, got.ballot, got.done, got.running, got.round,
               got.value, got.grade, got.flag, got.garbled, (unsigned long long)vembopu_state(a));
    return 0;
}

/* 1 if a hurried caller comes out on the safe side: a flag, no value, and no
   count that there can be. */
static int undecided(uint64_t a)
{
    int safe = 1;
    if (!vembopu_flag(a))
        safe = 0;
    if (vembopu_value(a) == 1 || vembopu_value(a) == 0)
        safe = 0;
    if (vembopu_grade(a) == 2 || vembopu_grade(a) == 1)
        safe = 0;
    if (vembopu_garbled(a) <= MOST_ROUNDS)
        safe = 0;
    return safe;
}

static int held_refused(uint64_t a, uint32_t number)
{
    const struct parts want = {number, NONE, 0, 0, 0, NONE, NONE, NONE, NONE};
    return held(a, want) && undecided(a) && vembopu_needed_bytes(a) == 0 && vembopu_records(a) == 0 &&
           vembopu_broke(a) == 0xffffffffu && vembopu_offered_ballot(a) == NONE;
}

/* ---- Refused ---- */

/* Each call that can be refused by this number; a row is one byte short, but for
   a wrong offer. */
static void refused_calls(const struct call *c, uint32_t number)
{
    uint8_t n = (uint8_t)c->n, t = (uint8_t)c->t, T = (uint8_t)c->T, sender = (uint8_t)c->sender, own = (uint8_t)c->own;
    uint8_t row[32] = {0};
    size_t len = (size_t)c->n - (number != 17);
    uint64_t state = state_bits(c);
    if (number < 7)
        check(held_refused(vembopu_open(n, t, T, sender, own, (uint8_t)c->value), number), "open, %u", number);
    if (number != 5)
        check(held_refused(vembopu_accept(n, t, T, sender, own, state, row, len, 0), number), "accept, %u", number);
    if (number == 5 || number == 17)
        return;
    check(held_refused(vembopu_advance(n, t, T, sender, own, state, row, len), number), "advance, %u", number);
    check(held_refused(vembopu_offer(n, t, T, sender, own, state, row, len), number), "offer, %u", number);
    if (number == 8)
        return;
    check(held_refused(vembopu_ballot(n, t, T, sender, own, state), number), "ballot, %u", number);
    check(held_refused(vembopu_result(n, t, T, sender, own, state), number), "result, %u", number);
}

static void refused_by_each(void)
{
    /* n, t, T, sender, own, value, round, x, z, grade, garbled */
    static const struct call calls[] = {
        {33, 1, 1, 1, 1, 1, 1, 1, 1, 1, 0, NULL, 0, 0}, {4, 2, 1, 1, 1, 1, 1, 1, 1, 1, 0, NULL, 0, 0},
        {4, 1, 1, 5, 1, 1, 1, 1, 1, 1, 0, NULL, 0, 0},  {4, 1, 1, 1, 1, 2, 1, 1, 1, 1, 0, NULL, 0, 0},
        {4, 1, 1, 1, 1, 1, 1, 2, 1, 1, 0, NULL, 0, 0},  {4, 1, 1, 1, 1, 1, 1, 1, 1, 1, 1, NULL, 0, 0},
        {4, 1, 1, 1, 1, 1, 1, 1, 1, 1, 0, NULL, 0, 0},  {4, 1, 1, 1, 1, 1, 1, 1, 1, 1, 0, NULL, 0, 0},
    };
    static const uint32_t number[] = {2, 3, 4, 5, 7, 7, 8, 17};
    for (size_t i = 0; i < COUNT(calls); i++)
        refused_calls(&calls[i], number[i]);
}

/* Seven bytes, each one of four, by the digits of a number. */
static uint64_t bytes7(int i)
{
    static const uint64_t byte[] = {0, 1, 2, 255};
    uint64_t bytes = 0;
    for (int at = 0; at < 7; at++)
        bytes |= byte[i >> 2 * at & 3] << 8 * at;
    return bytes;
}

/* The bytes of most accepted answers are among these. */
static void refused_with_bytes(void)
{
    for (uint32_t number = 1; number < NUMBERS; number++) {
        int same = 1;
        for (int i = 0; i < 1 << 14; i++)
            same = held_refused(answer((int)number, bytes7(i)), number) && same;
        check(same, "refused by %u, with any bytes", number);
    }
    check(held_refused(UINT64_MAX, 255), "all ones");
    check(held_refused((uint64_t)1 << 63, 128), "the highest bit");
    check(held_refused((uint64_t)1 << 56, 1), "the highest byte's lowest bit");
}

/* ---- Accepted ---- */

/* A result gives no ballot either, running or done. */
static void running(void)
{
    for (uint8_t t = 0; t <= MOST_T; t++)
        for (int round = 1; round <= rounds(t); round++) {
            const struct parts want = {0, NONE, 0, 1, round, NONE, NONE, NONE, NONE};
            uint64_t a = vembopu_result(32, t, MOST_T, 1, 1, bytes5(round, 1, 1, 2, round - 1));
            check(held(a, want) && undecided(a), "t %d, running in round %d", t, round);
        }
}

/* With each count, 0 to R. */
static void done(void)
{
    for (uint8_t t = 0; t <= MOST_T; t++)
        for (int i = 0; i < 6 * (rounds(t) + 1); i++) {
            int value = i % 2, grade = i / 2 % 3, count = i / 6;
            const struct parts want = {0, NONE, 1, 0, 0, value, grade, grade < 2, count};
            uint64_t a = vembopu_result(32, t, MOST_T, 1, 1, bytes5(rounds(t) + 1, value, 2, grade, count));
            check(held(a, want), "t %d, done with value %d, grade %d, count %d", t, value, grade, count);
        }
}

/* An answer that is accepted, and more than a result: neither done nor running. */
static void more_than_result(void)
{
    uint64_t done = vembopu_result(32, 10, 10, 1, 1, bytes5(37, 1, 2, 2, 36));
    uint64_t running = vembopu_result(32, 10, 10, 1, 1, bytes5(36, 1, 2, 2, 35));
    for (int at = 40; at < 56; at++) {
        uint64_t bit = (uint64_t)1 << at;
        check(undecided(done | bit) && !vembopu_done(done | bit), "done, and bit %d", at);
    }
    for (int at = 16; at < 56; at++) {
        uint64_t bit = (uint64_t)1 << at;
        check(vembopu_round(running | bit) == 0 && !vembopu_running(running | bit), "running, and bit %d", at);
    }
}

/* The sender's value, a z, and a station that doesn't speak. */
static void ballots(void)
{
    for (int x = 0; x < 2; x++)
        check(vembopu_ballot_byte(vembopu_ballot(4, 1, 1, 1, 1, bytes5(1, x, 2, 0, 0))) == x, "ballot %d", x);
    for (int z = 0; z < 3; z++)
        check(vembopu_ballot_byte(vembopu_ballot(4, 1, 1, 1, 2, bytes5(3, 1, z, 0, 2))) == z, "ballot z %d", z);
    check(vembopu_ballot_byte(vembopu_ballot(4, 1, 1, 1, 2, bytes5(1, 1, 2, 0, 0))) == 255, "no ballot");
    for (int x = 0; x < 2; x++)
        check(undecided(vembopu_ballot(4, 1, 1, 1, 1, bytes5(1, x, 2, 0, 0))), "the answer of a ballot %d as a result",
              x);
    check(VEMBOPU_BLANK == 2 && VEMBOPU_SILENCE == 255 && VEMBOPU_NOTHING == 255, "the names of bytes");
}

/* A value, a z of each kind, and 255: of a station that doesn't speak then, and of
   one that is done. It is no ballot to send, and no result. */
static void offers(void)
{
    /* own, round, and the byte in all places of the row; what is offered */
    static const uint8_t some[][4] = {{2, 1, 0, 0},   {2, 1, 1, 1},  {2, 2, 0, 2},   {2, 2, 1, 1},
                                      {2, 3, 0, 255}, {1, 3, 1, 1},  {1, 3, 255, 0}, {2, 4, 0, 1},
                                      {2, 6, 1, 1},   {1, 6, 1, 255}, {2, 9, 1, 255}};
    for (size_t i = 0; i < COUNT(some); i++) {
        uint8_t row[4];
        memset(row, some[i][2], sizeof row);
        uint64_t a = vembopu_offer(4, 1, 1, 1, some[i][0], bytes5(some[i][1], 1, 2, 2, 0), row, sizeof row);
        check(vembopu_refusal(a) == 0 && vembopu_offered_ballot(a) == some[i][3], "offer %lu: %llx", (unsigned long)i,
              (unsigned long long)a);
        check(vembopu_state(a) == vembopu_advance(4, 1, 1, 1, some[i][0], bytes5(some[i][1], 1, 2, 2, 0), row, 4),
              "offer %lu: another state", (unsigned long)i);
        check(vembopu_ballot_byte(a) == NONE && undecided(a) && !vembopu_done(a) && !vembopu_running(a),
              "offer %lu as a ballot or a result", (unsigned long)i);
    }
}

/* Any byte in the ballot's place, and any above it. */
static void offered_bytes(void)
{
    for (int byte = 0; byte < 256; byte++) {
        uint64_t a = bytes5(2, 1, 2, 2, 0) | (uint64_t)byte << 40;
        check(vembopu_offered_ballot(a) == (byte < 3 ? byte : NONE), "%d offered", byte);
        for (int at = 48; at < 64; at++)
            check(vembopu_offered_ballot(a | (uint64_t)1 << at) == NONE, "%d offered, and bit %d", byte, at);
    }
}

/* No result is 0, but a variable may be. */
static void zero(void)
{
    const struct parts want = {0, 0, 0, 1, 0, NONE, NONE, NONE, NONE};
    check(held(0, want) && undecided(0), "an answer of zero");
}

/* ---- The writer ---- */

static uint8_t header[HEADER], table[TABLES], sheet[SHEET], logged[TABLES];

/* The bytes needed and the records of a table that has so many. */
static void sheet_of(uint32_t k)
{
    uint32_t bytes = HEADER + RECORD * k;
    make_table(table, 0, k);
    uint64_t len = vembopu_sheet_len(header, HEADER, table, TABLE);
    uint64_t made = vembopu_write(header, HEADER, table, TABLE, sheet, bytes);
    check(vembopu_refusal(len) == 0 && vembopu_needed_bytes(len) == bytes, "%u records: the bytes", k);
    check(vembopu_refusal(made) == 0 && vembopu_records(made) == k, "%u records: their number", k);
    made = vembopu_write(header, HEADER, table, TABLE, sheet, bytes - 1);
    check(held_refused(made, 8), "%u records: a byte short", k);
}

static void sheets(void)
{
    static const uint32_t some[] = {0, 1, 2, 255, 256, 257, 1000, MOST_RECORDS - 1, MOST_RECORDS};
    make_sheet(sheet, 0, 0);
    memcpy(header, sheet, HEADER);
    for (size_t i = 0; i < COUNT(some); i++)
        sheet_of(some[i]);
    make_table(table, 0, MOST_RECORDS + 1);
    check(held_refused(vembopu_sheet_len(header, HEADER, table, TABLE), 14), "the bytes of too many");
    check(held_refused(vembopu_write(header, HEADER, table, TABLE, sheet, SHEET), 14), "too many");
}

/* ---- The checker ---- */

/* The set of a log that is rehearsed with these marks, and of a byte less. */
static void broke(uint32_t marks)
{
    uint8_t outcomes[OUTCOMES];
    make_table(table, 0, 0);
    vembopu_rehearse(32, 10, 10, 1, 1, 0, marks, table, TABLE, logged, TABLE, outcomes, OUTCOMES);
    uint64_t a = vembopu_check(32, 10, 10, 1, logged, TABLE, outcomes, OUTCOMES);
    check(vembopu_refusal(a) == 0 && vembopu_broke(a) == marks, "%08x broke the rules: %llx", marks,
          (unsigned long long)a);
    a = vembopu_check(32, 10, 10, 1, logged, TABLE, outcomes, OUTCOMES - 1);
    check(held_refused(a, 8), "%08x: a byte short", marks);
}

static void sets(void)
{
    broke(0);
    for (int i = 0; i < 32; i++)
        broke((uint32_t)1 << i);
    broke(0xffffffffu);
}

/* ---- Numbers ---- */

/* Every width: the bits, and that a table of so many is what the call takes. */
static void widths(void)
{
    uint8_t outcome[VEMBOPU_OUTCOME];
    check(VEMBOPU_LARGEST_TABLE == 36 * 32 * 32 && VEMBOPU_LARGEST_TABLES == 8 * 36 * 32 * 32, "the largest tables");
    check(VEMBOPU_MOST_BITS == 8, "the most bits");
    for (int w = 0; w < 256; w++) {
        int bits = vembopu_bits((uint8_t)w);
        size_t len = 6 * (size_t)bits;
        check(bits == (w == 0 ? 1 : w), "w %d: %d bits", w, bits);
        int number = vembopu_rehearse(1, 0, 0, 1, 0, (uint8_t)w, 0, table, len, logged, len, outcome, sizeof outcome);
        check(number == (w > 8 ? 15 : 0), "w %d: %d", w, number);
    }
}

/* Good stations that decide 255, and one beside them that is bad. */
static void bad_by_grade(void)
{
    uint8_t outcomes[4 * VEMBOPU_OUTCOME];
    make_table(table, 0, 0);
    int number = vembopu_rehearse(4, 1, 1, 1, 255, 8, 8, table, 8 * 144, logged, 8 * 144, outcomes, sizeof outcomes);
    check(number == 0, "255 of eight bits: %d", number);
    for (int i = 0; i < 4; i++) {
        const uint8_t *outcome = outcomes + VEMBOPU_OUTCOME * i;
        check(outcome[0] == 255 && vembopu_is_bad(outcome) == (i == 3), "station %d: %d, bad %d", i + 1, outcome[0],
              vembopu_is_bad(outcome));
    }
}

/* Any value with any grade that a good station can have. */
static void good_by_grade(void)
{
    for (int i = 0; i < 3 * 256; i++) {
        const uint8_t outcome[VEMBOPU_OUTCOME] = {(uint8_t)(i / 3), (uint8_t)(i % 3), i % 3 < 2, 255};
        check(!vembopu_is_bad(outcome), "value %d, grade %d is bad", i / 3, i % 3);
    }
}

/* ---- A state and a station ---- */

/* The station has the state's five bytes, whatever stands above them; an answer
   is a state as it is. */
static void states(void)
{
    static const uint8_t bytes[] = {32, 10, 10, 7, 9, 0xa1, 0xb2, 0xc3, 0xd4, 0xe5};
    uint64_t state = bytes5(0xa1, 0xb2, 0xc3, 0xd4, 0xe5), more = state | (uint64_t)0xf6f7f8 << 40;
    struct vembopu_station s = vembopu_station_of(32, 10, 10, 7, 9, state);
    struct vembopu_station same = vembopu_station_of(32, 10, 10, 7, 9, more);
    check(sizeof s == sizeof bytes && memcmp(&s, bytes, sizeof s) == 0, "a station of a state");
    check(memcmp(&s, &same, sizeof s) == 0, "a station of a state with more above it");
    check(vembopu_state_of(&s) == state && vembopu_state(more) == state, "its state");
    check(VEMBOPU_OUTCOME == 4, "the bytes of an outcome");
}

/* ---- A refused open's state ---- */

static void refused_by(uint8_t n, uint8_t t, uint8_t T, uint8_t own, uint64_t state, uint32_t number)
{
    const uint8_t row[4] = {0};
    struct vembopu_station s = vembopu_station_of(n, t, T, 1, own, state);
    check(vembopu_refusal(vembopu_ballot(n, t, T, 1, own, state)) == number, "ballot after open, not %u", number);
    check(vembopu_refusal(vembopu_result(n, t, T, 1, own, state)) == number, "result after open, not %u", number);
    check(vembopu_refusal(vembopu_advance(n, t, T, 1, own, state, row, 4)) == number, "row after open, not %u", number);
    check(vembopu_advance_lent(&s, row, 4) == number, "row lent after open, not %u", number);
    uint64_t offer = vembopu_offer(n, t, T, 1, own, state, row, 4);
    check(vembopu_refusal(offer) == number && vembopu_state(offer) == 0, "offer after open, not %u", number);
    uint64_t accepted = vembopu_accept(n, t, T, 1, own, state, row, 4, offer);
    check(vembopu_refusal(accepted) == number, "acceptance after open, not %u", number);
    check(vembopu_accept_lent(&s, row, 4, offer) == number, "acceptance lent after open, not %u", number);
}

/* By 7 with numbers that are a line's, otherwise by open's own number. */
static void after_refused_open(void)
{
    /* n, t, T, own, value, number */
    static const uint8_t opens[][6] = {{33, 1, 1, 1, 1, 2}, {3, 1, 1, 1, 1, 3}, {4, 1, 1, 5, 1, 4}, {4, 1, 1, 1, 2, 5}};
    for (int i = 0; i < 4; i++) {
        const uint8_t *o = opens[i];
        uint64_t a = vembopu_open(o[0], o[1], o[2], 1, o[3], o[4]);
        check(vembopu_refusal(a) == o[5] && vembopu_state(a) == 0, "open refused by %d: %llx", o[5],
              (unsigned long long)a);
        refused_by(o[0], o[1], o[2], o[3], vembopu_state(a), o[5] == 5 ? 7 : o[5]);
        refused_by(4, 1, 1, 1, vembopu_state(a), 7);
    }
}

/* ---- The number of rounds, and the version ---- */

/* For every t as document 01 has it; as the library has it where t is allowed. */
static void number_of_rounds(void)
{
    for (int t = 0; t < 256; t++)
        check(vembopu_rounds((uint8_t)t) == rounds(t), "t %d: %d rounds", t, vembopu_rounds((uint8_t)t));
    for (uint8_t t = 0; t <= MOST_T; t++) {
        uint64_t last = (uint64_t)vembopu_rounds(t);
        check(vembopu_running(vembopu_result(32, t, MOST_T, 1, 1, last)), "t %d: not running in round R", t);
        check(vembopu_done(vembopu_result(32, t, MOST_T, 1, 1, last + 1)), "t %d: not done after round R", t);
        check(vembopu_refusal(vembopu_result(32, t, MOST_T, 1, 1, last + 2)) == 7, "t %d: a round more", t);
    }
}

static void version(void)
{
    char both[32];
    sprintf(both, "%d.%d", VEMBOPU_VERSION_MAJOR, VEMBOPU_VERSION_MINOR);
    check(strcmp(both, VEMBOPU_VERSION) == 0, "version %s, by its numbers %s", VEMBOPU_VERSION, both);
}

int main(void)
{
    refused_by_each();
    refused_with_bytes();
    running();
    done();
    more_than_result();
    ballots();
    offers();
    offered_bytes();
    zero();
    sheets();
    sets();
    widths();
    bad_by_grade();
    good_by_grade();
    states();
    after_refused_open();
    number_of_rounds();
    version();
    return closing_count();
}
