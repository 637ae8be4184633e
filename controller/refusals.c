/*
 * Every refusal of the station's calls through C, alone and in pairs; calls at
 * the edges, with every value of each byte of a state and by lot against the
 * documents written once more (model.h); garbled ballots, worked out; rows with
 * as many zeros as ones; offers with every bit changed, and other rows'; rows
 * between pages that can't be touched. Every row is given to the lent station
 * too, which stands at the edges of such a page, and to offer and acceptance.
 */
#define _DEFAULT_SOURCE
#include "check.h"
#include "model.h"
#include "vembopu.h"

#include <string.h>

enum { OPEN = 1, BALLOT = 2, RESULT = 4, ADVANCE = 8, LENT = 16, OFFER = 32, ACCEPT = 64, ACCEPT_LENT = 128 };
enum { ACCEPTS = ACCEPT | ACCEPT_LENT, TAKES_ROW = ADVANCE | LENT | ACCEPTS, HAS_ROW = TAKES_ROW | OFFER };
enum { HAS_STATE = BALLOT | RESULT | HAS_ROW, ALL = OPEN | HAS_STATE };
enum { FIRST_ROW = 3, FIRST_ACCEPT = 6, CALLS = 8, LONGEST_ROW = 300, BLOCK = 10000, BLOCKS = 10, NUMBERS = 18 };

static const char *const call_name[CALLS] = {"open",         "ballot", "result", "advance",
                                             "advance_lent", "offer",  "accept", "accept_lent"};
static uint8_t some_row[LONGEST_ROW];
static uint64_t above; /* what stands above a state's five bytes, which no call looks at */

static uint64_t state_of(const struct call *c)
{
    return state_bits(c) | above;
}

/* ---- The lent station ---- */

/* What a lent call is said to answer if it writes what it must not. */
enum { NUMBERS_WRITTEN = 101, WRITTEN_BESIDE, OTHER_AT_END, OTHER_READ_ONLY };

static struct guarded lent_page, read_only; /* the same page twice, the second time to be read only */
static uint8_t *untouched;                  /* a copy of it */

/* The page of a file, in place of one between two that can't be touched. */
static void map_at(struct guarded g, int file, int protection)
{
    if (mmap(g.page, g.size, protection, MAP_SHARED | MAP_FIXED, file, 0) == MAP_FAILED)
        exit(2);
}

static void make_lent_page(void)
{
    FILE *file = tmpfile();
    lent_page = guarded_page();
    read_only = guarded_page();
    untouched = malloc(lent_page.size);
    if (file == NULL || untouched == NULL || ftruncate(fileno(file), (off_t)lent_page.size) != 0)
        exit(2);
    map_at(lent_page, fileno(file), PROT_READ | PROT_WRITE);
    map_at(read_only, fileno(file), PROT_READ);
    for (size_t i = 0; i < lent_page.size; i++)
        untouched[i] = (uint8_t)draw(256);
    memcpy(lent_page.page, untouched, lent_page.size);
}

static struct vembopu_station station_of(const struct call *c)
{
    return vembopu_station_of((uint8_t)c->n, (uint8_t)c->t, (uint8_t)c->T, (uint8_t)c->sender, (uint8_t)c->own,
                              state_of(c));
}

static uint8_t run_lent(int which, uint8_t *at, const struct call *c)
{
    struct vembopu_station *s = (struct vembopu_station *)at;
    if (which == LENT)
        return vembopu_advance_lent(s, c->row, c->row_len);
    return vembopu_accept_lent(s, c->row, c->row_len, handed_offer(c));
}

/* The lent call as that on numbers answers, with the station at a place of the
   page. The page's other bytes must stay. */
static uint64_t lent_at(int which, size_t place, const struct call *c)
{
    struct vembopu_station before = station_of(c), after;
    uint8_t *s = lent_page.page + place;
    memcpy(s, &before, sizeof before);
    int number = run_lent(which, s, c);
    memcpy(&after, s, sizeof after);
    memcpy(s, untouched + place, sizeof after);
    if (memcmp(lent_page.page, untouched, lent_page.size) != 0) {
        memcpy(lent_page.page, untouched, lent_page.size);
        number = WRITTEN_BESIDE;
    } else if (memcmp(&before, &after, offsetof(struct vembopu_station, round)) != 0)
        number = NUMBERS_WRITTEN;
    return answer(number, vembopu_state_of(&after));
}

/* The number of a refused call on a page that can only be read: a write of
   any byte would end the program. */
static uint32_t lent_read_only(int which, const struct call *c)
{
    struct vembopu_station before = station_of(c);
    memcpy(lent_page.page, &before, sizeof before);
    uint32_t number = run_lent(which, read_only.page, c);
    memcpy(lent_page.page, untouched, sizeof before);
    return number;
}

/* The station at the page's start, then at its end; and if it is refused, once
   more where nothing can be written. */
static uint64_t lent(int which, const struct call *c)
{
    uint64_t at_start = lent_at(which, 0, c);
    uint64_t at_end = lent_at(which, lent_page.size - sizeof(struct vembopu_station), c);
    uint32_t number = vembopu_refusal(at_start);
    if (at_start != at_end)
        return answer(OTHER_AT_END, 0);
    if (number != 0 && number < NUMBERS_WRITTEN && lent_read_only(which, c) != number)
        return answer(OTHER_READ_ONLY, 0);
    return at_start;
}

/* ---- The calls, by their bit ---- */

static uint64_t library(int which, const struct call *c)
{
    uint8_t n = (uint8_t)c->n, t = (uint8_t)c->t, T = (uint8_t)c->T;
    uint8_t sender = (uint8_t)c->sender, own = (uint8_t)c->own;
    switch (which) {
    case OPEN:
        return vembopu_open(n, t, T, sender, own, (uint8_t)c->value);
    case BALLOT:
        return vembopu_ballot(n, t, T, sender, own, state_of(c));
    case RESULT:
        return vembopu_result(n, t, T, sender, own, state_of(c));
    case ADVANCE:
        return vembopu_advance(n, t, T, sender, own, state_of(c), c->row, c->row_len);
    case OFFER:
        return vembopu_offer(n, t, T, sender, own, state_of(c), c->row, c->row_len);
    case ACCEPT:
        return vembopu_accept(n, t, T, sender, own, state_of(c), c->row, c->row_len, handed_offer(c));
    default:
        return lent(which, c);
    }
}

static uint64_t model(int which, const struct call *c)
{
    switch (which) {
    case OPEN:
        return model_open(c);
    case BALLOT:
        return model_ballot(c);
    case RESULT:
        return model_result(c);
    case ADVANCE:
    case LENT:
        return model_advance(c);
    case OFFER:
        return model_offer(c);
    default:
        return model_accept(c);
    }
}

/* 1 if the library answers as the model; says the first few that differ. */
static int agrees(int call, const struct call *c)
{
    static int told;
    uint64_t got = library(1 << call, c), want = model(1 << call, c);
    if (got == want)
        return 1;
    if (told++ < MOST_TOLD)
        printf("%s n %d t %d T %d sender %d own %d value %d state %016llx row of %lu offer %016llx: %llx, not %llx\n",
               call_name[call], c->n, c->t, c->T, c->sender, c->own, c->value,
               (unsigned long long)state_of(c), (unsigned long)c->row_len, (unsigned long long)handed_offer(c),
               (unsigned long long)got, (unsigned long long)want);
    return 0;
}

/* ---- Each cause, and each pair ---- */

#define FAULT(name, statement)          \
    static void name(struct call *c)    \
    {                                   \
        statement;                      \
    }

LINE_FAULTS
FAULT(own_0, c->own = 0)
FAULT(own_above, c->own = after(c->n))
FAULT(own_255, c->own = 255)
FAULT(value_2, c->value = 2)
FAULT(value_255, c->value = 255)
FAULT(round_0, c->round = 0)
FAULT(round_above, c->round = (rounds(c->t) + 2) & 255)
FAULT(round_255, c->round = 255)
FAULT(x_2, c->x = 2)
FAULT(x_255, c->x = 255)
FAULT(z_3, c->z = 3)
FAULT(z_255, c->z = 255)
FAULT(grade_3, c->grade = 3)
FAULT(grade_255, c->grade = 255)
FAULT(garbled_round, c->garbled = c->round)
FAULT(garbled_above, c->garbled = after(c->round))
FAULT(garbled_255, c->garbled = 255)
FAULT(is_done, c->round = (rounds(c->t) + 1) & 255)
FAULT(row_short, c->row_len = c->n > 0 ? (size_t)c->n - 1 : 1)
FAULT(row_long, c->row_len = (size_t)c->n + 1)
FAULT(row_null, c->row = NULL; c->row_len = 0)
FAULT(other_round, c->other = 1)
FAULT(other_count, c->other = (uint64_t)1 << 32)
FAULT(other_ballot, c->other = (uint64_t)1 << 40)
FAULT(other_above, c->other = (uint64_t)1 << 48)
FAULT(other_number, c->other = (uint64_t)17 << 56)

struct fault {
    const char *what;
    int number;
    int calls;
    void (*make)(struct call *);
};

static const struct fault faults[] = {
    {"n 0", 2, ALL, n_0},
    {"n 33", 2, ALL, n_33},
    {"n 255", 2, ALL, n_255},
    {"t above T", 3, ALL, t_above},
    {"t 255", 3, ALL, t_255},
    {"t + 2T = n", 3, ALL, sum_is_n},
    {"t + 2T = 256", 3, ALL, sum_256},
    {"t + 2T = 512", 3, ALL, sum_512},
    {"sender 0", 4, ALL, sender_0},
    {"sender n+1", 4, ALL, sender_above},
    {"sender 255", 4, ALL, sender_255},
    {"own 0", 4, ALL, own_0},
    {"own n+1", 4, ALL, own_above},
    {"own 255", 4, ALL, own_255},
    {"value 2", 5, OPEN, value_2},
    {"value 255", 5, OPEN, value_255},
    {"round 0", 7, HAS_STATE, round_0},
    {"round R+2", 7, HAS_STATE, round_above},
    {"round 255", 7, HAS_STATE, round_255},
    {"state value 2", 7, HAS_STATE, x_2},
    {"state value 255", 7, HAS_STATE, x_255},
    {"z 3", 7, HAS_STATE, z_3},
    {"z 255", 7, HAS_STATE, z_255},
    {"grade 3", 7, HAS_STATE, grade_3},
    {"grade 255", 7, HAS_STATE, grade_255},
    {"count equal to the round", 7, HAS_STATE, garbled_round},
    {"count above the round", 7, HAS_STATE, garbled_above},
    {"count 255", 7, HAS_STATE, garbled_255},
    {"done", 7, BALLOT | HAS_ROW, is_done},
    {"row of n-1", 8, HAS_ROW, row_short},
    {"row of n+1", 8, HAS_ROW, row_long},
    {"row NULL", 8, HAS_ROW, row_null},
    {"an offer of another round", 17, ACCEPTS, other_round},
    {"of another count", 17, ACCEPTS, other_count},
    {"of another ballot", 17, ACCEPTS, other_ballot},
    {"with more above it", 17, ACCEPTS, other_above},
    {"with a refusal", 17, ACCEPTS, other_number},
};

enum { FAULTS = sizeof faults / sizeof faults[0] };

/* A refused call gives nothing; one that takes a row, the state that it was handed. */
static void refused(int call, const struct call *c, int number, const char *one, const char *two)
{
    uint64_t left = 1 << call & TAKES_ROW ? state_bits(c) : 0;
    uint64_t got = library(1 << call, c);
    check(got == answer(number, left), "%s, n %d, %s, %s: %llx, not refusal %d", call_name[call],
          c->n, one, two, (unsigned long long)got, number);
}

static void faults_of(int call, const struct call *base)
{
    for (int a = 0; a < FAULTS; a++) {
        if (!(faults[a].calls & 1 << call))
            continue;
        struct call one = *base;
        faults[a].make(&one);
        refused(call, &one, faults[a].number, faults[a].what, "alone");
        for (int b = a + 1; b < FAULTS; b++) {
            if (!(faults[b].calls & 1 << call))
                continue;
            struct call two = one;
            faults[b].make(&two);
            refused(call, &two, faults[a].number, faults[a].what, faults[b].what);
        }
    }
}

/* Any row and length will do with the lines that faults are laid into. */
static struct call accepted(int n, int t, int T)
{
    struct call c = {n, t, T, n, 1, 1, rounds(t), 1, 2, 2, 0, some_row, (size_t)n, 0};
    return c;
}

/* Without a garbled round, and with as many as there can be: one below its round. */
static void all_faults(void)
{
    static const int lines[][3] = {{1, 0, 0}, {4, 1, 1}, {7, 0, 3}, {32, 10, 10}, {32, 0, 15}};
    for (size_t i = 0; i < 2 * sizeof lines / sizeof lines[0]; i++) {
        struct call base = accepted(lines[i / 2][0], lines[i / 2][1], lines[i / 2][2]);
        base.garbled = i % 2 == 0 ? 0 : base.round - 1;
        for (int call = 0; call < CALLS; call++) {
            check(vembopu_refusal(library(1 << call, &base)) == 0, "%s, n %d, count %d: refused",
                  call_name[call], base.n, base.garbled);
            faults_of(call, &base);
        }
    }
}

/* ---- Document 01's cases of thresholds, E and F ---- */

static void cases(void)
{
    static const int rows[][4] = {{32, 10, 10, 0}, {32, 11, 11, 3}, {32, 0, 15, 0}, {32, 0, 16, 3},
                                  {3, 1, 1, 3},    {4, 1, 1, 0},    {0, 0, 0, 2},   {33, 0, 0, 2}};
    for (size_t i = 0; i < sizeof rows / sizeof rows[0]; i++) {
        uint64_t got = vembopu_open((uint8_t)rows[i][0], (uint8_t)rows[i][1], (uint8_t)rows[i][2], 1, 1, 0);
        check(vembopu_refusal(got) == (uint32_t)rows[i][3], "n %d t %d T %d: %u, not %d", rows[i][0],
              rows[i][1], rows[i][2], vembopu_refusal(got), rows[i][3]);
    }
}

/* ---- At the edges, all of them with all of them ---- */

/* Every edge of the state and of the row, for one set of the five numbers. */
static unsigned long long edge_states(struct call *c, unsigned long long *differ)
{
    int R = rounds(c->t);
    const int edge[] = {0, 1, R, R + 1, R + 2, 255};
    unsigned long long tried = 0;
    for (int i = 0; i < 6 * 2 * 2 * 2 * 2 * 2; i++) {
        c->round = edge[i % 6] & 255;
        c->x = 1 + i / 6 % 2;
        c->z = 2 + i / 12 % 2;
        c->grade = 2 + i / 24 % 2;
        c->row_len = (size_t)c->n + (size_t)(i / 48 % 2);
        c->garbled = (c->round - 1 + i / 96) & 255;
        for (int call = 1; call < CALLS; call++, tried++)
            *differ += !agrees(call, c);
        c->other = (uint64_t)1 << i % 64;
        for (int call = FIRST_ACCEPT; call < CALLS; call++, tried++)
            *differ += !agrees(call, c);
        c->other = 0;
    }
    return tried;
}

static void edges_of(int n)
{
    static const int threshold[] = {0, 1, 2, 10, 11, 15, 16, 127, 128, 255};
    static const int value[] = {0, 1, 2, 255};
    const int number[] = {0, 1, n, after(n)};
    unsigned long long tried = 0, differ = 0;
    for (int i = 0; i < 10 * 10 * 4 * 4; i++) {
        struct call c = {n, threshold[i % 10], threshold[i / 10 % 10], number[i / 100 % 4],
                         number[i / 400], 0, 0, 0, 0, 0, 0, some_row, 0, 0};
        for (int v = 0; v < 4; v++, tried++) {
            c.value = value[v];
            differ += !agrees(0, &c);
        }
        tried += edge_states(&c, &differ);
    }
    check(differ == 0, "at the edges of n %d: %llu of %llu differ", n, differ, tried);
}

static void edges(void)
{
    static const int ns[] = {0, 1, 2, 3, 4, 31, 32, 33, 255};
    for (size_t i = 0; i < sizeof ns / sizeof ns[0]; i++)
        edges_of(ns[i]);
}

/* ---- Each byte of a state ---- */

/* Every value of each byte, the others accepted, and of those above. */
static void each_value(const struct call *base)
{
    unsigned long differ = 0;
    for (int i = 0; i < 8 * 256; i++) {
        struct call c = *base;
        int *const byte[] = {&c.round, &c.x, &c.z, &c.grade, &c.garbled};
        if (i / 256 < 5)
            *byte[i / 256] = i % 256;
        else
            above = (uint64_t)(i % 256) << 8 * (i / 256);
        for (int call = 1; call < CALLS; call++)
            differ += !agrees(call, &c);
        above = 0;
    }
    check(differ == 0, "n %d, round %d, count %d, another byte of the state: %lu differ", base->n, base->round,
          base->garbled, differ);
}

/* In every round, and done. */
static void each_byte(void)
{
    static const int lines[][3] = {{1, 0, 0}, {4, 1, 1}, {32, 10, 10}, {32, 0, 15}};
    for (size_t i = 0; i < sizeof lines / sizeof lines[0]; i++) {
        struct call c = accepted(lines[i][0], lines[i][1], lines[i][2]);
        for (c.round = 1; c.round <= rounds(c.t) + 1; c.round++) {
            c.grade = c.round % 2 * 2;
            c.garbled = c.round / 2;
            each_value(&c);
        }
    }
}

/* ---- Garbled ballots ---- */

/* Four stations, t and T 1, sender 2, kings 1 and 2 in rounds 4 and 7; this is
   station 3. One byte of a row that has silence elsewhere, and what it adds to
   the count. */
static const struct {
    int round, from;
    uint8_t byte;
    int adds;
} one_byte[] = {
    {1, 2, 0, 0},  {1, 2, 1, 0},  {1, 2, 2, 1},  {1, 2, 3, 1},   {1, 2, 254, 1}, {1, 2, 255, 0}, /* the sender */
    {1, 1, 77, 0}, {1, 3, 2, 0},  {1, 4, 254, 0},                                                /* bystanders */
    {2, 1, 0, 0},  {2, 1, 1, 0},  {2, 1, 2, 1},  {2, 4, 3, 1},   {2, 4, 254, 1}, {2, 4, 255, 0},
    {2, 3, 2, 1},                                                                                /* its own */
    {3, 1, 0, 0},  {3, 1, 1, 0},  {3, 1, 2, 0},  {3, 4, 3, 1},   {3, 4, 254, 1}, {3, 4, 255, 0},
    {3, 3, 2, 0},  {3, 3, 77, 1},
    {4, 1, 0, 0},  {4, 1, 1, 0},  {4, 1, 2, 1},  {4, 1, 3, 1},   {4, 1, 254, 1}, {4, 1, 255, 0}, /* the king */
    {4, 2, 77, 0}, {4, 3, 2, 0},  {4, 4, 254, 0},
    {7, 2, 77, 1}, {7, 2, 2, 1},  {7, 2, 255, 0}, {7, 1, 77, 0},                                 /* the next one */
    {8, 4, 2, 1},  {8, 4, 9, 1},  {9, 4, 2, 0},  {9, 4, 9, 1},                                   /* the last exchange */
};

/* At any grade, from no count and from the largest there can be. */
static void adds_one_byte(void)
{
    for (size_t i = 0; i < 6 * sizeof one_byte / sizeof one_byte[0]; i++) {
        int round = one_byte[i / 6].round, grade = (int)(i % 3), before = i % 2 == 0 ? 0 : round - 1;
        uint8_t row[4] = {255, 255, 255, 255};
        struct call c = {4, 1, 1, 2, 3, 0, round, 1, 1, grade, before, row, 4, 0};
        uint64_t count = (uint64_t)(before + one_byte[i / 6].adds);
        row[one_byte[i / 6].from - 1] = one_byte[i / 6].byte;
        for (int call = FIRST_ROW; call < CALLS; call++) {
            uint64_t ballot = 1 << call == OFFER ? (uint64_t)255 << 40 : 0;
            check((library(1 << call, &c) & ~ballot) >> 32 == count,
                  "%s, round %d, %d from station %d: not %d more than %d", call_name[call], round, one_byte[i / 6].byte,
                  one_byte[i / 6].from, one_byte[i / 6].adds, before);
        }
    }
}

/* The count of a station all of whose rows have this byte everywhere; each
   accepted answer is handed on as it is. */
static int count_of_rows(uint8_t n, uint8_t t, uint8_t byte)
{
    uint8_t row[32];
    uint64_t a = vembopu_open(n, t, t, n, 1, 1);
    memset(row, byte, sizeof row);
    for (int r = 1; r <= rounds(t); r++)
        a = vembopu_advance(n, t, t, n, 1, a, row, n);
    return vembopu_garbled(vembopu_result(n, t, t, n, 1, a));
}

/* A round counts once, however many ballots of it are garbled: of R rounds all,
   or all but the second ones of t + 2 exchanges, or none. */
static void whole_counts(void)
{
    for (uint8_t n = 1; n <= 32; n++) {
        uint8_t t = (uint8_t)((n - 1) / 3);
        check(count_of_rows(n, t, 3) == rounds(t) && count_of_rows(n, t, 254) == rounds(t), "n %d: all garbled", n);
        check(count_of_rows(n, t, 2) == rounds(t) - (t + 2), "n %d: all blank: %d", n, count_of_rows(n, t, 2));
        check(count_of_rows(n, t, 255) == 0, "n %d: silence is counted", n);
        check(count_of_rows(n, t, 0) == 0 && count_of_rows(n, t, 1) == 0, "n %d: bits are counted", n);
    }
}

static void garbled_ballots(void)
{
    adds_one_byte();
    whole_counts();
}

/* ---- As many zeros as ones ---- */

/* Value and grade after a row of so many of each, with bytes that count for
   neither in its other places; the state's other bytes as 0. */
static uint64_t value_and_grade(int which, struct call c, int zeros, int ones)
{
    static const uint8_t neither[] = {2, 255, 77};
    uint8_t row[32];
    for (int i = 0; i < c.n; i++)
        row[i] = i < zeros ? 0 : i < zeros + ones ? 1 : neither[i % 3];
    c.row = row;
    return library(which, &c) & bytes5(0, 255, 0, 255, 0);
}

/* Equal counts give 0 with grade 0, and a one more gives 1. */
static void balance(const struct call *c, int count)
{
    for (int which = 1 << FIRST_ROW; which < 1 << CALLS; which *= 2) {
        uint64_t equal = value_and_grade(which, *c, count, count);
        check(equal == 0, "n %d t %d T %d round %d: %d of each: %010llx", c->n, c->t, c->T, c->round, count,
              (unsigned long long)equal);
        if (2 * count < c->n)
            check((value_and_grade(which, *c, count, count + 1) >> 8 & 255) == 1, "n %d: %d ones, one fewer zeros",
                  c->n, count + 1);
    }
}

/* Each count that there can be, none too, with the largest t and with the largest
   T, in the first exchange and in the last, of a station whose value was either
   and whose grade was 2. */
static void balances(void)
{
    for (int i = 0; i < 32 * 8; i++) {
        int n = 1 + i / 8, t = i % 2 == 0 ? (n - 1) / 3 : 0, T = i % 2 == 0 ? t : (n - 1) / 2;
        struct call c = accepted(n, t, T);
        c.round = i / 2 % 2 == 0 ? 3 : rounds(t);
        c.x = i / 4 % 2;
        for (int count = 0; 2 * count <= n; count++)
            balance(&c, count);
    }
}

/* ---- Offers ---- */

static int is_refused(int which, const struct call *c)
{
    return library(which, c) == answer(17, state_bits(c));
}

/* The right offer with every single bit changed: refused by 17, and the station
   stays. */
static void each_bit(const struct call *base)
{
    int kept = 0;
    check(library(ACCEPT, base) == library(ADVANCE, base) && library(ACCEPT_LENT, base) == library(ADVANCE, base),
          "n %d, round %d: the right offer", base->n, base->round);
    for (int bit = 0; bit < 64; bit++) {
        struct call c = *base;
        c.other = (uint64_t)1 << bit;
        kept += is_refused(ACCEPT, &c) && is_refused(ACCEPT_LENT, &c);
    }
    check(kept == 64, "n %d, round %d: %d of 64 changed bits are refused by 17", base->n, base->round, kept);
}

/* The offer's ballot is the one that the following station tells, 255 if it is
   done; and a second offer is the first. */
static void offered(const struct call *c)
{
    struct vembopu_station s = station_of(c);
    uint64_t offer = library(OFFER, c);
    uint64_t told = vembopu_ballot(s.n, s.t, s.upper, s.sender, s.own, vembopu_state(offer));
    check(vembopu_refusal(told) == (c->round == rounds(c->t) ? 7u : 0u) &&
              vembopu_offered_ballot(offer) == vembopu_ballot_byte(told) && library(OFFER, c) == offer,
          "n %d, round %d: %llx is offered", c->n, c->round, (unsigned long long)offer);
}

/* Every round of some lines, of a station that is the king at some time and of
   one that never is, with rows of any bytes. */
static void each_offer(void)
{
    static const int lines[][4] = {{1, 0, 0, 1}, {4, 1, 1, 2}, {4, 1, 1, 4}, {32, 10, 10, 3}, {32, 0, 15, 32}};
    uint8_t row[32];
    for (size_t i = 0; i < sizeof lines / sizeof lines[0]; i++) {
        struct call c = accepted(lines[i][0], lines[i][1], lines[i][2]);
        c.own = lines[i][3];
        c.row = row;
        for (c.round = 1; c.round <= rounds(c.t); c.round++) {
            for (int k = 0; k < c.n; k++)
                row[k] = (uint8_t)(draw(2) == 0 ? draw(2) : draw(256));
            c.x = (int)draw(2);
            c.z = (int)draw(3);
            c.grade = (int)draw(3);
            c.garbled = (int)draw((uint32_t)c.round);
            each_bit(&c);
            offered(&c);
        }
    }
}

enum { SOME = 60 };

/* Stations of one line that differ in round, state, row or number; some are done
   or have a row that is too short. */
static void some_stations(struct call *c, uint8_t rows[][4])
{
    for (int i = 0; i < SOME; i++) {
        const struct call one = {4, 1, 1, 2, 1 + i % 4, 0, 1 + i % 10, i / 2 % 2, i / 3 % 3, i % 3, 0, rows[i],
                                 i % 7 == 0 ? 3 : 4, 0};
        c[i] = one;
        for (int k = 0; k < 4; k++)
            rows[i][k] = (uint8_t)draw(4);
    }
}

/* The offer of each, also a refused one's, handed to each: taken only where it is
   the same. */
static void others_offers(void)
{
    struct call c[SOME];
    uint8_t rows[SOME][4];
    unsigned long differ = 0, taken = 0, refused = 0;
    some_stations(c, rows);
    for (int i = 0; i < SOME * SOME; i++) {
        struct call one = c[i / SOME];
        one.other = library(OFFER, &one) ^ library(OFFER, &c[i % SOME]);
        for (int call = FIRST_ACCEPT; call < CALLS; call++)
            differ += !agrees(call, &one);
        taken += library(ACCEPT, &one) >> 56 == 0;
        refused += library(ACCEPT, &one) >> 56 == 17;
    }
    printf("offers of %d stations, each handed to each: %lu taken, %lu refused by 17\n", SOME, taken, refused);
    check(differ == 0 && taken > 0 && refused > 1000, "others' offers: %lu differ", differ);
}

static void offers(void)
{
    each_offer();
    others_offers();
}

/* ---- By lot ---- */

static unsigned long met[CALLS][NUMBERS];

/* Mostly an accepted line; else any bytes. */
static void draw_line(struct call *c)
{
    c->n = (int)draw(36);
    if (draw(16) == 0) {
        c->t = (int)draw(256);
        c->T = (int)draw(256);
    } else {
        c->T = (int)draw((uint32_t)c->n / 2 + 1);
        c->t = (int)draw((uint32_t)c->T + 1);
    }
    c->sender = draw(16) == 0 ? (int)draw(256) : 1 + (int)draw((uint32_t)c->n + 1);
    c->own = draw(16) == 0 ? (int)draw(256) : 1 + (int)draw((uint32_t)c->n + 1);
    c->value = draw(8) == 0 ? (int)draw(256) : (int)draw(3);
}

/* Any 64 bits, or bytes near the edges with any above them. */
static void draw_state(struct call *c)
{
    uint32_t any = draw_word();
    int near_edges = draw(4) != 0;
    c->round = near_edges ? (int)draw((uint32_t)rounds(c->t) + 3) & 255 : (int)(any & 255);
    c->x = near_edges ? (int)draw(9) / 4 : (int)(any >> 8 & 255);
    c->z = near_edges ? (int)draw(10) / 3 : (int)(any >> 16 & 255);
    c->grade = near_edges ? (int)draw(10) / 3 : (int)(any >> 24);
    c->garbled = (int)(near_edges ? draw((uint32_t)c->round + 1) : draw(256));
    above = (uint64_t)draw_word() << 40;
}

static void draw_row(struct call *c, uint8_t *row)
{
    static const uint8_t ballot[] = {0, 1, 2, 255};
    uint32_t kind = draw(4);
    for (int i = 0; i < 64; i++)
        row[i] = kind == 0 ? (uint8_t)draw(256) : ballot[draw(1 + kind)];
    c->row = row;
    c->row_len = draw(8) == 0 ? draw(64) : (size_t)c->n;
}

/* Mostly the right one; else with a bit changed, any 64 bits, or the last one. It
   has a lot of its own, so that lines, states and rows are as they are drawn
   without it. */
static void draw_offer(struct call *c)
{
    static uint64_t last, own_lot = 1;
    uint64_t right = model_offer(c), kept = lot;
    lot = own_lot;
    uint64_t any = (uint64_t)draw_word() << 32 | draw_word();
    const uint64_t handed[] = {right, right, right ^ (uint64_t)1 << draw(64), any, last};
    c->other = right ^ handed[draw(5)];
    last = right;
    own_lot = lot;
    lot = kept;
}

static void block(void)
{
    unsigned long differ[CALLS] = {0};
    uint8_t row[64];
    for (int i = 0; i < BLOCK; i++) {
        struct call c;
        draw_line(&c);
        draw_state(&c);
        draw_row(&c, row);
        draw_offer(&c);
        for (int call = 0; call < CALLS; call++) {
            differ[call] += !agrees(call, &c);
            met[call][vembopu_refusal(library(1 << call, &c)) % NUMBERS]++;
        }
    }
    above = 0;
    for (int call = 0; call < CALLS; call++)
        check(differ[call] == 0, "%s by lot: %lu differ", call_name[call], differ[call]);
}

/* Each number that a call can give was met, and no other. */
static void all_met(void)
{
    static const char *const can[CALLS] = {"0 2 3 4 5",   "0 2 3 4 7",   "0 2 3 4 7",      "0 2 3 4 7 8",
                                           "0 2 3 4 7 8", "0 2 3 4 7 8", "0 2 3 4 7 8 17", "0 2 3 4 7 8 17"};
    for (int call = 0; call < CALLS; call++)
        check_met(call_name[call], met[call], NUMBERS, can[call]);
}

static void by_lot(void)
{
    for (int i = 0; i < BLOCKS; i++)
        block();
    all_met();
}

/* ---- Rows at the edges of a page that can only be read ---- */

static void guarded_rows(int n, struct guarded g)
{
    struct call c = accepted(n, (n - 1) / 3, (n - 1) / 3);
    unsigned long differ = 0;
    mprotect(g.page, g.size, PROT_READ | PROT_WRITE);
    for (size_t i = 0; i < g.size; i++)
        g.page[i] = (uint8_t)draw(4);
    mprotect(g.page, g.size, PROT_READ);
    for (int round = 1; round <= rounds(c.t); round++) {
        c.round = round;
        c.grade = round % 2 * 2;
        c.garbled = round / 2;
        for (int call = FIRST_ROW; call < CALLS; call++) {
            c.row = g.page;
            differ += !agrees(call, &c);
            c.row = g.page + g.size - n;
            differ += !agrees(call, &c);
        }
    }
    check(differ == 0, "rows of %d at the edges of a page: %lu differ", n, differ);
}

/* ---- A station with refused rows between ---- */

#define STATION(s) (s)->n, (s)->t, (s)->upper, (s)->sender, (s)->own, vembopu_state_of(s)

/* A row that is refused by this number, to a station and to the same one lent. */
static void try_bad_row(struct vembopu_station *s, const uint8_t *row, size_t length, uint8_t number)
{
    const struct vembopu_station before = *s;
    uint64_t state = vembopu_state_of(s), offer = vembopu_offer(STATION(s), row, length);
    uint64_t got = vembopu_advance(STATION(s), row, length), taken = vembopu_accept(STATION(s), row, length, offer);
    check(got == answer(number, state) && offer == answer(number, 0) && taken == got,
          "n %d, a row of %lu: %llx, offered %llx, accepted %llx", s->n, (unsigned long)length, (unsigned long long)got,
          (unsigned long long)offer, (unsigned long long)taken);
    int advanced = vembopu_advance_lent(s, row, length), accepted = vembopu_accept_lent(s, row, length, offer);
    check(advanced == number && accepted == number && memcmp(s, &before, sizeof before) == 0,
          "n %d, a row of %lu lent: %d, accepted %d, state %010llx", s->n, (unsigned long)length, advanced, accepted,
          (unsigned long long)vembopu_state_of(s));
}

/* Rows of a wrong length. */
static void try_bad_rows(struct vembopu_station *s, uint8_t number)
{
    try_bad_row(s, NULL, 0, number);
    try_bad_row(s, some_row, (size_t)s->n - 1, number);
    try_bad_row(s, some_row, (size_t)s->n + 1, number);
}

/* Offers that aren't the row's: nothing, the state itself, one of another ballot,
   a refused one, all ones. */
static void try_bad_offers(struct vembopu_station *s, uint8_t number)
{
    const struct vembopu_station before = *s;
    uint64_t state = vembopu_state_of(s), right = vembopu_offer(STATION(s), some_row, s->n);
    const uint64_t offer[] = {0, state, vembopu_state(right) | (uint64_t)77 << 40, right | answer(17, 0), UINT64_MAX};
    for (int i = 0; i < 5; i++) {
        uint64_t got = vembopu_accept(STATION(s), some_row, s->n, offer[i]);
        int lent_number = vembopu_accept_lent(s, some_row, s->n, offer[i]);
        check(got == answer(number, state) && lent_number == number && memcmp(s, &before, sizeof before) == 0,
              "n %d, round %d, offer %llx: %llx, lent %d", s->n, s->round, (unsigned long long)offer[i],
              (unsigned long long)got, lent_number);
    }
}

static uint64_t result_of(const struct vembopu_station *s)
{
    return vembopu_result(STATION(s));
}

/* A row, to a station and to the same one lent, advanced and by offer and
   acceptance: the first one's answer. */
static uint64_t take_all(struct vembopu_station *s)
{
    struct vembopu_station accepted = *s;
    uint64_t next = vembopu_advance(STATION(s), some_row, s->n), offer = vembopu_offer(STATION(s), some_row, s->n);
    uint64_t taken = vembopu_accept(STATION(s), some_row, s->n, offer);
    int number = vembopu_advance_lent(s, some_row, s->n);
    int accepting = vembopu_accept_lent(&accepted, some_row, s->n, offer);
    check(answer(number, vembopu_state_of(s)) == next, "n %d: %d and state %010llx lent, not %llx", s->n,
          number, (unsigned long long)vembopu_state_of(s), (unsigned long long)next);
    check(taken == next && accepting == number && memcmp(&accepted, s, sizeof accepted) == 0,
          "n %d: offer %llx is accepted by %llx, lent by %d, not %llx", s->n, (unsigned long long)offer,
          (unsigned long long)taken, accepting, (unsigned long long)next);
    return next;
}

static void whole_station(uint8_t n)
{
    uint8_t t = (uint8_t)((n - 1) / 3);
    int taken = 0, R = rounds(t);
    uint64_t opened = vembopu_state(vembopu_open(n, t, t, 1, n, 1));
    struct vembopu_station s = vembopu_station_of(n, t, t, 1, n, opened);
    uint64_t result = result_of(&s);
    while (vembopu_running(result) && taken <= R) {
        check(vembopu_round(result) == taken + 1, "n %d: round %d", n, vembopu_round(result));
        try_bad_rows(&s, 8);
        try_bad_offers(&s, 17);
        take_all(&s);
        taken++;
        result = result_of(&s);
    }
    uint64_t state = vembopu_state_of(&s);
    check(vembopu_done(result) && taken == R, "n %d: done after %d rows, not %d", n, taken, R);
    check(vembopu_refusal(vembopu_ballot(n, t, t, 1, n, state)) == 7, "n %d: a done station's ballot", n);
    uint64_t more = take_all(&s);
    check(more == answer(7, state), "n %d: a done station's row: %llx", n, (unsigned long long)more);
    try_bad_rows(&s, 7);
    try_bad_offers(&s, 7);
    check(result_of(&s) == result, "n %d: another result", n);
}

/* ---- */

static void part(const char *what, void (*run)(void))
{
    unsigned long before = passed + failed;
    run();
    printf("%s: %lu tests\n", what, passed + failed - before);
    fflush(stdout);
}

static void all_guarded_rows(void)
{
    struct guarded g = guarded_page();
    for (int n = 1; n <= 32; n++)
        guarded_rows(n, g);
}

static void whole_stations(void)
{
    for (int n = 1; n <= 32; n++)
        whole_station((uint8_t)n);
}

int main(void)
{
    for (int i = 0; i < LONGEST_ROW; i++)
        some_row[i] = (uint8_t)draw(4);
    make_lent_page();
    part("causes alone and in pairs", all_faults);
    part("thresholds of cases E, F and H", cases);
    part("calls at the edges", edges);
    part("every value of each byte of a state", each_byte);
    part("garbled ballots", garbled_ballots);
    part("as many zeros as ones", balances);
    part("calls by lot", by_lot);
    part("rows at the edges of a page", all_guarded_rows);
    part("stations with refused rows and offers between", whole_stations);
    part("offers", offers);
    return closing_count();
}
