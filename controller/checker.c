/*
 * The checker of logs through C: every refusal of vembopu_check, alone and in
 * pairs; sets worked out from the documents; logs by lot, rehearsed and with
 * bytes changed, against the checker written once more (model.h). A rehearsed
 * log yields its marks. On small lines each marking is tried: the log is a run
 * under those that have the whole set, and no other. Both buffers end where a
 * page begins that can't be touched, and stand on pages that can only be read.
 */
#define _DEFAULT_SOURCE
#include "check.h"
#include "exports.h"
#include "inputs.h"
#include "model.h"

enum { BLOCK = 1000, BLOCKS = 12, NUMBERS = 17, SMALL = 5 };

/* ---- One call ---- */

/* A log and outcomes with their line; the buffers have room for a byte more. */
struct draft {
    uint8_t log[TABLE + 1], outcomes[OUTCOMES + 1];
    struct checking k;
};

static struct guarded log_area, outcomes_area;
static struct draft base, one, two;
static uint8_t table[TABLE];

static uint64_t checked(const struct checking *k)
{
    const uint8_t *log = guarded_bytes(log_area, k->log, k->log_len);
    const uint8_t *outcomes = guarded_bytes(outcomes_area, k->outcomes, k->outcomes_len);
    return vembopu_check((uint8_t)k->n, (uint8_t)k->t, (uint8_t)k->T, (uint8_t)k->sender, log, k->log_len, outcomes,
                         k->outcomes_len);
}

/* 1 if the call answers as wanted; says the first few that differ. */
static int answers(const struct checking *k, uint64_t want)
{
    static int told;
    uint64_t got = checked(k);
    if (got != want && told++ < MOST_TOLD)
        printf("n %d t %d T %d sender %d, log of %lu, outcomes of %lu: %llx, not %llx\n", k->n, k->t, k->T, k->sender,
               (unsigned long)k->log_len, (unsigned long)k->outcomes_len, (unsigned long long)got,
               (unsigned long long)want);
    return got == want;
}

static void copy(struct draft *to, const struct draft *from)
{
    *to = *from;
    to->k.log = to->log;
    to->k.outcomes = to->outcomes;
}

/* The draft of a line, rehearsed with the table. */
static void rehearse(struct draft *d, int n, int t, int T, int sender, int value, uint32_t marks)
{
    size_t log_len = (size_t)(rounds(t) * n * n), outcomes_len = (size_t)(VEMBOPU_OUTCOME * n);
    struct checking k = {n, t, T, sender, d->log, log_len, d->outcomes, outcomes_len};
    d->k = k;
    vembopu_rehearse((uint8_t)n, (uint8_t)t, (uint8_t)T, (uint8_t)sender, (uint8_t)value, 1, marks, table, k.log_len,
                     d->log, k.log_len, d->outcomes, k.outcomes_len);
}

/* ---- Each cause, and each pair ---- */

#define FAULT(name, statement)           \
    static void name(struct checking *c) \
    {                                    \
        statement;                       \
    }

LINE_FAULTS
FAULT(log_short, c->log_len = base.k.log_len - 1)
FAULT(log_long, c->log_len = base.k.log_len + 1)
FAULT(log_null, c->log = NULL; c->log_len = 0)
FAULT(outcomes_short, c->outcomes_len = base.k.outcomes_len - 1)
FAULT(outcomes_long, c->outcomes_len = base.k.outcomes_len + 1)
FAULT(outcomes_of_3, c->outcomes_len = (size_t)(3 * base.k.n))
FAULT(outcomes_null, c->outcomes = NULL; c->outcomes_len = 0)

/* In the order of refusals. */
static const struct fault {
    const char *what;
    int number;
    void (*make)(struct checking *);
} faults[] = {
    {"n 0", 2, n_0},
    {"n 33", 2, n_33},
    {"n 255", 2, n_255},
    {"t above T", 3, t_above},
    {"t 255", 3, t_255},
    {"t + 2T = n", 3, sum_is_n},
    {"t + 2T = 256", 3, sum_256},
    {"t + 2T = 512", 3, sum_512},
    {"sender 0", 4, sender_0},
    {"sender n+1", 4, sender_above},
    {"sender 255", 4, sender_255},
    {"log short", 8, log_short},
    {"log long", 8, log_long},
    {"log NULL", 8, log_null},
    {"outcomes short", 8, outcomes_short},
    {"outcomes long", 8, outcomes_long},
    {"outcomes of three bytes", 8, outcomes_of_3},
    {"outcomes NULL", 8, outcomes_null},
};

/* A refused call has no set; the model gives the same. */
static void refused(const struct checking *k, const struct fault *a, const char *b)
{
    uint64_t want = answer(a->number, 0);
    check(model_check(k) == want && answers(k, want), "n %d, %s, %s", base.k.n, a->what, b);
}

static void faults_of(const struct fault *a)
{
    struct checking with_one = base.k;
    a->make(&with_one);
    refused(&with_one, a, "alone");
    for (const struct fault *b = a + 1; b < faults + COUNT(faults); b++) {
        struct checking with_two = with_one;
        b->make(&with_two);
        refused(&with_two, a, b->what);
    }
}

static void all_faults(void)
{
    static const int lines[][3] = {{1, 0, 0}, {4, 1, 1}, {7, 0, 3}, {32, 10, 10}, {32, 0, 15}};
    for (size_t i = 0; i < COUNT(lines); i++) {
        rehearse(&base, lines[i][0], lines[i][1], lines[i][2], lines[i][0], 1, 0);
        check(answers(&base.k, 0), "n %d: refused, or a station broke the rules", base.k.n);
        for (const struct fault *a = faults; a < faults + COUNT(faults); a++)
            faults_of(a);
    }
}

/* ---- Sets worked out ---- */

/* The place in the log of round r, from i, to j. */
static size_t place(const struct checking *k, int r, int i, int j)
{
    return (size_t)(((r - 1) * k->n + (i - 1)) * k->n + (j - 1));
}

/* The base with the log's byte, or the outcomes', changed yields this set. */
static void log_byte(int r, int i, int j, uint8_t byte, uint32_t set)
{
    copy(&one, &base);
    one.log[place(&one.k, r, i, j)] = byte;
    check(answers(&one.k, set), "%d to %d in round %d: %d", i, j, r, byte);
}

static void outcome_byte(int i, int which, uint8_t byte, uint32_t set)
{
    copy(&one, &base);
    one.outcomes[VEMBOPU_OUTCOME * (i - 1) + which] = byte;
    check(answers(&one.k, set), "byte %d of the outcome of %d: %d", which, i, byte);
}

/* The base with a garbled ballot from i to j, and without the count of it in j's
   outcome: both are in the set; with it, only i. */
static void garbled_byte(int r, int i, int j, uint8_t byte)
{
    uint32_t from = (uint32_t)1 << (i - 1), to = (uint32_t)1 << (j - 1);
    log_byte(r, i, j, byte, from | to);
    one.outcomes[VEMBOPU_OUTCOME * (j - 1) + 3] = 1;
    check(answers(&one.k, from), "%d to %d in round %d: %d, counted", i, j, r, byte);
    one.outcomes[VEMBOPU_OUTCOME * (j - 1) + 3] = 2;
    check(answers(&one.k, from | to), "%d to %d in round %d: %d, counted twice", i, j, r, byte);
}

/* The base with a station's byte of a round, to all, changed. */
static void says(int r, int i, uint8_t byte, uint32_t set)
{
    copy(&one, &base);
    memset(one.log + place(&one.k, r, i, 1), byte, (size_t)one.k.n);
    check(answers(&one.k, set), "%d to all in round %d: %d", i, r, byte);
}

/* Four stations, t and T 1, sender 2, all good: 9 rounds, king 1 in round 4,
   king 2 in round 7. */
static void worked_out(int value)
{
    uint8_t said = (uint8_t)value, other = (uint8_t)!value;
    rehearse(&base, 4, 1, 1, 2, value, 0);
    check(answers(&base.k, 0), "value %d: all keep the rules", value);
    log_byte(1, 2, 3, other, 6);    /* 3 goes on as if told the same as the others */
    log_byte(1, 2, 2, other, 2);    /* also to itself */
    log_byte(1, 3, 1, other, 4);    /* doesn't speak; nobody listens */
    log_byte(1, 3, 3, 254, 4);
    log_byte(2, 4, 1, 255, 8);      /* three are enough */
    log_byte(4, 2, 3, said, 2);     /* not the king */
    log_byte(4, 2, 3, 77, 2);
    log_byte(4, 1, 3, other, 1);    /* the king, not obeyed at grade 2 */
    log_byte(7, 2, 4, 255, 2);
    log_byte(9, 1, 1, 2, 1);        /* to itself: its grade stays 2 */
    log_byte(3, 1, 2, 2, 1);        /* a blank in a second round */
    says(1, 2, 7, 15);              /* the sender, read as 0, and counted */
    says(1, 2, 255, value == 0 ? 2 : 15);
    says(1, 4, said, 8);            /* neither the sender nor the king */
    says(7, 4, said, 8);
    says(7, 4, 77, 8);
    garbled_byte(2, 4, 1, 2);       /* a blank in a first round */
    garbled_byte(5, 3, 4, 254);
    garbled_byte(3, 1, 2, 3);
    garbled_byte(4, 1, 3, 2);       /* the kings */
    garbled_byte(7, 2, 4, 77);
    for (int i = 1; i <= 4; i++) {
        uint32_t alone = (uint32_t)1 << (i - 1);
        outcome_byte(i, 0, other, alone);
        outcome_byte(i, 1, 1, alone);
        outcome_byte(i, 2, 1, alone);
        outcome_byte(i, 3, 1, alone);
        outcome_byte(i, 0, 255, alone);
        outcome_byte(i, 3, 255, alone);
    }
}

/* Case C, but that in round 6 station 1 says nothing: stations 2 and 3 have a zero
   and a one each, and end with 0 and grade 0. Whoever changes over breaks the
   rules. */
static void balance(void)
{
    static const int told[] = {1, 2, 3, 5};
    const struct checking c = {3, 0, 1, 1, NULL, 0, NULL, 0};
    memset(table, 255, sizeof table);
    for (int k = 0; k < 4; k++) {
        table[place(&c, told[k], 1, 2)] = 0;
        table[place(&c, told[k], 1, 3)] = 1;
    }
    rehearse(&base, c.n, c.t, c.T, c.sender, 0, 1);
    check(answers(&base.k, 1), "a zero and a one each");
    outcome_byte(2, 0, 1, 1 | 2);
    outcome_byte(3, 0, 1, 1 | 4);
    outcome_byte(3, 1, 1, 1 | 4);
}

/* Bit 31 too. */
static void all_of_32(void)
{
    rehearse(&base, 32, 10, 10, 32, 1, 0);
    outcome_byte(32, 2, 1, 0x80000000u);
    outcome_byte(32, 3, 36, 0x80000000u);
    memset(base.outcomes, 255, OUTCOMES);
    check(answers(&base.k, 0xffffffffu), "all of 32");
}

/* ---- The least marking ---- */

/* 1 if the log is a run with these marks and this value, the log itself as the
   table, and the outcomes of unmarked stations are as logged. */
static int is_run(const struct checking *k, uint32_t marks, int value)
{
    int same;
    memcpy(table, k->log, k->log_len);
    rehearse(&two, k->n, k->t, k->T, k->sender, value, marks);
    same = memcmp(two.log, k->log, k->log_len) == 0;
    for (int i = 0; i < k->n; i++)
        same = same && (marks >> i & 1 || memcmp(two.outcomes + VEMBOPU_OUTCOME * i, k->outcomes + VEMBOPU_OUTCOME * i,
                                                 VEMBOPU_OUTCOME) == 0);
    return same;
}

/* 1 if the log is a run under the markings that have the whole set, and no
   other; asked of small lines only. */
static int is_least(const struct checking *k)
{
    uint32_t set = vembopu_broke(checked(k));
    int same = 1;
    if (judge_check(k) != 0 || k->n > SMALL)
        return 1;
    for (uint32_t marks = 0; marks < (uint32_t)1 << k->n; marks++)
        same = same && (is_run(k, marks, 0) || is_run(k, marks, 1)) == ((set & ~marks) == 0);
    return same;
}

/* ---- By lot ---- */

static unsigned long met[NUMBERS];

static void draw_bytes(uint8_t *bytes, size_t len)
{
    static const uint8_t ballot[] = {0, 1, 2, 255};
    uint32_t kind = draw(4);
    for (size_t i = 0; i < len; i++)
        bytes[i] = kind == 0 ? (uint8_t)draw(256) : ballot[draw(1 + kind)];
}

/* A rehearsed log, mostly of a small line; none, some or all are marked. */
static uint32_t draw_rehearsed(struct draft *d)
{
    uint32_t n = 1 + draw(draw(4) == 0 ? 32 : SMALL), T = draw((n + 1) / 2), rest = n - 1 - 2 * T;
    const uint32_t kinds[] = {0, draw_word() & draw_word(), draw_word(), 0xffffffffu};
    uint32_t marks = kinds[draw(4)] & 0xffffffffu >> (32 - n), t = draw((rest < T ? rest : T) + 1);
    draw_bytes(table, (size_t)rounds((int)t) * n * n);
    rehearse(d, (int)n, (int)t, (int)T, 1 + (int)draw(n), (int)draw(2), marks);
    return marks;
}

/* A byte or some of the log, one sender's of a round, or a byte of the outcomes;
   mostly ballots. */
static void draw_changes(struct draft *d)
{
    size_t n = (size_t)d->k.n;
    for (uint32_t left = 1 + draw(4); left > 0; left--) {
        uint8_t byte = (uint8_t)(draw(3) == 0 ? draw(256) : draw(3));
        uint32_t at = draw((uint32_t)d->k.log_len), kind = draw(4);
        if (kind == 0)
            d->log[at] = byte;
        else if (kind == 1)
            memset(d->log + at / n * n, byte, n);
        else
            d->outcomes[draw((uint32_t)d->k.outcomes_len)] = byte;
    }
    if (draw(8) == 0)
        draw_bytes(d->log, d->k.log_len);
}

/* Now and then a number or a length of any size. */
static void draw_faults(struct draft *d)
{
    int *const number[] = {&d->k.n, &d->k.t, &d->k.T, &d->k.sender};
    if (draw(8) == 0)
        *number[draw(4)] = (int)draw(draw(2) == 0 ? 256 : 34);
    if (draw(16) == 0)
        d->k.log_len = draw(TABLE + 2);
    if (draw(16) == 0)
        d->k.outcomes_len = draw(OUTCOMES + 2);
}

static void block(void)
{
    unsigned long differ = 0, other_marks = 0, not_least = 0;
    for (int i = 0; i < BLOCK; i++) {
        uint32_t marks = draw_rehearsed(&one);
        other_marks += !answers(&one.k, marks);
        draw_changes(&one);
        draw_faults(&one);
        differ += !answers(&one.k, model_check(&one.k));
        not_least += !is_least(&one.k);
        met[vembopu_refusal(model_check(&one.k)) % NUMBERS]++;
    }
    check(other_marks == 0, "by lot: %lu rehearsed logs yield others than their marks", other_marks);
    check(differ == 0, "by lot: %lu differ", differ);
    check(not_least == 0, "by lot: of %lu the set isn't the least marking", not_least);
}

int main(void)
{
    log_area = guarded_pages(TABLE + 1);
    outcomes_area = guarded_pages(OUTCOMES + 1);
    all_faults();
    printf("causes alone and in pairs: %lu tests\n", passed + failed);
    worked_out(0);
    worked_out(1);
    balance();
    all_of_32();
    for (int i = 0; i < BLOCKS; i++)
        block();
    check_met("vembopu_check", met, NUMBERS, "0 2 3 4 8");
    return closing_count();
}
