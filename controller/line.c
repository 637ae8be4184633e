/*
 * Whole lines of bonders, each good one in a process of its own with a station
 * for each bit of the number. This process is the wire: each round it collects
 * the ballots of every good bonder, takes the bad ones' bytes from the bits'
 * tables, and hands each good bonder its rows, which it takes by advance, and on
 * the same line once more by offer and acceptance, on numbers or lent. Every
 * ballot is held to the log of the rehearsal, also as it is shown by an offer, and
 * every outcome to its outcomes. The rehearsal of a number is held to those of its
 * bits, each alone.
 */
#define _DEFAULT_SOURCE
#include "check.h"
#include "exports.h"
#include "vembopu.h"

#include <signal.h>
#include <string.h>
#include <sys/socket.h>
#include <sys/types.h>
#include <sys/wait.h>

enum { MOST = 32, WIDEST = 8, LARGEST = WIDEST * 36864, DRAWN_LINES = 200, SAID_EVERY = 50, STATION_SECONDS = 120 };

struct line {
    uint8_t n, t, T, sender, value, w;
    uint32_t marks;
};

/* How a bonder takes its rows; BY_NUMBER stands for one of the others, by its
   station's number. */
enum { BY_ADVANCE, BY_OFFER, BY_LENT_OFFER, BY_NUMBER, WAYS };

/* What a bonder tells the wire: running, round, and each bit's ballot; or done,
   number, grade, flag, garbled; or refused, number. Behind that, each bit's ballot
   as it was shown before the last row was taken. */
enum { RUNNING, DONE, REFUSED };
enum { SHOWN = 2 + WIDEST, MESSAGE = SHOWN + WIDEST };

static uint8_t table[LARGEST], logged[LARGEST], log_of_bit[LARGEST], outcomes[VEMBOPU_OUTCOME * MOST];
static int end_of[MOST + 1];    /* the wire's end to station i, -1 for none */
static pid_t process[MOST + 1]; /* 0 for none */
static unsigned long lines, ballots, shown, decided, of_width[WIDEST + 1], of_way[WAYS];
static int way; /* the line's */
enum { COUNTS = 37 };
static unsigned long counted[COUNTS]; /* good stations by their count, 0 to 36 */

static int rounds(const struct line *l)
{
    return 3 * l->t + 6;
}

/* "0 standing for 1" */
static int bits(const struct line *l)
{
    return l->w == 0 ? 1 : l->w;
}

/* Of one bit, and of all. */
static size_t table_len(const struct line *l)
{
    return (size_t)rounds(l) * l->n * l->n;
}

static size_t tables_len(const struct line *l)
{
    return (size_t)bits(l) * table_len(l);
}

/* "the byte for round r, from i, to j", and "the bits' tables one after another,
   bit 0 first" */
static size_t place(const struct line *l, int r, int i, int j)
{
    return (size_t)(((r - 1) * l->n + (i - 1)) * l->n + (j - 1));
}

static size_t place_of_bit(const struct line *l, int b, int r, int i, int j)
{
    return (size_t)b * table_len(l) + place(l, r, i, j);
}

static int is_bad(const struct line *l, int i)
{
    return l->marks >> (i - 1) & 1;
}

static int read_all(int fd, uint8_t *bytes, size_t len)
{
    while (len > 0) {
        ssize_t got = read(fd, bytes, len);
        if (got <= 0)
            return 0;
        bytes += got;
        len -= (size_t)got;
    }
    return 1;
}

static int write_all(int fd, const uint8_t *bytes, size_t len)
{
    while (len > 0) {
        ssize_t put = write(fd, bytes, len);
        if (put <= 0)
            return 0;
        bytes += put;
        len -= (size_t)put;
    }
    return 1;
}

/* The outcome of a number's bits 0 to b, from that of those below b and that of
   bit b: "a station's flag is raised if any bit raises it", "The garbled count is
   the largest of the bits' counts, the grade the smallest." */
static void take_bit(uint8_t *outcome, int b, const uint8_t *bit)
{
    static const uint8_t none[VEMBOPU_OUTCOME] = {0, 2, 0, 0};
    if (b == 0)
        memcpy(outcome, none, sizeof none);
    outcome[0] = (uint8_t)(outcome[0] + (bit[0] << b));
    outcome[1] = bit[1] < outcome[1] ? bit[1] : outcome[1];
    outcome[2] = bit[2] > outcome[2] ? bit[2] : outcome[2];
    outcome[3] = bit[3] > outcome[3] ? bit[3] : outcome[3];
}

/* ---- A bonder's process ---- */

#define NUMBERS(l) (l)->n, (l)->t, (l)->T, (l)->sender

/* A station for each bit; each call gives the refusal's number. At one that isn't
   the sender's the value has no effect: there it is handed either. */
static uint32_t open_bits(const struct line *l, uint8_t own, uint64_t *state)
{
    uint32_t refused = 0;
    for (int b = 0; b < bits(l) && refused == 0; b++) {
        int value = own == l->sender ? l->value >> b : own + b;
        uint64_t a = vembopu_open(NUMBERS(l), own, value & 1);
        state[b] = vembopu_state(a);
        refused = vembopu_refusal(a);
    }
    return refused;
}

/* The stations' ballots, or their outcome when they are done; round 0 if they are
   not in one round. */
static uint32_t say(const struct line *l, uint8_t own, const uint64_t *state, uint8_t *message)
{
    uint32_t refused = 0;
    for (int b = 0; b < bits(l) && refused == 0; b++) {
        uint64_t result = vembopu_result(NUMBERS(l), own, state[b]);
        const uint8_t end[VEMBOPU_OUTCOME] = {vembopu_value(result), vembopu_grade(result), vembopu_flag(result),
                                              vembopu_garbled(result)};
        message[0] = vembopu_done(result) ? DONE : RUNNING;
        refused = vembopu_refusal(result);
        if (message[0] == DONE) {
            take_bit(message + 1, b, end);
            continue;
        }
        uint64_t a = vembopu_ballot(NUMBERS(l), own, state[b]);
        refused = refused ? refused : vembopu_refusal(a);
        message[1] = b == 0 || message[1] == vembopu_round(result) ? vembopu_round(result) : 0;
        message[2 + b] = vembopu_ballot_byte(a);
    }
    return refused;
}

static int way_of(int own)
{
    return way == BY_NUMBER ? own % BY_NUMBER : way;
}

/* The answer of an acceptance, also of a lent one, and the ballot that is shown
   before it. */
static uint64_t look_and_step(const struct line *l, uint8_t own, uint64_t state, const uint8_t *row, uint8_t *ballot)
{
    struct vembopu_station s = vembopu_station_of(NUMBERS(l), own, state);
    uint64_t offer = vembopu_offer(NUMBERS(l), own, state, row, l->n);
    *ballot = vembopu_offered_ballot(offer);
    if (way_of(own) == BY_OFFER)
        return vembopu_accept(NUMBERS(l), own, state, row, l->n, offer);
    uint64_t number = vembopu_accept_lent(&s, row, l->n, offer);
    return number << 56 | vembopu_state_of(&s);
}

/* Each bit's row to its station. */
static uint32_t take_rows(const struct line *l, uint8_t own, uint64_t *state, const uint8_t *rows, uint8_t *ballot)
{
    uint32_t refused = 0;
    for (int b = 0; b < bits(l) && refused == 0; b++) {
        const uint8_t *row = rows + b * l->n;
        uint64_t a = way_of(own) == BY_ADVANCE ? vembopu_advance(NUMBERS(l), own, state[b], row, l->n)
                                               : look_and_step(l, own, state[b], row, ballot + b);
        state[b] = vembopu_state(a);
        refused = vembopu_refusal(a);
    }
    return refused;
}

/* Returns when it is done, refused, or the wire is gone. */
static void bonder(const struct line *l, uint8_t own, int wire)
{
    struct guarded g = guarded_page();
    size_t len = (size_t)bits(l) * l->n;
    uint8_t *rows = g.page + g.size - len, message[MESSAGE] = {RUNNING};
    uint64_t state[WIDEST];
    uint32_t refused = open_bits(l, own, state);
    while (refused == 0) {
        refused = say(l, own, state, message);
        if (refused != 0)
            break;
        if (!write_all(wire, message, sizeof message) || message[0] == DONE || !read_all(wire, rows, len))
            return;
        refused = take_rows(l, own, state, rows, message + SHOWN);
    }
    message[0] = REFUSED;
    message[1] = (uint8_t)refused;
    write_all(wire, message, sizeof message);
}

/* ---- The processes of a line ---- */

/* A bonder's process keeps only its own end, so that it sees the wire go; and
   it has a time limit. */
static int start(const struct line *l, int i)
{
    int pair[2];
    if (socketpair(AF_UNIX, SOCK_STREAM, 0, pair) != 0)
        return 0;
    fflush(stdout);
    process[i] = fork();
    if (process[i] == 0) {
        for (int k = 1; k < i; k++)
            if (end_of[k] >= 0)
                close(end_of[k]);
        close(pair[0]);
        alarm(STATION_SECONDS);
        bonder(l, (uint8_t)i, pair[1]);
        _exit(0);
    }
    close(pair[1]);
    end_of[i] = pair[0];
    return process[i] > 0;
}

static int start_all(const struct line *l)
{
    for (int i = 1; i <= MOST; i++) {
        end_of[i] = -1;
        process[i] = 0;
    }
    for (int i = 1; i <= l->n; i++)
        if (!is_bad(l, i) && !start(l, i))
            return 0;
    return 1;
}

/* Every process of the line has ended when this returns: each sees its wire
   closed. 1 if all ended well. */
static int end_all(void)
{
    int well = 1;
    for (int i = 1; i <= MOST; i++)
        if (end_of[i] >= 0)
            close(end_of[i]);
    for (int i = 1; i <= MOST; i++) {
        int status = 0;
        if (process[i] > 0 && (waitpid(process[i], &status, 0) < 0 || status != 0))
            well = 0;
    }
    return well;
}

/* ---- The wire ---- */

static int differs(const struct line *l, int r, int i, const char *what)
{
    printf("n %d t %d T %d sender %d value %d w %d marks %08lx, round %d, station %d: %s\n", l->n, l->t, l->T, l->sender,
           l->value, l->w, (unsigned long)l->marks, r, i, what);
    return 0;
}

/* 1 if in this round a bad bonder's bytes are the tables', in each bit. */
static int as_in_tables(const struct line *l, int r, int i)
{
    int same = 1;
    for (int b = 0; b < bits(l); b++) {
        size_t at = place_of_bit(l, b, r, i, 1);
        same = same && memcmp(logged + at, table + at, l->n) == 0;
    }
    return same;
}

/* 1 if a good one's bytes to all are its ballots, in each bit. */
static int as_said(const struct line *l, int r, int i, const uint8_t *said)
{
    int same = 1;
    for (int k = 0; k < bits(l) * l->n; k++, ballots++)
        same = same && logged[place_of_bit(l, k / l->n, r, i, k % l->n + 1)] == said[k / l->n];
    return same;
}

/* 1 if what was shown before the last row is what is told after it, 255 when it is
   done: of all that have looked. */
static int as_shown(const struct line *l, int i, const uint8_t *m)
{
    int same = 1;
    for (int b = 0; way_of(i) != BY_ADVANCE && b < bits(l); b++, shown++)
        same = same && m[SHOWN + b] == (m[0] == DONE ? 255 : m[2 + b]);
    return same;
}

/* The ballots of each good bonder, held to all its bytes in the log. */
static int take_ballots(const struct line *l, int r, uint8_t said[][WIDEST])
{
    for (int i = 1; i <= l->n; i++) {
        uint8_t m[MESSAGE];
        if (is_bad(l, i)) {
            if (!as_in_tables(l, r, i))
                return differs(l, r, i, "a bad station's bytes are not the table's");
            continue;
        }
        if (!read_all(end_of[i], m, sizeof m))
            return differs(l, r, i, "no ballot");
        if (m[0] != RUNNING || m[1] != r)
            return differs(l, r, i, "not running in this round");
        memcpy(said[i], m + 2, WIDEST);
        if (!as_said(l, r, i, said[i]))
            return differs(l, r, i, "another ballot than in the log");
        if (r > 1 && !as_shown(l, i, m))
            return differs(l, r, i, "another ballot than was shown");
    }
    return 1;
}

static int hand_rows(const struct line *l, int r, uint8_t said[][WIDEST])
{
    uint8_t rows[WIDEST * MOST];
    for (int j = 1; j <= l->n; j++) {
        if (is_bad(l, j))
            continue;
        for (int k = 0; k < bits(l) * l->n; k++) {
            int b = k / l->n, i = k % l->n + 1;
            rows[k] = is_bad(l, i) ? table[place_of_bit(l, b, r, i, j)] : said[i][b];
        }
        if (!write_all(end_of[j], rows, (size_t)bits(l) * l->n))
            return differs(l, r, j, "takes no row");
    }
    return 1;
}

static int take_outcomes(const struct line *l)
{
    int done = rounds(l) + 1;
    for (int i = 1; i <= l->n; i++, decided++) {
        uint8_t m[MESSAGE] = {DONE, 255, 255, 255, 255}; /* a bad station's */
        if (!is_bad(l, i) && !read_all(end_of[i], m, sizeof m))
            return differs(l, done, i, "no outcome");
        if (m[0] != DONE)
            return differs(l, done, i, "not done after R rows");
        if (!is_bad(l, i) && !as_shown(l, i, m))
            return differs(l, done, i, "a ballot was shown before it was done");
        if (memcmp(outcomes + VEMBOPU_OUTCOME * (i - 1), m + 1, VEMBOPU_OUTCOME) != 0)
            return differs(l, done, i, "another outcome than the rehearsal's");
        if (vembopu_is_bad(outcomes + VEMBOPU_OUTCOME * (i - 1)) != is_bad(l, i))
            return differs(l, done, i, "good or bad by its outcome, and isn't");
        counted[m[4] % COUNTS] += way == BY_ADVANCE && !is_bad(l, i);
    }
    return 1;
}

static int rehearsed(const struct line *l)
{
    size_t len = tables_len(l);
    memset(logged, 170, sizeof logged);
    memset(outcomes, 170, sizeof outcomes);
    return vembopu_rehearse(l->n, l->t, l->T, l->sender, l->value, l->w, l->marks, table, len, logged, len,
                            outcomes, (size_t)VEMBOPU_OUTCOME * l->n) == 0;
}

/* The outcomes of all after bit b. */
static void take_ends(const struct line *l, int b, const uint8_t *ends, uint8_t *together)
{
    for (int i = 1; i <= l->n; i++) {
        size_t at = (size_t)VEMBOPU_OUTCOME * (size_t)(i - 1);
        if (is_bad(l, i))
            memset(together + at, 255, VEMBOPU_OUTCOME);
        else
            take_bit(together + at, b, ends + at);
    }
}

/* 1 if the rehearsal of each bit alone gives its part of the log, and their
   outcomes together the number's. */
static int bit_by_bit(const struct line *l)
{
    uint8_t ends[VEMBOPU_OUTCOME * MOST], together[VEMBOPU_OUTCOME * MOST];
    size_t len = table_len(l), of_line = (size_t)VEMBOPU_OUTCOME * l->n;
    int same = 1;
    for (int b = 0; b < bits(l); b++) {
        const uint8_t *part = table + (size_t)b * len;
        same = same && vembopu_rehearse(l->n, l->t, l->T, l->sender, l->value >> b & 1, (uint8_t)(b % 2), l->marks,
                                        part, len, log_of_bit, len, ends, of_line) == 0;
        same = same && memcmp(log_of_bit, logged + (size_t)b * len, len) == 0;
        take_ends(l, b, ends, together);
    }
    return same && memcmp(together, outcomes, of_line) == 0;
}

static int run(const struct line *l)
{
    uint8_t said[MOST + 1][WIDEST];
    int same = start_all(l) && rehearsed(l) && bit_by_bit(l);
    for (int r = 1; same && r <= rounds(l); r++)
        same = take_ballots(l, r, said) && hand_rows(l, r, said);
    same = same && take_outcomes(l);
    return end_all() && same;
}

static void check_way(const struct line *l, int rows_taken)
{
    way = rows_taken;
    check(run(l), "n %d t %d T %d sender %d value %d w %d marks %08lx, way %d", l->n, l->t, l->T, l->sender, l->value,
          l->w, (unsigned long)l->marks, way);
    of_way[way]++;
}

/* Every line takes its rows by advance, and then in one of the other ways, each of
   them in turn. */
static void check_line(const struct line *l)
{
    check_way(l, BY_ADVANCE);
    check_way(l, BY_OFFER + (int)(lines % (WAYS - BY_OFFER)));
    of_width[l->w]++;
    if (++lines % SAID_EVERY == 0) {
        printf("%lu lines\n", lines);
        fflush(stdout);
    }
}

/* ---- What bad stations send ---- */

enum { ANY, BITS, CODES, SPLIT, SILENT, CARDS, TABLES };

/* From silence with a garbled ballot here and there to garbled all along, by the
   sender's number. */
static uint8_t from_card(int from)
{
    return draw(32) < (uint32_t)from ? (uint8_t)(2 + draw(253)) : 255;
}

/* Good stations' places have any bytes: these have no effect. */
static void draw_table(const struct line *l, int kind)
{
    static const uint8_t code[] = {0, 1, 2, 255};
    size_t len = tables_len(l);
    for (size_t k = 0; k < len; k++) {
        int to = (int)(k % l->n), from = (int)(k / l->n % l->n) + 1;
        if (kind == ANY || !is_bad(l, from))
            table[k] = (uint8_t)draw(256);
        else if (kind == SPLIT)
            table[k] = to < l->n / 2;
        else if (kind == CARDS)
            table[k] = from_card(from);
        else
            table[k] = kind == SILENT ? 255 : code[draw(kind == BITS ? 2 : 4)];
    }
}

/* ---- The lines ---- */

/* Stations 1 to k. */
static uint32_t first(int k)
{
    return k >= 32 ? 0xffffffffu : ((uint32_t)1 << k) - 1;
}

/* k stations by lot, or all if there are fewer. */
static uint32_t some(int n, int k)
{
    uint32_t marks = 0;
    for (int left = k < n ? k : n; left > 0;) {
        uint32_t one = (uint32_t)1 << draw((uint32_t)n);
        left -= (marks & one) == 0;
        marks |= one;
    }
    return marks;
}

/* Mostly a number of few bits. */
static void draw_number(struct line *l)
{
    l->w = (uint8_t)draw(draw(3) == 0 ? WIDEST + 1 : 3);
    l->value = (uint8_t)draw((uint32_t)1 << bits(l));
}

/* One line with each kind of marks: none, all, the sender alone, t and T
   stations, the first t kings, all kings. */
static void each_marking(int n, int t, int T)
{
    struct line l = {(uint8_t)n, (uint8_t)t, (uint8_t)T, (uint8_t)(1 + draw((uint32_t)n)), 0, 0, 0};
    uint32_t sender = (uint32_t)1 << (l.sender - 1);
    uint32_t marks[] = {0, first(n), sender, some(n, t), some(n, T), first(t), first(t + 1)};
    for (size_t k = 0; k < sizeof marks / sizeof marks[0]; k++) {
        draw_number(&l);
        l.marks = marks[k];
        draw_table(&l, (int)draw(TABLES));
        check_line(&l);
    }
}

/* Every n, with the largest t and with the largest T. */
static void every_size(void)
{
    for (int n = 1; n <= MOST; n++) {
        each_marking(n, (n - 1) / 3, (n - 1) / 3);
        each_marking(n, 0, (n - 1) / 2);
    }
}

/* The largest line and the one of the largest T, then eight bits of the largest,
   under every kind of table. */
static void largest(void)
{
    static const struct line all[] = {{32, 10, 10, 1, 1, 0, 0}, {32, 0, 15, 32, 0, 1, 0}, {32, 10, 10, 7, 255, 8, 0}};
    for (int k = 0; k < 3 * TABLES; k++) {
        struct line l = all[k / TABLES];
        l.marks = some(l.n, l.T) | (uint32_t)(k % 2) << (l.sender - 1);
        draw_table(&l, k % TABLES);
        check_line(&l);
    }
}

static void by_lot(void)
{
    for (int k = 0; k < DRAWN_LINES; k++) {
        int n = 1 + (int)draw(MOST);
        int T = (int)draw((uint32_t)(n - 1) / 2 + 1);
        int most = n - 1 - 2 * T < T ? n - 1 - 2 * T : T;
        int t = (int)draw((uint32_t)most + 1);
        struct line l = {(uint8_t)n, (uint8_t)t, (uint8_t)T, (uint8_t)(1 + draw((uint32_t)n)),
                         0, 0, some(n, (int)draw((uint32_t)n + 1))};
        draw_number(&l);
        draw_table(&l, k % TABLES);
        check_line(&l);
    }
}

/* ---- The documents' cases ---- */

#define BAD 255, 255, 255, 255
#define WANT (const uint8_t[])

static void check_case(char name, const struct line *l, const uint8_t *want)
{
    check_line(l);
    check(memcmp(outcomes, want, (size_t)VEMBOPU_OUTCOME * l->n) == 0, "outcomes of case %c, w %d, value %d", name, l->w,
          l->value);
}

/* Case A with garbled ballots from station 4 to station 1 in rounds 1 to 3, and
   blanks to station 2. In round 1 it is not the sender, and in round 3 a blank
   has a meaning. */
static void garbled_case(const struct line *a)
{
    for (int r = 1; r <= 3; r++) {
        table[place(a, r, 4, 1)] = 77;
        table[place(a, r, 4, 2)] = 2;
    }
    check_case('A', a, WANT{1, 2, 0, 2, 1, 2, 0, 1, 1, 2, 0, 0, BAD});
}

/* Case C, but that in round 6 station 1 says nothing: stations 2 and 3 have a zero
   and a one each, keep 0 with grade 0, and flag. */
static void balance_case(const struct line *c)
{
    table[place(c, 6, 1, 2)] = table[place(c, 6, 1, 3)] = 255;
    check_case('C', c, WANT{BAD, 0, 0, 1, 0, 0, 0, 1, 0});
}

/* With w 0, and with w 1, which it stands for. */
static void cases(uint8_t w)
{
    const struct line a = {4, 1, 1, 1, 1, w, 8}, b = {4, 0, 1, 4, 0, w, 8}, c = {3, 0, 1, 1, 0, w, 1};
    const struct line d = {1, 0, 0, 1, 0, w, 0}, bad = {1, 0, 0, 1, 0, w, 1};
    static const int told[] = {1, 2, 3, 5, 6};
    memset(table, 255, sizeof table);
    check_case('A', &a, WANT{1, 2, 0, 0, 1, 2, 0, 0, 1, 2, 0, 0, BAD});
    garbled_case(&a);
    memset(table, 255, sizeof table);
    table[place(&b, 1, 4, 1)] = 1;
    table[place(&b, 1, 4, 2)] = table[place(&b, 1, 4, 3)] = 0;
    check_case('B', &b, WANT{0, 1, 1, 0, 0, 1, 1, 0, 0, 1, 1, 0, BAD});
    memset(table, 255, sizeof table);
    for (int k = 0; k < 5; k++) {
        table[place(&c, told[k], 1, 2)] = 0;
        table[place(&c, told[k], 1, 3)] = 1;
    }
    check_case('C', &c, WANT{BAD, 0, 1, 1, 0, 1, 1, 1, 0});
    balance_case(&c);
    check_case('D', &d, WANT{0, 2, 0, 0});
    check_case('D', &bad, WANT{BAD});
}

/* Case A's line with the largest number, beside a bad station; then what station 4
   sends is garbled: at station 1 in one round of bit 0 and three of bit 7, at
   station 2 in two of bit 0 and one of bit 6. The largest counts. */
static void largest_number(void)
{
    static const struct line a = {4, 1, 1, 1, 255, 8, 8};
    static const int told[][3] = {{0, 2, 1}, {7, 2, 1}, {7, 3, 1}, {7, 5, 1}, {0, 2, 2}, {0, 3, 2}, {6, 5, 2}};
    memset(table, 255, sizeof table);
    check_case('A', &a, WANT{255, 2, 0, 0, 255, 2, 0, 0, 255, 2, 0, 0, BAD});
    for (int k = 0; k < 7; k++)
        table[place_of_bit(&a, told[k][0], told[k][1], 4, told[k][2])] = 77;
    check_case('A', &a, WANT{255, 2, 0, 3, 255, 2, 0, 2, 255, 2, 0, 0, BAD});
}

/* Case C in bit 2 of three, and silence in the others: the numbers 0 and 4, and
   both flag. */
static void different_numbers(void)
{
    static const struct line c = {3, 0, 1, 1, 0, 3, 1};
    static const int told[] = {1, 2, 3, 5, 6};
    memset(table, 255, sizeof table);
    for (int k = 0; k < 5; k++) {
        table[place_of_bit(&c, 2, told[k], 1, 2)] = 0;
        table[place_of_bit(&c, 2, told[k], 1, 3)] = 1;
    }
    check_case('C', &c, WANT{BAD, 0, 1, 1, 0, 4, 1, 1, 0});
}

/* Case B's line with a good sender. Station 4 keeps the rules where the bit is 0,
   the last bit or the first, and is silent in the other, which alone has grade 1
   and a flag. */
static void flagged_in_one_bit(void)
{
    static const int exchanges[] = {2, 3, 5, 6};
    for (uint8_t number = 1; number <= 2; number++) {
        const struct line b = {4, 0, 1, 1, number, 2, 8};
        memset(table, 255, sizeof table);
        for (int k = 0; k < 4; k++)
            memset(table + place_of_bit(&b, number == 1, exchanges[k], 4, 1), 0, 4);
        check_case('B', &b, WANT{number, 1, 1, 0, number, 1, 1, 0, number, 1, 1, 0, BAD});
    }
}

/* The counts that good stations ended with: none, and most that there can be. */
static void check_counts(void)
{
    int kinds = 0;
    for (int k = 0; k < COUNTS; k++)
        kinds += counted[k] > 0;
    printf("good stations without a garbled round: %lu; other counts that came: %d\n", counted[0], kinds - 1);
    check(counted[0] > 0 && kinds > 25, "too few counts came: %d", kinds);
}

static void check_widths(void)
{
    for (int w = 0; w <= WIDEST; w++) {
        printf("%s%d: %lu%s", w == 0 ? "lines by w: " : "", w, of_width[w], w < WIDEST ? ", " : "\n");
        check(of_width[w] > 9, "too few lines with w %d: %lu", w, of_width[w]);
    }
}

static void check_ways(void)
{
    static const char *const name[WAYS] = {"advance", "offer", "lent offer", "all three"};
    for (int k = 0; k < WAYS; k++) {
        printf("%sby %s: %lu%s", k == 0 ? "lines " : "", name[k], of_way[k], k < BY_NUMBER ? ", " : "\n");
        check(of_way[k] > 99, "too few lines by %s: %lu", name[k], of_way[k]);
    }
    check(of_way[BY_ADVANCE] == lines, "%lu of %lu lines by advance", of_way[BY_ADVANCE], lines);
}

int main(void)
{
    signal(SIGPIPE, SIG_IGN);
    cases(0);
    cases(1);
    largest_number();
    different_numbers();
    flagged_in_one_bit();
    largest();
    every_size();
    by_lot();
    check_counts();
    check_widths();
    check_ways();
    printf("%lu lines: %lu ballots held to the log, %lu of them shown before, %lu outcomes\n", lines, ballots, shown,
           decided);
    return closing_count();
}
