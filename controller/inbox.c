/*
 * The sketch inbox.h: each rule by itself, then whole lines by the clock. The
 * stations start at different times, and what they send takes different times.
 * Ballots come early and more than once; bad stations also send what has to be
 * dropped, and what is no message. Every outcome is held to the rehearsal's.
 */
#define _DEFAULT_SOURCE
#include "check.h"
#include "exports.h"
#include "inbox.h"

/* The number of the run; that of what is no message. */
enum { RUN = 7, BROKEN = 0 };
enum { MOST = 8, LARGEST = 12 * MOST * MOST, LINES = 300 };

/* The clock's ticks: between the starts of two stations, to send, on the way;
   and the round that README.md makes of them. */
enum { APART = 5, SENDING = 3, WAY = 4, ROUND = APART + SENDING + WAY + 1, QUEUE = 65536 };

static void arrive(struct inbox *in, uint8_t port, const struct inbox_message *m)
{
    if (m->run == BROKEN)
        inbox_garbled(in, port);
    else
        inbox_take(in, port, m);
}

/* ---- Each rule ---- */

/* The places of one round, from station 1 on, after the messages, in round 3
   of station 2 of 4. */
static void rule(const char *what, int ahead, const struct inbox_message *m, const uint8_t *port, int count,
                 const uint8_t *want)
{
    struct inbox in;
    inbox_open(&in, RUN, 4, 2);
    inbox_next(&in);
    inbox_next(&in);
    for (int k = 0; k < count; k++)
        arrive(&in, port[k], &m[k]);
    for (int k = 0; k < ahead; k++)
        inbox_next(&in);
    check(memcmp(inbox_row(&in, 9), want, 4) == 0, "%s: %d %d %d %d", what, in.row[0][0], in.row[0][1], in.row[0][2],
          in.row[0][3]);
}

static void rules(void)
{
    static const uint8_t port[] = {1, 1}, other[] = {3}, own[] = {2}, zero[] = {0}, above[] = {5}, far_above[] = {255};
    static const uint8_t none[] = {255, 9, 255, 255}, one[] = {1, 9, 255, 255}, garbled[] = {77, 9, 255, 255};
    static const struct inbox_message good[] = {{RUN, 3, 1, 1}, {RUN, 3, 1, 0}};
    static const struct inbox_message next[] = {{RUN, 4, 1, 1}, {RUN, 4, 1, 0}};
    static const struct inbox_message late[] = {{RUN, 2, 1, 1}}, far[] = {{RUN, 5, 1, 1}}, run[] = {{RUN + 1, 3, 1, 1}};
    static const struct inbox_message self[] = {{RUN, 3, 2, 1}}, byte[] = {{RUN, 3, 1, 77}};
    static const struct inbox_message from_0[] = {{RUN, 3, 0, 1}}, from_5[] = {{RUN, 3, 5, 1}};
    static const struct inbox_message from_255[] = {{RUN, 3, 255, 1}};
    rule("nothing", 0, good, port, 0, none);
    rule("a ballot", 0, good, port, 1, one);
    rule("a second ballot", 0, good, port, 2, one);
    rule("a ballot in the round after", 1, good, port, 1, none);
    rule("an early ballot now", 0, next, port, 1, none);
    rule("an early ballot", 1, next, port, 1, one);
    rule("a second early ballot", 1, next, port, 2, one);
    rule("a late ballot", 0, late, port, 1, none);
    for (int ahead = 0; ahead < 3; ahead++)
        rule("a ballot two rounds early", ahead, far, port, 1, none);
    rule("another run", 0, run, port, 1, none);
    rule("another's port", 0, good, other, 1, none);
    rule("its own number", 0, self, own, 1, none);
    rule("port 0", 0, from_0, zero, 1, none);
    rule("a port above n", 0, from_5, above, 1, none);
    rule("port 255", 0, from_255, far_above, 1, none);
    rule("a garbled byte", 0, byte, port, 1, garbled);
}

/* What is no message counts for nothing where a ballot came. */
static void broken_rules(void)
{
    static const uint8_t port[] = {1, 1}, own[] = {2}, zero[] = {0}, above[] = {5}, far_above[] = {255};
    static const uint8_t none[] = {255, 9, 255, 255}, one[] = {1, 9, 255, 255}, broken[] = {254, 9, 255, 255};
    static const struct inbox_message no[] = {{BROKEN, 0, 0, 0}, {BROKEN, 0, 0, 0}};
    static const struct inbox_message before[] = {{BROKEN, 0, 0, 0}, {RUN, 3, 1, 1}};
    static const struct inbox_message behind[] = {{RUN, 3, 1, 1}, {BROKEN, 0, 0, 0}};
    static const struct inbox_message early[] = {{RUN, 4, 1, 1}, {BROKEN, 0, 0, 0}};
    static const struct inbox_message late[] = {{RUN, 2, 1, 1}, {BROKEN, 0, 0, 0}};
    rule("no message", 0, no, port, 1, broken);
    rule("no message, twice", 0, no, port, 2, broken);
    rule("no message, in the round after", 1, no, port, 1, none);
    rule("no message, then a ballot", 0, before, port, 2, one);
    rule("a ballot, then no message", 0, behind, port, 2, one);
    rule("an early ballot, and no message now", 0, early, port, 2, broken);
    rule("an early ballot, and no message before", 1, early, port, 2, one);
    rule("a late ballot, then no message", 0, late, port, 2, broken);
    rule("no message on its own port", 0, no, own, 1, none);
    rule("no message on port 0", 0, no, zero, 1, none);
    rule("no message on a port above n", 0, no, above, 1, none);
    rule("no message on port 255", 0, no, far_above, 1, none);
}

/* ---- The wire ---- */

struct line {
    uint8_t n, t, T, sender, value;
    uint32_t marks;
    int start[MOST + 1];
};

static struct letter {
    int time;
    uint8_t to, port;
    struct inbox_message m;
} queue[QUEUE];
static int queued;
static uint8_t table[LARGEST], logged[LARGEST], outcomes[VEMBOPU_OUTCOME * MOST];
static unsigned long counted; /* good stations with a garbled round */

static int is_bad(const struct line *l, int i)
{
    return l->marks >> (i - 1) & 1;
}

static void post(int time, int to, int port, uint32_t run, int round, int from, int ballot)
{
    struct letter x = {time, (uint8_t)to, (uint8_t)port, {run, (uint8_t)round, (uint8_t)from, (uint8_t)ballot}};
    if (queued < QUEUE)
        queue[queued++] = x;
}

/* A good station's ballot, to all others, and sometimes once more. */
static void send_all(const struct line *l, int i, int round, int ballot, int now)
{
    for (int j = 1; j <= l->n; j++) {
        if (j == i || ballot == VEMBOPU_SILENCE)
            continue;
        int time = now + (int)draw(SENDING + 1) + (int)draw(WAY + 1);
        post(time, j, i, RUN, round, i, ballot);
        if (draw(4) == 0)
            post(time + (int)draw(2 * ROUND), j, i, RUN, round, i, ballot);
    }
}

/* What bad station i sends to j for a round: the table's byte, in that round or
   the one before, or what is no message; and more, all of which has to be
   dropped. */
static void send_bad(const struct line *l, int i, int j, int round)
{
    int begins = l->start[j] + (round - 1) * ROUND, early = round > 1 && draw(4) == 0 ? ROUND : 0;
    int time = begins - early + (int)draw(ROUND), byte = table[((round - 1) * l->n + i - 1) * l->n + j - 1];
    int other = 1 + (int)draw(l->n);
    if (byte != VEMBOPU_SILENCE)
        post(begins + (int)draw(ROUND), j, i, BROKEN, 0, 0, 0);
    if (byte != VEMBOPU_SILENCE && byte != INBOX_GARBLED) {
        post(time, j, i, RUN, round, i, byte);
        post(time + 1 + (int)draw(ROUND), j, i, RUN, round, i, (int)draw(3));
    }
    post(begins + ROUND + (int)draw(ROUND), j, i, RUN, round, i, (int)draw(2));
    if (round > 2)
        post(begins - ROUND - 1 - (int)draw(ROUND), j, i, RUN, round, i, (int)draw(2));
    post(begins + (int)draw(ROUND), j, i, RUN + 1, round, i, (int)draw(2));
    if (other != i)
        post(begins - ROUND + (int)draw(2 * ROUND), j, i, RUN, round, other, (int)draw(2));
}

/* ---- A line by the clock ---- */

static struct vembopu_station station[MOST + 1];
static struct inbox box[MOST + 1];
static uint8_t said[MOST + 1];

static uint64_t result_of(const struct vembopu_station *s)
{
    return vembopu_result(s->n, s->t, s->upper, s->sender, s->own, vembopu_state_of(s));
}

/* At the start of a round: the row of the one before, then the ballot. */
static int begin_round(const struct line *l, int i, int round, int now)
{
    struct vembopu_station *s = &station[i];
    if (round > 1 && vembopu_advance_lent(s, inbox_row(&box[i], said[i]), l->n) != 0)
        return 0;
    if (round > 1)
        inbox_next(&box[i]);
    said[i] = vembopu_ballot_byte(vembopu_ballot(s->n, s->t, s->upper, s->sender, s->own, vembopu_state_of(s)));
    send_all(l, i, round, said[i], now);
    return 1;
}

/* A tick: first the clocks, then what arrives. */
static int tick(const struct line *l, int now)
{
    int well = 1;
    for (int i = 1; i <= l->n; i++) {
        int since = now - l->start[i];
        if (!is_bad(l, i) && since >= 0 && since % ROUND == 0 && since / ROUND <= vembopu_rounds(l->t))
            well = begin_round(l, i, since / ROUND + 1, now) && well;
    }
    for (int k = 0; k < queued; k++)
        if (queue[k].time == now && !is_bad(l, queue[k].to))
            arrive(&box[queue[k].to], queue[k].port, &queue[k].m);
    return well;
}

static void open_all(const struct line *l)
{
    queued = 0;
    for (int j = 1; j <= l->n; j++) {
        uint64_t state = vembopu_state(vembopu_open(l->n, l->t, l->T, l->sender, (uint8_t)j, l->value));
        station[j] = vembopu_station_of(l->n, l->t, l->T, l->sender, (uint8_t)j, state);
        inbox_open(&box[j], RUN, l->n, (uint8_t)j);
        for (int k = 0; k < l->n * vembopu_rounds(l->t); k++)
            if (is_bad(l, k % l->n + 1))
                send_bad(l, k % l->n + 1, j, k / l->n + 1);
    }
}

static int as_rehearsed(const struct line *l)
{
    size_t len = (size_t)vembopu_rounds(l->t) * l->n * l->n;
    int same = vembopu_rehearse(l->n, l->t, l->T, l->sender, l->value, 1, l->marks, table, len, logged, len, outcomes,
                                (size_t)VEMBOPU_OUTCOME * l->n) == 0;
    for (int i = 1; i <= l->n; i++) {
        uint64_t a = result_of(&station[i]);
        const uint8_t got[VEMBOPU_OUTCOME] = {vembopu_value(a), vembopu_grade(a), vembopu_flag(a), vembopu_garbled(a)};
        same = same && (is_bad(l, i) || memcmp(got, outcomes + VEMBOPU_OUTCOME * (i - 1), sizeof got) == 0);
        counted += !is_bad(l, i) && vembopu_garbled(a) > 0;
    }
    return same;
}

static int run(const struct line *l)
{
    int well = 1, end = vembopu_rounds(l->t) * ROUND + APART;
    open_all(l);
    for (int now = -ROUND; now <= end; now++)
        well = tick(l, now) && well;
    return well && queued < QUEUE && as_rehearsed(l);
}

static void by_lot(void)
{
    static const uint8_t code[] = {0, 1, 2, 255, INBOX_GARBLED, 77};
    for (int k = 0; k < LINES; k++) {
        struct line l = {(uint8_t)(2 + draw(MOST - 1)), 0, 0, 0, (uint8_t)draw(2), 0, {0}};
        l.T = (uint8_t)draw((uint32_t)(l.n - 1) / 2 + 1);
        l.t = (uint8_t)(l.n - 1 - 2 * l.T < l.T ? l.n - 1 - 2 * l.T : l.T);
        l.sender = (uint8_t)(1 + draw(l.n));
        l.marks = draw_word() & draw_word() & ((1u << l.n) - 1);
        for (int i = 1; i <= l.n; i++)
            l.start[i] = (int)draw(APART + 1);
        for (int i = 0; i < LARGEST; i++)
            table[i] = code[draw(k % 2 == 0 ? 4 : 6)];
        check(run(&l), "line %d: n %d t %d T %d sender %d value %d marks %lx", k, l.n, l.t, l.T, l.sender, l.value,
              (unsigned long)l.marks);
    }
}

int main(void)
{
    rules();
    broken_rules();
    by_lot();
    check(counted > 0, "no station has a garbled round");
    return closing_count();
}
