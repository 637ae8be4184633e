/*
 * How much stack each call needs. It runs on a painted stack of its own; as far
 * down as the paint is gone, the stack was used. The most that a call needs on
 * any of the inputs is held to the limit in its header: not above it, and not
 * below half of it.
 */
#define _DEFAULT_SOURCE
#include "check.h"
#include "exports.h"
#include "inputs.h"
#include "model.h"

#include <ucontext.h>

/* Painted is what lies beside a call, and twice its limit: one that needs more is
   told, and has the rest of the stack. */
enum { STACK = 1 << 20, ROOM = 512, BESIDE = 8192, TIMES = 2 };

static uint8_t stack[STACK];
static ucontext_t here, there;
static void (*running)(void);

/* ---- The painted stack ---- */

/* The room parts what a call lays on the stack from what entering and leaving
   the context does. */
static void on_stack(void)
{
    volatile uint8_t room[ROOM];
    room[0] = 0;
    running();
    room[ROOM - 1] = room[0];
}

static void enter_stack(void)
{
    if (getcontext(&there) != 0)
        exit(2);
    there.uc_stack.ss_sp = stack;
    there.uc_stack.ss_size = STACK;
    there.uc_link = &here;
    makecontext(&there, on_stack, 0);
    if (swapcontext(&here, &there) != 0)
        exit(2);
}

/* The bytes from the stack's top down to the last that isn't paint, of so many
   that are painted. */
static size_t depth(void (*run)(void), uint8_t paint, size_t painted)
{
    size_t left = painted;
    memset(stack + STACK - painted, paint, painted);
    running = run;
    enter_stack();
    while (left > 0 && stack[STACK - left] == paint)
        left--;
    return left;
}

/* A stored byte differs from one of the two paints. */
static size_t deepest(void (*run)(void), size_t painted)
{
    size_t one = depth(run, 0xa5, painted), other = depth(run, 0x5a, painted);
    return one > other ? one : other;
}

static void nothing(void)
{
}

/* ---- The calls ---- */

static struct call c;
static struct vembopu_station lent, lent_before;
static uint64_t handed; /* the offer */
static const struct read_input *reading;
static const struct write_input *writing;
static const struct generate_input *generating;
static const struct rehearse_input *rehearsing;
static const struct check_input *checking;
static const struct exchange_input *exchanging;
static uint8_t row[INPUTS], header[HEADER + RECORD], sheet[SHEET + RECORD];
static uint8_t table[TABLES], logged[TABLES], outcomes[OUTCOMES];
static size_t sheet_len;
static uint8_t bit;
static uint32_t number; /* what the call is answered by */

#define NUMBERS (uint8_t)c.n, (uint8_t)c.t, (uint8_t)c.T, (uint8_t)c.sender, (uint8_t)c.own

static void open_station(void)
{
    number = vembopu_refusal(vembopu_open(NUMBERS, (uint8_t)c.value));
}

static void ballot(void)
{
    number = vembopu_refusal(vembopu_ballot(NUMBERS, state_bits(&c)));
}

static void advance(void)
{
    number = vembopu_refusal(vembopu_advance(NUMBERS, state_bits(&c), c.row, c.row_len));
}

static void result(void)
{
    number = vembopu_refusal(vembopu_result(NUMBERS, state_bits(&c)));
}

static void advance_lent(void)
{
    lent = lent_before;
    number = vembopu_advance_lent(&lent, c.row, c.row_len);
}

static void offer(void)
{
    number = vembopu_refusal(vembopu_offer(NUMBERS, state_bits(&c), c.row, c.row_len));
}

static void accept(void)
{
    number = vembopu_refusal(vembopu_accept(NUMBERS, state_bits(&c), c.row, c.row_len, handed));
}

static void accept_lent(void)
{
    lent = lent_before;
    number = vembopu_accept_lent(&lent, c.row, c.row_len, handed);
}

static void read_sheet(void)
{
    number = vembopu_read(sheet, sheet_len, table, reading->table_len);
}

static void read_bit(void)
{
    number = vembopu_read_bit(sheet, sheet_len, bit, table, table_of_bit(reading));
}

static void sheet_bytes(void)
{
    number = vembopu_refusal(vembopu_sheet_len(header, writing->header_len, table, writing->table_len));
}

static void write_sheet(void)
{
    const struct write_input *i = writing;
    number = vembopu_refusal(vembopu_write(header, i->header_len, table, i->table_len, sheet, i->sheet_len));
}

static void generate(void)
{
    const struct generate_input *i = generating;
    number = vembopu_generate(header, i->header_len, i->seed, table, i->table_len);
}

static void rehearse(void)
{
    const struct rehearse_input *i = rehearsing;
    number = vembopu_rehearse(i->n, i->t, i->T, i->sender, i->value, i->w, i->marks, table, i->table_len, logged,
                              i->log_len, outcomes, i->outcomes_len);
}

static void check_log(void)
{
    const struct check_input *i = checking;
    number = vembopu_refusal(vembopu_check(i->n, i->t, i->T, i->sender, logged, i->log_len, outcomes, i->outcomes_len));
}

static void exchange(void)
{
    const struct exchange_input *i = exchanging;
    number = vembopu_exchange(i->n, i->t, i->T, i->marks, row, i->inputs_len, table, i->table_len, outcomes,
                              i->outcomes_len);
}

static struct measured {
    const char *name;
    void (*run)(void);
    size_t limit, most;
    unsigned long accepted, refused, wrong;
} calls[] = {
    {"vembopu_open", open_station, VEMBOPU_STACK_OPEN, 0, 0, 0, 0},
    {"vembopu_ballot", ballot, VEMBOPU_STACK_BALLOT, 0, 0, 0, 0},
    {"vembopu_advance", advance, VEMBOPU_STACK_ADVANCE, 0, 0, 0, 0},
    {"vembopu_result", result, VEMBOPU_STACK_RESULT, 0, 0, 0, 0},
    {"vembopu_advance_lent", advance_lent, VEMBOPU_STACK_ADVANCE_LENT, 0, 0, 0, 0},
    {"vembopu_offer", offer, VEMBOPU_STACK_OFFER, 0, 0, 0, 0},
    {"vembopu_accept", accept, VEMBOPU_STACK_ACCEPT, 0, 0, 0, 0},
    {"vembopu_accept_lent", accept_lent, VEMBOPU_STACK_ACCEPT_LENT, 0, 0, 0, 0},
    {"vembopu_read", read_sheet, VEMBOPU_STACK_READ, 0, 0, 0, 0},
    {"vembopu_read_bit", read_bit, VEMBOPU_STACK_READ_BIT, 0, 0, 0, 0},
    {"vembopu_sheet_len", sheet_bytes, VEMBOPU_STACK_SHEET_LEN, 0, 0, 0, 0},
    {"vembopu_write", write_sheet, VEMBOPU_STACK_WRITE, 0, 0, 0, 0},
    {"vembopu_generate", generate, VEMBOPU_STACK_GENERATE, 0, 0, 0, 0},
    {"vembopu_rehearse", rehearse, VEMBOPU_STACK_REHEARSE, 0, 0, 0, 0},
    {"vembopu_check", check_log, VEMBOPU_STACK_CHECK, 0, 0, 0, 0},
    {"vembopu_exchange", exchange, VEMBOPU_STACK_EXCHANGE, 0, 0, 0, 0},
};

enum {
    OPEN, BALLOT, ADVANCE, RESULT, LENT, OFFER, ACCEPT, ACCEPT_LENT,
    READ, READ_BIT, SHEET_LEN, WRITE, GENERATE, REHEARSE, CHECK, EXCHANGE
};

/* ---- Measuring ---- */

/* The call's need on the inputs as they are, which it must answer by this
   number. It is run once before: what the dynamic linker does at the first use
   of the C library's memset is not the call's. */
static void measure(int which, int want)
{
    struct measured *m = &calls[which];
    size_t painted = BESIDE + TIMES * m->limit;
    m->run();
    size_t need = deepest(m->run, painted) - deepest(nothing, painted);
    m->most = need > m->most ? need : m->most;
    m->wrong += number != (uint32_t)want;
    m->accepted += number == 0;
    m->refused += number != 0;
}

/* With the right offer, and with one whose ballot is another. */
static void measure_acceptance(void)
{
    for (int i = 0; i < 2; i++) {
        c.other = (uint64_t)i << 40;
        handed = handed_offer(&c);
        measure(ACCEPT, judge_accept(&c));
        measure(ACCEPT_LENT, judge_accept(&c));
    }
}

static void measure_station(void)
{
    lent_before = vembopu_station_of(NUMBERS, state_bits(&c));
    measure(OPEN, judge_open(&c));
    measure(BALLOT, judge_ballot(&c));
    measure(ADVANCE, judge_advance(&c));
    measure(RESULT, judge_result(&c));
    measure(LENT, judge_advance(&c));
    measure(OFFER, judge_advance(&c));
    measure_acceptance();
}

/* Every round, and one before and after, with rows of one byte and with one of
   all kinds. */
static void stations_of(const uint8_t *line)
{
    int last = 3 * line[1] + 8;
    for (int i = 0; i < 6 * (last + 1); i++) {
        struct call next = {line[0], line[1], line[2], line[3], line[4], line[5], i / 6,
                            i % 2,   2,       i % 3,   i / 12,  row,     line[0], 0};
        for (int k = 0; k < INPUTS; k++)
            row[k] = (uint8_t)(i % 6 < 4 ? i % 6 : k % 4);
        c = next;
        measure_station();
    }
    c.row_len = 0;
    measure_station();
}

/* n, t, T, sender, own, value; the last ones are refused. */
static void stations(void)
{
    static const uint8_t lines[][6] = {{32, 10, 10, 32, 1, 1}, {32, 0, 15, 1, 32, 0}, {4, 1, 1, 2, 2, 1},
                                       {1, 0, 0, 1, 1, 0},     {0, 0, 0, 1, 1, 1},    {32, 11, 11, 1, 1, 1},
                                       {32, 10, 10, 33, 1, 1}, {32, 10, 10, 1, 0, 1}, {32, 10, 10, 1, 1, 2}};
    for (size_t i = 0; i < COUNT(lines); i++)
        stations_of(lines[i]);
}

/* All bits, the last one, and one that the sheet hasn't. */
static void sheets(void)
{
    for (size_t i = 0; i < COUNT(read_inputs); i++) {
        reading = &read_inputs[i];
        sheet_len = make_sheet(sheet, reading->w, reading->k) + reading->more;
        sheet[reading->at] = reading->byte;
        measure(READ, reading->number);
        bit = (uint8_t)(vembopu_bits(reading->w) - 1);
        measure(READ_BIT, number_of_bit(reading, bit));
        bit++;
        measure(READ_BIT, number_of_bit(reading, bit));
    }
}

/* The header of a sheet, and a record behind it, with a byte changed. */
static void make_header(uint8_t w, size_t at, uint8_t byte)
{
    make_sheet(sheet, w, 1);
    memcpy(header, sheet, sizeof header);
    header[at] = byte;
}

static void writings(void)
{
    for (size_t i = 0; i < COUNT(write_inputs); i++) {
        writing = &write_inputs[i];
        make_header(writing->w, writing->at, writing->byte);
        make_table(table, writing->w, writing->k);
        measure(WRITE, writing->number);
        measure(SHEET_LEN, refused_by_sheet(writing) ? 0 : writing->number);
    }
}

static void generations(void)
{
    for (size_t i = 0; i < COUNT(generate_inputs); i++) {
        generating = &generate_inputs[i];
        make_header(generating->w, generating->at, generating->byte);
        measure(GENERATE, generating->number);
    }
}

static void rehearsals(void)
{
    memset(table, 1, sizeof table);
    for (size_t i = 0; i < COUNT(rehearse_inputs); i++) {
        rehearsing = &rehearse_inputs[i];
        measure(REHEARSE, rehearsing->number);
    }
}

/* Every input with the largest line's log, in which all keep the rules, and with
   one in which none does. */
static void checks(void)
{
    for (size_t i = 0; i < 2 * COUNT(check_inputs); i++) {
        checking = &check_inputs[i / 2];
        vembopu_rehearse(32, 10, 10, 1, 1, 1, 0, table, TABLE, logged, TABLE, outcomes, OUTCOMES);
        if (i % 2 == 1)
            memset(logged, 7, sizeof logged);
        measure(CHECK, checking->number);
    }
}

static void exchanges(void)
{
    for (size_t i = 0; i < COUNT(exchange_inputs); i++) {
        exchanging = &exchange_inputs[i];
        memset(row, 1, sizeof row);
        row[0] = exchanging->input;
        measure(EXCHANGE, exchanging->number);
    }
}

static void hold_to_limit(const struct measured *m)
{
    printf("%-20s %5lu bytes of stack, limit %5lu, %lu inputs accepted, %lu refused\n", m->name,
           (unsigned long)m->most, (unsigned long)m->limit, m->accepted, m->refused);
    check(m->most <= m->limit, "%s needs more than its limit", m->name);
    check(m->most >= m->limit / 2, "%s needs less than half of its limit", m->name);
    check(m->wrong == 0, "%s answers %lu inputs by another number", m->name, m->wrong);
    check(m->accepted > 0 && m->refused > 0, "%s is not accepted, or not refused, on any input", m->name);
}

int main(void)
{
    stations();
    sheets();
    writings();
    generations();
    rehearsals();
    checks();
    exchanges();
    for (size_t i = 0; i < COUNT(calls); i++)
        hold_to_limit(&calls[i]);
    return closing_count();
}
