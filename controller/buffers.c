/*
 * The buffers of the calls on a whole line. Each is laid at the start and at
 * the end of pages between others that can't be touched. What is only read
 * stands on pages that can only be read, and in a refused call all that is
 * lent. Then NULL with length 0, for each buffer.
 */
#define _DEFAULT_SOURCE
#include "check.h"
#include "exports.h"
#include "inputs.h"

enum { READ, READ_BIT, SHEET_LEN, WRITE, GENERATE, REHEARSE, CHECK, EXCHANGE };
enum { BUFFERS = 3 };

static const char *const call_name[] = {"vembopu_read",  "vembopu_read_bit", "vembopu_sheet_len",
                                        "vembopu_write", "vembopu_generate", "vembopu_rehearse",
                                        "vembopu_check", "vembopu_exchange"};
static const int buffers[] = {2, 2, 2, 3, 2, 3, 2, 3};

/* One call. The content of a buffer that the call writes is NULL. */
struct trial {
    int call;
    uint8_t n, t, T, sender, value, w, bit;
    uint32_t marks, seed;
    const uint8_t *content[BUFFERS];
    size_t len[BUFFERS];
    int number;
};

static struct guarded area[BUFFERS];
static uint8_t sheet[SHEET + RECORD], table[TABLES], ballots[TABLES], inputs[INPUTS], written[BUFFERS][TABLES];
static uint8_t all_bits[TABLES]; /* the last tables that vembopu_read has written */

static int run(const struct trial *x, uint8_t *const at[])
{
    switch (x->call) {
    case READ:
        return vembopu_read(at[0], x->len[0], at[1], x->len[1]);
    case READ_BIT:
        return vembopu_read_bit(at[0], x->len[0], x->bit, at[1], x->len[1]);
    case SHEET_LEN:
        return (int)vembopu_refusal(vembopu_sheet_len(at[0], x->len[0], at[1], x->len[1]));
    case WRITE:
        return (int)vembopu_refusal(vembopu_write(at[0], x->len[0], at[1], x->len[1], at[2], x->len[2]));
    case GENERATE:
        return vembopu_generate(at[0], x->len[0], x->seed, at[1], x->len[1]);
    case REHEARSE:
        return vembopu_rehearse(x->n, x->t, x->T, x->sender, x->value, x->w, x->marks, at[0], x->len[0], at[1],
                                x->len[1], at[2], x->len[2]);
    case CHECK:
        return (int)vembopu_refusal(vembopu_check(x->n, x->t, x->T, x->sender, at[0], x->len[0], at[1], x->len[1]));
    default:
        return vembopu_exchange(x->n, x->t, x->T, x->marks, at[0], x->len[0], at[1], x->len[1], at[2], x->len[2]);
    }
}

/* ---- At the edges of pages ---- */

/* The buffer's bytes, on pages that can be written only if the call should. */
static uint8_t *lay(const struct trial *x, int k, int at_end)
{
    struct guarded g = area[k];
    uint8_t *at = g.page + (at_end ? g.size - x->len[k] : 0);
    mprotect(g.page, g.size, PROT_READ | PROT_WRITE);
    memset(g.page, UNWRITTEN, g.size);
    if (x->content[k] != NULL)
        memcpy(at, x->content[k], x->len[k]);
    if (x->content[k] != NULL || x->number != 0)
        mprotect(g.page, g.size, PROT_READ);
    return at;
}

/* 1 if nothing but the buffer is written on its pages. */
static int only_within(const struct trial *x, int k, const uint8_t *at)
{
    const uint8_t *end = area[k].page + area[k].size;
    int same = 1;
    for (const uint8_t *p = area[k].page; p < end; p++)
        same = same && (*p == UNWRITTEN || (p >= at && p < at + x->len[k]));
    return same;
}

/* A buffer that was written at the start, then at the end, has the same bytes. */
static void hold(const struct trial *x, int k, const uint8_t *at, int at_end)
{
    check(only_within(x, k, at), "%s writes beside buffer %d", call_name[x->call], k + 1);
    if (at_end)
        check(memcmp(written[k], at, x->len[k]) == 0, "%s: other bytes at the end", call_name[x->call]);
    memcpy(written[k], at, x->len[k]);
}

static void at_edge(const struct trial *x, int at_end)
{
    uint8_t *at[BUFFERS];
    for (int k = 0; k < BUFFERS; k++)
        at[k] = lay(x, k, at_end);
    int number = run(x, at);
    check(number == x->number, "%s is answered by %d, not %d", call_name[x->call], number, x->number);
    for (int k = 0; k < BUFFERS; k++)
        if (number == 0 && x->content[k] == NULL)
            hold(x, k, at[k], at_end);
}

/* ---- NULL ---- */

/* The accepted trial with some buffers NULL, of length 0. */
static void with_null(const struct trial *accepted, int which, int number)
{
    struct trial x = *accepted;
    uint8_t *at[BUFFERS];
    x.number = number;
    for (int k = 0; k < BUFFERS; k++) {
        if (which >> k & 1)
            x.len[k] = 0;
        at[k] = lay(&x, k, 1);
        if (which >> k & 1)
            at[k] = NULL;
    }
    int got = run(&x, at);
    check(got == number, "%s, buffers %d NULL: %d, not %d", call_name[x.call], which, got, number);
}

/* Each buffer, and all: 1 for a sheet to be read and a header, otherwise 8; a
   lower number comes first, and of a seed 16. */
static void nulls(const struct trial *accepted)
{
    struct trial low = *accepted;
    int by_1 = accepted->call < REHEARSE;
    for (int which = 1; which < 1 << buffers[accepted->call]; which++)
        with_null(accepted, which, by_1 && which & 1 ? 1 : 8);
    low.n = 0;
    low.seed = 0;
    if (accepted->call == GENERATE)
        with_null(&low, 2, 16);
    if (!by_1)
        with_null(&low, 7, 2);
    low.w = 9;
    if (accepted->call == REHEARSE)
        with_null(&low, 7, 15);
}

/* ---- The trials ---- */

static void try_one(const struct trial *x)
{
    at_edge(x, 0);
    at_edge(x, 1);
    if (x->number == 0)
        nulls(x);
}

/* All bits of a sheet. */
static void sheet_read(const struct read_input *in)
{
    size_t len = make_sheet(sheet, in->w, in->k) + in->more;
    sheet[in->at] = in->byte;
    struct trial x = {.call = READ, .content = {sheet}, .len = {len, in->table_len}, .number = in->number};
    try_one(&x);
    memcpy(all_bits, written[1], TABLES);
}

/* One bit of it, or one that it hasn't: what is written is that bit's part. */
static void bit_read(const struct read_input *in, uint8_t bit)
{
    size_t len = make_sheet(sheet, in->w, in->k) + in->more;
    sheet[in->at] = in->byte;
    struct trial x = {.call = READ_BIT, .bit = bit, .content = {sheet}, .len = {len, table_of_bit(in)},
                      .number = number_of_bit(in, bit)};
    try_one(&x);
    if (x.number == 0)
        check(memcmp(written[1], all_bits + (size_t)bit * TABLE, TABLE) == 0, "w %d: bit %d is another part", in->w,
              bit);
}

static void sheets(void)
{
    for (size_t i = 0; i < COUNT(read_inputs); i++) {
        const struct read_input *in = &read_inputs[i];
        int bits = vembopu_bits(in->w);
        sheet_read(in);
        for (int bit = 0; bit < bits && bit < VEMBOPU_MOST_BITS; bit++)
            bit_read(in, (uint8_t)bit);
        bit_read(in, (uint8_t)bits);
        bit_read(in, 255);
    }
}

/* 1 if the last sheet that was written is the one whose tables were handed in. */
static int as_made(uint8_t w, size_t k)
{
    size_t len = make_sheet(sheet, w, k);
    return memcmp(written[2], sheet, len) == 0;
}

static void writings(void)
{
    for (size_t i = 0; i < COUNT(write_inputs); i++) {
        const struct write_input *in = &write_inputs[i];
        make_sheet(sheet, in->w, in->k > 0);
        make_table(table, in->w, in->k);
        sheet[in->at] = in->byte;
        struct trial x = {.call = WRITE, .content = {sheet, table},
                          .len = {in->header_len, in->table_len, in->sheet_len}, .number = in->number};
        try_one(&x);
        x.call = SHEET_LEN;
        x.len[2] = 0;
        x.number = refused_by_sheet(in) ? 0 : in->number;
        try_one(&x);
        if (in->number == 0)
            check(as_made(in->w, in->k), "vembopu_write: another sheet of w %d, %lu records", in->w,
                  (unsigned long)in->k);
    }
}

/* A table whose records are too many is 14 before its sheet's NULL is 8. */
static void null_and_too_many(void)
{
    struct trial x = {.call = WRITE, .content = {sheet, table}, .len = {HEADER, TABLE, SHEET}};
    make_sheet(sheet, 0, 0);
    make_table(table, 0, MOST_RECORDS + 1);
    with_null(&x, 4, 14);
}

static void generations(void)
{
    for (size_t i = 0; i < COUNT(generate_inputs); i++) {
        const struct generate_input *in = &generate_inputs[i];
        make_sheet(sheet, in->w, 1);
        sheet[in->at] = in->byte;
        struct trial x = {.call = GENERATE, .seed = in->seed, .content = {sheet},
                          .len = {in->header_len, in->table_len}, .number = in->number};
        try_one(&x);
    }
}

static void rehearsals(void)
{
    for (size_t i = 0; i < COUNT(rehearse_inputs); i++) {
        const struct rehearse_input *in = &rehearse_inputs[i];
        struct trial x = {.call = REHEARSE, .n = in->n, .t = in->t, .T = in->T, .sender = in->sender,
                          .value = in->value, .w = in->w, .marks = in->marks, .content = {ballots},
                          .len = {in->table_len, in->log_len, in->outcomes_len}, .number = in->number};
        try_one(&x);
    }
}

/* A log and outcomes of any bytes, both only read. */
static void checks(void)
{
    for (size_t i = 0; i < COUNT(check_inputs); i++) {
        const struct check_input *in = &check_inputs[i];
        struct trial x = {.call = CHECK, .n = in->n, .t = in->t, .T = in->T, .sender = in->sender,
                          .content = {ballots, ballots}, .len = {in->log_len, in->outcomes_len},
                          .number = in->number};
        try_one(&x);
    }
}

static void exchanges(void)
{
    for (size_t i = 0; i < COUNT(exchange_inputs); i++) {
        const struct exchange_input *in = &exchange_inputs[i];
        struct trial x = {.call = EXCHANGE, .n = in->n, .t = in->t, .T = in->T, .marks = in->marks,
                          .content = {inputs, ballots}, .len = {in->inputs_len, in->table_len, in->outcomes_len},
                          .number = in->number};
        inputs[0] = in->input;
        try_one(&x);
    }
}

int main(void)
{
    for (int k = 0; k < BUFFERS; k++)
        area[k] = guarded_pages(TABLES);
    for (size_t i = 0; i < TABLES; i++)
        ballots[i] = (uint8_t)draw(4);
    for (size_t i = 0; i < INPUTS; i++)
        inputs[i] = (uint8_t)draw(2);
    sheets();
    writings();
    null_and_too_many();
    generations();
    rehearsals();
    checks();
    exchanges();
    return closing_count();
}
