/*
 * The generator of noisy runs through C: states and bytes that are known; every
 * refusal of vembopu_generate, alone and in pairs; headers and seeds by lot
 * against the generator written once more (model.h); what is generated is
 * written and read back, where it isn't too much for a sheet, and rehearsed. The
 * header stands on a page that can only be read, the table ends where a page
 * begins that can't be touched, and in a refused call it can only be read too.
 */
#define _DEFAULT_SOURCE
#include "check.h"
#include "exports.h"
#include "inputs.h"
#include "model.h"
#include "sheet_header.h"

enum { LONGEST_TABLE = TABLES + 1, BLOCK = 500, BLOCKS = 12, NUMBERS = 17 };

/* ---- One call ---- */

/* A generating with its header; faults are laid into copies of the base. */
struct draft {
    uint8_t header[LONGEST_HEADER];
    struct generating g;
};

static struct guarded header_area, table_area;
static uint8_t wanted[LONGEST_TABLE];

/* Says the first few that differ. */
static int told(const struct draft *d, int got, int want)
{
    static int times;
    if (times++ < MOST_TOLD)
        printf("header of %lu, n %d t %d T %d w %d, seed %lu, table of %lu: %d, not %d, or other bytes\n",
               (unsigned long)d->g.header_len, d->header[0], d->header[1], d->header[2], d->header[5],
               (unsigned long)d->g.seed, (unsigned long)d->g.table_len, got, want);
    return 0;
}

/* 1 if the call answers and writes as the model, whose table is in `wanted` then. */
static int agrees(const struct draft *d)
{
    const uint8_t *header = guarded_bytes(header_area, d->g.header, d->g.header_len);
    memset(wanted, UNWRITTEN, sizeof wanted);
    int want = model_generate(&d->g, wanted);
    uint8_t *table = lay_unwritten(table_area, d->g.table_len, want == 0);
    int got = vembopu_generate(header, d->g.header_len, d->g.seed, table, d->g.table_len);
    if (got != want || !written_as(table_area, wanted, d->g.table_len))
        return told(d, got, want);
    return 1;
}

/* An accepted one, all stations marked. */
static struct draft *accepted(struct draft *d, uint8_t n, uint8_t t, uint8_t T, uint8_t w, uint32_t seed)
{
    memset(d, 0, sizeof *d);
    make_header(d->header, n, t, T, w);
    d->g = (struct generating){d->header, HEADER, seed, tables_bytes(d->header)};
    return d;
}

/* ---- What is known ---- */

static struct draft base, one, two;
static uint8_t made[LONGEST_TABLE];

/* The states after each step from seed 1, and their bytes. */
static void first_states(void)
{
    static const uint32_t states[] = {270369,    67634689,  2647435461u, 307599695,   2398689233u, 745495504,
                                      632435482, 435756210, 2005365029,  2916098932u, 2657092299u, 1495045943};
    static const uint8_t bytes[] = {1, 1, 1, 255, 1, 0, 2, 2, 1, 0, 255, 255};
    uint32_t state = 1;
    struct draft *d = accepted(&one, 2, 0, 0, 1, 1);
    check(vembopu_generate(d->header, HEADER, 1, made, d->g.table_len) == 0, "seed 1 is refused");
    for (size_t i = 0; i < COUNT(states); i++) {
        state = next_state(state);
        check(state == states[i], "state %lu of seed 1 in the model: %lu", (unsigned long)i + 1, (unsigned long)state);
        check(made[i] == bytes[i], "byte %lu of seed 1: %d", (unsigned long)i + 1, made[i]);
    }
}

/* Of the largest tables, all stations marked: the bytes of steps 1, 2, 36,864, the
   last of bit 0, and 294,912. */
static void far_states(void)
{
    static const struct {
        uint32_t seed;
        uint8_t bytes[4];
    } known[] = {{1, {1, 1, 1, 255}},
                 {2, {2, 2, 2, 255}},
                 {0xffffffffu, {255, 255, 1, 0}},
                 {0x80000000u, {0, 0, 255, 2}}};
    static const size_t places[] = {0, 1, TABLE - 1, TABLES - 1};
    struct draft *d = accepted(&one, 32, 10, 10, 8, 1);
    for (size_t i = 0; i < COUNT(known); i++) {
        int number = vembopu_generate(d->header, HEADER, known[i].seed, made, TABLES);
        check(number == 0, "seed %lu: %d", (unsigned long)known[i].seed, number);
        for (size_t k = 0; k < COUNT(places); k++)
            check(made[places[k]] == known[i].bytes[k], "seed %lu, byte %lu: %d", (unsigned long)known[i].seed,
                  (unsigned long)places[k], made[places[k]]);
    }
}

/* Stations 2 and 4 of four marked, two bits of six rounds: their rows have the bytes
   of one state after another, the rows of the others 255. */
static void marked_alone(void)
{
    static const uint8_t silence[4] = {255, 255, 255, 255};
    struct draft *d = accepted(&one, 4, 0, 1, 2, 1);
    uint32_t state = 1;
    put_marks(d->header, 10);
    check(vembopu_generate(d->header, HEADER, 1, made, d->g.table_len) == 0, "stations 2 and 4 are refused");
    for (int row = 0; row < 2 * 6 * 4; row++) {
        uint8_t bytes[4];
        for (int to = 0; row % 2 == 1 && to < 4; to++)
            bytes[to] = byte_of(state = next_state(state));
        check(memcmp(made + 4 * row, row % 2 == 1 ? bytes : silence, 4) == 0, "row %d of stations 2 and 4", row);
    }
}

/* The first index, the sender and the value are nothing to the tables. */
static void without_effect(void)
{
    static const uint8_t bytes[][2] = {{6, 0}, {6, 1}, {7, 0}, {7, 16}, {3, 31}, {4, 0}, {4, 3}};
    accepted(&base, 31, 10, 10, 2, 77);
    check(agrees(&base), "seed 77 of two bits");
    memcpy(made, wanted, base.g.table_len);
    for (size_t i = 0; i < COUNT(bytes); i++) {
        accepted(&one, 31, 10, 10, 2, 77);
        one.header[bytes[i][0]] = bytes[i][1];
        check(agrees(&one) && memcmp(made, wanted, base.g.table_len) == 0, "byte %d of the header is %d", bytes[i][0],
              bytes[i][1]);
    }
}

/* ---- Each cause, and each pair ---- */

/* A header that is NULL stays so. */
static void copy(struct draft *to, const struct draft *from)
{
    *to = *from;
    to->g.header = from->g.header == NULL ? NULL : to->header;
}

#define FAULT(name, statement)        \
    static void name(struct draft *d) \
    {                                 \
        statement;                    \
    }

FAULT(header_short, d->g.header_len = HEADER - 1)
FAULT(header_sheet, d->g.header_len = HEADER + RECORD)
FAULT(header_null, d->g.header = NULL; d->g.header_len = 0)
HEADER_FAULTS
FAULT(seed_0, d->g.seed = 0)
FAULT(table_short, d->g.table_len = base.g.table_len - 1)
FAULT(table_long, d->g.table_len = base.g.table_len + 1)
FAULT(table_of_bit_0, d->g.table_len = table_bytes(base.header))
FAULT(table_null, d->g.table_len = 0)

/* In the order of refusals. */
static const struct fault {
    const char *what;
    int number, lines;
    void (*make)(struct draft *);
} faults[] = {
    {"header of 11", 1, ANY, header_short},
    {"header of 20", 1, ANY, header_sheet},
    {"header NULL", 1, ANY, header_null},
    HEADER_FAULT_ROWS,
    {"seed 0", 16, ANY, seed_0},
    {"table short", 8, ANY, table_short},
    {"table long", 8, ANY, table_long},
    {"table of one bit", 8, SEVERAL_BITS, table_of_bit_0},
    {"table NULL", 8, ANY, table_null},
};

/* The number of the first fault, of the model and of the call. */
static void refused(const struct draft *d, const struct fault *a, const char *b)
{
    int number = judge_generate(&d->g);
    check(number == a->number, "n %d, w %d, %s, %s: the model gives %d, not %d", base.header[0], base.header[5],
          a->what, b, number, a->number);
    check(agrees(d), "n %d, w %d, %s, %s", base.header[0], base.header[5], a->what, b);
}

static void faults_of(const struct fault *a)
{
    copy(&one, &base);
    a->make(&one);
    refused(&one, a, "alone");
    for (const struct fault *b = a + 1; b < faults + COUNT(faults); b++) {
        if (!is_for_header(b->lines, base.header))
            continue;
        copy(&two, &one);
        b->make(&two);
        refused(&two, a, b->what);
    }
}

static void all_faults(void)
{
    static const uint8_t lines[][4] = {{1, 0, 0, 0},    {1, 0, 0, 8},    {4, 1, 1, 1},    {4, 1, 1, 3},
                                       {31, 10, 10, 0}, {32, 10, 10, 0}, {32, 10, 10, 8}, {32, 0, 15, 2}};
    for (size_t i = 0; i < COUNT(lines); i++) {
        accepted(&base, lines[i][0], lines[i][1], lines[i][2], lines[i][3], 0xffffffffu);
        check(judge_generate(&base.g) == 0 && agrees(&base), "n %d, w %d: refused", lines[i][0], lines[i][3]);
        for (const struct fault *a = faults; a < faults + COUNT(faults); a++)
            if (is_for_header(a->lines, base.header))
                faults_of(a);
    }
}

/* ---- Written and read back, and rehearsed ---- */

static uint8_t sheet[SHEET], read_table[TABLES], logged[TABLES], outcomes[OUTCOMES];

/* 1 if the tables are read back from the sheet that is written of them, where they
   have at most 4,096 records; more are 14. */
static int reads_back(const struct draft *d, const uint8_t *table)
{
    size_t len = d->g.table_len;
    struct writing w = {d->header, HEADER, table, len, 0};
    uint64_t needed = vembopu_sheet_len(d->header, HEADER, table, len);
    uint64_t written = vembopu_write(d->header, HEADER, table, len, sheet, vembopu_needed_bytes(needed));
    if (records_of(&w) > MOST_RECORDS)
        return vembopu_refusal(written) == 14;
    return vembopu_refusal(written) == 0 &&
           vembopu_read(sheet, HEADER + RECORD * vembopu_records(written), read_table, len) == 0 &&
           memcmp(read_table, table, len) == 0;
}

static uint32_t marks_of(const uint8_t *header)
{
    return (uint32_t)header[8] | (uint32_t)header[9] << 8 | (uint32_t)header[10] << 16 | (uint32_t)header[11] << 24;
}

/* 1 if the log has a marked sender's bytes as they are generated. */
static int as_generated(const uint8_t *header, const uint8_t *table, size_t len)
{
    size_t n = header[0];
    int same = 1;
    for (size_t at = 0; at < len; at += n)
        same = same && (!is_marked(header, (int)(at / n % n) + 1) || memcmp(logged + at, table + at, n) == 0);
    return same;
}

/* 1 if the tables are rehearsed, with what a marked station sends as it is
   generated; of one bit, if the checker finds the marks in the log. */
static int rehearses(const struct draft *d, const uint8_t *table)
{
    const uint8_t *h = d->header;
    size_t len = d->g.table_len, ends = VEMBOPU_OUTCOME * (size_t)h[0];
    int number = vembopu_rehearse(h[0], h[1], h[2], h[3], h[4], h[5], marks_of(h), table, len, logged, len, outcomes,
                                  ends);
    if (number != 0 || !as_generated(h, table, len))
        return 0;
    return bits_of(h[5]) > 1 || vembopu_check(h[0], h[1], h[2], h[3], logged, len, outcomes, ends) == marks_of(h);
}

/* ---- By lot ---- */

static unsigned long met[NUMBERS], sheets_written, too_many, of_width[9];

/* Any seed, one of the first 100, or one of a single bit; 0 now and then. */
static uint32_t draw_seed(void)
{
    if (draw(16) == 0)
        return 0;
    const uint32_t seeds[] = {draw_word(), 1 + draw(100), (uint32_t)1 << draw(32)};
    return seeds[draw(3)];
}

static void draw_draft(struct draft *d)
{
    draw_numbers(d->header);
    draw_marks(d->header);
    size_t exact = tables_bytes(d->header);
    const size_t other[] = {exact + 1, exact - 1, draw(300)};
    size_t len = draw(16) == 0 ? other[draw(3)] : exact;
    d->g = (struct generating){d->header, draw(24) == 0 ? draw(LONGEST_HEADER + 1) : HEADER, draw_seed(),
                               len > LONGEST_TABLE ? draw(300) : len};
}

/* 1 if the tables in `wanted` are not read back, or not rehearsed. */
static unsigned long lost_tables(const struct draft *d)
{
    struct writing w = {d->header, HEADER, wanted, d->g.table_len, 0};
    int fits = records_of(&w) <= MOST_RECORDS;
    sheets_written += (unsigned long)fits;
    too_many += (unsigned long)!fits;
    of_width[d->header[5]]++;
    return !reads_back(d, wanted) || !rehearses(d, wanted);
}

static void block(void)
{
    unsigned long differ = 0, lost = 0;
    for (int i = 0; i < BLOCK; i++) {
        draw_draft(&one);
        int number = judge_generate(&one.g);
        differ += !agrees(&one);
        met[number % NUMBERS]++;
        if (number == 0)
            lost += lost_tables(&one);
    }
    check(differ == 0, "by lot: %lu differ", differ);
    check(lost == 0, "by lot: %lu are not read back, or not rehearsed", lost);
}

/* Each number that the call can give was met, and no other; sheets and too many
   records for one; every w. */
static void all_met(void)
{
    check_met("vembopu_generate", met, NUMBERS, "0 1 2 3 4 5 6 8 15 16");
    check(sheets_written > 0 && too_many > 0, "%lu sheets, %lu of too many records", sheets_written, too_many);
    printf("%lu are written as sheets, %lu have too many records\n", sheets_written, too_many);
    for (int w = 0; w < 9; w++)
        check(of_width[w] > 0, "none of w %d", w);
}

int main(void)
{
    header_area = guarded_page();
    table_area = guarded_pages(LONGEST_TABLE);
    first_states();
    far_states();
    marked_alone();
    without_effect();
    printf("what is known: %lu tests\n", passed + failed);
    all_faults();
    printf("and causes alone and in pairs: %lu tests\n", passed + failed);
    for (int i = 0; i < BLOCKS; i++)
        block();
    all_met();
    return closing_count();
}
