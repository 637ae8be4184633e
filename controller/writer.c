/*
 * The writer of run sheets through C: every refusal of vembopu_sheet_len and
 * vembopu_write, alone and in pairs; headers and tables by lot against the
 * writer written once more (model.h); what is written is read back, all bits at
 * once and bit by bit, and written again. Every buffer ends where a page begins that can't be touched; what is
 * only read, and in a refused call the sheet too, stands on pages that can only
 * be read.
 */
#define _DEFAULT_SOURCE
#include "check.h"
#include "exports.h"
#include "inputs.h"
#include "model.h"
#include "sheet_header.h"

enum { LONGEST_SHEET = SHEET + RECORD, LONGEST_TABLE = TABLES + 1 };
enum { BLOCK = 1000, BLOCKS = 12, NUMBERS = 17 };

/* ---- One call ---- */

static struct guarded header_area, table_area, sheet_area;
static uint8_t wanted[LONGEST_SHEET];

/* Says the first few that differ. */
static int told(const char *name, const struct writing *w, uint64_t got, uint64_t want)
{
    static int times;
    if (times++ < MOST_TOLD)
        printf("%s, header of %lu, n %d t %d T %d w %d, table of %lu, sheet of %lu: %llx, not %llx, or other bytes\n",
               name, (unsigned long)w->header_len, w->header ? w->header[0] : -1, w->header ? w->header[1] : -1,
               w->header ? w->header[2] : -1, w->header ? w->header[5] : -1, (unsigned long)w->table_len,
               (unsigned long)w->sheet_len, (unsigned long long)got, (unsigned long long)want);
    return 0;
}

/* 1 if both calls answer, and the second writes, as the model. */
static int agrees(const struct writing *w)
{
    const uint8_t *header = guarded_bytes(header_area, w->header, w->header_len);
    const uint8_t *table = guarded_bytes(table_area, w->table, w->table_len);
    memset(wanted, UNWRITTEN, sizeof wanted);
    uint64_t want_len = model_sheet_len(w), want = model_write(w, wanted);
    uint8_t *sheet = lay_unwritten(sheet_area, w->sheet_len, vembopu_refusal(want) == 0);
    uint64_t len = vembopu_sheet_len(header, w->header_len, table, w->table_len);
    uint64_t got = vembopu_write(header, w->header_len, table, w->table_len, sheet, w->sheet_len);
    if (len != want_len)
        return told("vembopu_sheet_len", w, len, want_len);
    if (got != want || !written_as(sheet_area, wanted, w->sheet_len))
        return told("vembopu_write", w, got, want);
    return 1;
}

/* ---- Each cause, and each pair ---- */

/* A writing with its bytes; faults are laid into copies of the base. */
struct draft {
    uint8_t header[LONGEST_HEADER];
    uint8_t table[LONGEST_TABLE];
    struct writing w;
};

static struct draft base, one, two;

/* What is NULL stays so. */
static void copy(struct draft *to, const struct draft *from)
{
    *to = *from;
    to->w.header = from->w.header == NULL ? NULL : to->header;
    to->w.table = from->w.table == NULL ? NULL : to->table;
}

/* A record more: the first byte of silence gets a ballot. */
static void add_record(struct draft *d)
{
    uint8_t *silent = memchr(d->table, 255, d->w.table_len);
    if (silent != NULL)
        *silent = 1;
}

#define FAULT(name, statement)        \
    static void name(struct draft *d) \
    {                                 \
        statement;                    \
    }

FAULT(header_short, d->w.header_len = HEADER - 1)
FAULT(header_sheet, d->w.header_len = HEADER + RECORD)
FAULT(header_null, d->w.header = NULL; d->w.header_len = 0)
HEADER_FAULTS
FAULT(table_short, d->w.table_len = base.w.table_len - 1)
FAULT(table_long, d->w.table_len = base.w.table_len + 1)
FAULT(table_of_bit_0, d->w.table_len = table_bytes(base.header))
FAULT(table_null, d->w.table = NULL; d->w.table_len = 0)
FAULT(record_more, add_record(d))
FAULT(sheet_short, d->w.sheet_len = base.w.sheet_len - 1)
FAULT(sheet_long, d->w.sheet_len = base.w.sheet_len + 1)
FAULT(sheet_record, d->w.sheet_len = base.w.sheet_len + RECORD)
FAULT(sheet_null, d->w.sheet_len = 0)

/* In the order of refusals. */
static const struct fault {
    const char *what;
    int number, lines;
    void (*make)(struct draft *);
} faults[] = {
    {"header of 11", 1, ANY, header_short},
    {"header of 20", 1, ANY, header_sheet},
    {"header NULL", 1, ANY, header_null},
    HEADER_FAULT_ROWS,
    {"table short", 8, ANY, table_short},
    {"table long", 8, ANY, table_long},
    {"table of one bit", 8, SEVERAL_BITS, table_of_bit_0},
    {"table NULL", 8, ANY, table_null},
    {"4,097 records", 14, FULL, record_more},
    {"sheet short", 8, ANY, sheet_short},
    {"sheet long", 8, ANY, sheet_long},
    {"sheet a record longer", 8, ANY, sheet_record},
    {"sheet NULL", 8, ANY, sheet_null},
};

/* Tables of w bits with k ballots, spread over them, where all stations are
   marked, and their needed sheet. */
static void make_base(uint8_t n, uint8_t t, uint8_t T, uint8_t w, size_t k)
{
    memset(&base, 0, sizeof base);
    make_header(base.header, n, t, T, w);
    size_t len = tables_bytes(base.header);
    memset(base.table, 255, sizeof base.table);
    for (size_t i = 0; i < k; i++)
        base.table[i * len / k] = (uint8_t)(i % 3);
    base.w = (struct writing){base.header, HEADER, base.table, len, HEADER + RECORD * k};
}

/* Some are only for as many records as there can be. */
static int is_for(const struct fault *f)
{
    return is_for_header(f->lines, base.header) && (f->lines != FULL || base.w.sheet_len == SHEET);
}

/* The number of the first fault, of the model and of both calls. */
static void refused(const struct draft *d, const struct fault *a, const char *b)
{
    int number = (int)vembopu_refusal(model_write(&d->w, wanted));
    check(number == a->number, "n %d, w %d, %s, %s: the model gives %d, not %d", base.header[0], base.header[5],
          a->what, b, number, a->number);
    check(agrees(&d->w), "n %d, w %d, %s, %s", base.header[0], base.header[5], a->what, b);
}

static void faults_of(const struct fault *a)
{
    copy(&one, &base);
    a->make(&one);
    refused(&one, a, "alone");
    for (const struct fault *b = a + 1; b < faults + COUNT(faults); b++) {
        if (!is_for(b))
            continue;
        copy(&two, &one);
        b->make(&two);
        refused(&two, a, b->what);
    }
}

static void all_faults(void)
{
    static const struct {
        uint8_t n, t, T, w;
        size_t k;
    } lines[] = {{1, 0, 0, 0, 0},       {1, 0, 0, 8, 48},      {4, 1, 1, 1, 77},
                 {4, 1, 1, 3, 300},     {31, 10, 10, 0, 3000}, {32, 10, 10, 0, MOST_RECORDS},
                 {32, 10, 10, 8, 4096}, {32, 0, 15, 2, 1}};
    for (size_t i = 0; i < COUNT(lines); i++) {
        make_base(lines[i].n, lines[i].t, lines[i].T, lines[i].w, lines[i].k);
        check(vembopu_refusal(model_write(&base.w, wanted)) == 0 && agrees(&base.w), "n %d, w %d: refused",
              lines[i].n, lines[i].w);
        for (const struct fault *a = faults; a < faults + COUNT(faults); a++)
            if (is_for(a))
                faults_of(a);
    }
}

/* ---- Read back ---- */

static uint8_t read_table[TABLES], one_bit[TABLE], first[SHEET], second[SHEET];

/* By the header's own way: the length is asked for, then that many bytes are
   written. A length that is refused has the writer refused by the same number. */
static int write_asked(const struct writing *w, uint8_t *to, uint64_t *made)
{
    uint64_t len = vembopu_sheet_len(w->header, w->header_len, w->table, w->table_len);
    *made = vembopu_write(w->header, w->header_len, w->table, w->table_len, to, vembopu_needed_bytes(len));
    return vembopu_refusal(*made) == vembopu_refusal(len);
}

/* 1 if the table that was read is the one that was written, with 255 for every
   unmarked sender. */
static int same_table(const struct writing *w)
{
    size_t n = w->header[0];
    int same = 1;
    for (size_t place = 0; place < w->table_len; place++) {
        int marked = is_marked(w->header, (int)(place / n % n) + 1);
        same = same && read_table[place] == (marked ? w->table[place] : 255);
    }
    return same;
}

/* 1 if each bit that is read alone is its part of the table that was read; one
   that isn't there is refused. */
static int same_bits(const uint8_t *sheet, size_t len)
{
    size_t size = table_bytes(sheet);
    int same = 1, bits = bits_of(sheet[5]);
    for (int b = 0; b < bits; b++) {
        same = same && vembopu_read_bit(sheet, len, (uint8_t)b, one_bit, size) == 0;
        same = same && memcmp(one_bit, read_table + (size_t)b * size, size) == 0;
    }
    return same && vembopu_read_bit(sheet, len, (uint8_t)bits, one_bit, size) == 11;
}

/* 1 if what is written is read with the header's numbers and the table, and
   written again byte for byte; also if nothing is written. */
static int reads_back(const struct writing *w)
{
    uint64_t made, again;
    int same = write_asked(w, first, &made);
    if (vembopu_refusal(made) != 0)
        return same;
    size_t len = HEADER + RECORD * vembopu_records(made);
    same = same && vembopu_read(first, len, read_table, w->table_len) == 0 && same_table(w);
    same = same && memcmp(first, w->header, 6) == 0 && memcmp(first + 8, w->header + 8, 4) == 0;
    same = same && same_bits(first, len);
    struct writing back = {first, HEADER, read_table, w->table_len, len};
    return same && write_asked(&back, second, &again) && again == made && memcmp(first, second, len) == 0;
}

/* ---- By lot ---- */

static unsigned long met[2][NUMBERS];

/* Any bytes, ballots, or silence with a ballot here and there. */
static void draw_table(struct draft *d)
{
    static const uint8_t ballot[] = {0, 1, 2, 255};
    size_t exact = tables_bytes(d->header);
    const size_t other[] = {exact + 1, exact - 1, draw(300)};
    uint32_t kind = draw(3);
    size_t len = draw(16) == 0 ? other[draw(3)] : exact;
    d->w.table = d->table;
    d->w.table_len = len > LONGEST_TABLE ? draw(300) : len;
    for (size_t i = 0; i < d->w.table_len; i++)
        d->table[i] = (uint8_t)(kind == 0 ? draw(256) : kind == 1 ? ballot[draw(4)] : draw(30) == 0 ? draw(256) : 255);
}

/* Mostly what is needed; else near it, or a header's. */
static void draw_lengths(struct draft *d)
{
    size_t needed = vembopu_needed_bytes(model_sheet_len(&d->w));
    const size_t near[] = {needed + 1, needed + RECORD, needed > 0 ? needed - RECORD : 1, needed > 0 ? needed - 1 : 1,
                           HEADER, SHEET};
    d->w.sheet_len = draw(8) == 0 ? near[draw(6)] : needed;
}

static void draw_draft(struct draft *d)
{
    draw_numbers(d->header);
    draw_marks(d->header);
    d->w.header = d->header;
    d->w.header_len = draw(24) == 0 ? draw(LONGEST_HEADER + 1) : HEADER;
    draw_table(d);
    draw_lengths(d);
}

static void block(void)
{
    unsigned long differ = 0, lost = 0;
    for (int i = 0; i < BLOCK; i++) {
        draw_draft(&one);
        differ += !agrees(&one.w);
        lost += !reads_back(&one.w);
        met[0][vembopu_refusal(model_sheet_len(&one.w)) % NUMBERS]++;
        met[1][vembopu_refusal(model_write(&one.w, wanted)) % NUMBERS]++;
    }
    check(differ == 0, "by lot: %lu differ", differ);
    check(lost == 0, "by lot: %lu are not read back, or not written again", lost);
}

/* Each number that the calls can give was met, and no other. */
static void all_met(void)
{
    static const char *const name[] = {"vembopu_sheet_len", "vembopu_write"};
    for (int call = 0; call < 2; call++)
        check_met(name[call], met[call], NUMBERS, "0 1 2 3 4 5 6 8 14 15");
}

int main(void)
{
    header_area = guarded_page();
    table_area = guarded_pages(LONGEST_TABLE);
    sheet_area = guarded_pages(LONGEST_SHEET);
    all_faults();
    printf("causes alone and in pairs: %lu tests\n", passed + failed);
    for (int i = 0; i < BLOCKS; i++)
        block();
    all_met();
    return closing_count();
}
