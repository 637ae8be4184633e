/*
 * Inputs to the calls of exports.h, each with the number that documents 01 and
 * 02 answer it by: the largest line, accepted, and one for every refusal.
 */
#ifndef INPUTS_H
#define INPUTS_H

#include "exports.h"

#include <string.h>

/* The lengths of the largest line's buffers, a table's of one bit and of eight,
   and the last of 4,096 records. */
enum { HEADER = 12, RECORD = 8, MOST_RECORDS = 4096, LAST = HEADER + RECORD * (MOST_RECORDS - 1) };
enum { SHEET = LAST + RECORD, TABLE = 36864, TABLES = 8 * TABLE };
enum { OUTCOMES = VEMBOPU_OUTCOME * 32, INPUTS = 32, EXCHANGE_TABLE = 2048 };
/* Outcomes as they were before the count. */
enum { THREE_BYTES = 3 * 32 };

/* Where record i of k stands in the tables of w bits: as many of them in each
   bit, from its first byte on. */
static inline size_t place_of(uint8_t w, size_t k, size_t i)
{
    size_t bits = (size_t)vembopu_bits(w), each = (k + bits - 1) / bits;
    return i / each * TABLE + i % each;
}

/* A sheet of w bits of the largest line, all stations marked, with these k bytes
   of the tables as chained records: its length. */
static inline size_t make_sheet(uint8_t *sheet, uint8_t w, size_t k)
{
    static const uint8_t header[HEADER] = {32, 10, 10, 1, 1, 0, 0, 0, 255, 255, 255, 255};
    memcpy(sheet, header, HEADER);
    sheet[5] = w;
    sheet[6] = k > 0;
    for (size_t i = 0; i < k; i++) {
        uint8_t *record = sheet + HEADER + RECORD * i;
        size_t next = i + 1 < k ? i + 2 : 0, place = place_of(w, k, i);
        record[0] = (uint8_t)(place % TABLE / 1024 + 1);
        record[1] = (uint8_t)(place / 32 % 32 + 1);
        record[2] = (uint8_t)(place % 32 + 1);
        record[3] = (uint8_t)(i % 3);
        record[4] = (uint8_t)(next & 255);
        record[5] = (uint8_t)(next >> 8);
        record[6] = (uint8_t)(place / TABLE);
        record[7] = 0;
    }
    return HEADER + RECORD * k;
}

/* The run tables of that sheet, in a buffer for eight bits. */
static inline void make_table(uint8_t *table, uint8_t w, size_t k)
{
    memset(table, 255, TABLES);
    for (size_t i = 0; i < k; i++)
        table[place_of(w, k, i)] = (uint8_t)(i % 3);
}

/* A sheet of w bits and k records with the byte `at` changed, of some bytes
   more; the number is vembopu_read's. */
struct read_input {
    uint8_t w;
    size_t k, at;
    uint8_t byte;
    size_t more, table_len;
    int number;
};

static const struct read_input read_inputs[] = {
    {0, MOST_RECORDS, 0, 32, 0, TABLE, 0},
    {0, 0, 0, 32, 0, TABLE, 0},
    {1, MOST_RECORDS, 0, 32, 0, TABLE, 0},
    {2, 1, 4, 3, 0, 2 * TABLE, 0},                 /* the largest number of two bits */
    {8, MOST_RECORDS, 4, 255, 0, TABLES, 0},       /* of eight */
    {8, 0, 0, 32, 0, TABLES, 0},
    {0, 1, 0, 32, 1, TABLE, 1},                    /* 21 bytes */
    {0, MOST_RECORDS, 0, 32, RECORD, TABLE, 1},    /* k 4,097 */
    {9, 1, 0, 32, 1, TABLES, 1},                   /* and w 9 */
    {8, MOST_RECORDS, 5, 9, 0, TABLES, 15},        /* w 9, with a bit 7 */
    {9, 0, 0, 33, 0, TABLES, 15},                  /* and n */
    {255, 0, 0, 32, 0, TABLE, 15},
    {0, MOST_RECORDS, 0, 33, 0, TABLE, 2},         /* n */
    {0, MOST_RECORDS, 2, 11, 0, TABLE, 3},         /* T */
    {0, MOST_RECORDS, 3, 33, 0, TABLE, 4},         /* sender */
    {0, MOST_RECORDS, 4, 2, 0, TABLE, 5},          /* value */
    {1, MOST_RECORDS, 4, 2, 0, TABLE, 5},
    {2, MOST_RECORDS, 4, 4, 0, 2 * TABLE, 5},      /* 2 to the power w */
    {7, MOST_RECORDS, 4, 128, 0, 7 * TABLE, 5},
    {0, MOST_RECORDS, 0, 31, 0, TABLE, 6},         /* n below a marked station */
    {0, MOST_RECORDS, 0, 32, 0, TABLE - 1, 8},
    {2, MOST_RECORDS, 0, 32, 0, TABLE, 8},         /* one bit's table */
    {8, MOST_RECORDS, 0, 32, 0, TABLES - 1, 8},
    {7, MOST_RECORDS, 0, 32, 0, TABLES, 8},
    {0, MOST_RECORDS, LAST + 5, 32, 0, TABLE, 9},  /* the last one's next, 8,192 */
    {8, MOST_RECORDS, LAST + 5, 32, 0, TABLES, 9},
    {0, MOST_RECORDS, LAST + 4, 1, 0, TABLE, 10},  /* the last one's next, 1 */
    {8, MOST_RECORDS, LAST + 4, 1, 0, TABLES, 10},
    {0, MOST_RECORDS, LAST, 0, 0, TABLE, 11},      /* the last one's round, 0 */
    {0, MOST_RECORDS, LAST + 6, 1, 0, TABLE, 11},  /* its bit, 1 of none but 0 */
    {8, MOST_RECORDS, LAST + 6, 8, 0, TABLES, 11}, /* 8 of eight */
    {8, MOST_RECORDS, LAST + 7, 1, 0, TABLES, 11}, /* its last byte */
    {0, MOST_RECORDS, 11, 127, 0, TABLE, 12},      /* station 32 unmarked */
    {8, MOST_RECORDS, 9, 127, 0, TABLES, 12},      /* station 16 */
    {0, MOST_RECORDS, LAST, 3, 0, TABLE, 13},      /* the last one's round, 3 */
    {8, MOST_RECORDS, LAST + 6, 6, 0, TABLES, 13}, /* its bit, 6 */
};

/* What vembopu_read_bit answers to that sheet with this bit: 11 where it has no
   such bit, after 8. */
static inline int number_of_bit(const struct read_input *in, int bit)
{
    int judged_before = (in->number > 0 && in->number <= 8) || in->number == 15;
    return judged_before || bit < vembopu_bits(in->w) ? in->number : 11;
}

/* The length of the table for it: one bit's, a byte less where it is the length
   that is refused. */
static inline size_t table_of_bit(const struct read_input *in)
{
    return in->number == 8 ? TABLE - 1 : TABLE;
}

/* The header of such a sheet with the byte `at` changed and the tables of k
   records; the number is vembopu_write's, vembopu_sheet_len has no sheet. */
struct write_input {
    uint8_t w;
    size_t k, at;
    uint8_t byte;
    size_t header_len, table_len, sheet_len;
    int number;
};

static const struct write_input write_inputs[] = {
    {0, MOST_RECORDS, 0, 32, HEADER, TABLE, SHEET, 0},
    {0, 0, 6, 1, HEADER, TABLE, HEADER, 0},                          /* first index, none to write */
    {0, 1, 0, 32, HEADER, TABLE, HEADER + RECORD, 0},
    {0, MOST_RECORDS, 7, 255, HEADER, TABLE, SHEET, 0},              /* first index above 4,096 */
    {1, MOST_RECORDS, 0, 32, HEADER, TABLE, SHEET, 0},
    {3, MOST_RECORDS, 0, 32, HEADER, 3 * TABLE, SHEET, 0},
    {8, MOST_RECORDS, 0, 32, HEADER, TABLES, SHEET, 0},
    {8, 0, 6, 1, HEADER, TABLES, HEADER, 0},
    {0, MOST_RECORDS, 0, 32, HEADER - 1, TABLE, SHEET, 1},
    {0, MOST_RECORDS, 0, 32, HEADER + RECORD, TABLE, SHEET, 1},      /* a header and a record */
    {8, MOST_RECORDS, 5, 9, HEADER - 1, TABLES, SHEET, 1},           /* and w 9 */
    {8, MOST_RECORDS, 5, 9, HEADER, TABLES, SHEET, 15},              /* w */
    {0, MOST_RECORDS, 5, 255, HEADER, TABLE, SHEET, 15},
    {0, MOST_RECORDS, 0, 33, HEADER, TABLE, SHEET, 2},               /* n */
    {0, MOST_RECORDS, 2, 11, HEADER, TABLE, SHEET, 3},               /* T */
    {0, MOST_RECORDS, 3, 33, HEADER, TABLE, SHEET, 4},               /* sender */
    {0, MOST_RECORDS, 4, 2, HEADER, TABLE, SHEET, 5},                /* value */
    {3, MOST_RECORDS, 4, 8, HEADER, 3 * TABLE, SHEET, 5},            /* 2 to the power w */
    {0, MOST_RECORDS, 0, 31, HEADER, TABLE, SHEET, 6},               /* n below a marked station */
    {0, MOST_RECORDS, 0, 32, HEADER, TABLE - 1, SHEET, 8},
    {2, MOST_RECORDS, 0, 32, HEADER, TABLE, SHEET, 8},               /* one bit's table */
    {8, MOST_RECORDS, 0, 32, HEADER, TABLES - 1, SHEET, 8},
    {0, MOST_RECORDS + 1, 0, 32, HEADER, TABLE, SHEET, 14},
    {0, MOST_RECORDS + 1, 0, 32, HEADER, TABLE, SHEET + RECORD, 14}, /* as long as they need */
    {0, TABLE, 0, 32, HEADER, TABLE, SHEET, 14},                     /* every byte a record */
    {8, MOST_RECORDS + 1, 0, 32, HEADER, TABLES, SHEET, 14},         /* 513 in a bit at most */
    {8, TABLES, 0, 32, HEADER, TABLES, SHEET, 14},
    {0, MOST_RECORDS, 0, 32, HEADER, TABLE, SHEET - 1, 8},
    {0, MOST_RECORDS - 1, 0, 32, HEADER, TABLE, SHEET, 8},           /* a record too long */
    {8, MOST_RECORDS, 0, 32, HEADER, TABLES, SHEET - 1, 8},
};

/* 1 if it is the sheet's length that is refused. */
static inline int refused_by_sheet(const struct write_input *in)
{
    return in->number == 8 && in->table_len == (size_t)vembopu_bits(in->w) * TABLE;
}

/* The header of such a sheet with the byte `at` changed, and a seed. */
struct generate_input {
    uint8_t w;
    size_t at;
    uint8_t byte;
    size_t header_len;
    uint32_t seed;
    size_t table_len;
    int number;
};

static const struct generate_input generate_inputs[] = {
    {0, 0, 32, HEADER, 1, TABLE, 0},
    {1, 8, 0, HEADER, 100, TABLE, 0},             /* stations 1 to 8 unmarked */
    {0, 7, 255, HEADER, 0xffffffffu, TABLE, 0},   /* first index above 4,096 */
    {3, 4, 7, HEADER, 2, 3 * TABLE, 0},
    {8, 4, 255, HEADER, 0x80000000u, TABLES, 0},
    {0, 0, 32, HEADER - 1, 1, TABLE, 1},
    {0, 0, 32, HEADER + RECORD, 1, TABLE, 1},     /* a header and a record */
    {9, 0, 32, HEADER, 1, TABLES, 15},
    {0, 0, 33, HEADER, 1, TABLE, 2},              /* n */
    {0, 2, 11, HEADER, 1, TABLE, 3},              /* T */
    {0, 3, 33, HEADER, 1, TABLE, 4},              /* sender */
    {0, 4, 2, HEADER, 1, TABLE, 5},               /* value */
    {3, 4, 8, HEADER, 1, 3 * TABLE, 5},           /* 2 to the power w */
    {0, 0, 31, HEADER, 1, TABLE, 6},              /* n below a marked station */
    {0, 0, 32, HEADER, 0, TABLE, 16},
    {8, 0, 32, HEADER, 0, TABLES, 16},
    {0, 0, 32, HEADER, 1, TABLE - 1, 8},
    {2, 0, 32, HEADER, 1, TABLE, 8},              /* one bit's table */
    {7, 0, 32, HEADER, 1, TABLES, 8},
    {8, 0, 32, HEADER, 1, TABLES - 1, 8},
    /* with seed 0 and another length: the header's length, w and n, each byte, and
       none */
    {9, 0, 33, HEADER - 1, 0, 1, 1},
    {9, 0, 33, HEADER, 0, 1, 15},
    {0, 0, 33, HEADER, 0, 1, 2},
    {0, 2, 11, HEADER, 0, 1, 3},
    {0, 3, 33, HEADER, 0, 1, 4},
    {0, 4, 2, HEADER, 0, 1, 5},
    {0, 0, 31, HEADER, 0, 1, 6},
    {0, 0, 32, HEADER, 0, 1, 16},
};

struct rehearse_input {
    uint8_t n, t, T, sender, value, w;
    uint32_t marks;
    size_t table_len, log_len, outcomes_len;
    int number;
};

static const struct rehearse_input rehearse_inputs[] = {
    {32, 10, 10, 1, 1, 0, 0, TABLE, TABLE, OUTCOMES, 0},
    {32, 10, 10, 1, 1, 1, 0x3ffu, TABLE, TABLE, OUTCOMES, 0},
    {32, 10, 10, 1, 1, 0, 0xffffffffu, TABLE, TABLE, OUTCOMES, 0},
    {32, 10, 10, 1, 3, 2, 0x3ffu, 2 * TABLE, 2 * TABLE, OUTCOMES, 0},
    {32, 10, 10, 1, 255, 8, 0, TABLES, TABLES, OUTCOMES, 0},
    {32, 10, 10, 1, 170, 8, 0x3ffu, TABLES, TABLES, OUTCOMES, 0},
    {32, 10, 10, 1, 255, 8, 0xffffffffu, TABLES, TABLES, OUTCOMES, 0},
    {32, 10, 10, 1, 1, 9, 0, TABLES, TABLES, OUTCOMES, 15},
    {32, 10, 10, 1, 1, 255, 0, TABLE, TABLE, OUTCOMES, 15},
    {33, 10, 10, 1, 1, 0, 0, TABLE, TABLE, OUTCOMES, 2},
    {32, 11, 11, 1, 1, 0, 0, TABLE, TABLE, OUTCOMES, 3},
    {32, 10, 10, 33, 1, 0, 0, TABLE, TABLE, OUTCOMES, 4},
    {32, 10, 10, 1, 2, 0, 0, TABLE, TABLE, OUTCOMES, 5},
    {32, 10, 10, 1, 2, 1, 0, TABLE, TABLE, OUTCOMES, 5},
    {32, 10, 10, 1, 4, 2, 0, 2 * TABLE, 2 * TABLE, OUTCOMES, 5},
    {32, 10, 10, 1, 128, 7, 0, 7 * TABLE, 7 * TABLE, OUTCOMES, 5},
    {31, 10, 10, 1, 1, 0, 0x80000000u, TABLE, TABLE, OUTCOMES, 6},
    {32, 10, 10, 1, 1, 0, 0, TABLE - 1, TABLE, OUTCOMES, 8},
    {32, 10, 10, 1, 1, 0, 0, TABLE, TABLE - 1, OUTCOMES, 8},
    {32, 10, 10, 1, 1, 0, 0, TABLE, TABLE, OUTCOMES - 1, 8},
    {32, 10, 10, 1, 1, 0, 0, TABLE, TABLE, THREE_BYTES, 8},
    {32, 10, 10, 1, 1, 8, 0, TABLE, TABLE, OUTCOMES, 8},    /* one bit's */
    {32, 10, 10, 1, 1, 8, 0, TABLES, TABLE, OUTCOMES, 8},
    {32, 10, 10, 1, 1, 8, 0, TABLES, TABLES, 8 * OUTCOMES, 8},
    /* each with all that come after it: w, n, T, sender, number, marks, lengths */
    {33, 10, 16, 34, 255, 9, 0x80000000u, 1, 2, 3, 15},
    {33, 10, 16, 34, 255, 7, 0x80000000u, 1, 2, 3, 2},
    {31, 10, 16, 34, 255, 7, 0x80000000u, 1, 2, 3, 3},
    {31, 10, 10, 34, 255, 7, 0x80000000u, 1, 2, 3, 4},
    {31, 10, 10, 31, 255, 7, 0x80000000u, 1, 2, 3, 5},
    {31, 10, 10, 31, 127, 7, 0x80000000u, 1, 2, 3, 6},
    {31, 10, 10, 31, 127, 7, 0x40000000u, 1, 2, 3, 8},
};

struct check_input {
    uint8_t n, t, T, sender;
    size_t log_len, outcomes_len;
    int number;
};

static const struct check_input check_inputs[] = {
    {32, 10, 10, 1, TABLE, OUTCOMES, 0},
    {32, 0, 15, 32, 6 * 32 * 32, OUTCOMES, 0},
    {1, 0, 0, 1, 6, VEMBOPU_OUTCOME, 0},
    {33, 10, 10, 1, TABLE, OUTCOMES, 2},
    {32, 11, 11, 1, TABLE, OUTCOMES, 3},
    {32, 10, 10, 33, TABLE, OUTCOMES, 4},
    {32, 10, 10, 1, TABLE - 1, OUTCOMES, 8},
    {32, 10, 10, 1, TABLE, OUTCOMES - 1, 8},
    {32, 10, 10, 1, TABLE, THREE_BYTES, 8},
};

/* An exchange in which station 1 has the input given here. */
struct exchange_input {
    uint8_t n, t, T, input;
    uint32_t marks;
    size_t inputs_len, table_len, outcomes_len;
    int number;
};

static const struct exchange_input exchange_inputs[] = {
    {32, 10, 10, 1, 0, INPUTS, EXCHANGE_TABLE, OUTCOMES, 0},
    {32, 10, 10, 1, 0x3ffu, INPUTS, EXCHANGE_TABLE, OUTCOMES, 0},
    {32, 10, 10, 2, 0xffffffffu, INPUTS, EXCHANGE_TABLE, OUTCOMES, 0},
    {33, 10, 10, 1, 0, INPUTS, EXCHANGE_TABLE, OUTCOMES, 2},
    {32, 11, 11, 1, 0, INPUTS, EXCHANGE_TABLE, OUTCOMES, 3},
    {32, 10, 10, 2, 0, INPUTS, EXCHANGE_TABLE, OUTCOMES, 5},
    {31, 10, 10, 1, 0x80000000u, INPUTS - 1, EXCHANGE_TABLE, OUTCOMES, 6},
    {32, 10, 10, 1, 0, INPUTS - 1, EXCHANGE_TABLE, OUTCOMES, 8},
    {32, 10, 10, 1, 0, INPUTS, EXCHANGE_TABLE - 1, OUTCOMES, 8},
    {32, 10, 10, 1, 0, INPUTS, EXCHANGE_TABLE, OUTCOMES - 1, 8},
    {32, 10, 10, 1, 0, INPUTS, EXCHANGE_TABLE, THREE_BYTES, 8},
};

#define COUNT(array) (sizeof(array) / sizeof((array)[0]))

#endif
