/*
 * The calls whose instructions tests/instructions counts, all on a line of 32
 * stations with t = T = 10. Without an argument: a line for each, with the
 * call's name, what it is given, and over how many of what its instructions
 * are spread. With the number of a line: makes that call once, or eight times
 * for eight bits, and ends with its refusal number, 0 if accepted.
 */
#include "exports.h"
#include "inputs.h"

#include <stdio.h>
#include <stdlib.h>

static uint8_t header[HEADER], sheet[SHEET], table[TABLES], logged[TABLES], outcomes[OUTCOMES], row[INPUTS];

/* ---- By marks, or by the number of records ---- */

static uint32_t rehearse(uint32_t marks)
{
    return vembopu_rehearse(32, 10, 10, 1, 1, 1, marks, table, TABLE, logged, TABLE, outcomes, OUTCOMES);
}

/* A number of eight bits. */
static uint32_t rehearse_number(uint32_t marks)
{
    return vembopu_rehearse(32, 10, 10, 1, 255, 8, marks, table, TABLES, logged, TABLES, outcomes, OUTCOMES);
}

/* The same bits, each rehearsed alone. */
static uint32_t rehearse_bits(uint32_t marks)
{
    uint32_t refused = 0;
    for (size_t b = 0; b < 8; b++)
        refused |= vembopu_rehearse(32, 10, 10, 1, 1, 1, marks, table + b * TABLE, TABLE, logged + b * TABLE, TABLE,
                                    outcomes, OUTCOMES);
    return refused;
}

/* The header of w bits with these marks. */
static void make_header(uint8_t w, uint32_t marks)
{
    make_sheet(sheet, w, 0);
    memcpy(header, sheet, HEADER);
    for (int i = 0; i < 4; i++)
        header[8 + i] = (uint8_t)(marks >> 8 * i & 255);
}

static uint32_t generate(uint32_t marks)
{
    make_header(1, marks);
    return vembopu_generate(header, HEADER, 1, table, TABLE);
}

/* Of eight bits. */
static uint32_t generate_number(uint32_t marks)
{
    make_header(8, marks);
    return vembopu_generate(header, HEADER, 1, table, TABLES);
}

/* The log of a rehearsal: the marked stations are those that broke the rules. */
static uint32_t check_log(uint32_t marks)
{
    rehearse(marks);
    return vembopu_refusal(vembopu_check(32, 10, 10, 1, logged, TABLE, outcomes, OUTCOMES));
}

static uint32_t exchange(uint32_t marks)
{
    return vembopu_exchange(32, 10, 10, marks, row, INPUTS, table, EXCHANGE_TABLE, outcomes, OUTCOMES);
}

static uint32_t read_sheet(uint32_t k)
{
    size_t len = make_sheet(sheet, 1, k);
    return vembopu_read(sheet, len, table, TABLE);
}

/* All of eight bits, and the last of them. */
static uint32_t read_number(uint32_t k)
{
    size_t len = make_sheet(sheet, 8, k);
    return vembopu_read(sheet, len, table, TABLES);
}

static uint32_t read_bit(uint32_t k)
{
    size_t len = make_sheet(sheet, 8, k);
    return vembopu_read_bit(sheet, len, 7, table, TABLE);
}

enum { NONE_MARKED = 0xffff };

/* The header and the table of a sheet to be written: the first ten stations
   are marked, and k of their bytes are ballots; or none is marked. All that
   has no effect is a ballot. Gives the sheet's length. */
static size_t make_writing(uint32_t k)
{
    uint32_t left = k;
    make_header(1, k == NONE_MARKED ? 0 : 0x3ffu);
    for (uint32_t at = 0; at < TABLE; at++) {
        int of_ten = at / 32 % 32 < 10;
        table[at] = of_ten && left == 0 ? 255 : 1;
        left -= of_ten && left > 0;
    }
    return HEADER + RECORD * (k == NONE_MARKED ? 0 : k);
}

static uint32_t sheet_len(uint32_t k)
{
    make_writing(k);
    return vembopu_refusal(vembopu_sheet_len(header, HEADER, table, TABLE));
}

static uint32_t write_sheet(uint32_t k)
{
    size_t len = make_writing(k);
    return vembopu_refusal(vembopu_write(header, HEADER, table, TABLE, sheet, len));
}

/* ---- By the round, of king 1, which isn't the sender, at grade 0 ---- */

#define NUMBERS 32, 10, 10, 2, 1

static struct vembopu_station station(uint32_t round)
{
    struct vembopu_station s = {NUMBERS, (uint8_t)round, 1, 1, 0, 0};
    return s;
}

static uint64_t state(uint32_t round)
{
    struct vembopu_station s = station(round);
    return vembopu_state_of(&s);
}

static uint32_t open_station(uint32_t round)
{
    (void)round;
    return vembopu_refusal(vembopu_open(NUMBERS, 1));
}

static uint32_t ballot(uint32_t round)
{
    return vembopu_refusal(vembopu_ballot(NUMBERS, state(round)));
}

static uint32_t advance(uint32_t round)
{
    return vembopu_refusal(vembopu_advance(NUMBERS, state(round), row, INPUTS));
}

static uint32_t advance_lent(uint32_t round)
{
    struct vembopu_station s = station(round);
    return vembopu_advance_lent(&s, row, INPUTS);
}

static uint64_t offered(uint32_t round)
{
    return vembopu_offer(NUMBERS, state(round), row, INPUTS);
}

static uint32_t offer(uint32_t round)
{
    return vembopu_refusal(offered(round));
}

static uint32_t accept(uint32_t round)
{
    return vembopu_refusal(vembopu_accept(NUMBERS, state(round), row, INPUTS, offered(round)));
}

static uint32_t accept_lent(uint32_t round)
{
    struct vembopu_station s = station(round);
    return vembopu_accept_lent(&s, row, INPUTS, offered(round));
}

static uint32_t result(uint32_t round)
{
    return vembopu_refusal(vembopu_result(NUMBERS, state(round)));
}

/* ---- */

#define EACH_ROUND(name, make)                             \
    {name, "sender's round", 1, "call", make, 1},          \
    {name, "first round of an exchange", 1, "call", make, 2},  \
    {name, "second round of an exchange", 1, "call", make, 3}, \
    {name, "king's round", 1, "call", make, 4}

static const struct {
    const char *name, *given;
    unsigned long units;
    const char *unit;
    uint32_t (*make)(uint32_t);
    uint32_t by;
} calls[] = {
    {"vembopu_rehearse", "none marked", TABLE, "ballot", rehearse, 0},
    {"vembopu_rehearse", "10 marked", TABLE, "ballot", rehearse, 0x3ffu},
    {"vembopu_rehearse", "32 marked", TABLE, "ballot", rehearse, 0xffffffffu},
    {"vembopu_rehearse", "none marked, eight bits", TABLES, "ballot", rehearse_number, 0},
    {"vembopu_rehearse", "none marked, eight times one bit", TABLES, "ballot", rehearse_bits, 0},
    {"vembopu_rehearse", "10 marked, eight bits", TABLES, "ballot", rehearse_number, 0x3ffu},
    {"vembopu_rehearse", "10 marked, eight times one bit", TABLES, "ballot", rehearse_bits, 0x3ffu},
    {"vembopu_rehearse", "32 marked, eight bits", TABLES, "ballot", rehearse_number, 0xffffffffu},
    {"vembopu_rehearse", "32 marked, eight times one bit", TABLES, "ballot", rehearse_bits, 0xffffffffu},
    {"vembopu_generate", "none marked", TABLE, "byte", generate, 0},
    {"vembopu_generate", "10 marked", TABLE, "byte", generate, 0x3ffu},
    {"vembopu_generate", "32 marked", TABLE, "byte", generate, 0xffffffffu},
    {"vembopu_generate", "none marked, eight bits", TABLES, "byte", generate_number, 0},
    {"vembopu_generate", "10 marked, eight bits", TABLES, "byte", generate_number, 0x3ffu},
    {"vembopu_generate", "32 marked, eight bits", TABLES, "byte", generate_number, 0xffffffffu},
    {"vembopu_check", "none marked", TABLE, "ballot", check_log, 0},
    {"vembopu_check", "10 marked", TABLE, "ballot", check_log, 0x3ffu},
    {"vembopu_check", "32 marked", TABLE, "ballot", check_log, 0xffffffffu},
    {"vembopu_exchange", "none marked", EXCHANGE_TABLE, "ballot", exchange, 0},
    {"vembopu_exchange", "10 marked", EXCHANGE_TABLE, "ballot", exchange, 0x3ffu},
    {"vembopu_exchange", "32 marked", EXCHANGE_TABLE, "ballot", exchange, 0xffffffffu},
    {"vembopu_read", "no record", 0, "record", read_sheet, 0},
    {"vembopu_read", "1,024 records", 1024, "record", read_sheet, 1024},
    {"vembopu_read", "2,048 records", 2048, "record", read_sheet, 2048},
    {"vembopu_read", "4,096 records", 4096, "record", read_sheet, 4096},
    {"vembopu_read", "eight bits, no record", 0, "record", read_number, 0},
    {"vembopu_read", "eight bits, 4,096 records", 4096, "record", read_number, 4096},
    {"vembopu_read_bit", "one of eight, no record", 0, "record", read_bit, 0},
    {"vembopu_read_bit", "one of eight, 4,096 records", 4096, "record", read_bit, 4096},
    {"vembopu_sheet_len", "none marked", TABLE, "byte", sheet_len, NONE_MARKED},
    {"vembopu_sheet_len", "10 marked, no record", TABLE, "byte", sheet_len, 0},
    {"vembopu_sheet_len", "10 marked, 4,096 records", TABLE, "byte", sheet_len, 4096},
    {"vembopu_write", "none marked", TABLE, "byte", write_sheet, NONE_MARKED},
    {"vembopu_write", "10 marked, no record", 0, "record", write_sheet, 0},
    {"vembopu_write", "10 marked, 4,096 records", 4096, "record", write_sheet, 4096},
    {"vembopu_open", "before round 1", 1, "call", open_station, 0},
    EACH_ROUND("vembopu_ballot", ballot),
    EACH_ROUND("vembopu_advance", advance),
    EACH_ROUND("vembopu_advance_lent", advance_lent),
    EACH_ROUND("vembopu_offer", offer),
    EACH_ROUND("vembopu_accept", accept),
    EACH_ROUND("vembopu_accept_lent", accept_lent),
    {"vembopu_result", "running", 1, "call", result, 1},
    {"vembopu_result", "done", 1, "call", result, 37},
};

int main(int argc, char **argv)
{
    size_t line = argc > 1 ? (size_t)strtoul(argv[1], NULL, 10) : 0;
    memset(row, 1, sizeof row);
    memset(table, 1, sizeof table);
    if (line > COUNT(calls))
        return 2;
    if (line > 0)
        return (int)calls[line - 1].make(calls[line - 1].by);
    for (size_t i = 0; i < COUNT(calls); i++)
        printf("%s\t%s\t%lu\t%s\n", calls[i].name, calls[i].given, calls[i].units, calls[i].unit);
    return 0;
}
