/*
 * Headers of run sheets for the tests of the calls that take one by itself: what
 * causes 15 and 2 to 6 refuse of one, and headers by lot.
 */
#ifndef SHEET_HEADER_H
#define SHEET_HEADER_H

#include "check.h"
#include "inputs.h"
#include "model.h"

enum { LONGEST_HEADER = HEADER + RECORD };

/* By the test's own FAULT(name, statement), of a struct draft d that has a header,
   first the one of `base`. */
#define HEADER_FAULTS                                                                              \
    FAULT(w_9, d->header[5] = 9)                                                                   \
    FAULT(w_255, d->header[5] = 255)                                                               \
    FAULT(n_0, d->header[0] = 0)                                                                   \
    FAULT(n_33, d->header[0] = 33)                                                                 \
    FAULT(n_255, d->header[0] = 255)                                                               \
    FAULT(t_above, d->header[1] = (uint8_t)after(d->header[2]))                                    \
    FAULT(sum_is_n, d->header[1] = d->header[0] % 2; d->header[2] = d->header[0] / 2)              \
    FAULT(sum_256, d->header[1] = 2; d->header[2] = 127)                                           \
    FAULT(sum_512, d->header[1] = 170; d->header[2] = 171)                                         \
    FAULT(sender_0, d->header[3] = 0)                                                              \
    FAULT(sender_above, d->header[3] = (uint8_t)after(d->header[0]))                               \
    FAULT(value_above, d->header[4] = (uint8_t)(1 << vembopu_bits(base.header[5])))                \
    FAULT(value_255, d->header[4] = 255)                                                           \
    FAULT(mark_above, d->header[8 + base.header[0] / 8] |= (uint8_t)(1 << base.header[0] % 8))     \
    FAULT(mark_32, d->header[11] |= 128)

/* Which lines a fault is for. */
enum { ANY, BELOW_32, BELOW_8_BITS, SEVERAL_BITS, FULL };

/* In the order of refusals: what it is, its number, its lines, its function. */
#define HEADER_FAULT_ROWS                                    \
    {"w 9", 15, ANY, w_9},                                   \
    {"w 255", 15, ANY, w_255},                               \
    {"n 0", 2, ANY, n_0},                                    \
    {"n 33", 2, ANY, n_33},                                  \
    {"n 255", 2, ANY, n_255},                                \
    {"t above T", 3, ANY, t_above},                          \
    {"t + 2T = n", 3, ANY, sum_is_n},                        \
    {"t + 2T = 256", 3, ANY, sum_256},                       \
    {"t + 2T = 512", 3, ANY, sum_512},                       \
    {"sender 0", 4, ANY, sender_0},                          \
    {"sender n+1", 4, ANY, sender_above},                    \
    {"2 to the power w", 5, BELOW_8_BITS, value_above},      \
    {"value 255", 5, BELOW_8_BITS, value_255},               \
    {"a mark at n+1", 6, BELOW_32, mark_above},              \
    {"a mark at 32", 6, BELOW_32, mark_32}

/* 1 if a fault of these lines can be laid into the header. */
static inline int is_for_header(int lines, const uint8_t *header)
{
    int bits = vembopu_bits(header[5]);
    return (lines != BELOW_32 || header[0] < 32) && (lines != BELOW_8_BITS || bits < 8) &&
           (lines != SEVERAL_BITS || bits > 1);
}

static inline void put_marks(uint8_t *header, uint32_t marks)
{
    for (int i = 0; i < 4; i++)
        header[8 + i] = (uint8_t)(marks >> 8 * i & 255);
}

/* An accepted header with all stations marked and a first index that nobody looks
   at. */
static inline void make_header(uint8_t *header, uint8_t n, uint8_t t, uint8_t T, uint8_t w)
{
    const uint8_t made[HEADER] = {n, t, T, 1, 1, w, 255, 255, 0, 0, 0, 0};
    memcpy(header, made, HEADER);
    put_marks(header, 0xffffffffu >> (32 - n));
}

/* Mostly an accepted line; else any bytes. */
static inline void draw_numbers(uint8_t *header)
{
    for (int i = 0; i < LONGEST_HEADER; i++)
        header[i] = (uint8_t)draw(256);
    if (draw(16) == 0)
        return;
    uint32_t n = 1 + draw(32), T = draw((n + 1) / 2), rest = n - 1 - 2 * T;
    header[0] = (uint8_t)(draw(24) == 0 ? draw(2) * 33 : n);
    header[1] = (uint8_t)draw((rest < T ? rest : T) + 1 + (draw(16) == 0));
    header[2] = (uint8_t)T;
    header[3] = (uint8_t)(draw(16) == 0 ? draw(256) : 1 + draw(n));
    uint32_t w = draw(3) == 0 ? draw(9) : draw(3);
    header[4] = (uint8_t)(draw(16) == 0 ? draw(256) : draw((uint32_t)1 << bits_of((int)w)));
    header[5] = (uint8_t)(draw(16) == 0 ? draw(256) : w);
}

/* None, some, most or all of the stations; a mark beyond n now and then. */
static inline void draw_marks(uint8_t *header)
{
    const uint32_t kinds[] = {0, draw_word() & draw_word(), draw_word() | draw_word(), 0xffffffffu};
    uint32_t marks = kinds[draw(4)];
    if (header[0] < 32 && draw(16) != 0)
        marks &= ((uint32_t)1 << header[0]) - 1;
    put_marks(header, marks);
}

#endif
