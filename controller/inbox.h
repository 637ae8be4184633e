/*
 * A sketch, to be copied: what comes on a station's ports, put into rows by the
 * rules of README.md, "On the wire". Not proved; tried by inbox.c.
 *
 *     open the station and the inbox; in each round: ballot, send it to all
 *     unless it is 255; until the round's end by the clock, inbox_take what
 *     comes, and inbox_garbled where that is no message; advance by inbox_row,
 *     then inbox_next.
 */
#ifndef VEMBOPU_INBOX_H
#define VEMBOPU_INBOX_H

#include "vembopu.h"

#include <string.h>

#ifdef __cplusplus
extern "C" {
#endif

/* A message of the right length and with the right checksum. */
struct inbox_message {
    uint32_t run;
    uint8_t round, from, ballot;
};

/* What stands in a row where only something garbled came: a byte that has no
   meaning in any round. */
enum {
    INBOX_GARBLED = 254
};

/* The rows of this round and of the next one, 255 where nothing came, and where
   something garbled came in this round. */
struct inbox {
    uint32_t run;
    uint8_t n, own, round;
    uint8_t row[2][32], garbled[32];
};

/* Before round 1, with n and own of an accepted open. */
static inline void inbox_open(struct inbox *in, uint32_t run, uint8_t n,
                              uint8_t own)
{
    in->run = run;
    in->n = n;
    in->own = own;
    in->round = 1;
    memset(in->row, VEMBOPU_SILENCE, sizeof in->row);
    memset(in->garbled, 0, sizeof in->garbled);
}

/* What came on the port of station `port`, which nobody else can use. */
static inline void inbox_take(struct inbox *in, uint8_t port,
                              const struct inbox_message *m)
{
    int ahead = m->round - in->round;
    if (port < 1 || port > in->n || m->from != port)
        return;
    if (m->run != in->run || ahead < 0 || ahead > 1)
        return;
    if (in->row[ahead][port - 1] == VEMBOPU_SILENCE)
        in->row[ahead][port - 1] = m->ballot;
}

/* What came on that port is no message: of a wrong length, or with a wrong
   checksum. Nothing of it can be used, its round neither. */
static inline void inbox_garbled(struct inbox *in, uint8_t port)
{
    if (port >= 1 && port <= in->n)
        in->garbled[port - 1] = 1;
}

/* At the end of a round: its row, n bytes. Where only something garbled came,
   the row says so, and isn't silent; the own ballot is in its place whatever
   came there. */
static inline const uint8_t *inbox_row(struct inbox *in, uint8_t ballot)
{
    for (int i = 0; i < in->n; i++)
        if (in->garbled[i] && in->row[0][i] == VEMBOPU_SILENCE)
            in->row[0][i] = INBOX_GARBLED;
    in->row[0][in->own - 1] = ballot;
    return in->row[0];
}

/* After the row is accepted. */
static inline void inbox_next(struct inbox *in)
{
    memcpy(in->row[0], in->row[1], sizeof in->row[0]);
    memset(in->row[1], VEMBOPU_SILENCE, sizeof in->row[1]);
    memset(in->garbled, 0, sizeof in->garbled);
    in->round++;
}

#ifdef __cplusplus
}
#endif

#endif
