#include "vembopu.h"
#include <stdio.h>
#include <stdlib.h>

/* What survives a cut of power; the five numbers are constants here. volatile keeps the order of the writes, and the
   state is written by one store of 64 bits. */
struct stable {
    volatile uint64_t state;
    volatile uint8_t row[4], row_round;
};

/* Gives the answer back if it is accepted; a refusal ends the program. */
static uint64_t accepted(const char *call, int station, uint64_t answer)
{
    if (vembopu_refusal(answer) != VEMBOPU_ACCEPTED) {
        fprintf(stderr, "station %d: %s is refused by %d\n", station, call, (int)vembopu_refusal(answer));
        exit(1);
    }
    return answer;
}

/* Without a state there is no station, until all else is written. */
static void start(struct stable *m, uint8_t i)
{
    m->state = 0;
    m->row_round = 0;
    m->state = vembopu_state(accepted("open", i, vembopu_open(4, 1, 1, 1, i, 1)));
}

/* One round of a running station, from what is stored: the same after a cut as without one. With `cut` power fails
   between look and step. */
static void look_and_step(struct stable *m, uint8_t i, const uint8_t *received, int cut)
{
    uint8_t round = vembopu_round(accepted("result", i, vembopu_result(4, 1, 1, 1, i, m->state)));
    if (m->row_round != round) { /* the row doesn't stand: first all of it, then its round */
        for (int k = 0; k < 4; k++)
            m->row[k] = received[k];
        m->row_round = round;
    }
    const uint8_t row[4] = {m->row[0], m->row[1], m->row[2], m->row[3]};
    uint64_t offer = accepted("offer", i, vembopu_offer(4, 1, 1, 1, i, m->state, row, sizeof row));
    printf(" %d", vembopu_offered_ballot(offer));
    if (cut)
        return;
    uint64_t taken = vembopu_accept(4, 1, 1, 1, i, m->state, row, sizeof row, offer);
    m->state = vembopu_state(accepted("accept", i, taken)); /* the step */
}

/* The line of example.c. In round 5 station 2 is cut off when it has shown its next ballot, and starts again: its offer
   is lost, and the new one is the same. */
int main(void)
{
    static struct stable memory[4];
    uint8_t row[4], round;
    for (uint8_t i = 1; i <= 3; i++)
        start(&memory[i], i);
    while ((round = vembopu_round(accepted("result", 1, vembopu_result(4, 1, 1, 1, 1, memory[1].state)))) != 0) {
        for (uint8_t i = 1; i <= 3; i++)
            row[i - 1] = vembopu_ballot_byte(accepted("ballot", i, vembopu_ballot(4, 1, 1, 1, i, memory[i].state)));
        row[3] = VEMBOPU_SILENCE;
        printf("round %d, next ballots:", round);
        for (uint8_t i = 1; i <= 3; i++) {
            if (round == 5 && i == 2) {
                look_and_step(&memory[i], i, row, 1);
                printf(" (cut off)");
            }
            look_and_step(&memory[i], i, row, 0);
        }
        printf("\n");
    }
    for (uint8_t i = 1; i <= 3; i++) {
        uint64_t end = accepted("result", i, vembopu_result(4, 1, 1, 1, i, memory[i].state));
        printf("station %d: value %d, grade %d, flag %d, garbled %d\n", i, vembopu_value(end),
               vembopu_grade(end), vembopu_flag(end), vembopu_garbled(end));
    }
    return 0;
}
