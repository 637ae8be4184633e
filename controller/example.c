#include "vembopu.h"
#include <stdio.h>
#include <stdlib.h>

/* Gives the answer back if it is accepted; a refusal ends the program. */
static uint64_t accepted(const char *call, int station, uint64_t answer)
{
    if (vembopu_refusal(answer) != VEMBOPU_ACCEPTED) {
        fprintf(stderr, "station %d: %s is refused by %d\n", station, call, (int)vembopu_refusal(answer));
        exit(1);
    }
    return answer;
}

/* Four stations with t = T = 1. Station 1 wants to change over; station 4 is silent all along. */
int main(void)
{
    uint64_t state[4];
    uint8_t row[4];
    for (uint8_t i = 1; i <= 3; i++)
        state[i] = vembopu_state(accepted("open", i, vembopu_open(4, 1, 1, 1, i, 1)));
    while (vembopu_running(accepted("result", 1, vembopu_result(4, 1, 1, 1, 1, state[1])))) {
        for (uint8_t i = 1; i <= 3; i++)
            row[i - 1] = vembopu_ballot_byte(accepted("ballot", i, vembopu_ballot(4, 1, 1, 1, i, state[i])));
        row[3] = VEMBOPU_SILENCE;
        for (uint8_t i = 1; i <= 3; i++) {
            uint64_t advanced = vembopu_advance(4, 1, 1, 1, i, state[i], row, sizeof row);
            state[i] = vembopu_state(accepted("advance", i, advanced));
        }
    }
    for (uint8_t i = 1; i <= 3; i++) {
        uint64_t end = accepted("result", i, vembopu_result(4, 1, 1, 1, i, state[i]));
        printf("station %d: value %d, grade %d, flag %d, garbled %d\n", i, vembopu_value(end),
               vembopu_grade(end), vembopu_flag(end), vembopu_garbled(end));
    }
    return 0;
}
