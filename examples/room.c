/* A short room measured with the Legendre sequence of period 31. The room is made up, so that what is recorded in it can be predicted. */
#include "meter.h"
#include <inttypes.h>
#include <stdio.h>

enum { PERIOD = 31 };

int main(void) {
    /* The direct sound at place 2, and two reflections. */
    const int32_t response[PERIOD] = {[2] = 200000, [9] = -60000, [20] = 25000};
    uint8_t bits[PERIOD];
    int32_t recorded[PERIOD];
    int64_t r[PERIOD];
    uint32_t answer = meter_legendre_sequence(PERIOD, bits, PERIOD);
    if (answer == METER_ACCEPTED)
        answer = meter_legendre_predict(PERIOD, response, PERIOD, recorded, PERIOD);
    if (answer == METER_ACCEPTED)
        answer = meter_legendre_recording(PERIOD, recorded, PERIOD, r, PERIOD);
    if (answer != METER_ACCEPTED) {
        printf("refused: %s\n", meter_explain(answer));
        return 1;
    }
    for (int n = 0; n < PERIOD; n++)
        printf("%c%s", bits[n] == 1 ? '-' : '+', n < PERIOD - 1 ? "" : "\n");
    for (int k = 0; k < PERIOD; k++)
        printf("%" PRId64 "%c", r[k] / (PERIOD + 1), k < PERIOD - 1 ? ' ' : '\n');
    return 0;
}
