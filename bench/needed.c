/* Says how many microseconds the guards of so many blocks of 512 bytes take, walked through 1 MiB: the least of some
   rounds, by what the thread used of a processor. */
#include <stdint.h>
#include <stdio.h>

#include "../lib/dixpi.h"
#include "rounds.h"

enum { BLOCK = 512, MIB = 1 << 20, ROUNDS = 9 };

static uint8_t source[MIB];
static volatile uint16_t sink;

int main(int count, char **words) {
    long blocks = count > 1 ? atol(words[1]) : 0;
    double least = 0;
    for (int round = 0; round < ROUNDS; round++) {
        uint16_t all = 0;
        double start = spent();
        for (long i = 0; i < blocks; i++)
            all ^= dixpi_crc16(source + (size_t)i * BLOCK % MIB, BLOCK);
        double time = spent() - start;
        sink = all;
        if (round == 0 || time < least)
            least = time;
    }
    printf("%.0f\n", least * 1e6);
    return 0;
}
