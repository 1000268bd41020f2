/* Measures how fast a unit in memory writes and reads, beside the guard and the copies that each block costs, in one
   run. Each figure is that of many short measurements, taken in turn, which a tenth of them surpass. */
#include <stdint.h>
#include <stdio.h>
#include <stdlib.h>
#include <string.h>

#include "rounds.h"

/* The static libraries: a slice is a pointer and a length, an allocator is nothing, a bool is a byte. */
uint16_t bench_crc16(const uint8_t *p, size_t n);
uint32_t bench_serve(_Bool is_write, uint32_t times);

enum { BLOCKS = 1024, DATA = 512, FRAME = 520, TIMES = 64, ROUNDS = 100, WAYS = 4 };

static uint8_t *source, *target;

static volatile uint32_t sink;

/* The guards of the blocks' data, so many times. */
static double guards(uint32_t times) {
    double start = now();
    uint16_t all = 0;
    for (uint32_t i = 0; i < times; i++)
        for (size_t at = 0; at < BLOCKS * FRAME; at += FRAME)
            all ^= bench_crc16(source + at, DATA);
    sink = all;
    return now() - start;
}

/* Their frames copied, one after another. */
static double copies(uint32_t times) {
    double start = now();
    for (uint32_t i = 0; i < times; i++)
        for (size_t at = 0; at < BLOCKS * FRAME; at += FRAME) {
            memcpy(target + at, source + at, FRAME);
            __asm__ volatile("" : : "r"(target) : "memory");
        }
    return now() - start;
}

/* Commands of all blocks. The library makes its buffers anew at each call, which is measured and taken off. */
static double served(_Bool is_write, uint32_t times) {
    double start = now();
    uint32_t done = bench_serve(is_write, 1);
    double once = now();
    uint32_t again = bench_serve(is_write, times + 1);
    double end = now();
    if (done != BLOCKS || again != done) {
        fprintf(stderr, "not all blocks are done, or no memory\n");
        exit(1);
    }
    return (end - once) - (once - start);
}

int main(int count, char **words) {
    int rounds = count > 1 ? atoi(words[1]) : ROUNDS;
    source = aligned_alloc(4096, BLOCKS * FRAME);
    target = aligned_alloc(4096, BLOCKS * FRAME);
    double *rates = malloc(sizeof *rates * WAYS * (size_t)(rounds < 1 ? 1 : rounds));
    if (!source || !target || !rates || rounds < 1)
        return 1;
    memset(source, 0, BLOCKS * FRAME);
    memset(target, 0, BLOCKS * FRAME);
    for (int round = 0; round < rounds; round++)
        for (int way = 0; way < WAYS; way++) {
            double seconds = way == 0   ? served(1, TIMES)
                             : way == 1 ? served(0, TIMES)
                             : way == 2 ? guards(TIMES)
                                        : copies(TIMES);
            rates[way * rounds + round] = (double)BLOCKS * DATA * TIMES / seconds / 1e9;
        }
    double figure[WAYS];
    for (int way = 0; way < WAYS; way++)
        figure[way] = high_rate(rates + way * rounds, rounds);
    double goal = 1 / (1 / figure[2] + 2 / figure[3]);
    printf("| GB/s of data | serve | crc16 | memcpy | guard and two copies | ratio |\n|---|---|---|---|---|---|\n");
    printf("| WRITE | %.2f | %.2f | %.2f | %.2f | %.2f |\n", figure[0], figure[2], figure[3], goal, figure[0] / goal);
    printf("| READ | %.2f | %.2f | %.2f | %.2f | %.2f |\n", figure[1], figure[2], figure[3], goal, figure[1] / goal);
    return 0;
}
