/* Measures how fast the tuples of a request are made, beside the guard alone over as many blocks, in one run.
   Each figure is that of many short measurements, taken in turn, which a tenth of them surpass. */
#include <stdint.h>
#include <stdio.h>
#include <stdlib.h>

#include "rounds.h"

/* The static libraries: a slice is a pointer and a length, an allocator is nothing, a bool is a byte. */
uint16_t bench_crc16(const uint8_t *p, size_t n);
uint16_t bench_ip_sum(const uint8_t *p, size_t n);
uint32_t bench_generate(_Bool is_ip, uint32_t times);

enum { MIB = 1 << 20, BLOCK = 512, TIMES = 64, ROUNDS = 100, WAYS = 4 };

static uint8_t *source;

static volatile uint32_t sink;

/* The guards of the blocks of 1 MiB, so many times. */
static double guards(uint16_t (*of)(const uint8_t *, size_t), uint32_t times) {
    double start = now();
    uint16_t all = 0;
    for (uint32_t i = 0; i < times; i++)
        for (size_t at = 0; at < MIB; at += BLOCK)
            all ^= of(source + at, BLOCK);
    sink = all;
    return now() - start;
}

/* The tuples of as many blocks. The library makes its pages anew at each call, which is measured and taken off. */
static double tuples(_Bool is_ip, uint32_t times) {
    double start = now();
    uint32_t guard = bench_generate(is_ip, 1);
    double once = now();
    uint32_t again = bench_generate(is_ip, times + 1);
    double end = now();
    if (guard != (is_ip ? 0xFFFF : 0) || again != guard) {
        fprintf(stderr, "a wrong guard, or no memory\n");
        exit(1);
    }
    return (end - once) - (once - start);
}

int main(int count, char **words) {
    int rounds = count > 1 ? atoi(words[1]) : ROUNDS;
    source = aligned_alloc(4096, MIB);
    double *rates = malloc(sizeof *rates * WAYS * (size_t)(rounds < 1 ? 1 : rounds));
    if (!source || !rates || rounds < 1)
        return 1;
    for (size_t i = 0; i < MIB; i++)
        source[i] = 0;
    for (int round = 0; round < rounds; round++)
        for (int way = 0; way < WAYS; way++) {
            double seconds = way == 0   ? tuples(0, TIMES)
                             : way == 1 ? guards(bench_crc16, TIMES)
                             : way == 2 ? tuples(1, TIMES)
                                        : guards(bench_ip_sum, TIMES);
            rates[way * rounds + round] = (double)MIB * TIMES / seconds / 1e9;
        }
    double figure[WAYS];
    for (int way = 0; way < WAYS; way++)
        figure[way] = high_rate(rates + way * rounds, rounds);
    printf("| GB/s of data | generate | the guard alone | ratio |\n|---|---|---|---|\n");
    printf("| CRC | %.2f | %.2f | %.2f |\n", figure[0], figure[1], figure[0] / figure[1]);
    printf("| Internet checksum | %.2f | %.2f | %.2f |\n", figure[2], figure[3], figure[2] / figure[3]);
    return 0;
}
