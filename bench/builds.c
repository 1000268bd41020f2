/* Measures dixpi_crc16 of the two builds of the library, for x86-64-v2 and x86-64-v3, beside ISA-L, in one run: the ways
   take turns in each round, and a ratio is the median of those of the rounds, to the default build. bench/run names the
   exports of the one for x86-64-v3 anew. */
#include <stdint.h>
#include <stdio.h>
#include <stdlib.h>
#include <isa-l/crc.h>
#include "rounds.h"

uint16_t dixpi_crc16(const uint8_t *bytes, size_t len);
uint16_t v3_dixpi_crc16(const uint8_t *bytes, size_t len);

enum { MIB = 1 << 20, ROUNDS = 201, WAYS = 3, AT_ONCE = 128 << 10 };

static uint16_t isal(const uint8_t *p, size_t n) { return crc16_t10dif(0, p, n); }

static const struct way {
    const char *name;
    uint16_t (*of)(const uint8_t *, size_t);
} ways[WAYS] = {{"default", dixpi_crc16}, {"x86-64-v3", v3_dixpi_crc16}, {"ISA-L", isal}};

static volatile uint16_t sink;

/* GB/s of so many calls on the same bytes, after one that is not counted. */
static __attribute__((noinline, noclone)) double measured(const struct way *way, const uint8_t *p, size_t n, size_t calls) {
    uint16_t all = way->of(p, n);
    double start = now();
    for (size_t i = 0; i < calls; i++)
        all ^= way->of(p, n);
    double seconds = now() - start;
    sink = all;
    return (double)(calls * n) / seconds / 1e9;
}

int main(int count, char **words) {
    static const size_t lengths[] = {64, 256, 511, 512, 520, 640, 768, 1023, 1024, 2048, 4095, 4096, 4104, 4280, 65536, MIB};
    int rounds = count > 1 ? atoi(words[1]) : ROUNDS;
    uint8_t *bytes = aligned_alloc(4096, MIB);
    double *rates[WAYS], *ratios = malloc(sizeof *ratios * (size_t)rounds);
    for (int i = 0; i < WAYS; i++)
        rates[i] = malloc(sizeof *ratios * (size_t)rounds);
    if (!bytes || !ratios || !rates[0] || !rates[1] || !rates[2])
        return 1;
    for (size_t i = 0; i < MIB; i++)
        bytes[i] = (uint8_t)(i * 7 + (i >> 8) * 13);
    for (size_t n = 0; n <= 5000; n++)
        for (int i = 0; i < 2; i++)
            if (ways[i].of(bytes + n % 7, n) != isal(bytes + n % 7, n)) {
                fprintf(stderr, "the CRC of %zu bytes differs\n", n);
                return 1;
            }
    for (size_t k = 0; k < sizeof lengths / sizeof *lengths; k++) {
        size_t n = lengths[k], calls = n < AT_ONCE ? AT_ONCE / n : 1;
        for (int round = 0; round < rounds; round++)
            for (int i = 0; i < WAYS; i++)
                rates[i][round] = measured(&ways[i], bytes, n, calls);
        printf("%8zu", n);
        for (int i = 0; i < WAYS; i++) {
            for (int round = 0; round < rounds; round++)
                ratios[round] = rates[i][round] / rates[0][round];
            double ratio = median(ratios, rounds);
            printf("  %s %6.2f x%.2f", ways[i].name, median(rates[i], rounds), ratio);
        }
        puts("");
    }
    return 0;
}
