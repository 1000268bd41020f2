/* Measures both guards beside other ways to compute or move the same bytes, in one run.
   Each figure is that of many short measurements, taken in turn, which a tenth of them surpass: so other
   work on the machine counts little, and a single lucky round not at all. The loops that call a way are one
   copy for all ways, since where a copy falls among the addresses moves the figures of single bytes. */
#include <stdio.h>
#include <stdlib.h>
#include <string.h>
#include <isa-l/crc.h>
#include "rounds.h"
#include "tables.h"

/* The static library: a slice is a pointer and a length. */
uint16_t bench_crc16(const uint8_t *p, size_t n);
uint16_t bench_ip_sum(const uint8_t *p, size_t n);

enum { MIB = 1 << 20, ROUNDS = 300 };

static uint8_t *source, *target;

static uint16_t isal(const uint8_t *p, size_t n) { return crc16_t10dif(0, p, n); }

/* The library's exports test for a null pointer before they begin, which shows at short parts. */
static __attribute__((noinline, noclone)) uint16_t slicing_tested(const uint8_t *p, size_t n) {
    return crc_slicing(p ? p : (const uint8_t *)4096, n);
}

static uint16_t copied(const uint8_t *p, size_t n) {
    memcpy(target + (p - source), p, n);
    __asm__ volatile("" : : "r"(target) : "memory");
    return 0;
}

static const struct way {
    const char *name;
    uint16_t (*of)(const uint8_t *, size_t);
    size_t mebibytes; /* that one measurement passes over */
} ways[] = {
    {"crc16 (pi_guard)", bench_crc16, 8},
    {"ip_sum (pi_guard)", bench_ip_sum, 8},
    {"CRC, table of 256, C", crc_table, 1},
    {"CRC, slicing-by-16, C", crc_slicing, 4},
    {"the same, after a test for null", slicing_tested, 4},
    {"CRC, ISA-L crc16_t10dif", isal, 8},
    {"memcpy", copied, 8},
};
enum { WAYS = sizeof ways / sizeof *ways };

static volatile uint16_t sink;

/* One pass over all blocks of 1 MiB, one after another. */
static __attribute__((noinline, noclone)) uint16_t walked(const struct way *way, size_t block) {
    uint16_t all = 0;
    for (size_t at = 0; at + block <= MIB; at += block)
        all ^= way->of(source + at, block);
    return all;
}

/* As many bytes, of one block again and again. */
static __attribute__((noinline, noclone)) uint16_t stayed(const struct way *way, size_t block) {
    uint16_t all = 0;
    for (size_t at = 0; at + block <= MIB; at += block)
        all ^= way->of(source, block);
    return all;
}

/* As many bytes, in blocks of 1 to 63 bytes in turn. */
static __attribute__((noinline, noclone)) uint16_t short_ones(const struct way *way, size_t most) {
    uint16_t all = 0;
    size_t block = 1;
    for (size_t at = 0; at + most <= MIB; at += block) {
        block = block % most + 1;
        all ^= way->of(source, block);
    }
    return all;
}

/* GB/s over so many passes. A pass that is not counted comes first, so that no way pays for what the one
   before left behind. */
static __attribute__((noinline, noclone)) double measured(const struct way *way, size_t block,
                                                          uint16_t (*pass)(const struct way *, size_t), size_t passes) {
    uint16_t all = pass(way, block);
    double start = now();
    for (size_t i = 0; i < passes; i++)
        all ^= pass(way, block);
    double seconds = now() - start;
    sink = all;
    return (double)(passes * MIB) / seconds / 1e9;
}

/* What a tenth of the rounds surpass. */
static double figure(const double *rates, int rounds) {
    double *sorted = malloc(sizeof *sorted * (size_t)rounds);
    if (!sorted)
        exit(1);
    memcpy(sorted, rates, sizeof *sorted * (size_t)rounds);
    double rate = high_rate(sorted, rounds);
    free(sorted);
    return rate;
}

/* The median over the rounds of the ratio in the round, whose two measurements stand close together: what slows
   or speeds the machine for a while falls on both. */
static double paired(const double *of, const double *by, int rounds) {
    double *ratios = malloc(sizeof *ratios * (size_t)rounds);
    if (!ratios)
        exit(1);
    for (int round = 0; round < rounds; round++)
        ratios[round] = of[round] / by[round];
    double middle = median(ratios, rounds);
    free(ratios);
    return middle;
}

static void compared(size_t n) {
    uint16_t crc = crc_table(source, n);
    if (bench_crc16(source, n) != crc || crc_slicing(source, n) != crc || isal(source, n) != crc) {
        fprintf(stderr, "the CRCs of %zu bytes differ\n", n);
        exit(1);
    }
    uint32_t sum = 0;
    for (size_t i = 0; i < n; i++)
        sum += i % 2 ? source[i] : source[i] << 8;
    while (sum >> 16)
        sum = (sum & 0xffff) + (sum >> 16);
    if (bench_ip_sum(source, n) != (uint16_t)~sum) {
        fprintf(stderr, "the checksums of %zu bytes differ\n", n);
        exit(1);
    }
}

int main(int count, char **words) {
    int rounds = count > 1 ? atoi(words[1]) : ROUNDS;
    source = aligned_alloc(4096, MIB);
    target = aligned_alloc(4096, MIB);
    if (!source || !target)
        return 1;
    for (size_t i = 0; i < MIB; i++)
        source[i] = (uint8_t)(i * 7 + (i >> 8) * 13);
    memset(target, 1, MIB);
    make_tables();
    for (size_t n = 0; n <= 4096; n++)
        compared(n);

    static const struct {
        const char *name;
        size_t block;
        uint16_t (*pass)(const struct way *, size_t);
    } cases[] = {
        {"512 hot", 512, stayed},   {"512 in 1 MiB", 512, walked},   {"4096 hot", 4096, stayed},
        {"4096 in 1 MiB", 4096, walked}, {"1 to 63", 63, short_ones}, {"32 hot", 32, stayed}, {"16 hot", 16, stayed}, {"8 hot", 8, stayed}, {"1 hot", 1, stayed},
    };
    enum { CASES = sizeof cases / sizeof *cases };
    double *rates = malloc(sizeof *rates * WAYS * CASES * (size_t)rounds);
    if (!rates || rounds < 1)
        return 1;
    for (int round = 0; round < rounds; round++)
        for (int c = 0; c < CASES; c++)
            for (int w = 0; w < WAYS; w++)
                rates[(w * CASES + c) * rounds + round] = measured(
                    &ways[w], cases[c].block, cases[c].pass, ways[w].mebibytes);
    static double rate[WAYS][CASES];
    for (int w = 0; w < WAYS; w++)
        for (int c = 0; c < CASES; c++)
            rate[w][c] = figure(rates + (w * CASES + c) * rounds, rounds);
    printf("| GB/s |");
    for (int c = 0; c < CASES; c++)
        printf(" %s |", cases[c].name);
    printf("\n|---|");
    for (int c = 0; c < CASES; c++)
        printf("---|");
    for (int w = 0; w < WAYS; w++) {
        printf("\n| %s |", ways[w].name);
        for (int c = 0; c < CASES; c++)
            printf(" %.2f |", rate[w][c]);
    }
    static const struct { const char *name; int of, by; } ratios[] = {
        {"crc16 / table of 256", 0, 2}, {"crc16 / slicing-by-16", 0, 3},
        {"crc16 / the same, after a test for null", 0, 4},
        {"crc16 / ISA-L", 0, 5},        {"ip_sum / memcpy", 1, 6},
    };
    for (size_t r = 0; r < sizeof ratios / sizeof *ratios; r++) {
        printf("\n| %s |", ratios[r].name);
        for (int c = 0; c < CASES; c++)
            printf(" %.2f |", rate[ratios[r].of][c] / rate[ratios[r].by][c]);
    }
    for (size_t r = 0; r < sizeof ratios / sizeof *ratios; r++) {
        printf("\n| %s, median of the rounds |", ratios[r].name);
        for (int c = 0; c < CASES; c++)
            printf(" %.2f |", paired(rates + (ratios[r].of * CASES + c) * rounds, rates + (ratios[r].by * CASES + c) * rounds, rounds));
    }
    printf("\n");

    /* Each short length by itself, by the median of the rounds. All lengths are taken in each round, so that a while in
       which the machine is slow falls on all of them alike. */
    static double *ours[64], *theirs[64];
    for (size_t n = 1; n < 64; n++)
        if (!(ours[n] = malloc(sizeof(double) * (size_t)rounds)) || !(theirs[n] = malloc(sizeof(double) * (size_t)rounds)))
            return 1;
    for (int round = 0; round < rounds; round++)
        for (size_t n = 1; n < 64; n++) {
            ours[n][round] = measured(&ways[0], n, stayed, 1);
            theirs[n][round] = measured(&ways[4], n, stayed, 1);
        }
    int slower = 0;
    double least = 1e9;
    for (size_t n = 1; n < 64; n++) {
        double ratio = paired(ours[n], theirs[n], rounds);
        if (ratio < 1) {
            slower++;
            printf("%zu bytes: %.2f of slicing-by-16 after a test for null\n", n, ratio);
        }
        if (ratio < least)
            least = ratio;
    }
    printf("of the lengths 1 to 63, %d are slower; the least ratio is %.2f\n", slower, least);
    return 0;
}
