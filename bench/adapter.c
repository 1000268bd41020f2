/* Measures how fast the adapter carries a group out and in, beside the guards and the copy that each block costs, in
   one run. Each figure is that of many short measurements, taken in turn, which a tenth of them surpass. */
#include <stdint.h>
#include <stdio.h>
#include <stdlib.h>
#include <string.h>

#include "rounds.h"

/* The static libraries: a slice is a pointer and a length, an allocator is nothing, a bool is a byte. */
uint16_t bench_crc16(const uint8_t *p, size_t n);
uint16_t bench_ip_sum(const uint8_t *p, size_t n);
uint32_t bench_carry(_Bool is_write, _Bool is_ip, uint32_t times);
uint32_t bench_exchange(_Bool is_write, uint32_t times);

enum { BLOCKS = 1024, DATA = 512, FRAME = 520, TIMES = 64, ROUNDS = 100, WAYS = 9 };

static uint8_t *source, *target;

static volatile uint32_t sink;

/* The guards of the blocks' data, so many times. */
static double guards(_Bool is_ip, uint32_t times) {
    double start = spent();
    uint16_t all = 0;
    for (uint32_t i = 0; i < times; i++)
        for (size_t at = 0; at < BLOCKS * FRAME; at += FRAME)
            all ^= is_ip ? bench_ip_sum(source + at, DATA) : bench_crc16(source + at, DATA);
    sink = all;
    return spent() - start;
}

/* Their frames copied, one after another. */
static double copies(uint32_t times) {
    double start = spent();
    for (uint32_t i = 0; i < times; i++)
        for (size_t at = 0; at < BLOCKS * FRAME; at += FRAME) {
            memcpy(target + at, source + at, FRAME);
            __asm__ volatile("" : : "r"(target) : "memory");
        }
    return spent() - start;
}

static uint32_t carry(int way, uint32_t times) { return bench_carry(way & 1, way >> 1, times); }

static uint32_t exchange(int way, uint32_t times) { return bench_exchange(way & 1, times); }

/* The library makes its buffers anew at each call, which is measured and taken off. */
static double taken(uint32_t (*call)(int, uint32_t), int way, uint32_t times) {
    double start = spent();
    uint32_t done = call(way, 1);
    double once = spent();
    uint32_t again = call(way, times + 1);
    double end = spent();
    if (done != BLOCKS || again != done) {
        fprintf(stderr, "not all blocks are good, or no memory\n");
        exit(1);
    }
    return (end - once) - (once - start);
}

static double measured(int way) {
    if (way < 4)
        return taken(carry, way, TIMES);
    if (way < 6)
        return taken(exchange, way - 4, TIMES);
    return way < 8 ? guards(way == 7, TIMES) : copies(TIMES);
}

/* ns for each block: what the adapter takes beside its rig, and what its work takes by itself. */
static void print_row(const char *name, double all, double rig, double work) {
    double own = all - rig;
    printf("| %s | %.2f | %.1f | %.1f | %.1f | %.1f | %.2f | %.2f |\n", name, DATA / all, all, rig, own, work, work / own, work / all);
}

int main(int count, char **words) {
    int rounds = count > 1 ? atoi(words[1]) : ROUNDS;
    source = aligned_alloc(4096, BLOCKS * FRAME);
    target = aligned_alloc(4096, BLOCKS * FRAME);
    double *times = malloc(sizeof *times * WAYS * (size_t)(rounds < 1 ? 1 : rounds));
    if (!source || !target || !times || rounds < 1)
        return 1;
    memset(source, 0, BLOCKS * FRAME);
    memset(target, 0, BLOCKS * FRAME);
    for (int round = 0; round < rounds; round++)
        for (int way = 0; way < WAYS; way++)
            times[way * rounds + round] = measured(way) / TIMES / BLOCKS * 1e9;
    double figure[WAYS];
    for (int way = 0; way < WAYS; way++)
        figure[way] = short_time(times + way * rounds, rounds);
    double crc = figure[6], ip = figure[7], copy = figure[8];
    printf("ns a block: crc16 %.1f, ip_sum %.1f, memcpy %.1f\n", crc, ip, copy);
    printf("| | GB/s of data | ns a block | of it the rig | the adapter | its work by itself | work / adapter | work / all |\n|---|---|---|---|---|---|---|---|\n");
    print_row("out, CRC", figure[1], figure[5], crc + copy);
    print_row("in, CRC", figure[0], figure[4], crc + copy);
    print_row("out, checksum", figure[3], figure[5], ip + crc + copy);
    print_row("in, checksum", figure[2], figure[4], crc + ip + copy);
    return 0;
}
