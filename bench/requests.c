/* Measures what the gate and the queue cost as ops and groups become more. Each figure is the median of the rounds;
   the sizes are taken in turn. */
#include <stdint.h>
#include <stdio.h>
#include <stdlib.h>
#include <string.h>

#include "rounds.h"

/* The static library: an allocator is nothing, a bool is a byte. */
uint32_t bench_gate(uint32_t ops, uint32_t segs, _Bool runs);
uint32_t bench_queue(uint32_t groups);

enum { ROUNDS = 20, WAYS = 5 };

static void expect(uint32_t got, uint32_t want) {
    if (got != want) {
        fprintf(stderr, "%u in place of %u, or no memory\n", got, want);
        exit(1);
    }
}

/* Making the gate, or admitting and ending all ops; the making is then taken off. */
static double gate(uint32_t ops, uint32_t segs, _Bool runs) {
    double start = now();
    expect(bench_gate(ops, segs, 0), 0);
    double made = now();
    if (!runs)
        return made - start;
    expect(bench_gate(ops, segs, 1), ops);
    return (now() - made) - (made - start);
}

static double queue(uint32_t groups) {
    double start = now();
    expect(bench_queue(groups), groups);
    return now() - start;
}

static void move(uint64_t *begins, uint32_t *places, uint32_t to, uint32_t from, size_t count) {
    memmove(begins + to, begins + from, count * sizeof *begins);
    memmove(places + to, places + from, count * sizeof *places);
    __asm__ volatile("" ::: "memory");
}

/* The moves alone of an index of 8 bytes and 4 bytes a group, as the queue's puts and joins make them at most. */
static double moves(uint32_t groups) {
    uint64_t *begins = calloc(groups + 1, sizeof *begins);
    uint32_t *places = calloc(groups + 1, sizeof *places);
    if (!begins || !places)
        exit(1);
    double start = now();
    uint32_t at = 0;
    for (uint32_t n = 0; n < groups; n++) {
        uint32_t place = (uint64_t)at * n / groups;
        move(begins, places, place + 1, place, n - place);
        at = (at + 7919) % groups;
    }
    for (uint32_t n = groups; n > 1; n--) {
        uint32_t place = n % 2 == 0 ? 1 : n - 1;
        move(begins, places, place, place + 1, n - 1 - place);
    }
    double end = now();
    free(begins);
    free(places);
    return end - start;
}

int main(int count, char **words) {
    int rounds = count > 1 ? atoi(words[1]) : ROUNDS;
    double *times = malloc(sizeof *times * 2 * WAYS * (size_t)(rounds < 1 ? 1 : rounds));
    if (!times || rounds < 1)
        return 1;
    for (int round = 0; round < rounds; round++)
        for (int way = 0; way < WAYS; way++)
            for (int big = 0; big < 2; big++) {
                uint32_t ops = big ? 1024 : 512, groups = big ? 16384 : 8192;
                times[(2 * way + big) * rounds + round] = way == 0   ? gate(ops, 512, 0)
                                                          : way == 1 ? gate(ops, 512, 1)
                                                          : way == 2 ? gate(ops, 0, 1)
                                                          : way == 3 ? queue(groups)
                                                                     : moves(groups);
            }
    const char *names[WAYS] = {"a gate made, 512 segments an op", "all ops admitted and ended, 512 segments an op", "all ops admitted and ended, no segment", "groups put, joined from both ends, taken", "the moves of an index alone"};
    printf("| | smaller, ms | twice as many, ms | ratio |\n|---|---|---|---|\n");
    for (int way = 0; way < WAYS; way++) {
        double figure[2];
        for (int big = 0; big < 2; big++)
            figure[big] = median(times + (2 * way + big) * rounds, rounds);
        printf("| %s | %.4f | %.4f | %.2f |\n", names[way], figure[0] * 1e3, figure[1] * 1e3, figure[1] / figure[0]);
    }
    return 0;
}
