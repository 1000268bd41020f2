/* Measures how fast texts are read, and how long scripts from a number take, beside a guard of the same texts. Each
   text is read whole and in half, in turn with the others. Times are those of the processor, not of the clock, so that
   waiting for one counts for nothing. A figure is what a tenth of the rounds surpass; a ratio is the median of the
   ratios in each round. */
#include <stdarg.h>
#include <stdint.h>
#include <stdio.h>
#include <stdlib.h>
#include <string.h>

#include "rounds.h"

/* The static libraries: a slice is a pointer and a length, an allocator is nothing. */
uint16_t bench_crc16(const uint8_t *p, size_t n);
uint32_t bench_read(const uint8_t *p, size_t n);
size_t bench_big(uint32_t n, uint32_t seed);
size_t bench_print(uint32_t n, uint32_t seed);

enum { ROUNDS = 20, MOST = 4194304, WAYS = 9 };

struct text {
    uint8_t *bytes;
    size_t len;
};

static struct text empty(void) {
    struct text t = {malloc(2 * MOST), 0};
    if (!t.bytes)
        exit(1);
    return t;
}

static void add(struct text *t, const char *form, ...) {
    va_list more;
    va_start(more, form);
    t->len += (size_t)vsprintf((char *)t->bytes + t->len, form, more);
    va_end(more);
}

static void front(struct text *t) {
    add(t, "dix 1\nmode crc on on 1\nlimits 1024 128 16\npages 256\nlinear 0 4096 dev 0 at 0\n");
}

/* A script behind so many bytes of lines that are skipped. */
static struct text comments(size_t bytes) {
    struct text t = empty();
    while (t.len + 128 + 64 <= bytes)
        add(&t, "# a line of 64 bytes, which the reader skips until its newline.\n");
    front(&t);
    add(&t, "begin\n");
    return t;
}

/* Ops whose list has 512 segments, four in each of 128 blocks, on pages in a scattered order; a `seal`, since its
   blocks aren't counted. */
static struct text lists(int ops) {
    struct text t = empty();
    front(&t);
    add(&t, "begin\n");
    for (int op = 0; op < ops; op++) {
        add(&t, "seal 128 ");
        for (int block = 0; block < 128; block++) {
            int page = block * 37 % 128;
            add(&t, "%s%d:3:509,%d:1:1,%d:0:1,%d:2:1", block ? "," : "", page, page, page, page);
        }
        add(&t, " 200:0:1024 0000 00000000\n");
    }
    return t;
}

/* Ops with one segment. */
static struct text single(int ops) {
    struct text t = empty();
    front(&t);
    add(&t, "begin\n");
    for (int op = 0; op < ops; op++)
        add(&t, "fill %d:%d:1 00\n", op % 128, op % 1000);
    return t;
}

static struct text schedule(int entries) {
    struct text t = empty();
    front(&t);
    for (int i = 0; i < entries; i++)
        add(&t, "schedule %d/%d\n", i * 4, i % 9);
    add(&t, "begin\n");
    return t;
}

static volatile uint64_t sink;

static double read_once(struct text t) {
    double start = spent();
    uint32_t line = bench_read(t.bytes, t.len);
    double end = spent();
    if (line) {
        fprintf(stderr, "a fault in line %u, or no memory\n", line);
        exit(1);
    }
    return end - start;
}

/* The mean of so many readings. */
static double read_text(struct text t, int times) {
    double sum = 0;
    for (int i = 0; i < times; i++)
        sum += read_once(t);
    return sum / times;
}

static double made(uint32_t n, int times, size_t (*make)(uint32_t, uint32_t)) {
    double start = spent();
    for (int i = 0; i < times; i++) {
        size_t got = make(n, (uint32_t)i);
        if (!got)
            exit(1);
        sink += got;
    }
    return (spent() - start) / times;
}

static double guard(struct text t) {
    double start = spent();
    for (int i = 0; i < 8; i++)
        sink += bench_crc16(t.bytes, t.len);
    return (spent() - start) / 8;
}

int main(int count, char **words) {
    int rounds = count > 1 ? atoi(words[1]) : ROUNDS;
    if (rounds < 1)
        return 1;
    struct text half[4] = {comments(MOST / 2), lists(512), schedule(8192), single(512)};
    struct text whole[4] = {comments(MOST), lists(1024), schedule(16384), single(1024)};
    const char *name[WAYS] = {"skipped lines", "lists of 512 segments", "entries of the schedule", "ops of one segment", "big_script, 512 and 1,024 ops", "printed too", "crc16 of the skipped lines"};
    double *small[WAYS], *large[WAYS], *ratio[WAYS];
    for (int way = 0; way < WAYS; way++) {
        small[way] = malloc(sizeof(double) * (size_t)rounds);
        large[way] = malloc(sizeof(double) * (size_t)rounds);
        ratio[way] = malloc(sizeof(double) * (size_t)rounds);
    }
    for (int round = 0; round < rounds; round++) {
        for (int way = 0; way < 4; way++) {
            int times = way == 3 ? 64 : way == 2 ? 8 : 1;
            small[way][round] = read_text(half[way], times);
            large[way][round] = read_text(whole[way], times);
        }
        small[4][round] = made(512, 32, bench_big);
        large[4][round] = made(1024, 32, bench_big);
        small[5][round] = made(512, 8, bench_print);
        large[5][round] = made(1024, 8, bench_print);
        small[6][round] = guard(half[0]);
        large[6][round] = guard(whole[0]);
        for (int way = 0; way < 7; way++)
            ratio[way][round] = large[way][round] / small[way][round];
    }
    printf("| | bytes | half, ms | whole, ms | ratio | MB/s |\n|---|---|---|---|---|---|\n");
    double lists_time = 0, single_time = 0;
    for (int way = 0; way < 7; way++) {
        double a = short_time(small[way], rounds), b = short_time(large[way], rounds), r = median(ratio[way], rounds);
        size_t bytes = way < 4 ? whole[way].len : way == 6 ? whole[0].len : way == 5 ? bench_print(1024, 0) : 0;
        if (bytes)
            printf("| %s | %zu | %.3f | %.3f | %.2f | %.0f |\n", name[way], bytes, a * 1e3, b * 1e3, r, (double)bytes / b / 1e6);
        else
            printf("| %s | | %.3f | %.3f | %.2f | |\n", name[way], a * 1e3, b * 1e3, r);
        if (way == 1)
            lists_time = b;
        if (way == 3)
            single_time = b;
    }
    printf("a list of 512 segments costs %.2f of 512 ops of one segment\n", lists_time / (512 * single_time));
    return 0;
}
