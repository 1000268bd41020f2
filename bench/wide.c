/* The guards of 32 and 64 bits beside ISA-L's, in alternating rounds: gcc -O2 -Ilib bench/wide.c LIBRARY -lisal. Prints the
   best of each in GB/s, and their ratio, for blocks within 64 KiB. ISA-L 2.30 has no crc64_rocksoft_refl, so beside the guard
   of 64 bits stands its loop by another polynomial, crc64_jones_refl. */
#define _POSIX_C_SOURCE 199309L
#include <isa-l/crc.h>
#include <isa-l/crc64.h>
#include <stdio.h>
#include <time.h>
#include "dixpi.h"

enum { ROUNDS = 21, SPAN = 65536, TIMES = 400 };

static uint8_t bytes[SPAN];
static volatile uint64_t sink;

static uint64_t ours_32(uint8_t *b, size_t n) { return dixpi_crc32c(b, n); }
static uint64_t theirs_32(uint8_t *b, size_t n) { return ~crc32_iscsi(b, (int)n, ~0u); }
static uint64_t ours_64(uint8_t *b, size_t n) { return dixpi_crc64_nvme(b, n); }
static uint64_t theirs_64(uint8_t *b, size_t n) { return crc64_jones_refl(0, b, n); }

static double speed(uint64_t (*guard)(uint8_t *, size_t), size_t size) {
    struct timespec a, b;
    clock_gettime(CLOCK_MONOTONIC, &a);
    for (int k = 0; k < TIMES; k++)
        for (size_t at = 0; at + size <= SPAN; at += size)
            sink += guard(bytes + at, size);
    clock_gettime(CLOCK_MONOTONIC, &b);
    return (double)TIMES * SPAN / ((double)(b.tv_sec - a.tv_sec) * 1e9 + (double)(b.tv_nsec - a.tv_nsec));
}

static void beside(const char *name, uint64_t (*ours)(uint8_t *, size_t), uint64_t (*theirs)(uint8_t *, size_t), size_t size) {
    double best = 0, other = 0;
    for (int k = 0; k < ROUNDS; k++) {
        double a = speed(ours, size), b = speed(theirs, size);
        best = a > best ? a : best;
        other = b > other ? b : other;
    }
    printf("%s %5zu: %.2f beside %.2f, ratio %.2f\n", name, size, best, other, best / other);
}

int main(void) {
    for (size_t i = 0; i < SPAN; i++)
        bytes[i] = (uint8_t)(i * 2654435761u >> 13);
    if (ours_32(bytes, SPAN) != (uint32_t)theirs_32(bytes, SPAN))
        return 70;
    for (size_t size = 512; size <= SPAN; size *= 8) {
        beside("crc32c", ours_32, theirs_32, size);
        beside("crc64 ", ours_64, theirs_64, size);
    }
    return 0;
}
