/* Measures the library for callers in C beside the same loops over ISA-L's CRC and over a table of 256, in one run: the
   check and the making of blocks, and data copied to them and out of them, of 512 bytes to 1 MiB again and again and
   through 64 MiB; tags exchanged, beside a plain loop; and blocks whose data lie in parts of 4 KiB, and blocks over such
   parts, beside one buffer. Times are the thread's. The ways are taken in turn in each
   round; a figure is the median of the rounds, a ratio the median of the ratios in the rounds. */
#define _DEFAULT_SOURCE
#include <stdio.h>
#include <stdlib.h>
#include <string.h>
#include <isa-l/crc.h>
#include "../lib/dixpi.h"
#include "rounds.h"
#include "tables.h"

enum { MIB = 1 << 20, ROUNDS = 60, WAYS = 3 };

static uint16_t isal(const uint8_t *p, size_t n) { return crc16_t10dif(0, (uint8_t *)p, n); }

static uint16_t load16(const uint8_t *p) {
    uint16_t x;
    memcpy(&x, p, 2);
    return __builtin_bswap16(x);
}

static uint32_t load32(const uint8_t *p) {
    uint32_t x;
    memcpy(&x, p, 4);
    return __builtin_bswap32(x);
}

static void store16(uint8_t *p, uint16_t x) {
    x = __builtin_bswap16(x);
    memcpy(p, &x, 2);
}

static void store32(uint8_t *p, uint32_t x) {
    x = __builtin_bswap32(x);
    memcpy(p, &x, 4);
}

/* What a careful author writes in C: sizes and count in locals, one pass, the first difference told. */
static inline __attribute__((always_inline)) uint32_t verify_by(uint16_t (*crc)(const uint8_t *, size_t),
                                                                const uint8_t *blocks, size_t len,
                                                                const struct dixpi_layout *l,
                                                                const struct dixpi_want *w, struct dixpi_found *found) {
    const size_t covered = l->data_size + l->tuple_at, stride = l->data_size + l->meta_size, count = len / stride;
    const uint32_t type = l->type, checks = w->checks, first = w->first_ref;
    const uint16_t app = w->app, mask = checks & DIXPI_CHECK_APP ? w->mask : 0;
    for (size_t i = 0; i < count; i++) {
        const uint8_t *tuple = blocks + i * stride + covered;
        uint16_t has = load16(tuple), its = load16(tuple + 2);
        uint32_t ref = load32(tuple + 4);
        if (its == 0xFFFF && (type != 3 || ref == 0xFFFFFFFF))
            continue;
        if (checks & DIXPI_CHECK_GUARD) {
            uint16_t guard = crc(blocks + i * stride, covered);
            if (guard != has) {
                *found = (struct dixpi_found){i, DIXPI_CHECK_GUARD, guard, has};
                return DIXPI_DIFFERS;
            }
        }
        if ((its ^ app) & mask) {
            *found = (struct dixpi_found){i, DIXPI_CHECK_APP, app, its};
            return DIXPI_DIFFERS;
        }
        if (checks & DIXPI_CHECK_REF && type != 3 && ref != first + (uint32_t)i) {
            *found = (struct dixpi_found){i, DIXPI_CHECK_REF, first + (uint32_t)i, ref};
            return DIXPI_DIFFERS;
        }
    }
    return DIXPI_OK;
}

static inline __attribute__((always_inline)) uint32_t generate_by(uint16_t (*crc)(const uint8_t *, size_t),
                                                                  uint8_t *blocks, size_t len,
                                                                  const struct dixpi_layout *l, uint16_t app,
                                                                  uint32_t first) {
    const size_t covered = l->data_size + l->tuple_at, stride = l->data_size + l->meta_size, count = len / stride;
    const uint32_t type = l->type;
    for (size_t i = 0; i < count; i++) {
        uint8_t *tuple = blocks + i * stride + covered;
        store16(tuple, crc(blocks + i * stride, covered));
        store16(tuple + 2, app);
        store32(tuple + 4, type == 3 ? 0 : first + (uint32_t)i);
    }
    return DIXPI_OK;
}

static const struct dixpi_want WANT = {0xFFFFFF00, 0x1234, 0xFFFF, DIXPI_CHECK_ALL};

/* Each way does one pass over so many bytes. */
static uint32_t verify_ours(uint8_t *b, size_t len, const struct dixpi_layout *l) {
    struct dixpi_found found;
    return dixpi_verify(b, len, l, &WANT, &found);
}
static __attribute__((noinline)) uint32_t verify_isal(uint8_t *b, size_t len, const struct dixpi_layout *l) {
    struct dixpi_found found;
    return verify_by(isal, b, len, l, &WANT, &found);
}
static __attribute__((noinline)) uint32_t verify_table(uint8_t *b, size_t len, const struct dixpi_layout *l) {
    struct dixpi_found found;
    return verify_by(crc_table, b, len, l, &WANT, &found);
}
static uint32_t generate_ours(uint8_t *b, size_t len, const struct dixpi_layout *l) {
    return dixpi_generate(b, len, l, WANT.app, WANT.first_ref);
}
static __attribute__((noinline)) uint32_t generate_isal(uint8_t *b, size_t len, const struct dixpi_layout *l) {
    return generate_by(isal, b, len, l, WANT.app, WANT.first_ref);
}
static __attribute__((noinline)) uint32_t generate_table(uint8_t *b, size_t len, const struct dixpi_layout *l) {
    return generate_by(crc_table, b, len, l, WANT.app, WANT.first_ref);
}

/* There and back, so that each pass finds the tags that it exchanges. */
static uint32_t remap_ours(uint8_t *b, size_t len, const struct dixpi_layout *l) {
    return dixpi_remap(b, len, l, WANT.first_ref, 7) | dixpi_remap(b, len, l, 7, WANT.first_ref);
}
static __attribute__((noinline)) void remap_once(uint8_t *b, size_t len, const struct dixpi_layout *l, uint32_t from,
                                                 uint32_t to) {
    const size_t at = l->data_size + l->tuple_at + 4, stride = l->data_size + l->meta_size, count = len / stride;
    for (size_t i = 0; i < count; i++)
        if (load32(b + i * stride + at) == from + (uint32_t)i)
            store32(b + i * stride + at, to + (uint32_t)i);
}
static uint32_t remap_plain(uint8_t *b, size_t len, const struct dixpi_layout *l) {
    remap_once(b, len, l, WANT.first_ref, 7);
    remap_once(b, len, l, 7, WANT.first_ref);
    return DIXPI_OK;
}

/* The data of the blocks, and their metadata, in buffers of their own: in one part, or in parts of 4 KiB. */
static uint8_t *body, *meta;
static struct iovec *pieces;
static uint32_t apart_one(uint8_t *b, size_t len, const struct dixpi_layout *l) {
    (void)b;
    struct dixpi_found found;
    size_t count = len / (l->data_size + l->meta_size);
    struct iovec whole = {body, count * l->data_size};
    return dixpi_dix_verify(&whole, 1, meta, count * l->meta_size, l, &WANT, &found);
}
static uint32_t apart_pieces(uint8_t *b, size_t len, const struct dixpi_layout *l) {
    (void)b;
    struct dixpi_found found;
    size_t count = len / (l->data_size + l->meta_size), bytes = count * l->data_size, last = bytes % 4096;
    size_t parts = bytes / 4096 + (last != 0);
    pieces[parts - 1].iov_len = last ? last : 4096;
    uint32_t status = dixpi_dix_verify(pieces, parts, meta, count * l->meta_size, l, &WANT, &found);
    pieces[parts - 1].iov_len = 4096;
    return status;
}

/* Data copied to blocks and out of them, in one pass: beside ISA-L's copy that makes the CRC, with the tuple. */
static uint32_t insert_ours(uint8_t *b, size_t len, const struct dixpi_layout *l) {
    struct iovec whole = {body, len / (l->data_size + l->meta_size) * l->data_size};
    return dixpi_insert(&whole, 1, b, len, l, WANT.app, WANT.first_ref);
}
static __attribute__((noinline)) uint32_t insert_isal(uint8_t *b, size_t len, const struct dixpi_layout *l) {
    const size_t data = l->data_size, stride = data + l->meta_size, count = len / stride;
    for (size_t i = 0; i < count; i++) {
        uint8_t *tuple = b + i * stride + data;
        store16(tuple, crc16_t10dif_copy(0, b + i * stride, body + i * data, data));
        store16(tuple + 2, WANT.app);
        store32(tuple + 4, WANT.first_ref + (uint32_t)i);
    }
    return DIXPI_OK;
}
static uint32_t strip_ours(uint8_t *b, size_t len, const struct dixpi_layout *l) {
    struct dixpi_found found;
    return dixpi_strip(b, len, body, len / (l->data_size + l->meta_size) * l->data_size, l, &WANT, &found);
}
static uint32_t strip_all_ours(uint8_t *b, size_t len, const struct dixpi_layout *l) {
    static uint8_t bad[64 * MIB / 512 / 8];
    struct dixpi_found found;
    return dixpi_strip_all(b, len, body, len / (l->data_size + l->meta_size) * l->data_size, bad, sizeof bad, l, &WANT,
                           &found);
}
static __attribute__((noinline)) uint32_t strip_isal(uint8_t *b, size_t len, const struct dixpi_layout *l) {
    const size_t data = l->data_size, stride = data + l->meta_size, count = len / stride;
    for (size_t i = 0; i < count; i++) {
        const uint8_t *tuple = b + i * stride + data;
        if (load16(tuple) != crc16_t10dif_copy(0, body + i * data, b + i * stride, data) ||
            load16(tuple + 2) != WANT.app || load32(tuple + 4) != WANT.first_ref + (uint32_t)i)
            return DIXPI_DIFFERS;
    }
    return DIXPI_OK;
}

/* Blocks over parts of 4 KiB. */
static uint32_t spread_pieces(uint8_t *b, size_t len, const struct dixpi_layout *l) {
    static struct iovec over[64 * MIB / 4096 + 1];
    struct dixpi_found found;
    size_t parts = 0;
    for (size_t at = 0; at < len; at += 4096)
        over[parts++] = (struct iovec){b + at, len - at < 4096 ? len - at : 4096};
    return dixpi_verifyv(over, parts, l, &WANT, 0, &found);
}

typedef uint32_t way(uint8_t *, size_t, const struct dixpi_layout *);
static const struct {
    const char *name;
    way *ways[WAYS];
    const char *names[WAYS];
} CALLS[] = {
    {"verify", {verify_ours, verify_isal, verify_table}, {"library", "ISA-L", "table"}},
    {"generate", {generate_ours, generate_isal, generate_table}, {"library", "ISA-L", "table"}},
    {"insert", {insert_ours, insert_isal, NULL}, {"library", "ISA-L's copy", NULL}},
    {"strip", {strip_ours, strip_isal, strip_all_ours}, {"library", "ISA-L's copy", "strip_all"}},
    {"verifyv", {spread_pieces, verify_ours, NULL}, {"parts of 4 KiB", "one buffer", NULL}},
    {"remap, there and back", {remap_ours, remap_plain, NULL}, {"library", "plain loop", NULL}},
    {"dix_verify", {apart_pieces, apart_one, NULL}, {"parts of 4 KiB", "one buffer", NULL}},
};
enum { CALLED = sizeof CALLS / sizeof *CALLS };
static const struct dixpi_layout LAYOUTS[] = {{512, 8, 0, 1, DIXPI_CRC}, {4096, 8, 0, 1, DIXPI_CRC}};

static const size_t SIZES[] = {512, 4096, 65536, MIB, (size_t)64 * MIB};

/* Seconds of one call; some 4 MiB at least are passed over, by a slow way fewer. A call that isn't counted comes first. */
static double seconds(way *it, uint8_t *b, size_t len, const struct dixpi_layout *l, int is_slow) {
    size_t least = is_slow ? MIB / 4 : 4 * MIB;
    int times = len > least ? 1 : (int)(least / len);
    if (it(b, len, l) != DIXPI_OK)
        exit(1);
    double start = spent();
    for (int i = 0; i < times; i++)
        if (it(b, len, l) != DIXPI_OK)
            exit(1);
    return (spent() - start) / times;
}

static void split(const uint8_t *blocks, size_t len, const struct dixpi_layout *l) {
    size_t stride = l->data_size + l->meta_size;
    for (size_t i = 0; i < len / stride; i++) {
        memcpy(body + i * l->data_size, blocks + i * stride, l->data_size);
        memcpy(meta + i * l->meta_size, blocks + i * stride + l->data_size, l->meta_size);
    }
}

/* A figure of bytes, as 512, 4 K or 64 M. */
static void print_size(size_t size) {
    if (size < 1024)
        printf(" %zu B |", size);
    else if (size < MIB)
        printf(" %zu KiB |", size / 1024);
    else
        printf(" %zu MiB |", size / MIB);
}

static void measured(int call, const struct dixpi_layout *l, uint8_t *blocks, size_t size, size_t len, int rounds) {
    int ways = CALLS[call].ways[2] ? 3 : 2;
    double *taken[WAYS], *ratios = malloc(sizeof(double) * (size_t)rounds);
    for (int w = 0; w < ways; w++)
        if (!(taken[w] = malloc(sizeof(double) * (size_t)rounds)) || !ratios)
            exit(1);
    for (int round = 0; round < rounds; round++)
        for (int w = 0; w < ways; w++)
            taken[w][round] = seconds(CALLS[call].ways[w], blocks, len, l, w == 2 && call < 2);
    size_t count = len / (l->data_size + l->meta_size);
    printf("| %s, %u + %u,", CALLS[call].name, (unsigned)l->data_size, (unsigned)l->meta_size);
    print_size(size);
    char by[200] = "";
    for (int w = 1; w < ways; w++) {
        for (int round = 0; round < rounds; round++)
            ratios[round] = taken[w][round] / taken[0][round];
        snprintf(by + strlen(by), sizeof by - strlen(by), " %.2f of %s;", median(ratios, rounds), CALLS[call].names[w]);
    }
    for (int w = 0; w < ways; w++) {
        double second = median(taken[w], rounds);
        printf(" %s %.2f GB/s, %.1f ns a block |", CALLS[call].names[w], (double)len / second / 1e9,
               second / (double)count * 1e9);
        free(taken[w]);
    }
    printf("%s\n", by);
    free(ratios);
}

int main(int count, char **words) {
    int rounds = count > 1 ? atoi(words[1]) : ROUNDS;
    const size_t most = (size_t)64 * MIB;
    uint8_t *blocks = aligned_alloc(4096, most);
    body = aligned_alloc(4096, most);
    meta = aligned_alloc(4096, 2 * MIB);
    pieces = malloc(sizeof *pieces * (most / 4096));
    if (!blocks || !body || !meta || !pieces || rounds < 1)
        return 1;
    for (size_t i = 0; i < most; i++)
        blocks[i] = (uint8_t)(i * 7 + (i >> 8) * 13);
    for (size_t i = 0; i < most / 4096; i++)
        pieces[i] = (struct iovec){body + i * 4096, 4096};
    make_tables();
    for (size_t k = 0; k < 2; k++)
        for (size_t n = 0; n < sizeof SIZES / sizeof *SIZES; n++) {
            const struct dixpi_layout *l = &LAYOUTS[k];
            size_t stride = l->data_size + l->meta_size, len = SIZES[n] / stride * stride;
            if (SIZES[n] < l->data_size)
                continue;
            if (len == 0)
                len = stride;
            if (generate_ours(blocks, len, l) || verify_isal(blocks, len, l) || verify_table(blocks, len, l))
                return 1;
            split(blocks, len, l);
            for (int call = 0; call < CALLED; call++)
                measured(call, l, blocks, SIZES[n], len, SIZES[n] == most ? rounds / 4 + 1 : rounds);
        }
    return 0;
}
