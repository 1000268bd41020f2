/* Calls each export of libdixpi and compares with loops of its own: a CRC bit by bit, a checksum word by word, a check
   block by block. Buffers end where a page begins that can't be read, so a call that goes on behind one ends the
   program. */
#define _DEFAULT_SOURCE
#include <assert.h>
#include <stdio.h>
#include <stdlib.h>
#include <string.h>
#include <sys/mman.h>
#include "dixpi.h"

static_assert(sizeof(struct dixpi_layout) == 20 && offsetof(struct dixpi_layout, meta_size) == 4, "layout");
static_assert(offsetof(struct dixpi_layout, tuple_at) == 8 && offsetof(struct dixpi_layout, type) == 12, "layout");
static_assert(offsetof(struct dixpi_layout, guard) == 16, "layout");
static_assert(sizeof(struct dixpi_want) == 12 && offsetof(struct dixpi_want, app) == 4, "want");
static_assert(offsetof(struct dixpi_want, mask) == 6 && offsetof(struct dixpi_want, checks) == 8, "want");
static_assert(sizeof(struct dixpi_found) == 24 && offsetof(struct dixpi_found, check) == 8, "found");
static_assert(offsetof(struct dixpi_found, expected) == 12 && offsetof(struct dixpi_found, actual) == 16, "found");
static_assert(sizeof(struct dixpi_run) == 8 && offsetof(struct dixpi_run, value) == 4, "run");
static_assert(offsetof(struct dixpi_run, odd) == 6, "run");
static_assert(sizeof(struct dixpi_tuple) == 8 && offsetof(struct dixpi_tuple, app) == 2, "tuple");
static_assert(offsetof(struct dixpi_tuple, ref) == 4, "tuple");
static_assert(sizeof(struct dixpi_sense) == 16 && offsetof(struct dixpi_sense, key) == 8, "sense");
static_assert(offsetof(struct dixpi_sense, asc) == 9 && offsetof(struct dixpi_sense, ascq) == 10, "sense");
static_assert(offsetof(struct dixpi_sense, has_info) == 11, "sense");

static_assert(sizeof(struct dixpi_cdb) == 40 && offsetof(struct dixpi_cdb, op) == 8, "cdb");
static_assert(offsetof(struct dixpi_cdb, n) == 12 && offsetof(struct dixpi_cdb, ref) == 16, "cdb");
static_assert(offsetof(struct dixpi_cdb, app) == 20 && offsetof(struct dixpi_cdb, mask) == 22, "cdb");
static_assert(offsetof(struct dixpi_cdb, protect) == 24 && offsetof(struct dixpi_cdb, flags) == 28, "cdb");
static_assert(offsetof(struct dixpi_cdb, group) == 32 && offsetof(struct dixpi_cdb, control) == 36, "cdb");

static_assert(sizeof(struct dixpi_command) == 48 && offsetof(struct dixpi_command, op) == 8, "command");
static_assert(offsetof(struct dixpi_command, n) == 12 && offsetof(struct dixpi_command, ref) == 16, "command");
static_assert(offsetof(struct dixpi_command, app) == 20 && offsetof(struct dixpi_command, mask) == 22, "command");
static_assert(offsetof(struct dixpi_command, protect) == 24 && offsetof(struct dixpi_command, flags) == 28, "command");
static_assert(offsetof(struct dixpi_command, bytchk) == 32 && offsetof(struct dixpi_command, dld) == 36, "command");
static_assert(offsetof(struct dixpi_command, group) == 40 && offsetof(struct dixpi_command, control) == 44, "command");

static_assert(sizeof(struct dixpi_nvme_layout) == 24 && offsetof(struct dixpi_nvme_layout, at_end) == 8, "layout");
static_assert(offsetof(struct dixpi_nvme_layout, guard) == 12 && offsetof(struct dixpi_nvme_layout, type) == 16, "layout");
static_assert(offsetof(struct dixpi_nvme_layout, storage) == 20, "layout");
static_assert(sizeof(struct dixpi_nvme_tags) == 24 && offsetof(struct dixpi_nvme_tags, storage) == 8, "tags");
static_assert(offsetof(struct dixpi_nvme_tags, app) == 16, "tags");
static_assert(sizeof(struct dixpi_nvme_want) == 32 && offsetof(struct dixpi_nvme_want, storage_mask) == 16, "want");
static_assert(offsetof(struct dixpi_nvme_want, app) == 24 && offsetof(struct dixpi_nvme_want, mask) == 26, "want");
static_assert(offsetof(struct dixpi_nvme_want, checks) == 28, "want");
static_assert(sizeof(struct dixpi_nvme_found) == 32 && offsetof(struct dixpi_nvme_found, expected) == 8, "found");
static_assert(offsetof(struct dixpi_nvme_found, actual) == 16 && offsetof(struct dixpi_nvme_found, check) == 24, "found");

static unsigned passed, failed;

static void is_true(int holds, int line, const char *what) {
    if (holds) {
        passed++;
    } else {
        printf("line %d: not %s\n", line, what);
        failed++;
    }
}
#define IS(what) is_true(what, __LINE__, #what)

/* Memory that is mapped until the test that took it ends: valgrind counts its pieces. */
static struct {
    void *bytes;
    size_t len;
} taken[1 << 14];
static size_t taken_count;

static void give_back(void) {
    while (taken_count) {
        taken_count--;
        munmap(taken[taken_count].bytes, taken[taken_count].len);
    }
}

/* Bytes that end where a page begins that can't be touched, until they are given back. */
static uint8_t *fenced(size_t size) {
    size_t pages = (size + 4095) / 4096 * 4096;
    uint8_t *bytes = mmap(NULL, pages + 4096, PROT_READ | PROT_WRITE, MAP_PRIVATE | MAP_ANONYMOUS, -1, 0);
    if (bytes == MAP_FAILED || mprotect(bytes + pages, 4096, PROT_NONE) || taken_count == sizeof taken / sizeof *taken)
        exit(70);
    taken[taken_count].bytes = bytes;
    taken[taken_count++].len = pages + 4096;
    return bytes + pages - size;
}

/* Layouts that are tried: all, or with a word behind the program's name each seventh, as valgrind takes its time. */
static unsigned every = 1, layouts;
static int is_tried(void) { return layouts++ % every == 0; }

/* A sequence of numbers that look random (xorshift), the same in each run. */
static uint32_t drawn(void) {
    static uint32_t state = 2463534242u;
    state ^= state << 13;
    state ^= state >> 17;
    state ^= state << 5;
    return state;
}

static void fill(uint8_t *bytes, size_t len) {
    for (size_t i = 0; i < len; i++)
        bytes[i] = (uint8_t)(drawn() >> 8);
}

static uint16_t crc_by_bits(uint16_t crc, const uint8_t *bytes, size_t len) {
    for (; len; len--) {
        crc ^= (uint16_t)(*bytes++ << 8);
        for (int i = 0; i < 8; i++)
            crc = (uint16_t)(crc & 0x8000 ? crc << 1 ^ 0x8BB7 : crc << 1);
    }
    return crc;
}

static uint16_t sum_by_words(const uint8_t *bytes, size_t len) {
    uint32_t sum = 0;
    for (size_t i = 0; i < len; i++) {
        sum += i % 2 ? bytes[i] : (uint32_t)bytes[i] << 8;
        sum = (sum & 0xFFFF) + (sum >> 16);
    }
    return (uint16_t)~sum;
}

static uint16_t guard_of(uint32_t kind, const uint8_t *bytes, size_t len) {
    return kind == DIXPI_IP ? sum_by_words(bytes, len) : crc_by_bits(0, bytes, len);
}

static void put16(uint8_t *p, uint32_t x) {
    p[0] = (uint8_t)(x >> 8);
    p[1] = (uint8_t)x;
}

static void put32(uint8_t *p, uint32_t x) {
    put16(p, x >> 16);
    put16(p + 2, x);
}

static void put64(uint8_t *p, uint64_t x) {
    put32(p, (uint32_t)(x >> 32));
    put32(p + 4, (uint32_t)x);
}

static uint32_t get16(const uint8_t *p) { return (uint32_t)p[0] << 8 | p[1]; }
static uint32_t get32(const uint8_t *p) { return get16(p) << 16 | get16(p + 2); }
static uint64_t get64(const uint8_t *p) { return (uint64_t)get32(p) << 32 | get32(p + 4); }

/* Flags that name a check and nothing else, or none by name. */
static int are_flags(uint32_t checks) {
    return checks == DIXPI_CHECK_NONE || (checks && !(checks & ~(uint32_t)DIXPI_CHECK_ALL));
}

/* The check of block i, whose bytes have this guard. */
static uint32_t compare(const struct dixpi_layout *l, const struct dixpi_want *w, uint64_t i, uint16_t guard,
                        const uint8_t *tuple, struct dixpi_found *found) {
    uint32_t app = get16(tuple + 2), ref = get32(tuple + 4);
    uint32_t wanted = w->first_ref + (uint32_t)i;
    if (app == 0xFFFF && (l->type != 3 || ref == 0xFFFFFFFF))
        return DIXPI_OK;
    if (w->checks & DIXPI_CHECK_GUARD && get16(tuple) != guard)
        *found = (struct dixpi_found){i, DIXPI_CHECK_GUARD, guard, get16(tuple)};
    else if (w->checks & DIXPI_CHECK_APP && (app ^ w->app) & w->mask)
        *found = (struct dixpi_found){i, DIXPI_CHECK_APP, w->app, app};
    else if (w->checks & DIXPI_CHECK_REF && l->type != 3 && ref != wanted)
        *found = (struct dixpi_found){i, DIXPI_CHECK_REF, wanted, ref};
    else
        return DIXPI_OK;
    return DIXPI_DIFFERS;
}

static uint32_t verified(const uint8_t *blocks, size_t start, size_t n, const struct dixpi_layout *l,
                         const struct dixpi_want *w, struct dixpi_found *found) {
    size_t covered = l->data_size + l->tuple_at, stride = l->data_size + l->meta_size;
    if (!are_flags(w->checks))
        return DIXPI_BAD_FIELD;
    for (size_t i = start; i < n; i++)
        if (compare(l, w, i, guard_of(l->guard, blocks + i * stride, covered), blocks + i * stride + covered, found))
            return DIXPI_DIFFERS;
    return DIXPI_OK;
}

static void make(const struct dixpi_layout *l, uint64_t i, const uint8_t *guarded, size_t len, uint8_t *tuple,
                 uint16_t app, uint32_t first_ref) {
    put16(tuple, guard_of(l->guard, guarded, len));
    put16(tuple + 2, app);
    put32(tuple + 4, l->type == 3 ? 0 : first_ref + (uint32_t)i);
}

static void generated(uint8_t *blocks, size_t n, const struct dixpi_layout *l, uint16_t app, uint32_t first_ref) {
    size_t covered = l->data_size + l->tuple_at, stride = l->data_size + l->meta_size;
    for (size_t i = 0; i < n; i++)
        make(l, i, blocks + i * stride, covered, blocks + i * stride + covered, app, first_ref);
}

static void remapped(uint8_t *blocks, size_t n, const struct dixpi_layout *l, uint32_t from, uint32_t to) {
    size_t at = l->data_size + l->tuple_at + 4, stride = l->data_size + l->meta_size;
    for (size_t i = 0; i < n && l->type != 3; i++)
        if (get32(blocks + i * stride + at) == from + (uint32_t)i)
            put32(blocks + i * stride + at, to + (uint32_t)i);
}

/* Cuts bytes in parts of drawn lengths, at most so many; each lies in memory of its own and ends at a fence. */
static size_t cut(const uint8_t *bytes, size_t len, struct iovec *parts, size_t most) {
    size_t count = 0;
    while (count < most && (len || drawn() % 2)) {
        size_t size = count + 1 == most ? len : drawn() % (len / 4 + 2);
        if (size > len)
            size = len;
        uint8_t *part = fenced(size);
        memcpy(part, bytes, size);
        parts[count++] = (struct iovec){part, size};
        bytes += size;
        len -= size;
    }
    return count;
}

static const struct dixpi_found NOTHING = {9, 9, 9, 9};

static int same(struct dixpi_found a, struct dixpi_found b) {
    return a.block == b.block && a.check == b.check && a.expected == b.expected && a.actual == b.actual;
}

enum { N = 24, MOST = 4096 + 64 };

static void guards(void) {
    IS(dixpi_crc16((const uint8_t *)"123456789", 9) == 0xD0DB);
    IS(dixpi_crc16(NULL, 0) == 0);
    IS(dixpi_ip_sum(NULL, 0) == 0xFFFF);
    IS(dixpi_ip_sum((const uint8_t[]){0x00, 0x01, 0xF2, 0x03, 0xF4, 0xF5, 0xF6, 0xF7}, 8) == (uint16_t)~0xDDF2);
    for (size_t len = 0; len < 700; len++) {
        uint8_t *bytes = fenced(len);
        fill(bytes, len);
        IS(dixpi_crc16(bytes, len) == crc_by_bits(0, bytes, len));
        IS(dixpi_ip_sum(bytes, len) == sum_by_words(bytes, len));
        uint16_t guard = (uint16_t)drawn();
        IS(dixpi_crc16_after(guard, bytes, len) == crc_by_bits(guard, bytes, len));
    }
    IS(dixpi_crc16_after(0xABCD, NULL, 0) == 0xABCD);
    /* Parts that end anywhere, some empty. */
    uint8_t *bytes = fenced(600);
    fill(bytes, 600);
    for (size_t len = 0; len <= 600; len += 7) {
        struct iovec parts[64];
        size_t count = cut(bytes, len, parts, 64);
        IS(dixpi_crc16v(parts, count) == crc_by_bits(0, bytes, len));
        IS(dixpi_ip_sumv(parts, count) == sum_by_words(bytes, len));
        struct dixpi_run runs[3];
        for (uint32_t kind = 0; kind < 3; kind++)
            dixpi_run_begin(&runs[kind], kind);
        for (size_t i = 0, before = 0; i < count; i++) {
            before += parts[i].iov_len;
            for (uint32_t kind = 0; kind < 3; kind++) {
                struct dixpi_run kept = runs[kind]; /* copied, and gone on with */
                dixpi_run_update(&kept, parts[i].iov_base, parts[i].iov_len);
                runs[kind] = kept;
                IS(dixpi_run_finish(&kept) == guard_of(kind != DIXPI_CRC, bytes, before));
            }
        }
        struct dixpi_run empty;
        dixpi_run_begin(&empty, DIXPI_IP);
        dixpi_run_update(&empty, NULL, 0);
        IS(dixpi_run_finish(&empty) == 0xFFFF && empty.guard == DIXPI_IP);
    }
    IS(dixpi_crc16v(NULL, 0) == 0 && dixpi_ip_sumv(NULL, 0) == 0xFFFF);
    uint8_t *much = fenced(70001);
    memset(much, 0xFF, 70001);
    IS(dixpi_ip_sum(much, 70001) == sum_by_words(much, 70001));
    IS(dixpi_crc16(much, 70001) == crc_by_bits(0, much, 70001));
}

static const struct dixpi_layout LAYOUTS[] = {
    {512, 8, 0, 0, 0},  {520, 8, 0, 0, 0},    {4096, 8, 0, 0, 0}, {4096, 64, 0, 0, 0},
    {4096, 64, 56, 0, 0}, {0, 8, 0, 0, 0}, {7, 11, 2, 0, 0}, {0, 13, 5, 0, 0},
};

/* Checks, and compares with the loop above. */
static uint32_t check(const uint8_t *blocks, const struct dixpi_layout *l, const struct dixpi_want *w,
                      struct dixpi_found *found) {
    struct dixpi_found by_hand = NOTHING;
    *found = NOTHING;
    uint32_t status = dixpi_verify(blocks, (size_t)N * (l->data_size + l->meta_size), l, w, found);
    IS(status == verified(blocks, 0, N, l, w, &by_hand));
    IS(same(*found, by_hand));
    for (size_t start = 0; start <= N; start++) {
        struct dixpi_found later = NOTHING;
        by_hand = NOTHING;
        IS(dixpi_verify_from(blocks, (size_t)N * (l->data_size + l->meta_size), l, w, start, &later) ==
           verified(blocks, start, N, l, w, &by_hand));
        IS(same(later, by_hand));
    }
    return status;
}

static void verify_finds(uint8_t *blocks, const struct dixpi_layout *l, struct dixpi_want w) {
    size_t stride = l->data_size + l->meta_size, covered = l->data_size + l->tuple_at;
    struct dixpi_found f;
    IS(check(blocks, l, &w, &f) == DIXPI_OK);
    blocks[20 * stride + covered + 7] ^= 1;
    IS(check(blocks, l, &w, &f) == (l->type != 3));
    if (l->type != 3)
        IS(f.block == 20 && f.check == DIXPI_CHECK_REF && f.expected == w.first_ref + 20 && f.actual == (f.expected ^ 1));
    blocks[7 * stride + covered + 3] ^= 0x10;
    IS(check(blocks, l, &w, &f) == DIXPI_DIFFERS);
    IS(f.block == 7 && f.check == DIXPI_CHECK_APP && f.expected == w.app && f.actual == (uint32_t)(w.app ^ 0x10));
    blocks[7 * stride + covered] ^= 1;
    IS(check(blocks, l, &w, &f) == DIXPI_DIFFERS);
    IS(f.block == 7 && f.check == DIXPI_CHECK_GUARD && (f.expected ^ f.actual) == 0x100);
    if (covered) {
        blocks[5 * stride + covered - 1] ^= 1;
        IS(check(blocks, l, &w, &f) == DIXPI_DIFFERS && f.block == 5 && f.check == DIXPI_CHECK_GUARD);
    }
    for (uint32_t checks = 0; checks < 32; checks++) {
        w.checks = checks;
        check(blocks, l, &w, &f);
        w.checks = checks | 0xFFFF0000;
        IS(check(blocks, l, &w, &f) == DIXPI_BAD_FIELD);
    }
    w.checks = DIXPI_CHECK_ALL;
    for (size_t i = 0; i < N; i++) {
        w.mask = (uint16_t)drawn();
        check(blocks, l, &w, &f);
        put16(blocks + i * stride + covered + 2, 0xFFFF);
        check(blocks, l, &w, &f);
        if (i % 2)
            put32(blocks + i * stride + covered + 4, 0xFFFFFFFF);
        check(blocks, l, &w, &f);
    }
}

static void generates(const struct dixpi_layout *l, uint16_t app, uint32_t first) {
    static uint8_t by_hand[N * MOST];
    size_t len = (size_t)N * (l->data_size + l->meta_size);
    uint8_t *blocks = fenced(len);
    fill(blocks, len);
    memcpy(by_hand, blocks, len);
    IS(dixpi_generate(blocks, len, l, app, first) == DIXPI_OK);
    generated(by_hand, N, l, app, first);
    IS(!memcmp(blocks, by_hand, len));
}

/* Data and metadata of their own are those of blocks in a line, taken apart. */
static void apart(const struct dixpi_layout *l, struct dixpi_want w) {
    static uint8_t line[N * MOST], data[N * 4096];
    size_t stride = l->data_size + l->meta_size;
    size_t data_len = (size_t)N * l->data_size, meta_len = (size_t)N * l->meta_size;
    uint8_t *meta = fenced(meta_len);
    fill(line, N * stride);
    for (size_t i = 0; i < N; i++) {
        memcpy(data + i * l->data_size, line + i * stride, l->data_size);
        memcpy(meta + i * l->meta_size, line + i * stride + l->data_size, l->meta_size);
    }
    struct iovec parts[40];
    size_t count = cut(data, data_len, parts, 40);
    struct dixpi_found found = NOTHING, by_hand = NOTHING;
    generated(line, N, l, w.app, w.first_ref);
    IS(dixpi_dix_generate(parts, count, meta, meta_len, l, w.app, w.first_ref) == DIXPI_OK);
    int are_same = 1;
    for (size_t i = 0; i < N; i++)
        are_same &= !memcmp(meta + i * l->meta_size, line + i * stride + l->data_size, l->meta_size);
    IS(are_same);
    IS(dixpi_dix_verify(parts, count, meta, meta_len, l, &w, &found) == DIXPI_OK && same(found, NOTHING));
    for (size_t k = 0; k < 40; k++) {
        size_t i = drawn() % N, at = drawn() % l->meta_size;
        uint8_t flip = (uint8_t)(1 << drawn() % 8);
        meta[i * l->meta_size + at] ^= flip;
        line[i * stride + l->data_size + at] ^= flip;
        w.mask = (uint16_t)drawn();
        w.checks = drawn() % 16;
        by_hand = found = NOTHING;
        IS(dixpi_dix_verify(parts, count, meta, meta_len, l, &w, &found) == verified(line, 0, N, l, &w, &by_hand));
        IS(same(found, by_hand));
        size_t start = drawn() % (N + 2);
        by_hand = found = NOTHING;
        IS(dixpi_dix_verify_from(parts, count, meta, meta_len, l, &w, start, &found) ==
           verified(line, start, N, l, &w, &by_hand));
        IS(same(found, by_hand));
        meta[i * l->meta_size + at] ^= flip;
        line[i * stride + l->data_size + at] ^= flip;
    }
    w.checks = DIXPI_CHECK_GUARD;
    if (data_len) {
        size_t last = count - 1;
        while (!parts[last].iov_len)
            last--;
        uint8_t *end = parts[last].iov_base;
        end[parts[last].iov_len - 1] ^= 1;
        IS(dixpi_dix_verify(parts, count, meta, meta_len, l, &w, &found) == DIXPI_DIFFERS);
        IS(found.block == N - 1 && found.check == DIXPI_CHECK_GUARD);
        parts[last].iov_len--;
        IS(dixpi_dix_verify(parts, count, meta, meta_len, l, &w, &found) == DIXPI_BAD_LENGTH);
        IS(dixpi_dix_generate(parts, count, meta, meta_len, l, 0, 0) == DIXPI_BAD_LENGTH);
    }
    struct dixpi_layout bad = *l;
    bad.type = 5;
    found = NOTHING;
    IS(dixpi_dix_verify(parts, count, meta, meta_len, &bad, &w, &found) == DIXPI_BAD_LAYOUT && same(found, NOTHING));
    IS(dixpi_dix_verify(parts, count, meta, meta_len - 1, l, &w, &found) == DIXPI_BAD_LENGTH && same(found, NOTHING));
    IS(dixpi_dix_generate(parts, count, meta, meta_len, &bad, 0, 0) == DIXPI_BAD_LAYOUT);
    IS(dixpi_dix_generate(parts, count, meta, meta_len - 1, l, 0, 0) == DIXPI_BAD_LENGTH);
    IS(dixpi_dix_verify(NULL, 0, NULL, 0, l, &w, &found) == DIXPI_OK);
    IS(dixpi_dix_generate(NULL, 0, NULL, 0, l, 0, 0) == DIXPI_OK);
    for (size_t i = 0; i < N; i++)
        are_same &= !memcmp(meta + i * l->meta_size, line + i * stride + l->data_size, l->meta_size);
    IS(are_same);
}

/* The byte at this place of parts. */
static uint8_t *byte_of(const struct iovec *parts, size_t at) {
    while (at >= parts->iov_len)
        at -= parts++->iov_len;
    return (uint8_t *)parts->iov_base + at;
}

/* What strip leaves: data of blocks that differ in nothing, up to the first that does or of all, and a bit for each. */
static uint32_t stripped(const uint8_t *blocks, size_t n, uint8_t *data, uint8_t *bad, const struct dixpi_layout *l,
                         const struct dixpi_want *w, struct dixpi_found *found) {
    size_t stride = l->data_size + l->meta_size;
    uint32_t answer = DIXPI_OK;
    if (!are_flags(w->checks))
        return DIXPI_BAD_FIELD;
    if (bad)
        memset(bad, 0, (n + 7) / 8);
    for (size_t i = 0; i < n; i++) {
        struct dixpi_found one;
        if (!verified(blocks, i, i + 1, l, w, &one)) {
            memcpy(data + i * l->data_size, blocks + i * stride, l->data_size);
            continue;
        }
        if (!answer)
            *found = one;
        answer = DIXPI_DIFFERS;
        if (!bad)
            break;
        bad[i / 8] = (uint8_t)(bad[i / 8] | 1 << i % 8);
    }
    return answer;
}

/* Both forms of strip leave what the loop leaves, of the first n blocks. */
static void strips(const uint8_t *blocks, size_t n, const struct dixpi_layout *l, const struct dixpi_want *w) {
    static uint8_t by_hand[N * 4096], whole[N * 4096];
    size_t len = n * (l->data_size + l->meta_size), data_len = n * l->data_size;
    uint8_t *data = whole + sizeof whole - data_len;
    uint8_t bad[5] = {0xA5, 0xA5, 0xA5, 0xA5, 0xA5}, bits[5] = {0xA5, 0xA5, 0xA5, 0xA5, 0xA5};
    struct dixpi_found found = NOTHING, wanted = NOTHING;
    memset(by_hand, 0x5A, data_len);
    memset(data, 0x5A, data_len);
    IS(dixpi_strip(blocks, len, data, data_len, l, w, &found) == stripped(blocks, n, by_hand, NULL, l, w, &wanted));
    IS(!memcmp(data, by_hand, data_len) && same(found, wanted));
    found = wanted = NOTHING;
    memset(by_hand, 0x5A, data_len);
    memset(data, 0x5A, data_len);
    IS(dixpi_strip_all(blocks, len, data, data_len, bad, 5, l, w, &found) ==
       stripped(blocks, n, by_hand, bits, l, w, &wanted));
    IS(!memcmp(data, by_hand, data_len) && !memcmp(bad, bits, 5) && same(found, wanted));
}

static void move_refusals(uint8_t *blocks, const struct iovec *parts, size_t count, const struct dixpi_layout *l) {
    static uint8_t before[N * MOST], data[N * 4096], kept[N * 4096];
    size_t stride = l->data_size + l->meta_size, len = N * stride, data_len = (size_t)N * l->data_size;
    struct dixpi_want w = {0, 0, 0, DIXPI_CHECK_ALL}, none = {0, 0, 0, 0};
    struct dixpi_layout bad = *l;
    struct dixpi_found f = NOTHING;
    struct iovec one = {blocks, len - 1}, nothing[2] = {{NULL, 0}, {NULL, 0}};
    uint8_t bits[N / 8] = {7, 7, 7};
    bad.type = 4;
    memcpy(before, blocks, len);
    memset(data, 0x5A, data_len);
    memcpy(kept, data, data_len);
    IS(dixpi_insert(parts, count, blocks, len, &bad, 1, 2) == DIXPI_BAD_LAYOUT);
    IS(dixpi_insert(parts, count, blocks, len - 1, l, 1, 2) == DIXPI_BAD_LENGTH);
    IS(!data_len || dixpi_insert(parts, count, blocks, len - stride, l, 1, 2) == DIXPI_BAD_LENGTH);
    IS(!data_len || dixpi_insert(nothing, 2, blocks, len, l, 1, 2) == DIXPI_BAD_LENGTH);
    IS(dixpi_strip(blocks, len, data, data_len, &bad, &w, &f) == DIXPI_BAD_LAYOUT);
    IS(dixpi_strip(blocks, len - 1, data, data_len, l, &w, &f) == DIXPI_BAD_LENGTH);
    IS(dixpi_strip(blocks, len, data, data_len + 1, l, &w, &f) == DIXPI_BAD_LENGTH);
    IS(!data_len || dixpi_strip(blocks, len, data, data_len - 1, l, &w, &f) == DIXPI_BAD_LENGTH);
    IS(dixpi_strip(blocks, len, data, data_len, l, &none, &f) == DIXPI_BAD_FIELD);
    IS(dixpi_strip_all(blocks, len, data, data_len, bits, N / 8, &bad, &w, &f) == DIXPI_BAD_LAYOUT);
    IS(dixpi_strip_all(blocks, len, data, data_len, bits, N / 8 - 1, l, &w, &f) == DIXPI_BAD_LENGTH);
    IS(dixpi_strip_all(blocks, len, data, data_len + 1, bits, N / 8, l, &w, &f) == DIXPI_BAD_LENGTH);
    IS(dixpi_strip_all(blocks, len, data, data_len, bits, N / 8, l, &none, &f) == DIXPI_BAD_FIELD);
    IS(dixpi_verifyv(&one, 1, l, &w, 0, &f) == DIXPI_BAD_LENGTH);
    IS(dixpi_generatev(&one, 1, l, 1, 2) == DIXPI_BAD_LENGTH && dixpi_remapv(&one, 1, l, 1, 2) == DIXPI_BAD_LENGTH);
    one.iov_len = len;
    IS(dixpi_generatev(&one, 1, &bad, 1, 2) == DIXPI_BAD_LAYOUT);
    IS(dixpi_remapv(&one, 1, &bad, 1, 2) == DIXPI_BAD_LAYOUT);
    IS(dixpi_verifyv(&one, 1, &bad, &w, 0, &f) == DIXPI_BAD_LAYOUT);
    IS(dixpi_verifyv(&one, 1, l, &none, 0, &f) == DIXPI_BAD_FIELD);
    IS(!memcmp(before, blocks, len) && !memcmp(kept, data, data_len) && bits[0] == 7 && bits[1] == 7 && bits[2] == 7);
    IS(dixpi_insert(NULL, 0, NULL, 0, l, 1, 2) == DIXPI_OK && dixpi_insert(nothing, 2, NULL, 0, l, 1, 2) == DIXPI_OK);
    IS(dixpi_strip(NULL, 0, NULL, 0, l, &w, &f) == DIXPI_OK);
    IS(dixpi_strip_all(NULL, 0, NULL, 0, NULL, 0, l, &w, &f) == DIXPI_OK);
    IS(dixpi_verifyv(NULL, 0, l, &w, 0, &f) == DIXPI_OK && dixpi_verifyv(nothing, 2, l, &w, 9, &f) == DIXPI_OK);
    IS(dixpi_generatev(NULL, 0, l, 1, 2) == DIXPI_OK && dixpi_generatev(nothing, 2, l, 1, 2) == DIXPI_OK);
    IS(dixpi_remapv(NULL, 0, l, 1, 2) == DIXPI_OK && dixpi_remapv(nothing, 2, l, 1, 2) == DIXPI_OK);
    IS(same(f, NOTHING));
}

/* Data in parts become blocks, and blocks in parts and in one piece become data again. */
static void moves(const struct dixpi_layout *l, struct dixpi_want w) {
    static uint8_t data[N * 4096], by_hand[N * MOST];
    size_t stride = l->data_size + l->meta_size, len = N * stride, data_len = (size_t)N * l->data_size;
    uint8_t *blocks = fenced(len);
    struct iovec parts[40], pieces[40];
    fill(data, data_len);
    fill(blocks, len);
    memcpy(by_hand, blocks, len);
    for (size_t i = 0; i < N; i++)
        memcpy(by_hand + i * stride, data + i * l->data_size, l->data_size);
    generated(by_hand, N, l, w.app, w.first_ref);
    size_t count = cut(data, data_len, parts, 40);
    IS(dixpi_insert(parts, count, blocks, len, l, w.app, w.first_ref) == DIXPI_OK);
    IS(!memcmp(blocks, by_hand, len));
    move_refusals(blocks, parts, count, l);
    strips(blocks, N, l, &w);
    count = cut(blocks, len, pieces, 40);
    struct dixpi_found found = NOTHING, wanted = NOTHING;
    IS(dixpi_verifyv(pieces, count, l, &w, 0, &found) == DIXPI_OK && same(found, NOTHING));
    for (size_t k = 0; k < 60; k++) {
        size_t at = drawn() % len, start = drawn() % (N + 2);
        uint8_t flip = (uint8_t)(1 << drawn() % 8);
        blocks[at] ^= flip;
        *byte_of(pieces, at) ^= flip;
        w.mask = (uint16_t)drawn();
        w.checks = drawn() % 16;
        found = wanted = NOTHING;
        IS(dixpi_verifyv(pieces, count, l, &w, start, &found) == verified(blocks, start, N, l, &w, &wanted));
        IS(same(found, wanted));
        strips(blocks, drawn() % (N + 1), l, &w);
        if (k % 3 == 0)
            continue;
        blocks[at] ^= flip;
        *byte_of(pieces, at) ^= flip;
    }
}

static int are_joined(const struct iovec *parts, size_t count, const uint8_t *bytes) {
    size_t at = 0, differ = 0;
    for (size_t i = 0; i < count; at += parts[i++].iov_len)
        differ += parts[i].iov_len && memcmp(parts[i].iov_base, bytes + at, parts[i].iov_len);
    return !differ;
}

/* Blocks over parts are made and remapped as the loops do. What lists the parts can't be written. */
static void over_parts(const struct dixpi_layout *l, uint16_t app, uint32_t first) {
    static uint8_t by_hand[N * MOST];
    size_t len = (size_t)N * (l->data_size + l->meta_size), spoilt = drawn() % len;
    struct iovec *parts = (struct iovec *)(void *)fenced(4096);
    fill(by_hand, len);
    size_t count = cut(by_hand, len, parts, 40);
    if (mprotect(parts, 4096, PROT_READ))
        exit(70);
    IS(dixpi_generatev(parts, count, l, app, first) == DIXPI_OK);
    generated(by_hand, N, l, app, first);
    IS(are_joined(parts, count, by_hand));
    by_hand[spoilt] ^= 1;
    *byte_of(parts, spoilt) ^= 1;
    IS(dixpi_remapv(parts, count, l, first, first + 1000) == DIXPI_OK);
    remapped(by_hand, N, l, first, first + 1000);
    IS(are_joined(parts, count, by_hand));
}

/* Three blocks of the smallest layouts, cut in three at each two places. */
enum { FEW = 3, SHORT = FEW * 18, ROOM = SHORT + 8 };

/* Lays bytes in three parts with others about them. */
static void lay(uint8_t *room, const uint8_t *bytes, size_t first, size_t second, size_t len) {
    memset(room, 0xEE, ROOM);
    memcpy(room + 2, bytes, first);
    memcpy(room + 4 + first, bytes + first, second - first);
    memcpy(room + 6 + second, bytes + second, len - second);
}

static void cut_at(const struct dixpi_layout *l, const uint8_t *bytes, size_t first, size_t second) {
    size_t len = FEW * (l->data_size + l->meta_size);
    uint8_t room[ROOM], wanted[ROOM], line[SHORT], by_hand[SHORT];
    struct iovec none = {NULL, 0};
    struct iovec parts[] = {none, {room + 2, first}, none, {room + 4 + first, second - first}, none,
                            {room + 6 + second, len - second}, none};
    memcpy(line, bytes, len);
    memcpy(by_hand, bytes, len);
    lay(room, bytes, first, second, len);
    IS(dixpi_generatev(parts, 7, l, 0x1234, 0xFFFFFFFE) == dixpi_generate(line, len, l, 0x1234, 0xFFFFFFFE));
    generated(by_hand, FEW, l, 0x1234, 0xFFFFFFFE);
    lay(wanted, by_hand, first, second, len);
    IS(!memcmp(room, wanted, ROOM) && !memcmp(line, by_hand, len));
    line[l->data_size + l->tuple_at + 5] ^= 4;
    by_hand[l->data_size + l->tuple_at + 5] ^= 4;
    lay(room, by_hand, first, second, len);
    IS(dixpi_remapv(parts, 7, l, 0xFFFFFFFE, 7) == dixpi_remap(line, len, l, 0xFFFFFFFE, 7));
    remapped(by_hand, FEW, l, 0xFFFFFFFE, 7);
    lay(wanted, by_hand, first, second, len);
    IS(!memcmp(room, wanted, ROOM) && !memcmp(line, by_hand, len));
    parts[6] = (struct iovec){room, 1};
    IS(dixpi_generatev(parts, 7, l, 1, 2) == DIXPI_BAD_LENGTH && dixpi_remapv(parts, 7, l, 7, 9) == DIXPI_BAD_LENGTH);
    IS(!memcmp(room, wanted, ROOM));
}

static void each_cut(void) {
    static const struct dixpi_layout small[] = {{0, 8, 0, 0, 0}, {7, 11, 2, 0, 0}, {0, 13, 5, 0, 0}};
    uint8_t bytes[SHORT];
    fill(bytes, SHORT);
    for (size_t i = 0; i < sizeof small / sizeof *small; i++)
        for (uint32_t k = 0; k < 6; k++) {
            struct dixpi_layout l = small[i];
            size_t len = FEW * (l.data_size + l.meta_size);
            l.type = 1 + k % 3;
            l.guard = k / 3;
            for (size_t second = 0; second <= len; second += every)
                for (size_t first = 0; first <= second; first++)
                    cut_at(&l, bytes, first, second);
        }
}

/* Parts of no bytes, which have no address, stand anywhere among others. */
static void empty_parts(void) {
    struct iovec none = {NULL, 0};
    struct iovec parts[5] = {none, {NULL, 4}, none, {NULL, 508}, none};
    struct dixpi_layout l = {512, 8, 0, 1, DIXPI_CRC};
    struct dixpi_want w = {7, 0, 0, DIXPI_CHECK_GUARD | DIXPI_CHECK_REF};
    struct dixpi_found found;
    uint8_t data[512], meta[8];
    fill(data, sizeof data);
    parts[1].iov_base = data;
    parts[3].iov_base = data + 4;
    IS(dixpi_crc16v(parts, 5) == dixpi_crc16(data, 512));
    IS(dixpi_ip_sumv(parts, 5) == dixpi_ip_sum(data, 512));
    IS(dixpi_crc16v(&none, 1) == 0 && dixpi_crc16(NULL, 0) == 0);
    IS(dixpi_dix_generate(parts, 5, meta, 8, &l, 0x1234, 7) == DIXPI_OK);
    IS(dixpi_dix_verify(parts, 5, meta, 8, &l, &w, &found) == DIXPI_OK);
    data[511] ^= 1;
    IS(dixpi_dix_verify(parts, 5, meta, 8, &l, &w, &found) == DIXPI_DIFFERS);
    IS(dixpi_dix_verify(&none, 1, NULL, 0, &l, &w, &found) == DIXPI_OK);
}

static void maps_tags(uint8_t *blocks, const struct dixpi_layout *l, uint32_t first) {
    static uint8_t by_hand[N * MOST];
    size_t len = (size_t)N * (l->data_size + l->meta_size);
    blocks[3 * (l->data_size + l->meta_size) + l->data_size + l->tuple_at + 6] ^= 1;
    memcpy(by_hand, blocks, len);
    IS(dixpi_remap(blocks, len, l, first, first + 1000) == DIXPI_OK);
    remapped(by_hand, N, l, first, first + 1000);
    IS(!memcmp(blocks, by_hand, len));
    IS(dixpi_remap(blocks, len, l, first + 1000, first) == DIXPI_OK);
    remapped(by_hand, N, l, first + 1000, first);
    IS(!memcmp(blocks, by_hand, len));
}

static void refusals(uint8_t *blocks, const struct dixpi_layout *l) {
    static uint8_t before[N * MOST];
    size_t stride = l->data_size + l->meta_size, len = N * stride;
    struct dixpi_want w = {0, 0, 0, DIXPI_CHECK_ALL};
    struct dixpi_layout bad[] = {*l, *l, *l, *l, *l, *l};
    bad[0].type = 0;
    bad[1].type = 4;
    bad[2].guard = 2;
    bad[3].tuple_at = l->meta_size - 7;
    bad[4].tuple_at = 0xFFFFFFF9;
    bad[5].data_size = 0u - l->meta_size;
    memcpy(before, blocks, len);
    struct dixpi_found f = NOTHING;
    for (size_t i = 0; i < 6; i++) {
        IS(dixpi_verify(blocks, len, &bad[i], &w, &f) == DIXPI_BAD_LAYOUT && same(f, NOTHING));
        IS(dixpi_remap(blocks, len, &bad[i], 0, 1) == DIXPI_BAD_LAYOUT);
        IS(dixpi_generate(blocks, len, &bad[i], 0, 1) == DIXPI_BAD_LAYOUT);
    }
    IS(dixpi_verify(blocks, len - 1, l, &w, &f) == DIXPI_BAD_LENGTH && same(f, NOTHING));
    IS(dixpi_verify_from(blocks, len - 1, l, &w, 1, &f) == DIXPI_BAD_LENGTH && same(f, NOTHING));
    IS(dixpi_verify_from(blocks, len, l, &w, UINT64_MAX, &f) == DIXPI_OK && same(f, NOTHING));
    IS(dixpi_remap(blocks, len - 1, l, 0, 1) == DIXPI_BAD_LENGTH);
    IS(dixpi_generate(blocks, len - 1, l, 0, 1) == DIXPI_BAD_LENGTH);
    IS(dixpi_verify(NULL, 0, l, &w, &f) == DIXPI_OK && same(f, NOTHING));
    IS(dixpi_remap(NULL, 0, l, 0, 1) == DIXPI_OK);
    IS(dixpi_generate(NULL, 0, l, 0, 1) == DIXPI_OK);
    IS(!memcmp(before, blocks, len));
}

static void blocks_in_line(struct dixpi_layout l) {
    size_t len = (size_t)N * (l.data_size + l.meta_size);
    uint8_t *blocks = fenced(len);
    for (uint32_t first = 0xFFFFFFF4; first != 0x10; first += 14) {
        struct dixpi_want w = {first, 0x1234, 0xFFFF, DIXPI_CHECK_ALL};
        fill(blocks, len);
        generated(blocks, N, &l, w.app, first);
        maps_tags(blocks, &l, first);
        generated(blocks, N, &l, w.app, first);
        verify_finds(blocks, &l, w);
        refusals(blocks, &l);
        generates(&l, w.app, first);
        apart(&l, w);
        moves(&l, w);
        over_parts(&l, w.app, first);
    }
}

static void tuples(void) {
    uint8_t *bytes = fenced(8);
    const struct dixpi_tuple known = {0x0102, 0x0304, 0x05060708};
    dixpi_tuple_write(bytes, &known);
    IS(!memcmp(bytes, "\1\2\3\4\5\6\7\10", 8));
    for (int k = 0; k < 2000; k++) {
        struct dixpi_layout l = {0, 8, 0, 1 + drawn() % 3, DIXPI_CRC};
        struct dixpi_want w = {drawn(), (uint16_t)drawn(), (uint16_t)drawn(), drawn() % 17};
        struct dixpi_tuple t = {(uint16_t)drawn(), (uint16_t)drawn(), drawn()}, back = {0, 0, 0};
        uint64_t i = (uint64_t)drawn() << 32 | drawn();
        uint16_t guard = drawn() % 4 ? t.guard : (uint16_t)drawn();
        if (drawn() % 2)
            t.ref = drawn() % 8 ? w.first_ref + (uint32_t)i : 0xFFFFFFFF;
        if (drawn() % 2)
            t.app = drawn() % 4 ? w.app : 0xFFFF;
        dixpi_tuple_write(bytes, &t);
        IS(get16(bytes) == t.guard && get16(bytes + 2) == t.app && get32(bytes + 4) == t.ref);
        dixpi_tuple_read(bytes, &back);
        IS(back.guard == t.guard && back.app == t.app && back.ref == t.ref);
        struct dixpi_found found = NOTHING, by_hand = NOTHING;
        IS(dixpi_check(l.type, bytes, guard, &w, i, &found) ==
           (are_flags(w.checks) ? compare(&l, &w, i, guard, bytes, &by_hand) : (uint32_t)DIXPI_BAD_FIELD));
        IS(same(found, by_hand));
        found = NOTHING;
        IS(dixpi_check(drawn() % 2 ? 0 : 4 + drawn() % 9, bytes, guard, &w, i, &found) == DIXPI_BAD_LAYOUT);
        IS(same(found, NOTHING));
    }
}

/* Sense data in bytes, and how many; 0 where the key has more than four bits. */
static size_t sense_by_hand(const struct dixpi_sense *s, uint8_t out[20]) {
    memset(out, 0, 20);
    if (s->key > 15)
        return 0;
    if (s->has_info && s->info >> 32) {
        memcpy(out, (uint8_t[]){0x72, s->key, s->asc, s->ascq, 0, 0, 0, 0x0C, 0, 0x0A, 0x80, 0}, 12);
        put64(out + 12, s->info);
        return 20;
    }
    out[0] = s->has_info ? 0xF0 : 0x70;
    out[2] = s->key;
    put32(out + 3, s->has_info ? (uint32_t)s->info : 0);
    out[7] = 0x0A;
    out[12] = s->asc;
    out[13] = s->ascq;
    return 18;
}

/* The sense that is written as these bytes, found by writing what stands at the places of both formats. */
static uint32_t sense_read_by_hand(const uint8_t *b, size_t len, struct dixpi_sense *s) {
    uint8_t out[20];
    if (!len || ((b[0] == 0x70 || b[0] == 0xF0) && len < 18) || (b[0] == 0x72 && len < 20))
        return DIXPI_BAD_LENGTH;
    if (b[0] == 0x72)
        *s = (struct dixpi_sense){.info = get64(b + 12), .key = b[1], .asc = b[2], .ascq = b[3], .has_info = 1};
    else if (b[0] == 0x70 || b[0] == 0xF0)
        *s = (struct dixpi_sense){.info = b[0] == 0xF0 ? get32(b + 3) : 0, .key = b[2], .asc = b[12], .ascq = b[13],
                                  .has_info = b[0] == 0xF0};
    else
        return DIXPI_BAD_FIELD;
    size_t size = sense_by_hand(s, out);
    return size == len && !memcmp(out, b, len) ? DIXPI_OK : DIXPI_BAD_FIELD;
}

static void senses(void) {
    for (int k = 0; k < 4000; k++) {
        uint64_t wide = (uint64_t)drawn() << 32 | drawn();
        struct dixpi_sense s = {.info = wide >> drawn() % 64, .key = (uint8_t)(drawn() % 18),
                                .asc = (uint8_t)(drawn() % 2 ? 0x10 : drawn()), .ascq = (uint8_t)(drawn() % 5),
                                .has_info = (uint8_t)(drawn() % 3)};
        struct dixpi_sense back, by_hand;
        uint8_t out[20], wanted[20];
        uint8_t *bytes = fenced(24);
        uint32_t len = 77, by_target = 77;
        memset(out, 0xEE, 20);
        size_t size = sense_by_hand(&s, wanted);
        IS(dixpi_sense_encode(&s, out, &len) == (size ? DIXPI_OK : DIXPI_BAD_FIELD));
        IS(len == (size ? size : 77) && !memcmp(out, wanted, size));
        for (size_t i = size; i < 20; i++)
            IS(out[i] == 0xEE);
        uint32_t check = s.asc == 0x10 && s.ascq >= 1 && s.ascq <= 3 && (s.key == 5 || s.key == 0xB) ? 1u << s.ascq : 0;
        IS(dixpi_sense_check(&s, &by_target) == check);
        if (check)
            IS(by_target == (s.key == 0xB));
        if (!size)
            continue;
        memcpy(bytes + 24 - size, out, size);
        if (drawn() % 2)
            bytes[24 - size + drawn() % size] ^= (uint8_t)(1 << drawn() % 8);
        size_t cut = drawn() % 4 ? size : drawn() % (size + 1);
        memmove(bytes + 24 - cut, bytes + 24 - size, cut);
        uint32_t status = sense_read_by_hand(bytes + 24 - cut, cut, &by_hand);
        memset(&back, 0x5A, sizeof back);
        IS(dixpi_sense_decode(bytes + 24 - cut, cut, &back) == status);
        if (status == DIXPI_OK) {
            struct dixpi_sense seen;
            IS(dixpi_sense_find(bytes + 24 - cut, cut, &seen, &by_target) == DIXPI_OK && by_target == 0);
            IS(seen.info == back.info && seen.key == back.key && seen.asc == back.asc && seen.ascq == back.ascq &&
               seen.has_info == back.has_info);
            IS(back.info == by_hand.info && back.key == by_hand.key && back.asc == by_hand.asc &&
               back.ascq == by_hand.ascq && back.has_info == by_hand.has_info);
        }
    }
}

/* Sense data as devices send them, from the tables of SPC-4 and what drivers and targets write, with what they say. */
static const struct {
    const char *bytes;
    size_t len;
    uint32_t status;
    struct dixpi_sense says;
    uint32_t deferred;
} SENT[] = {
    /* Fixed format: 18 bytes, and cut off behind the qualifier or filled with zeros. */
    {"\x70\0\x05\0\0\0\0\x0a\0\0\0\0\x24\0\0\xc0\0\x01", 18, 0, {.key = 5, .asc = 0x24}, 0},
    {"\xf0\0\x0b\0\0\x12\x34\x0a\0\0\0\0\x10\x03\0\0\0\0", 14, 0, {0x1234, 0xb, 0x10, 3, 1}, 0},
    {"\xf0\0\x0b\0\0\x12\x34\x06\0\0\0\0\x10\x01", 14, 0, {0x1234, 0xb, 0x10, 1, 1}, 0},
    {"\x71\0\x03\0\0\0\x07\x58\0\0\0\0\x11\0\x85\0\0\0\0\0\0\0\0\0\0\0\0\0\0\0\0\0", 32, 0, {.key = 3, .asc = 0x11}, 1},
    {"\xf1\0\xe3\0\0\0\x07\x0a\1\2\3\4\x0c\x02\0\0\0\0", 18, 0, {7, 3, 0x0c, 2, 1}, 1},
    /* They end before the qualifier: by their number, or by what they say. */
    {"\x70\0\x05\0\0\0\0\x0a\0\0\0\0\x24", 13, DIXPI_BAD_LENGTH, {0}, 0},
    {"\x70\0\x05\0\0\0\0\x04\0\0\0\0\x24\0\0\0\0\0", 18, DIXPI_BAD_LENGTH, {0}, 0},
    {"\x72\x0b\x10\x01\0\0\0", 7, DIXPI_BAD_LENGTH, {0}, 0},
    {"", 0, DIXPI_BAD_LENGTH, {0}, 0},
    /* No sense. */
    {"\x6f\0\0\0\0\0\0\0", 8, DIXPI_BAD_FIELD, {0}, 0},
    {"\0", 1, DIXPI_BAD_FIELD, {0}, 0},
    /* Descriptor format: bare; with its information; behind a command specific one; not valid; cut off in it. */
    {"\x72\x05\x24\0\0\0\0\0", 8, 0, {.key = 5, .asc = 0x24}, 0},
    {"\x72\x0b\x10\x02\0\0\0\x0c\0\x0a\x80\0\0\0\0\1\0\0\0\2", 20, 0, {0x100000002, 0xb, 0x10, 2, 1}, 0},
    {"\x73\x03\x11\0\0\0\0\x18\1\x0a\0\0\0\0\0\0\0\0\0\0\0\x0a\x80\0\0\0\0\0\0\0\0\x63", 32, 0, {0x63, 3, 0x11, 0, 1}, 1},
    {"\x72\x0b\x10\x02\0\0\0\x0c\0\x0a\0\0\0\0\0\1\0\0\0\2", 20, 0, {.key = 0xb, .asc = 0x10, .ascq = 2}, 0},
    {"\x72\x0b\x10\x02\0\0\0\x0c\0\x0a\x80\0\0\0\0\1\0\0\0\2", 19, 0, {.key = 0xb, .asc = 0x10, .ascq = 2}, 0},
};

static void sent_senses(void) {
    for (size_t i = 0; i < sizeof SENT / sizeof *SENT; i++) {
        struct dixpi_sense s = {9, 9, 9, 9, 9}, wanted = SENT[i].status ? s : SENT[i].says;
        uint32_t deferred = 77;
        uint8_t *bytes = fenced(SENT[i].len);
        memcpy(bytes, SENT[i].bytes, SENT[i].len);
        IS(dixpi_sense_find(bytes, SENT[i].len, &s, &deferred) == SENT[i].status);
        IS(deferred == (SENT[i].status ? 77 : SENT[i].deferred));
        IS(s.info == wanted.info && s.key == wanted.key && s.asc == wanted.asc && s.ascq == wanted.ascq &&
           s.has_info == wanted.has_info);
    }
}

/* The bytes of a command, laid out by hand, and their number; 0 where a field doesn't fit. */
static uint32_t cdb_by_hand(const struct dixpi_cdb *c, uint8_t out[32]) {
    int is_verify = c->op == DIXPI_VERIFY_10 || c->op == DIXPI_VERIFY_16;
    uint32_t size = c->op > 0xFF ? 32 : c->op < 0x80 ? 10 : 16;
    uint8_t first = (uint8_t)(c->protect << 5 | c->flags);
    if (c->protect > 4 || c->protect == 2 || c->group > 31 || c->control > 255 || c->flags & ~(is_verify ? 16u : 24u))
        return 0;
    if (size != 32 && (c->ref || c->app || c->mask))
        return 0;
    if (size == 10 && (c->lba >> 32 || c->n >> 16))
        return 0;
    memset(out, 0, size);
    out[0] = size == 32 ? 0x7F : (uint8_t)c->op;
    out[size == 32 ? 10 : 1] = first;
    out[size == 16 ? 14 : 6] = (uint8_t)c->group;
    out[size == 32 ? 1 : size - 1] = (uint8_t)c->control;
    if (size == 10) {
        put32(out + 2, (uint32_t)c->lba);
        put16(out + 7, c->n);
    } else if (size == 16) {
        put64(out + 2, c->lba);
        put32(out + 10, c->n);
    } else {
        out[7] = 0x18;
        out[9] = (uint8_t)c->op;
        put64(out + 12, c->lba);
        put32(out + 20, c->ref);
        put16(out + 24, c->app);
        put16(out + 26, c->mask);
        put32(out + 28, c->n);
    }
    return size;
}

static void commands(void) {
    static const uint32_t OPS[] = {DIXPI_READ_10,   DIXPI_WRITE_10,  DIXPI_VERIFY_10, DIXPI_READ_16,
                                   DIXPI_WRITE_16,  DIXPI_VERIFY_16, DIXPI_READ_32,   DIXPI_WRITE_32};
    for (int i = 0; i < 4000; i++) {
        int tags = drawn() % 2;
        struct dixpi_cdb c = {.lba = drawn(), .op = OPS[drawn() % 8], .n = drawn() >> 16, .ref = tags ? drawn() : 0,
                              .app = tags ? (uint16_t)drawn() : 0, .mask = tags ? (uint16_t)drawn() : 0,
                              .protect = drawn() % 6, .flags = drawn() % 5 * 8, .group = drawn() % 34,
                              .control = drawn() % 260};
        if (drawn() % 4 == 0)
            c.lba <<= 16, c.n <<= 8;
        uint8_t wanted[32], out[32];
        memset(wanted, 0xEE, 32);
        memset(out, 0xEE, 32);
        uint32_t size = cdb_by_hand(&c, wanted), len = 77;
        IS(dixpi_cdb_encode(&c, out, &len) == (size ? DIXPI_OK : DIXPI_BAD_FIELD));
        IS(len == (size ? size : 77) && !memcmp(out, wanted, 32));
        if (!size)
            continue;
        struct dixpi_cdb back;
        uint8_t *bytes = out + 32 - size;
        memmove(bytes, out, size);
        IS(dixpi_cdb_decode(bytes, size, &back) == DIXPI_OK && !memcmp(&back, &c, sizeof c));
        IS(dixpi_cdb_decode(bytes, size - 1, &back) == DIXPI_BAD_LENGTH);
        bytes[size == 32 ? 10 : 1] ^= 4;
        IS(dixpi_cdb_decode(bytes, size, &back) == DIXPI_BAD_FIELD);
    }
    struct dixpi_cdb capacity = {.op = DIXPI_READ_CAPACITY_16, .n = 32, .control = 4}, back;
    uint8_t out[32], wanted[16] = {0x9E, 0x10, [13] = 32, [15] = 4};
    uint32_t len;
    IS(dixpi_cdb_encode(&capacity, out, &len) == DIXPI_OK && len == 16 && !memcmp(out, wanted, 16));
    IS(dixpi_cdb_decode(wanted, 16, &back) == DIXPI_OK && !memcmp(&back, &capacity, sizeof back));
    wanted[1] = 0x11;
    IS(dixpi_cdb_decode(wanted, 16, &back) == DIXPI_BAD_OPCODE);
    capacity.op = 0x9E;
    IS(dixpi_cdb_encode(&capacity, out, &len) == DIXPI_BAD_OPCODE);
}

/* Commands as initiators send them: the tables of SBC-3, clause 5, by hand; those of READ and WRITE with flags are
   what Linux' sd and sg3_utils (sg_read, sg_write_x, sg_verify, sg_write_same, sg_compare_and_write) send. */
static const struct {
    const char *bytes;
    size_t len;
    struct dixpi_command says;
} COMMANDS[] = {
    /* RDPROTECT 1, DPO, FUA, RARC; group 5. A field of 16 bytes. */
    {"\x28\x3c\0\0\x12\x34\x05\0\x08\0\xee\xee\xee\xee\xee\xee", 10,
     {.lba = 0x1234, .op = DIXPI_READ_10, .n = 8, .protect = 1, .flags = DIXPI_DPO | DIXPI_FUA | DIXPI_RARC,
      .group = 5}},
    /* WRPROTECT 5, FUA_NV; group 63 of SBC-4. */
    {"\x2a\xa2\xff\xff\xff\xff\x3f\xff\xff\x04", 10,
     {.lba = 0xFFFFFFFF, .op = DIXPI_WRITE_10, .n = 65535, .protect = 5, .flags = DIXPI_FUA_NV, .group = 63,
      .control = 4}},
    /* VRPROTECT 2 with BYTCHK 01b, and 11b with DPO. */
    {"\x2f\x42\0\0\0\x07\0\0\x01\0", 10, {.lba = 7, .op = DIXPI_VERIFY_10, .n = 1, .protect = 2, .bytchk = 1}},
    {"\xaf\x16\0\0\0\x07\0\0\0\x01\0\0", 12,
     {.lba = 7, .op = DIXPI_VERIFY_12, .n = 1, .flags = DIXPI_DPO, .bytchk = 3}},
    {"\x8f\x62\0\0\0\1\0\0\0\0\0\0\1\0\x1f\0", 16,
     {.lba = 0x100000000, .op = DIXPI_VERIFY_16, .n = 256, .protect = 3, .bytchk = 1, .group = 31}},
    /* READ(12) and WRITE(12). */
    {"\xa8\x20\0\0\0\1\0\1\0\0\x02\0", 12, {.lba = 1, .op = DIXPI_READ_12, .n = 65536, .protect = 1, .group = 2}},
    {"\xaa\x08\0\0\0\1\0\0\0\2\0\0", 12, {.lba = 1, .op = DIXPI_WRITE_12, .n = 2, .flags = DIXPI_FUA}},
    /* READ(16) with duration limits: the third bit stands in byte 1, the others in bits 7 and 6 of byte 14. */
    {"\x88\x21\0\0\0\0\0\0\x12\x34\0\0\0\x08\x40\0", 16,
     {.lba = 0x1234, .op = DIXPI_READ_16, .n = 8, .protect = 1, .dld = 5}},
    {"\x8a\x28\0\0\0\0\0\0\x12\x34\0\0\0\x08\xc3\0", 16,
     {.lba = 0x1234, .op = DIXPI_WRITE_16, .n = 8, .protect = 1, .flags = DIXPI_FUA, .dld = 3, .group = 3}},
    /* WRITE AND VERIFY, WRITE SAME, COMPARE AND WRITE. */
    {"\x2e\x32\0\0\0\x09\0\0\x02\0", 10,
     {.lba = 9, .op = DIXPI_WRITE_AND_VERIFY_10, .n = 2, .protect = 1, .flags = DIXPI_DPO, .bytchk = 1}},
    {"\xae\x02\0\0\0\x09\0\0\0\2\0\0", 12, {.lba = 9, .op = DIXPI_WRITE_AND_VERIFY_12, .n = 2, .bytchk = 1}},
    {"\x8e\x20\0\0\0\0\0\0\0\x09\0\0\0\2\0\0", 16,
     {.lba = 9, .op = DIXPI_WRITE_AND_VERIFY_16, .n = 2, .protect = 1}},
    {"\x41\x08\0\0\0\x09\0\0\0\0", 10, {.lba = 9, .op = DIXPI_WRITE_SAME_10, .flags = DIXPI_UNMAP}},
    {"\x93\x39\0\0\0\0\0\0\0\x09\0\0\x10\0\0\0", 16,
     {.lba = 9, .op = DIXPI_WRITE_SAME_16, .n = 4096, .protect = 1, .flags = DIXPI_ANCHOR | DIXPI_UNMAP | DIXPI_NDOB}},
    {"\x89\x38\0\0\0\0\0\0\0\x09\0\0\0\1\0\0", 16,
     {.lba = 9, .op = DIXPI_COMPARE_AND_WRITE, .n = 1, .protect = 1, .flags = DIXPI_DPO | DIXPI_FUA}},
    /* Of 32 bytes: expected tags, and the duration limit in byte 11. */
    {"\x7f\0\0\0\0\0\0\x18\0\x09\x28\x05\0\0\0\0\0\0\x12\x34\0\0\x12\x34\0\0\0\0\0\0\0\x08", 32,
     {.lba = 0x1234, .op = DIXPI_READ_32, .n = 8, .ref = 0x1234, .protect = 1, .flags = DIXPI_FUA, .dld = 5}},
    {"\x7f\x04\0\0\0\0\x07\x18\0\x0a\x32\0\0\0\0\1\0\0\0\2\0\0\0\2\xbe\xef\xff\xff\0\0\0\1", 32,
     {.lba = 0x100000002, .op = DIXPI_VERIFY_32, .n = 1, .ref = 2, .app = 0xBEEF, .mask = 0xFFFF, .protect = 1,
      .flags = DIXPI_DPO, .bytchk = 1, .group = 7, .control = 4}},
    {"\x7f\0\0\0\0\0\0\x18\0\x0b\x22\0\0\0\0\0\0\0\0\2\0\0\0\2\0\0\0\0\0\0\0\1", 32,
     {.lba = 2, .op = DIXPI_WRITE_32, .n = 1, .ref = 2, .protect = 1, .flags = DIXPI_FUA_NV}},
    {"\x7f\0\0\0\0\0\0\x18\0\x0c\x22\0\0\0\0\0\0\0\0\2\0\0\0\2\0\0\0\0\0\0\0\1", 32,
     {.lba = 2, .op = DIXPI_WRITE_AND_VERIFY_32, .n = 1, .ref = 2, .protect = 1, .bytchk = 1}},
    {"\x7f\0\0\0\0\0\0\x18\0\x0d\x21\0\0\0\0\0\0\0\0\2\0\0\0\2\0\0\0\0\0\0\0\1", 32,
     {.lba = 2, .op = DIXPI_WRITE_SAME_32, .n = 1, .ref = 2, .protect = 1, .flags = DIXPI_NDOB}},
    {"\x9e\x10\0\0\0\0\0\0\0\0\0\0\0\x20\0\0", 16, {.op = DIXPI_READ_CAPACITY_16, .n = 32}},
};

/* Bytes that aren't served, in a buffer of so many, and why. */
static const struct {
    const char *bytes;
    size_t len, is;
    uint32_t status;
} REFUSED[] = {
    {"", 0, 0, DIXPI_BAD_LENGTH},
    {"\x28\0\0\0\0\0\0\0\0", 9, 10, DIXPI_BAD_LENGTH},
    {"\x88\0\0\0\0\0\0\0\0\0\0\0", 12, 16, DIXPI_BAD_LENGTH},
    {"\x7f\0\0\0\0\0\0", 7, 0, DIXPI_BAD_LENGTH},
    {"\x7f\0\0\0\0\0\0\x18\0\x09\0\0\0\0\0\0", 16, 32, DIXPI_BAD_LENGTH},
    {"\x7f\0\0\0\0\0\0\x10\0\x09\0\0\0\0\0\0\0\0\0\0\0\0\0\0", 24, 24, DIXPI_BAD_FIELD},
    {"\x7f\0\0\0\0\0\0\x18\x88\x09\0\0\0\0\0\0\0\0\0\0\0\0\0\0\0\0\0\0\0\0\0\0", 32, 32, DIXPI_BAD_OPCODE},
    {"\x12\0\0\0\x24\0", 6, 6, DIXPI_BAD_OPCODE},
    {"\x9e\x12\0\0\0\0\0\0\0\0\0\0\0\x20\0\0", 16, 16, DIXPI_BAD_OPCODE},
    {"\xc1\0\0\0\0\0\0\0\0\0", 10, 0, DIXPI_BAD_OPCODE},
    {"\x28\xc0\0\0\0\0\0\0\0\0", 10, 10, DIXPI_BAD_FIELD}, /* RDPROTECT 6 */
    {"\x2a\x04\0\0\0\0\0\0\0\0", 10, 10, DIXPI_BAD_FIELD}, /* RARC of WRITE */
    {"\x2f\x08\0\0\0\0\0\0\0\0", 10, 10, DIXPI_BAD_FIELD}, /* FUA of VERIFY */
    {"\x41\x01\0\0\0\0\0\0\0\0", 10, 10, DIXPI_BAD_FIELD}, /* NDOB of WRITE SAME(10) */
    {"\x89\0\0\0\0\0\0\0\0\0\0\0\1\0\0\0", 16, 16, DIXPI_BAD_FIELD}, /* 256 blocks of COMPARE AND WRITE */
};

static void sent_commands(void) {
    for (size_t i = 0; i < sizeof COMMANDS / sizeof *COMMANDS; i++) {
        size_t len = COMMANDS[i].len;
        uint8_t out[32], *bytes = fenced(len), *field = fenced(32);
        struct dixpi_command back;
        uint32_t count = 77;
        memcpy(bytes, COMMANDS[i].bytes, len);
        fill(field, 32);
        memcpy(field, COMMANDS[i].bytes, len);
        IS(dixpi_cdb_len(bytes, len) == len && dixpi_cdb_len(field, 32) == len);
        memset(&back, 0x5A, sizeof back);
        IS(dixpi_command_decode(bytes, len, &back) == DIXPI_OK && !memcmp(&back, &COMMANDS[i].says, sizeof back));
        memset(&back, 0x5A, sizeof back);
        IS(dixpi_command_decode(field, 32, &back) == DIXPI_OK && !memcmp(&back, &COMMANDS[i].says, sizeof back));
        IS(dixpi_command_decode(bytes, len - 1, &back) == DIXPI_BAD_LENGTH);
        memset(out, 0xEE, 32);
        IS(dixpi_command_encode(&COMMANDS[i].says, out, &count) == DIXPI_OK && count == len);
        IS(!memcmp(out, bytes, len));
        for (size_t k = len; k < 32; k++)
            IS(out[k] == 0xEE);
    }
    for (size_t i = 0; i < sizeof REFUSED / sizeof *REFUSED; i++) {
        uint8_t *bytes = fenced(REFUSED[i].len);
        struct dixpi_command back = COMMANDS[0].says;
        memcpy(bytes, REFUSED[i].bytes, REFUSED[i].len);
        IS(dixpi_cdb_len(bytes, REFUSED[i].len) == REFUSED[i].is);
        IS(dixpi_command_decode(bytes, REFUSED[i].len, &back) == REFUSED[i].status);
        IS(!memcmp(&back, &COMMANDS[0].says, sizeof back));
    }
    static const uint32_t ASKED[] = {1, 14, 12, 1, 2, 14, 0, 0, 0};
    for (uint32_t i = 0; i < 9; i++)
        IS(dixpi_protect_checks(i) == ASKED[i]);
}

/* Numbers that draw themselves: what encodes decodes to the same, what decodes encodes to the same, each bit that is
   flipped is seen or refused, and both decoders agree where the exact one answers. */
static void drawn_commands(void) {
    for (int k = 0; k < 20000; k++) {
        struct dixpi_command c = COMMANDS[drawn() % (sizeof COMMANDS / sizeof *COMMANDS)].says, back, again;
        uint8_t out[32], twice[32];
        uint32_t len, more;
        switch (drawn() % 8) {
        case 0: c.flags ^= 1u << drawn() % 14; break;
        case 1: c.protect = drawn() % 8; break;
        case 2: c.dld = drawn() % 9; break;
        case 3: c.bytchk = drawn() % 5; break;
        case 4: c.group = drawn() % 66; break;
        case 5: c.lba ^= 1ull << drawn() % 64; break;
        case 6: c.n ^= 1u << drawn() % 32; break;
        default: c.op ^= 1u << drawn() % 16;
        }
        memset(out, 0xEE, 32);
        if (dixpi_command_encode(&c, out, &len) != DIXPI_OK)
            continue;
        IS(len == dixpi_cdb_len(out, 32));
        IS(dixpi_command_decode(out, 32, &back) == DIXPI_OK && !memcmp(&back, &c, sizeof c));
        out[drawn() % len] ^= (uint8_t)(1 << drawn() % 8);
        if (dixpi_command_decode(out, 32, &again) == DIXPI_OK) {
            IS(memcmp(&again, &c, sizeof c) != 0);
            IS(dixpi_command_encode(&again, twice, &more) == DIXPI_OK && !memcmp(twice, out, more));
        }
        struct dixpi_cdb exact;
        uint32_t is = dixpi_cdb_len(out, 32);
        if (is && is <= 32 && dixpi_cdb_decode(out, is, &exact) == DIXPI_OK) {
            IS(dixpi_command_decode(out, 32, &again) == DIXPI_OK);
            IS(again.lba == exact.lba && again.op == exact.op && again.n == exact.n && again.ref == exact.ref);
            IS(again.app == exact.app && again.mask == exact.mask && again.protect == exact.protect);
            IS(again.flags == exact.flags && again.group == exact.group && again.control == exact.control);
            IS(!again.bytchk && !again.dld);
        }
    }
}

/* Texts into room of each size: what snprintf writes, and nothing behind it. */
static void says(uint64_t answer, const char *out, size_t size, const char *wanted) {
    char by_hand[96];
    memset(by_hand, 'x', sizeof by_hand);
    IS((uint64_t)snprintf(by_hand, size, "%s", wanted) == answer);
    IS(!memcmp(out, by_hand, sizeof by_hand));
}

static void texts(void) {
    static const char *const WORDS[] = {"no block differs, or it is done", "a block differs", "the layout is none",
                                        "the length is none", "the operation code isn't served",
                                        "a field isn't served", "no status"};
    static const char *const NAMES[] = {"no check", "no check", "guard", "no check", "application tag", "no check",
                                        "no check", "no check", "reference tag"};
    for (size_t size = 0; size <= 90; size++) {
        char out[96], wanted[96];
        for (uint32_t status = 0; status < 7; status++) {
            memset(out, 'x', sizeof out);
            says(dixpi_status_text(status, out, size), out, size, WORDS[status]);
        }
        for (uint32_t check = 0; check < 9; check++) {
            struct dixpi_found f = {(uint64_t)drawn() << drawn() % 33, check, drawn() >> (check < 8 ? 16 : 0),
                                    drawn() >> 16};
            memset(out, 'x', sizeof out);
            says(dixpi_check_name(check, out, size), out, size, NAMES[check]);
            int digits = check == 8 ? 8 : 4;
            snprintf(wanted, sizeof wanted, "block %llu: %s wanted %0*x, has %0*x", (unsigned long long)f.block,
                     NAMES[check], digits, f.expected, digits, f.actual);
            memset(out, 'x', sizeof out);
            says(dixpi_found_text(&f, out, size), out, size, wanted);
        }
    }
    char out[96];
    memset(out, 'x', sizeof out);
    says(dixpi_found_text(&(struct dixpi_found){7, DIXPI_CHECK_GUARD, 0xF684, 0xBDB6}, out, 96), out, 96,
         "block 7: guard wanted f684, has bdb6");
    memset(out, 'x', sizeof out);
    says(dixpi_found_text(&(struct dixpi_found){UINT64_MAX, 0, UINT32_MAX, 0x10000}, out, 96), out, 96,
         "block 18446744073709551615: no check wanted ffffffff, has 00010000");
    IS(dixpi_found_text(&NOTHING, NULL, 0) == strlen("block 9: no check wanted 0009, has 0009"));
}

/* Descriptor format on wish, which tells the same. */
static void described_senses(void) {
    for (int k = 0; k < 2000; k++) {
        uint64_t info = (uint64_t)drawn() << 32 | drawn();
        struct dixpi_sense s = {.info = info >> drawn() % 64, .key = (uint8_t)(drawn() % 18), .asc = (uint8_t)drawn(),
                                .ascq = (uint8_t)drawn(), .has_info = (uint8_t)(drawn() % 2)};
        uint8_t out[20], wanted[20];
        struct dixpi_sense seen;
        uint32_t len = 77, deferred = 77, size = s.key > 15 ? 77 : s.has_info ? 20 : 8;
        memset(out, 0xEE, 20);
        memset(wanted, 0xEE, 20);
        if (s.key < 16)
            memcpy(wanted, (uint8_t[]){0x72, s.key, s.asc, s.ascq, 0, 0, 0, s.has_info ? 0x0C : 0}, 8);
        if (s.key < 16 && s.has_info) {
            memcpy(wanted + 8, "\0\x0a\x80", 4);
            put64(wanted + 12, s.info);
        }
        IS(dixpi_sense_describe(&s, out, &len) == (s.key < 16 ? DIXPI_OK : DIXPI_BAD_FIELD));
        IS(len == size && !memcmp(out, wanted, 20));
        if (s.key > 15)
            continue;
        IS(dixpi_sense_find(out, len, &seen, &deferred) == DIXPI_OK && deferred == 0);
        IS(seen.key == s.key && seen.asc == s.asc && seen.ascq == s.ascq && seen.has_info == s.has_info);
        IS(seen.info == (s.has_info ? s.info : 0));
    }
}

/* The guards of NVMe of 32 and 64 bits, bit by bit, the lowest first. */
static uint64_t wide_crc(uint32_t width, uint64_t crc, const uint8_t *bytes, size_t len) {
    uint64_t poly = width == 32 ? 0x82F63B78 : 0x9A6C9329AC4BC9B5, ones = width == 32 ? UINT32_MAX : UINT64_MAX;
    crc ^= ones;
    for (size_t i = 0; i < len; i++) {
        crc ^= bytes[i];
        for (int k = 0; k < 8; k++)
            crc = crc >> 1 ^ (crc & 1 ? poly : 0);
    }
    return crc ^ ones;
}

static void wide_guards(void) {
    static const struct {
        uint8_t first, step;
        uint32_t crc32c;
        uint64_t crc64;
    } KNOWN[] = {{0, 0, 0x98F94189, 0x6482D367EB22B64E},
                 {0xFF, 0, 0x25C1FE13, 0xC0DDBA7302ECA3AC},
                 {0, 1, 0x9C71FE32, 0x3E729F5F6750449C},
                 {0xFF, 0xFF, 0x214941A8, 0x9A2DF64B8E9E517E}};
    uint8_t *bytes = fenced(4096);
    for (size_t i = 0; i < sizeof KNOWN / sizeof *KNOWN; i++) {
        for (size_t k = 0; k < 4096; k++)
            bytes[k] = (uint8_t)(KNOWN[i].first + k * KNOWN[i].step);
        IS(dixpi_crc32c(bytes, 4096) == KNOWN[i].crc32c && dixpi_crc64_nvme(bytes, 4096) == KNOWN[i].crc64);
    }
    IS(dixpi_crc32c((const uint8_t *)"123456789", 9) == 0xE3069283);
    IS(dixpi_crc64_nvme((const uint8_t *)"123456789", 9) == 0xAE8B14860A799888);
    IS(dixpi_crc32c(NULL, 0) == 0 && dixpi_crc64_nvme(NULL, 0) == 0);
    fill(bytes, 4096);
    for (size_t len = 0; len < 600; len++) {
        const uint8_t *b = bytes + 4096 - len;
        size_t cut = len ? drawn() % len : 0;
        IS(dixpi_crc32c(b, len) == wide_crc(32, 0, b, len) && dixpi_crc64_nvme(b, len) == wide_crc(64, 0, b, len));
        IS(dixpi_crc32c_after(dixpi_crc32c(b, cut), b + cut, len - cut) == wide_crc(32, 0, b, len));
        IS(dixpi_crc64_nvme_after(dixpi_crc64_nvme(b, cut), b + cut, len - cut) == wide_crc(64, 0, b, len));
    }
}

/* A field of so many bits, the highest first, from a bit of sixteen bytes on. */
static uint64_t field(const uint8_t *info, uint32_t from, uint32_t bits) {
    uint64_t x = 0;
    for (uint32_t k = from; k < from + bits; k++)
        x = x << 1 | (info[k / 8] >> (7 - k % 8) & 1);
    return x;
}

static void set_field(uint8_t *info, uint32_t from, uint32_t bits, uint64_t x) {
    for (uint32_t k = from + bits; k-- > from; x >>= 1)
        info[k / 8] = (uint8_t)((info[k / 8] & ~(0x80 >> k % 8)) | (x & 1 ? 0x80 >> k % 8 : 0));
}

static uint64_t low_bits(uint64_t x, uint32_t bits) { return bits < 64 ? x & ((1ull << bits) - 1) : x; }

static uint32_t ref_bits(const struct dixpi_nvme_layout *l) { return 112 - l->guard - l->storage; }

static void nvme_make(const struct dixpi_nvme_layout *l, const struct dixpi_nvme_tags *t, uint64_t i, uint64_t guard,
                      uint8_t *info) {
    set_field(info, 0, l->guard, guard);
    set_field(info, l->guard, 16, t->app);
    set_field(info, l->guard + 16, l->storage, t->storage);
    set_field(info, l->guard + 16 + l->storage, ref_bits(l), l->type == 3 ? 0 : t->first_ref + i);
}

static uint32_t nvme_compare(const struct dixpi_nvme_layout *l, const struct dixpi_nvme_want *w, uint64_t i, uint64_t guard,
                             const uint8_t *info, struct dixpi_nvme_found *found) {
    uint64_t has = field(info, 0, l->guard), app = field(info, l->guard, 16);
    uint64_t storage = field(info, l->guard + 16, l->storage), ref = field(info, 128 - ref_bits(l), ref_bits(l));
    uint64_t wanted = low_bits(w->first_ref + i, ref_bits(l));
    struct dixpi_nvme_found f = {i, guard, has, 0};
    if (app == 0xFFFF && (l->type != 3 || (storage == low_bits(UINT64_MAX, l->storage) && ref == low_bits(UINT64_MAX, ref_bits(l)))))
        return 0;
    if (w->checks & DIXPI_CHECK_GUARD && has != guard)
        f.check = DIXPI_CHECK_GUARD;
    else if (w->checks & DIXPI_CHECK_APP && (app ^ w->app) & w->mask)
        f = (struct dixpi_nvme_found){i, w->app, app, DIXPI_CHECK_APP};
    else if (w->checks & DIXPI_CHECK_STORAGE && (storage ^ w->storage) & w->storage_mask)
        f = (struct dixpi_nvme_found){i, w->storage, storage, DIXPI_CHECK_STORAGE};
    else if (w->checks & DIXPI_CHECK_REF && l->type != 3 && ref != wanted)
        f = (struct dixpi_nvme_found){i, wanted, ref, DIXPI_CHECK_REF};
    else
        return 0;
    *found = f;
    return 1;
}

static int same_nvme(struct dixpi_nvme_found a, struct dixpi_nvme_found b) {
    return a.block == b.block && a.expected == b.expected && a.actual == b.actual && a.check == b.check;
}

/* Five blocks of a layout in both forms: made, spoilt in each byte of the last information, remapped, moved. */
static void nvme_blocks(struct dixpi_nvme_layout l) {
    enum { N = 5 };
    size_t stride = l.data_size + l.meta_size, at = l.at_end ? l.meta_size - 16 : 0;
    uint8_t *blocks = fenced(N * stride), *wanted = malloc(N * stride), *data = fenced(N * l.data_size);
    uint8_t *copy = fenced(N * l.data_size), *other = fenced(N * stride), *meta = fenced(N * l.meta_size);
    struct dixpi_nvme_tags tags = {UINT64_MAX - drawn() % 3, low_bits((uint64_t)drawn() << 32 | drawn(), l.storage), 0x1234};
    struct dixpi_nvme_want want = {tags.first_ref, tags.storage, UINT64_MAX, 0x1234, 0xFFFF, DIXPI_CHECK_NVME_ALL};
    const struct dixpi_nvme_found none = {9, 9, 9, 9};
    struct dixpi_nvme_found found = none, first;
    if (!wanted)
        exit(70);
    fill(blocks, N * stride);
    memcpy(wanted, blocks, N * stride);
    memcpy(other, blocks, N * stride);
    for (size_t i = 0; i < N; i++) {
        uint8_t *b = wanted + i * stride;
        memcpy(data + i * l.data_size, b, l.data_size);
        memcpy(meta + i * l.meta_size, b + l.data_size, l.meta_size);
        memset(other + i * stride, 0, l.data_size);
        nvme_make(&l, &tags, i, wide_crc(l.guard, 0, b, l.data_size + at), b + l.data_size + at);
    }
    IS(dixpi_nvme_generate(blocks, N * stride, &l, &tags) == DIXPI_OK && !memcmp(blocks, wanted, N * stride));
    IS(dixpi_nvme_insert(data, N * l.data_size, other, N * stride, &l, &tags) == DIXPI_OK);
    IS(!memcmp(other, wanted, N * stride));
    IS(dixpi_nvme_dix_generate(data, N * l.data_size, meta, N * l.meta_size, &l, &tags) == DIXPI_OK);
    for (size_t i = 0; i < N; i++)
        IS(!memcmp(meta + i * l.meta_size, wanted + i * stride + l.data_size, l.meta_size));
    IS(dixpi_nvme_verify(blocks, N * stride, &l, &want, 0, &found) == DIXPI_OK && same_nvme(found, none));
    IS(dixpi_nvme_dix_verify(data, N * l.data_size, meta, N * l.meta_size, &l, &want, 0, &found) == DIXPI_OK);
    IS(dixpi_nvme_strip(blocks, N * stride, copy, N * l.data_size, &l, &want, &found) == DIXPI_OK);
    IS(!memcmp(copy, data, N * l.data_size) && same_nvme(found, none));
    for (size_t k = 0; k < 18; k++) { /* a bit of each byte of block 3, then escapes of both sorts in block 2 */
        size_t i = k < 16 ? 3 : 2;
        uint8_t *info = blocks + i * stride + l.data_size + at, *apart = meta + i * l.meta_size + at, was[16];
        memcpy(was, info, 16);
        if (k < 16)
            info[k] ^= (uint8_t)(1u << k % 8);
        else
            memset(k == 16 ? info + l.guard / 8 : info, 0xFF, k == 16 ? 2 : 16);
        memcpy(apart, info, 16);
        uint32_t differs = nvme_compare(&l, &want, i, wide_crc(l.guard, 0, blocks + i * stride, l.data_size + at), info, &first);
        found = none;
        IS(dixpi_nvme_verify(blocks, N * stride, &l, &want, 0, &found) == differs);
        IS(same_nvme(found, differs ? first : none));
        found = none;
        IS(dixpi_nvme_dix_verify(data, N * l.data_size, meta, N * l.meta_size, &l, &want, i, &found) == differs);
        IS(same_nvme(found, differs ? first : none));
        IS(dixpi_nvme_verify(blocks, N * stride, &l, &want, i + 1, &found) == DIXPI_OK);
        memset(copy, 0xEE, N * l.data_size);
        IS(dixpi_nvme_strip(blocks, N * stride, copy, N * l.data_size, &l, &want, &found) == differs);
        IS(!memcmp(copy, data, (differs ? i : N) * l.data_size) && (!differs || copy[i * l.data_size] == 0xEE));
        memcpy(info, was, 16);
        memcpy(apart, was, 16);
    }
    set_field(wanted + 2 * stride + l.data_size + at, 128 - ref_bits(&l), ref_bits(&l), 77);
    memcpy(blocks, wanted, N * stride);
    for (size_t i = 0; i < N; i++) {
        uint8_t *info = wanted + i * stride + l.data_size + at;
        if (l.type != 3 && field(info, 128 - ref_bits(&l), ref_bits(&l)) == low_bits(tags.first_ref + i, ref_bits(&l)))
            set_field(info, 128 - ref_bits(&l), ref_bits(&l), 1000 + i);
    }
    IS(dixpi_nvme_remap(blocks, N * stride, &l, tags.first_ref, 1000) == DIXPI_OK && !memcmp(blocks, wanted, N * stride));
    /* refusals */
    found = none;
    struct dixpi_nvme_layout bad = l;
    bad.guard = 16;
    IS(dixpi_nvme_generate(blocks, N * stride, &bad, &tags) == DIXPI_BAD_LAYOUT);
    bad = l, bad.storage = l.guard == 32 ? 15 : 49;
    IS(dixpi_nvme_verify(blocks, N * stride, &bad, &want, 0, &found) == DIXPI_BAD_LAYOUT);
    bad = l, bad.meta_size = 15;
    IS(dixpi_nvme_remap(blocks, N * stride, &bad, 0, 1) == DIXPI_BAD_LAYOUT);
    IS(dixpi_nvme_verify(blocks, N * stride - 1, &l, &want, 0, &found) == DIXPI_BAD_LENGTH);
    IS(dixpi_nvme_insert(data, N * l.data_size - 1, blocks, N * stride, &l, &tags) == DIXPI_BAD_LENGTH);
    if (l.storage < 64) {
        tags.storage = 1ull << l.storage;
        IS(dixpi_nvme_generate(blocks, N * stride, &l, &tags) == DIXPI_BAD_FIELD);
    }
    want.checks = 32;
    IS(dixpi_nvme_verify(blocks, N * stride, &l, &want, 0, &found) == DIXPI_BAD_FIELD);
    want.checks = 0;
    IS(dixpi_nvme_strip(blocks, N * stride, copy, N * l.data_size, &l, &want, &found) == DIXPI_BAD_FIELD);
    IS(!memcmp(blocks, wanted, N * stride) && same_nvme(found, none));
    free(wanted);
}

static void nvme_layouts(void) {
    static const uint32_t STORAGE[][2] = {{32, 16}, {32, 40}, {32, 64}, {64, 0}, {64, 1}, {64, 23}, {64, 47}, {64, 48}};
    static const uint32_t SIZES[][2] = {{512, 16}, {4096, 64}, {8, 23}};
    for (size_t i = 0; i < sizeof STORAGE / sizeof *STORAGE; i++)
        for (size_t k = 0; k < sizeof SIZES / sizeof *SIZES; k++)
            for (uint32_t type = 1; type <= 3; type++)
                for (uint32_t at_end = 0; at_end <= 1; at_end++)
                    if (is_tried())
                        nvme_blocks((struct dixpi_nvme_layout){SIZES[k][0], SIZES[k][1], at_end, STORAGE[i][0], type, STORAGE[i][1]});
}

/* Memory that a call only reads may be given twice, or lie within other memory that it reads. */
static void shared_reading(void) {
    struct dixpi_layout l = {512, 8, 0, 1, DIXPI_CRC};
    struct dixpi_want w = {7, 0, 0, DIXPI_CHECK_GUARD | DIXPI_CHECK_REF};
    struct dixpi_found found;
    uint8_t *block = fenced(520), *two = fenced(1040), *joined = fenced(1024);
    for (size_t k = 0; k < 520; k++)
        block[k] = (uint8_t)(k * 7 + 3);
    IS(dixpi_generate(block, 520, &l, 0, 7) == DIXPI_OK);
    struct iovec same[] = {{block, 512}, {block, 512}}, within[] = {{block, 300}, {block + 200, 312}};
    memcpy(joined, block, 512);
    memcpy(joined + 512, block, 512);
    IS(dixpi_crc16v(same, 2) == crc_by_bits(0, joined, 1024));
    memcpy(joined + 300, block + 200, 312);
    IS(dixpi_crc16v(within, 2) == crc_by_bits(0, joined, 612));
    /* both blocks are the first: the second has the tag before its own */
    struct iovec twice[] = {{block, 520}, {block, 520}};
    IS(dixpi_verifyv(twice, 2, &l, &w, 0, &found) == DIXPI_DIFFERS);
    IS(found.block == 1 && found.check == DIXPI_CHECK_REF && found.expected == 8 && found.actual == 7);
    IS(dixpi_insert(same, 2, two, 1040, &l, 0, 7) == DIXPI_OK);
    IS(!memcmp(two, block, 520) && !memcmp(two + 520, block, 512) && two[1039] == 8);
    /* data and metadata of one buffer */
    struct iovec data = {block, 512};
    IS(dixpi_dix_verify(&data, 1, block + 512, 8, &l, &w, &found) == DIXPI_OK);
}

int main(int count, char **words) {
    (void)words;
    every = count > 1 ? 7 : 1;
    IS(dixpi_version() == 0x000300);
    void (*tests[])(void) = {guards,      tuples,        senses,         sent_senses, described_senses, texts, commands,
                             empty_parts, shared_reading, each_cut, sent_commands, drawn_commands, wide_guards, nvme_layouts};
    for (size_t i = 0; i < sizeof tests / sizeof *tests; i++) {
        tests[i]();
        give_back();
    }
    for (size_t i = 0; i < sizeof LAYOUTS / sizeof *LAYOUTS; i++)
        for (uint32_t type = 1; type <= 3; type++)
            for (uint32_t guard = DIXPI_CRC; guard <= DIXPI_IP; guard++) {
                struct dixpi_layout l = LAYOUTS[i];
                l.type = type;
                l.guard = guard;
                if (is_tried())
                    blocks_in_line(l);
                give_back();
            }
    printf("test.c: %u passed, %u failed\n", passed, failed);
    return failed != 0;
}
