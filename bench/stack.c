/* Measures how long a stack of requests takes to its end under several ways to choose the words, and beside the adapter
   alone. Times are those of the processor that the thread took. Ways that are compared are taken in turn, and a figure is
   the median of the rounds; making the stack, which the same library does without running it, is taken off. */
#include <malloc.h>
#include <stdint.h>
#include <stdio.h>
#include <stdlib.h>
#include <string.h>

#include "rounds.h"

/* The static library: a slice is a pointer and a length, an allocator is nothing, a bool is a byte. */
uint32_t bench_run(const uint8_t *text, size_t n, uint32_t words);
uint32_t bench_groups(uint32_t requests, _Bool carries);

enum { ROUNDS = 20, NONE = 0xffff, ZEROS = 0, FIRST = 1, LAST = 2, LAST_ONCE_CUT = 3, RANDOM = 4, PAGE_BLOCKS = 8, PAGES = 256, BLOCKS = 16384, BYTES = 1 << 20 };

struct script {
    char *text;
    size_t len;
};

static void expect(uint32_t got, uint32_t least, uint32_t most) {
    if (got < least || got > most) {
        fprintf(stderr, "%u in place of %u to %u, or no memory\n", got, least, most);
        exit(1);
    }
}

/* Writes of so many blocks in all, in requests of so many, over whole pages, one request behind the other. A script has
   at most 256 pages, so several write the same ones. */
static struct script writes(uint32_t blocks, uint32_t of, uint32_t most) {
    struct script s = {malloc(BYTES), 0};
    if (!s.text)
        exit(1);
    s.len += (size_t)sprintf(s.text + s.len, "dix 1\nmode crc on on 1\nlimits %u 128 64\npages %d\nlinear 0 16384 dev 1 at 0\nbegin\n", most, PAGES);
    for (uint32_t v = 0; v < blocks; v += of) {
        s.len += (size_t)sprintf(s.text + s.len, "write %u %u ", v, of);
        for (uint32_t page = v / PAGE_BLOCKS; page < (v + of) / PAGE_BLOCKS; page++)
            s.len += (size_t)sprintf(s.text + s.len, "%s%u:0:4096", page == v / PAGE_BLOCKS ? "" : ",", page % PAGES);
        s.len += (size_t)sprintf(s.text + s.len, "\n");
    }
    return s;
}

/* The run by itself: how long the stack takes beyond its making. Answers how many commands were sent, too. */
static double run(struct script s, uint32_t words, uint32_t *sent) {
    double start = spent();
    expect(bench_run((const uint8_t *)s.text, s.len, NONE), 0, 0);
    double made = spent();
    *sent = bench_run((const uint8_t *)s.text, s.len, words);
    double end = spent();
    expect(*sent, 1, BLOCKS);
    return (end - made) - (made - start);
}

/* All requests of 16 blocks carried in groups of so many. */
static double carry(uint32_t requests) {
    double start = spent();
    expect(bench_groups(requests, 0), BLOCKS, BLOCKS);
    double looked = spent();
    expect(bench_groups(requests, 1), BLOCKS, BLOCKS);
    return (spent() - looked) - (looked - start);
}

struct way {
    const char *name;
    struct script script; /* without text: the requests of 16 blocks, carried without a stack */
    uint32_t words;       /* there: requests a command */
};

static double once(struct way way, uint32_t *sent) {
    if (way.script.text)
        return run(way.script, way.words, sent);
    *sent = BLOCKS / 16 / way.words;
    return carry(way.words);
}

/* Takes ways in turn, first a round that isn't counted, and prints the median of each: what else the program measures
   leaves the caches to them. */
static void measure(struct way *ways, int count, int rounds, double *figure) {
    double *times = malloc(sizeof *times * (size_t)(count * rounds));
    uint32_t sent;
    if (!times)
        exit(1);
    for (int round = -1; round < rounds; round++)
        for (int way = 0; way < count; way++) {
            double time = once(ways[way], &sent);
            if (round >= 0)
                times[way * rounds + round] = time;
        }
    for (int way = 0; way < count; way++) {
        figure[way] = median(times + way * rounds, rounds);
        once(ways[way], &sent);
        printf("| %s | %u | %.2f |\n", ways[way].name, sent, figure[way] * 1e3);
    }
    free(times);
}

enum { SIZES = 3, PAIRS = 4, WORDS = 6, MORE = 10 };

int main(int count, char **arguments) {
    int rounds = count > 1 ? atoi(arguments[1]) : ROUNDS;
    if (rounds < 1)
        return 1;
    /* Memory that was given back is handed out again, so that the system doesn't clear it anew in each run. */
    mallopt(M_MMAP_MAX, 0);
    mallopt(M_TRIM_THRESHOLD, 1 << 30);
    struct script none = {NULL, 0};
    struct way sizes[SIZES] = {
        {"4,096 blocks, no words", writes(4096, 1024, 1024), ZEROS},
        {"8,192 blocks, no words", writes(8192, 1024, 1024), ZEROS},
        {"16,384 blocks, no words", writes(16384, 1024, 1024), ZEROS},
    };
    struct way pairs[PAIRS] = {
        {"1,024 requests of 16 blocks, no words", writes(16384, 16, 1024), ZEROS},
        {"the adapter alone, 32 requests a command", none, 32},
        {"1,024 requests of 16 blocks, 16 blocks a command", writes(16384, 16, 16), ZEROS},
        {"the adapter alone, a request a command", none, 1},
    };
    struct way words[WORDS] = {
        {"cut one by one, joined: words `0/1`", writes(16384, 1024, 1024), FIRST},
        {"the same, one block a command", writes(16384, 1024, 1), FIRST},
        {"each sent alone as soon as it is cut", writes(16384, 1024, 1024), LAST},
        {"each sent alone once all are cut", writes(16384, 1024, 1024), LAST_ONCE_CUT},
        {"the same, 8,192 blocks", writes(8192, 1024, 1024), LAST_ONCE_CUT},
        {"16,384 random words, cuts of 1", writes(16384, 1024, 1024), RANDOM},
    };
    double size[SIZES], pair[PAIRS], word[WORDS];
    printf("| | commands | ms |\n|---|---|---|\n");
    measure(sizes, SIZES, MORE * rounds, size);
    measure(pairs, PAIRS, MORE * rounds, pair);
    measure(words, WORDS, rounds, word);
    printf("twice the blocks %.2f and %.2f, sent alone once all are cut %.2f; adapter / stack %.2f in commands of 32 requests and %.2f of one\n", size[1] / size[0], size[2] / size[1], word[3] / word[4], pair[1] / pair[0], pair[3] / pair[2]);
    return 0;
}
