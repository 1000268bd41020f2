/* Does what a command of dixlab can't do without, on an image of one unit of type 1 with blocks of 512 bytes: reads its blocks
   by 64 KiB, and writes them as they are (copy), their tuples (tuples) or a line for each, in which no guard is computed
   (show); or reads those of two images and compares them (diff): blocks MODE IMAGE [IMAGE]. */
#define _GNU_SOURCE
#include <fcntl.h>
#include <stdint.h>
#include <stdio.h>
#include <string.h>
#include <unistd.h>

enum { HEAD = 512, DATA = 512, BLOCK = 520, PIECE = 126 * BLOCK, ROOM = 1 << 16, LINE = 128 };

static uint8_t blocks[PIECE], others[PIECE];
static char text[ROOM];
static size_t held;

static void pass_on(const void *bytes, size_t count) {
    if (write(STDOUT_FILENO, bytes, count) != (ssize_t)count)
        _exit(1);
}

static void empty(void) {
    pass_on(text, held);
    held = 0;
}

static void add(const void *bytes, size_t count) {
    memcpy(text + held, bytes, count);
    held += count;
}

static void add_text(const char *words) { add(words, strlen(words)); }

static void add_number(unsigned number) {
    char digits[10], *first = digits + sizeof digits;
    do
        *--first = '0' + number % 10;
    while (number /= 10);
    add(first, digits + sizeof digits - first);
}

static void add_hex(const uint8_t *bytes, size_t count) {
    for (; count--; bytes++) {
        text[held++] = "0123456789abcdef"[*bytes >> 4];
        text[held++] = "0123456789abcdef"[*bytes & 15];
    }
}

static void add_line(unsigned lba, const uint8_t *tuple) {
    uint8_t want[6] = {0, 0, lba >> 24, lba >> 16, lba >> 8, lba};
    add_text("0 ");
    add_number(lba);
    add_text(" have ");
    add_hex(tuple, 2);
    add_text(" ");
    add_hex(tuple + 2, 2);
    add_text(" ");
    add_hex(tuple + 4, 4);
    add_text(" want ");
    add_hex(want, 2);
    add_text(" ");
    add_hex(want + 2, 4);
    add_text(memcmp(tuple + 4, want + 2, 4) ? " ref\n" : " ok\n");
}

int main(int count, char **words) {
    if (count < 3)
        return 2;
    int mode = words[1][0], file = open(words[2], O_RDONLY), other = count > 3 ? open(words[3], O_RDONLY) : -1;
    unsigned lba = 0, differ = 0;
    off_t at = HEAD;
    for (ssize_t n; (n = pread(file, blocks, PIECE, at)) > 0; at += n) {
        if (mode == 'c')
            pass_on(blocks, n);
        if (mode == 'd' && pread(other, others, PIECE, at) != n)
            return 1;
        for (ssize_t i = 0; i < n && mode != 'c'; i += BLOCK, lba++) {
            if (held > ROOM - LINE)
                empty();
            if (mode == 'd')
                differ += memcmp(blocks + i, others + i, BLOCK) != 0;
            else if (mode == 't')
                add(blocks + i + DATA, BLOCK - DATA);
            else
                add_line(lba, blocks + i + DATA);
        }
    }
    if (mode == 'd')
        add_number(differ);
    empty();
    return 0;
}
