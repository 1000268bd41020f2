/* Checks a dump of blocks of 512 bytes with their tuples: check520 FILE TYPE FIRST, where FIRST is the reference tag of
   the first block. Prints each block at fault. Status 0 if there is none, 1 if there is one, 2 if the file isn't read.

   gcc -std=c11 check520.c $(pkg-config --cflags --libs dixpi) -o check520 */
#define _DEFAULT_SOURCE
#include <fcntl.h>
#include <stdio.h>
#include <stdlib.h>
#include <sys/mman.h>
#include <sys/stat.h>
#include <dixpi.h>

int main(int count, char **words) {
    struct stat file;
    int fd = count == 4 ? open(words[1], O_RDONLY) : -1;
    if (fd < 0 || fstat(fd, &file)) {
        fputs("usage: check520 FILE TYPE FIRST\n", stderr);
        return 2;
    }
    size_t len = (size_t)file.st_size;
    const uint8_t *blocks = len ? mmap(NULL, len, PROT_READ, MAP_PRIVATE, fd, 0) : NULL;
    if (blocks == MAP_FAILED)
        return 2;
    struct dixpi_layout layout = {512, 8, 0, (uint32_t)strtoul(words[2], NULL, 0), DIXPI_CRC};
    struct dixpi_want want = {(uint32_t)strtoul(words[3], NULL, 0), 0, 0, DIXPI_CHECK_GUARD | DIXPI_CHECK_REF};
    struct dixpi_found found;
    char text[80];
    uint64_t start = 0;
    uint32_t status;
    while ((status = dixpi_verify_from(blocks, len, &layout, &want, start, &found)) == DIXPI_DIFFERS) {
        dixpi_found_text(&found, text, sizeof text);
        puts(text);
        start = found.block + 1; /* goes on behind it */
    }
    if (status != DIXPI_OK)
        fputs("no whole blocks of 520 bytes, or no type 1 to 3\n", stderr);
    return status != DIXPI_OK ? 2 : start != 0;
}
