/* Exchanges the reference tags of a dump of blocks of 512 bytes with their tuples, in place: remap520 FILE FROM TO. The
   tag of block i, where it is FROM + i, becomes TO + i. Status 0 if that was done, 2 if not.

   gcc -std=c11 remap520.c $(pkg-config --cflags --libs dixpi) -o remap520 */
#define _DEFAULT_SOURCE
#include <fcntl.h>
#include <stdio.h>
#include <stdlib.h>
#include <sys/mman.h>
#include <sys/stat.h>
#include <dixpi.h>

int main(int count, char **words) {
    struct stat file;
    int fd = count == 4 ? open(words[1], O_RDWR) : -1;
    if (fd < 0 || fstat(fd, &file)) {
        fputs("usage: remap520 FILE FROM TO\n", stderr);
        return 2;
    }
    size_t len = (size_t)file.st_size;
    uint8_t *blocks = len ? mmap(NULL, len, PROT_READ | PROT_WRITE, MAP_SHARED, fd, 0) : NULL;
    if (blocks == MAP_FAILED)
        return 2;
    struct dixpi_layout layout = {512, 8, 0, 1, DIXPI_CRC};
    uint32_t from = (uint32_t)strtoul(words[2], NULL, 0), to = (uint32_t)strtoul(words[3], NULL, 0);
    if (dixpi_remap(blocks, len, &layout, from, to) != DIXPI_OK) {
        fputs("no whole blocks of 520 bytes\n", stderr);
        return 2;
    }
    return 0;
}
