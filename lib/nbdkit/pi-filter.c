/* nbdkit-pi-filter: keeps T10 protection information (type 1, CRC) of any disk of nbdkit in a file of its own, makes it on
   each write and checks it on each read. A block that differs is EIO, and nbdkit's log names the check.

     nbdkit --filter=blocksize --filter=./nbdkit-pi-filter.so file DISK pi=DISK.pi [pi-block=512] [pi-app=0] [pi-make=true]

   DISK.pi has 8 bytes a block. It is made where it isn't there, of escapes (FFh), which nobody checks until the block is
   written; pi-make=true makes the tuples of what the disk has now. Data are written before their tuples: a crash between
   the two is a guard that differs, as a torn write is. */
#define NBDKIT_API_VERSION 2
#include <nbdkit-filter.h>
#include <dixpi.h>
#include <errno.h>
#include <fcntl.h>
#include <inttypes.h>
#include <pthread.h>
#include <stdlib.h>
#include <string.h>
#include <sys/mman.h>
#include <sys/stat.h>
#include <unistd.h>
#include "told.h"

enum { TUPLE = 8, PIECE = 1 << 20 };

static char *file;
static uint32_t block = 512;
static uint16_t app;
static int make;

static uint8_t *tuples; /* 8 bytes a block, shared by all connections */
static size_t tuples_len;
static pthread_rwlock_t lock = PTHREAD_RWLOCK_INITIALIZER; /* readers check; who writes data and tuples is alone */

static int pi_config(nbdkit_next_config *next, nbdkit_backend *nxdata, const char *key, const char *value) {
    if (!strcmp(key, "pi"))
        return (file = nbdkit_absolute_path(value)) ? 0 : -1;
    if (!strcmp(key, "pi-app"))
        return nbdkit_parse_uint16_t(key, value, &app);
    if (!strcmp(key, "pi-make"))
        return (make = nbdkit_parse_bool(value)) == -1 ? -1 : 0;
    if (strcmp(key, "pi-block"))
        return next(nxdata, key, value);
    if (nbdkit_parse_uint32_t(key, value, &block) == -1)
        return -1;
    if (block >= 512 && block <= 65536 && !(block & (block - 1)))
        return 0;
    nbdkit_error("pi-block is a power of 2 from 512 to 65536");
    return -1;
}

static int pi_complete(nbdkit_next_config_complete *next, nbdkit_backend *nxdata) {
    if (file)
        return next(nxdata);
    nbdkit_error("pi=FILE is wanted");
    return -1;
}

static struct dixpi_layout layout(void) { return (struct dixpi_layout){block, TUPLE, 0, 1, DIXPI_CRC}; }

/* Makes the tuples of blocks that lie at this place. */
static int makes(const void *data, uint32_t count, uint64_t offset) {
    struct dixpi_layout l = layout();
    struct iovec part = {(void *)data, count};
    uint64_t first = offset / block;
    uint32_t status = dixpi_dix_generate(&part, 1, tuples + first * TUPLE, (size_t)count / block * TUPLE, &l, app,
                                         (uint32_t)first);
    if (status != DIXPI_OK)
        tell(status, NULL, first);
    return status == DIXPI_OK ? 0 : -1;
}

/* Makes the tuples of all that the disk has. */
static int make_all(nbdkit_next *next, uint64_t size) {
    uint8_t *data = malloc(PIECE);
    int err, failed = data ? 0 : -1;
    for (uint64_t at = 0; at < size && !failed; at += PIECE) {
        uint32_t count = size - at < PIECE ? (uint32_t)(size - at) : PIECE;
        failed = next->pread(next, data, count, at, 0, &err) || makes(data, count, at) ? -1 : 0;
    }
    free(data);
    return failed;
}

/* Maps the file of tuples, of which it has so many bytes, and fills a new one with escapes. */
static int map_tuples(size_t len) {
    struct stat is;
    int fd = open(file, O_RDWR | O_CREAT | O_CLOEXEC, 0644);
    void *map = MAP_FAILED;
    if (fd >= 0 && !fstat(fd, &is) && (!is.st_size || (size_t)is.st_size == len) && !ftruncate(fd, (off_t)len))
        map = mmap(NULL, len ? len : 1, PROT_READ | PROT_WRITE, MAP_SHARED, fd, 0);
    if (fd >= 0)
        close(fd);
    if (map == MAP_FAILED) {
        nbdkit_error("%s can't be opened, or isn't of %zu bytes", file, len);
        return -1;
    }
    tuples = map;
    tuples_len = len;
    if (!is.st_size)
        memset(tuples, 0xFF, len);
    return 0;
}

/* At the first connection, when the disk's size is known. */
static int pi_prepare(nbdkit_next *next, void *handle, int readonly) {
    (void)handle, (void)readonly;
    int64_t size = next->get_size(next);
    int failed = size < 0 ? -1 : 0;
    pthread_rwlock_wrlock(&lock);
    if (!failed && !tuples) {
        failed = map_tuples((size_t)(size / block * TUPLE));
        if (!failed && make)
            failed = make_all(next, (uint64_t)(size / block * block));
        make = 0;
    }
    pthread_rwlock_unlock(&lock);
    return failed;
}

static int64_t pi_size(nbdkit_next *next, void *handle) {
    (void)handle;
    int64_t size = next->get_size(next);
    return size < 0 ? size : size / block * block;
}

static int pi_block_size(nbdkit_next *next, void *handle, uint32_t *minimum, uint32_t *preferred, uint32_t *maximum) {
    (void)handle;
    if (next->block_size(next, minimum, preferred, maximum) == -1)
        return -1;
    if (!*minimum)
        *preferred = 4096, *maximum = 0xFFFFFFFF;
    *minimum = *minimum > block ? *minimum : block;
    *preferred = *preferred > block ? *preferred : block;
    return 0;
}

static int is_whole(uint32_t count, uint64_t offset, int *err) {
    if (count % block == 0 && offset % block == 0)
        return 1;
    nbdkit_error("no whole blocks of %" PRIu32 " bytes: put --filter=blocksize before this one", block);
    *err = EINVAL;
    return 0;
}

static int pi_pread(nbdkit_next *next, void *handle, void *data, uint32_t count, uint64_t offset, uint32_t flags,
                    int *err) {
    (void)handle;
    uint64_t first = offset / block;
    struct dixpi_layout l = layout();
    struct dixpi_want want = {(uint32_t)first, app, 0xFFFF, DIXPI_CHECK_ALL};
    struct dixpi_found found;
    struct iovec part = {data, count};
    uint32_t status = DIXPI_OK;
    if (!is_whole(count, offset, err))
        return -1;
    pthread_rwlock_rdlock(&lock);
    int failed = next->pread(next, data, count, offset, flags, err);
    if (!failed)
        status = dixpi_dix_verify(&part, 1, tuples + first * TUPLE, (size_t)count / block * TUPLE, &l, &want, &found);
    pthread_rwlock_unlock(&lock);
    if (status == DIXPI_OK)
        return failed;
    tell(status, &found, first);
    *err = EIO;
    return -1;
}

static int pi_pwrite(nbdkit_next *next, void *handle, const void *data, uint32_t count, uint64_t offset, uint32_t flags,
                     int *err) {
    (void)handle;
    if (!is_whole(count, offset, err))
        return -1;
    pthread_rwlock_wrlock(&lock);
    int failed = next->pwrite(next, data, count, offset, flags, err);
    if (!failed && makes(data, count, offset))
        *err = EIO, failed = -1;
    if (!failed && flags & NBDKIT_FLAG_FUA && msync(tuples, tuples_len, MS_SYNC))
        *err = errno, failed = -1;
    pthread_rwlock_unlock(&lock);
    return failed;
}

static int pi_flush(nbdkit_next *next, void *handle, uint32_t flags, int *err) {
    (void)handle;
    if (next->flush(next, flags, err))
        return -1;
    if (!msync(tuples, tuples_len, MS_SYNC))
        return 0;
    *err = errno;
    return -1;
}

/* Trimmed blocks may hold anything: their tuples become escapes, as those of unmapped blocks are. */
static int pi_trim(nbdkit_next *next, void *handle, uint32_t count, uint64_t offset, uint32_t flags, int *err) {
    (void)handle;
    if (!is_whole(count, offset, err))
        return -1;
    pthread_rwlock_wrlock(&lock);
    int failed = next->trim(next, count, offset, flags, err);
    memset(tuples + offset / block * TUPLE, 0xFF, (size_t)count / block * TUPLE);
    pthread_rwlock_unlock(&lock);
    return failed;
}

/* Zeros are written by pi_pwrite. */
static int pi_can_zero(nbdkit_next *next, void *handle) {
    (void)next, (void)handle;
    return NBDKIT_ZERO_EMULATE;
}

static void pi_unload(void) {
    if (tuples)
        munmap(tuples, tuples_len ? tuples_len : 1);
    free(file);
}

static struct nbdkit_filter filter = {
    .name = "pi",
    .longname = "T10 protection information",
    .unload = pi_unload,
    .config = pi_config,
    .config_complete = pi_complete,
    .config_help = "pi=FILE (required)  8 bytes a block\npi-block=512\npi-app=0\npi-make=false",
    .prepare = pi_prepare,
    .get_size = pi_size,
    .block_size = pi_block_size,
    .can_zero = pi_can_zero,
    .pread = pi_pread,
    .pwrite = pi_pwrite,
    .flush = pi_flush,
    .trim = pi_trim,
};

NBDKIT_REGISTER_FILTER(filter)
