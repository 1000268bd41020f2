/* nbdkit-dix-plugin: serves the blocks of a dix image, or of a raw dump, as a disk: checks and strips their tuples on
   reads, and makes them on writes. A block that differs is EIO, and nbdkit's log names the check.

     nbdkit ./nbdkit-dix-plugin.so FILE [unit=N]                                          an image of dix
     nbdkit ./nbdkit-dix-plugin.so FILE [block=512] [type=1] [first=0] [skip=0] [app=0]   a dump: blocks of 512 + 8 bytes

   block is 512 or 4096, first the address of the first block, skip the bytes before it. A write is one call a stretch, so
   a crash in it leaves a block whose guard differs, as a torn write on a disk does. */
#define NBDKIT_API_VERSION 2
#include <nbdkit-plugin.h>
#include <dixpi.h>
#include <errno.h>
#include <fcntl.h>
#include <inttypes.h>
#include <pthread.h>
#include <stdlib.h>
#include <string.h>
#include <sys/stat.h>
#include <unistd.h>
#include "told.h"

#define THREAD_MODEL NBDKIT_THREAD_MODEL_PARALLEL
enum { TUPLE = 8, HEADER = 512, PIECE = 65536 }; /* the bytes that go through one buffer on the stack */

static char *file;
static int fd = -1;
static uint32_t unit, block = 512, type = 1;
static uint64_t first, blocks;
static int64_t skip;
static uint16_t app;
static int reader = 1; /* whether the file can only be read */
static pthread_rwlock_t lock = PTHREAD_RWLOCK_INITIALIZER; /* a read sees a write whole or not at all */

static int config(const char *key, const char *value) {
    if (!strcmp(key, "file"))
        return (file = nbdkit_realpath(value)) ? 0 : -1;
    if (!strcmp(key, "unit"))
        return nbdkit_parse_uint32_t(key, value, &unit);
    if (!strcmp(key, "block"))
        return nbdkit_parse_uint32_t(key, value, &block);
    if (!strcmp(key, "type"))
        return nbdkit_parse_uint32_t(key, value, &type);
    if (!strcmp(key, "first"))
        return nbdkit_parse_uint64_t(key, value, &first);
    if (!strcmp(key, "app"))
        return nbdkit_parse_uint16_t(key, value, &app);
    if (!strcmp(key, "skip"))
        return (skip = nbdkit_parse_size(value)) < 0 ? -1 : 0;
    nbdkit_error("no parameter: %s", key);
    return -1;
}

static uint64_t stride(void) { return (uint64_t)block + TUPLE; }

static uint64_t number(const uint8_t *bytes) {
    uint64_t n = 0;
    for (int i = 0; i < 8; i++)
        n = n << 8 | bytes[i];
    return n;
}

/* Takes block, type, count, first address and place of a unit from the header of an image of dix. */
static int is_unit_of(const uint8_t *header) {
    size_t size = header[7] == '1' ? 16 : 32;
    for (uint32_t i = 0; i <= unit; i++) {
        const uint8_t *row = header + 16 + i * size;
        if (i >= header[9] || i >= 8)
            return 0;
        skip = i ? skip + (int64_t)(blocks * (block + (type ? TUPLE : 0))) : HEADER;
        type = row[0];
        block = size == 32 && row[1] == 12 ? 4096 : 512;
        blocks = number(row + 8);
        first = size == 32 ? number(row + 16) : 0;
    }
    return 1;
}

/* Opens the file, and looks what it is. */
static int get_ready(void) {
    uint8_t header[HEADER];
    struct stat is;
    if (!file) {
        nbdkit_error("a file is wanted");
        return -1;
    }
    fd = open(file, O_RDWR | O_CLOEXEC);
    reader = fd < 0;
    if (reader)
        fd = open(file, O_RDONLY | O_CLOEXEC);
    if (fd < 0 || fstat(fd, &is)) {
        nbdkit_error("%s: %m", file);
        return -1;
    }
    if (pread(fd, header, HEADER, 0) == HEADER && (!memcmp(header, "DIXIMG01", 8) || !memcmp(header, "DIXIMG02", 8))) {
        if (!is_unit_of(header) || !type) {
            nbdkit_error("%s has no unit %" PRIu32 " with protection information", file, unit);
            return -1;
        }
        return 0;
    }
    if ((block != 512 && block != 4096) || type < 1 || type > 3) {
        nbdkit_error("block is 512 or 4096, and type 1 to 3");
        return -1;
    }
    if (is.st_size < skip || (uint64_t)(is.st_size - skip) % stride()) {
        nbdkit_error("%s isn't blocks of %" PRIu64 " bytes", file, stride());
        return -1;
    }
    blocks = (uint64_t)(is.st_size - skip) / stride();
    return 0;
}

static void unload(void) {
    if (fd >= 0)
        close(fd);
    free(file);
}

static void *open_disk(int readonly) {
    (void)readonly;
    return NBDKIT_HANDLE_NOT_NEEDED;
}

static int64_t get_size(void *handle) {
    (void)handle;
    return (int64_t)(blocks * block);
}

static int can_write(void *handle) {
    (void)handle;
    return !reader;
}

static int block_size(void *handle, uint32_t *minimum, uint32_t *preferred, uint32_t *maximum) {
    (void)handle;
    *minimum = block;
    *preferred = 4096;
    *maximum = 0xFFFFFFFF;
    return 0;
}

static struct dixpi_layout layout(void) { return (struct dixpi_layout){block, TUPLE, 0, type, DIXPI_CRC}; }

static int is_whole(uint32_t count, uint64_t offset) {
    if (count % block == 0 && offset % block == 0)
        return 1;
    nbdkit_error("no whole blocks of %" PRIu32 " bytes: put --filter=blocksize before this plugin", block);
    nbdkit_set_error(EINVAL);
    return 0;
}

/* Whether the call moved all of its bytes. */
static int is_done(ssize_t moved, size_t wanted) {
    if (moved == (ssize_t)wanted)
        return 1;
    int why = moved < 0 ? errno : EIO;
    nbdkit_error("%s: %s", file, strerror(why));
    nbdkit_set_error(why);
    return 0;
}

/* Reads so many blocks from one on, checks them, and copies their data. */
static int read_piece(uint8_t *out, uint64_t from, size_t count) {
    uint8_t bytes[PIECE];
    size_t len = count * stride();
    pthread_rwlock_rdlock(&lock);
    ssize_t got = pread(fd, bytes, len, (off_t)(skip + (int64_t)(from * stride())));
    pthread_rwlock_unlock(&lock);
    if (!is_done(got, len))
        return -1;
    struct dixpi_layout l = layout();
    struct dixpi_want want = {(uint32_t)(first + from), 0, 0, DIXPI_CHECK_GUARD | DIXPI_CHECK_REF};
    struct dixpi_found found;
    uint32_t status = dixpi_verify(bytes, len, &l, &want, &found);
    if (status != DIXPI_OK) {
        tell(status, &found, first + from);
        nbdkit_set_error(EIO);
        return -1;
    }
    for (size_t i = 0; i < count; i++)
        memcpy(out + i * block, bytes + i * stride(), block);
    return 0;
}

/* Writes so many blocks from one on, with their tuples. */
static int write_piece(const uint8_t *data, uint64_t from, size_t count) {
    uint8_t bytes[PIECE];
    size_t len = count * stride();
    for (size_t i = 0; i < count; i++)
        memcpy(bytes + i * stride(), data + i * block, block);
    struct dixpi_layout l = layout();
    uint32_t status = dixpi_generate(bytes, len, &l, app, (uint32_t)(first + from));
    if (status != DIXPI_OK) {
        tell(status, NULL, first + from);
        nbdkit_set_error(EIO);
        return -1;
    }
    pthread_rwlock_wrlock(&lock);
    ssize_t put = pwrite(fd, bytes, len, (off_t)(skip + (int64_t)(from * stride())));
    pthread_rwlock_unlock(&lock);
    return is_done(put, len) ? 0 : -1;
}

/* How many of the blocks that are left go through one buffer. */
static size_t next_piece(size_t left) {
    size_t most = PIECE / stride();
    return left < most ? left : most;
}

static int read_disk(void *handle, void *out, uint32_t count, uint64_t offset, uint32_t flags) {
    (void)handle, (void)flags;
    if (!is_whole(count, offset))
        return -1;
    for (size_t done = 0, n; done < count / block; done += n) {
        n = next_piece(count / block - done);
        if (read_piece((uint8_t *)out + done * block, offset / block + done, n))
            return -1;
    }
    return 0;
}

static int write_disk(void *handle, const void *data, uint32_t count, uint64_t offset, uint32_t flags) {
    (void)handle, (void)flags;
    if (!is_whole(count, offset))
        return -1;
    for (size_t done = 0, n; done < count / block; done += n) {
        n = next_piece(count / block - done);
        if (write_piece((const uint8_t *)data + done * block, offset / block + done, n))
            return -1;
    }
    return 0;
}

static int flush(void *handle, uint32_t flags) {
    (void)handle, (void)flags;
    return is_done(fdatasync(fd), 0) ? 0 : -1;
}

static struct nbdkit_plugin plugin = {
    .name = "dix",
    .longname = "blocks with T10 protection information",
    .unload = unload,
    .config = config,
    .config_help = "file=FILE (required)  an image of dix, or a dump\nunit=0\nblock=512\ntype=1\nfirst=0\nskip=0\napp=0",
    .magic_config_key = "file",
    .get_ready = get_ready,
    .open = open_disk,
    .get_size = get_size,
    .can_write = can_write,
    .block_size = block_size,
    .pread = read_disk,
    .pwrite = write_disk,
    .flush = flush,
};

NBDKIT_REGISTER_PLUGIN(plugin)
