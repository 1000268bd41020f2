/* dixpi.h: T10 protection information, types 1 to 3. x86-64 with SSE4.2 (x86-64-v2).
   No function allocates, locks, waits, prints or keeps state: any thread may call any at any time, on memory that no
   one else writes meanwhile. No call keeps a pointer. Each pointer names memory that is valid for what is said. None
   overlaps one that is written, and none is NULL but that of a buffer of length 0. Structs lie at addresses that their
   types ask for. Lengths are bytes, and blocks count from 0. */
#ifndef DIXPI_H
#define DIXPI_H
#include <stddef.h>
#include <stdint.h>
#include <sys/uio.h> /* struct iovec */
#ifdef __cplusplus
extern "C" {
#endif
/* What a call answers that may fail: enum dixpi_status. The compiler warns where nobody looks at it. */
#ifdef __GNUC__
#define DIXPI_STATUS __attribute__((warn_unused_result)) uint32_t
#else
#define DIXPI_STATUS uint32_t
#endif

/* What a status says. Where it isn't 0 or 1, nothing was written. */
enum dixpi_status {
    DIXPI_OK = 0,         /* done; of a check, no block differs */
    DIXPI_DIFFERS = 1,    /* a block differs: *found has the first */
    DIXPI_BAD_LAYOUT = 2, /* no layout: see struct dixpi_layout */
    DIXPI_BAD_LENGTH = 3, /* no whole blocks, data and metadata of other counts, or bytes of another length */
    DIXPI_BAD_OPCODE = 4, /* no command that is served */
    DIXPI_BAD_FIELD = 5   /* a field has a value that isn't served, or doesn't fit its form; flags that name no check */
};

/* The guard: the CRC of T10, or the Internet checksum, which host memory alone has. */
enum dixpi_guard { DIXPI_CRC = 0, DIXPI_IP = 1 };

/* Checks: flags of what is wanted, and each the name of what was found. `checks` of 0 and other bits are
   DIXPI_BAD_FIELD, so that nobody who checks nothing takes it for a check; who wants that says DIXPI_CHECK_NONE. */
enum dixpi_check {
    DIXPI_CHECK_NONE = 1, /* alone */
    DIXPI_CHECK_GUARD = 2,
    DIXPI_CHECK_APP = 4,
    DIXPI_CHECK_REF = 8,
    DIXPI_CHECK_ALL = 14
};

/* One block: data, then metadata with its tuple; or the two in buffers of their own. */
struct dixpi_layout {
    uint32_t data_size; /* bytes of data, as 512 or 4096; 0 where only metadata is given */
    uint32_t meta_size; /* bytes of metadata, at least tuple_at + 8; the sum of both sizes fits 32 bits */
    uint32_t tuple_at;  /* bytes of metadata before the tuple. The guard is of the data and of these */
    uint32_t type;      /* 1 to 3 */
    uint32_t guard;     /* enum dixpi_guard */
};

/* What is wanted of the tuples. */
struct dixpi_want {
    uint32_t first_ref; /* block 0's reference tag: in type 1 its LBA's low 32 bits. Block i's is + i mod 2^32 */
    uint16_t app, mask; /* application tag, and the bits of it that are checked */
    uint32_t checks;    /* flags of enum dixpi_check. In type 3 the reference tag is never checked */
};

/* The first difference: by block, and in a block by the order of enum dixpi_check, of which check is one. */
struct dixpi_found {
    uint64_t block;
    uint32_t check, expected, actual;
};

struct dixpi_tuple {
    uint16_t guard, app;
    uint32_t ref;
};

/* Guards. crc16 is ISA-L's crc16_t10dif(0, ..), and _after goes on from a guard as crc16_t10dif(guard, ..) does. */
uint16_t dixpi_crc16(const uint8_t *bytes, size_t len);
uint16_t dixpi_crc16_after(uint16_t guard, const uint8_t *bytes, size_t len);
uint16_t dixpi_ip_sum(const uint8_t *bytes, size_t len);
/* The same of parts of any length, one after another, uncopied. {NULL, 0} is a part of none. */
uint16_t dixpi_crc16v(const struct iovec *parts, size_t count);
uint16_t dixpi_ip_sumv(const struct iovec *parts, size_t count);
/* A guard of bytes that come one part after another. The run is the caller's, and may be copied and kept. */
struct dixpi_run {
    uint32_t guard;      /* DIXPI_CRC; another number is DIXPI_IP */
    uint16_t value, odd; /* what the library keeps between parts */
};
void dixpi_run_begin(struct dixpi_run *run, uint32_t guard);
void dixpi_run_update(struct dixpi_run *run, const uint8_t *bytes, size_t len);
uint16_t dixpi_run_finish(const struct dixpi_run *run); /* may be asked between parts too */

/* One tuple, as its eight bytes travel, high bytes first. */
void dixpi_tuple_write(uint8_t out[8], const struct dixpi_tuple *tuple);
void dixpi_tuple_read(const uint8_t in[8], struct dixpi_tuple *tuple);
/* Checks a tuple against a guard that was computed elsewhere, as by hardware, as that of block i. Another type than 1
   to 3 is DIXPI_BAD_LAYOUT. *found is written for DIXPI_DIFFERS alone. */
DIXPI_STATUS dixpi_check(uint32_t type, const uint8_t in[8], uint16_t guard, const struct dixpi_want *want, uint64_t i,
                         struct dixpi_found *found);

/* Blocks with their metadata behind each, as 512 + 8 or 4096 + 64. len is a multiple of data_size + meta_size. */

/* Writes each tuple: guard, app, and in types 1 and 2 the tag first_ref + i mod 2^32; in type 3 it is 0. With app FFFFh
   each block is an escape, and in types 1 and 2 no one checks it from then on. */
DIXPI_STATUS dixpi_generate(uint8_t *blocks, size_t len, const struct dixpi_layout *layout, uint16_t app,
                            uint32_t first_ref);
/* An escape (app FFFFh; in type 3 ref FFFFFFFFh too) differs in nothing. *found is written for DIXPI_DIFFERS alone. */
DIXPI_STATUS dixpi_verify(const uint8_t *blocks, size_t len, const struct dixpi_layout *layout,
                          const struct dixpi_want *want, struct dixpi_found *found);
/* The same from block start on. block and tag still count from the first: so found->block + 1 is where to go on. */
DIXPI_STATUS dixpi_verify_from(const uint8_t *blocks, size_t len, const struct dixpi_layout *layout,
                               const struct dixpi_want *want, uint64_t start, struct dixpi_found *found);
/* Types 1 and 2: where block i's tag is from + i it becomes to + i, mod 2^32. All other bytes stay, other tags too.
   Of a buffer of metadata alone: data_size 0. Undone by from and to exchanged, unless another tag was to + i. */
DIXPI_STATUS dixpi_remap(uint8_t *blocks, size_t len, const struct dixpi_layout *layout, uint32_t from, uint32_t to);

/* Data and metadata in buffers of their own: as many blocks in meta as in data, which may lie in parts that end
   anywhere. Of meta only the eight bytes of each tuple are written. */
DIXPI_STATUS dixpi_dix_generate(const struct iovec *data, size_t count, uint8_t *meta, size_t meta_len,
                                const struct dixpi_layout *layout, uint16_t app, uint32_t first_ref);
DIXPI_STATUS dixpi_dix_verify(const struct iovec *data, size_t count, const uint8_t *meta, size_t meta_len,
                              const struct dixpi_layout *layout, const struct dixpi_want *want,
                              struct dixpi_found *found);
DIXPI_STATUS dixpi_dix_verify_from(const struct iovec *data, size_t count, const uint8_t *meta, size_t meta_len,
                                   const struct dixpi_layout *layout, const struct dixpi_want *want, uint64_t start,
                                   struct dixpi_found *found);

/* Data copied to blocks with their metadata behind each, and out of them: block by block, while it is in the cache. As
   many data as the blocks hold. */

/* Makes blocks of data, which may lie in parts that end anywhere: each takes its data, and gets its tuple as
   dixpi_generate makes it. The rest of its metadata stays, and what stands before the tuple is guarded too. */
DIXPI_STATUS dixpi_insert(const struct iovec *data, size_t count, uint8_t *blocks, size_t len,
                          const struct dixpi_layout *layout, uint16_t app, uint32_t first_ref);
/* Checks blocks as dixpi_verify does and copies their data out, up to the first that differs. Of data the places of that
   block and of those behind it stay. */
DIXPI_STATUS dixpi_strip(const uint8_t *blocks, size_t len, uint8_t *data, size_t data_len,
                         const struct dixpi_layout *layout, const struct dixpi_want *want, struct dixpi_found *found);
/* The same to the last block: of data the places of blocks that differ stay. Bit i % 8 of bad[i / 8] is 1 where block i
   differs, else 0, and 0 where there is no block i; bytes of bad behind the last one that is needed stay. *found has the
   first. DIXPI_BAD_LENGTH also where bad has fewer bits than there are blocks. */
DIXPI_STATUS dixpi_strip_all(const uint8_t *blocks, size_t len, uint8_t *data, size_t data_len, uint8_t *bad,
                             size_t bad_len, const struct dixpi_layout *layout, const struct dixpi_want *want,
                             struct dixpi_found *found);
/* dixpi_verify_from of blocks that lie over parts: a block may begin in one and end in another. */
DIXPI_STATUS dixpi_verifyv(const struct iovec *blocks, size_t count, const struct dixpi_layout *layout,
                           const struct dixpi_want *want, uint64_t start, struct dixpi_found *found);
/* dixpi_generate and dixpi_remap of such blocks: what the parts name is written, and the parts themselves are not. No two
   of them overlap. */
DIXPI_STATUS dixpi_generatev(const struct iovec *blocks, size_t count, const struct dixpi_layout *layout, uint16_t app,
                             uint32_t first_ref);
DIXPI_STATUS dixpi_remapv(const struct iovec *blocks, size_t count, const struct dixpi_layout *layout, uint32_t from,
                          uint32_t to);

/* The information of NVMe with a guard of 32 or 64 bits (NVM Command Set Specification, "End-to-end Data Protection"):
   sixteen bytes of metadata, high bytes first: guard, application tag of 16 bits, storage tag, reference tag. */

/* CRC-32C, and the CRC of 64 bits of NVMe; _after goes on from the CRC of the bytes before. */
uint32_t dixpi_crc32c(const uint8_t *bytes, size_t len);
uint32_t dixpi_crc32c_after(uint32_t guard, const uint8_t *bytes, size_t len);
uint64_t dixpi_crc64_nvme(const uint8_t *bytes, size_t len);
uint64_t dixpi_crc64_nvme_after(uint64_t guard, const uint8_t *bytes, size_t len);

/* In checks of struct dixpi_nvme_want, and in check of struct dixpi_nvme_found, beside enum dixpi_check. */
enum dixpi_nvme_check { DIXPI_CHECK_STORAGE = 16, DIXPI_CHECK_NVME_ALL = 30 };

struct dixpi_nvme_layout {
    uint32_t data_size; /* bytes of data, as 512 or 4096; 0 where only metadata is given */
    uint32_t meta_size; /* bytes of metadata, at least 16; the sum of both sizes fits 32 bits */
    uint32_t at_end;    /* 0: the first 16 bytes of the metadata, and the guard is of the data alone; 1: the last 16, and
                           the guard is of the data and of the metadata before */
    uint32_t guard;     /* bits of the guard: 32 or 64 */
    uint32_t type;      /* 1 to 3 */
    uint32_t storage;   /* bits of the storage tag (STS): 16 to 64 beside a guard of 32 bits, 0 to 48 beside one of 64. The
                           reference tag has 80 - storage, or 48 - storage */
};

/* The tags that are written. */
struct dixpi_nvme_tags {
    uint64_t first_ref; /* block 0's reference tag. Block i's is + i, modulo its width */
    uint64_t storage;   /* storage tag */
    uint16_t app;       /* application tag */
};

/* What is wanted. */
struct dixpi_nvme_want {
    uint64_t first_ref;             /* as above */
    uint64_t storage, storage_mask; /* storage tag, and the bits of it that are checked */
    uint16_t app, mask;             /* application tag, and the bits of it that are checked */
    uint32_t checks;                /* flags. In type 3 the reference tag is never checked */
};

/* The first difference: by block, and in a block guard, application tag, storage tag, reference tag. */
struct dixpi_nvme_found {
    uint64_t block, expected, actual;
    uint32_t check; /* its flag */
};

/* Blocks with their metadata behind each. DIXPI_BAD_FIELD where the storage tag has more bits than the layout's. */
DIXPI_STATUS dixpi_nvme_generate(uint8_t *blocks, size_t len, const struct dixpi_nvme_layout *layout,
                                 const struct dixpi_nvme_tags *tags);
/* From block start on; block and tag count from the first. An escape differs in nothing: application tag FFFFh, in type
   3 beside a storage and a reference tag of all ones. *found is written for DIXPI_DIFFERS alone. */
DIXPI_STATUS dixpi_nvme_verify(const uint8_t *blocks, size_t len, const struct dixpi_nvme_layout *layout,
                               const struct dixpi_nvme_want *want, uint64_t start, struct dixpi_nvme_found *found);
/* Types 1 and 2: where block i's reference tag is from + i it becomes to + i, modulo its width. All other bytes stay. */
DIXPI_STATUS dixpi_nvme_remap(uint8_t *blocks, size_t len, const struct dixpi_nvme_layout *layout, uint64_t from,
                              uint64_t to);
/* Copies the data of as many blocks as len has to them, and generates. Of the metadata all other bytes stay. */
DIXPI_STATUS dixpi_nvme_insert(const uint8_t *data, size_t data_len, uint8_t *blocks, size_t len,
                               const struct dixpi_nvme_layout *layout, const struct dixpi_nvme_tags *tags);
/* Checks as verify does from the first block on, and copies the data of each block before the first that differs. */
DIXPI_STATUS dixpi_nvme_strip(const uint8_t *blocks, size_t len, uint8_t *data, size_t data_len,
                              const struct dixpi_nvme_layout *layout, const struct dixpi_nvme_want *want,
                              struct dixpi_nvme_found *found);
/* Data and metadata in buffers of their own. */
DIXPI_STATUS dixpi_nvme_dix_generate(const uint8_t *data, size_t data_len, uint8_t *meta, size_t meta_len,
                                     const struct dixpi_nvme_layout *layout, const struct dixpi_nvme_tags *tags);
DIXPI_STATUS dixpi_nvme_dix_verify(const uint8_t *data, size_t data_len, const uint8_t *meta, size_t meta_len,
                                   const struct dixpi_nvme_layout *layout, const struct dixpi_nvme_want *want,
                                   uint64_t start, struct dixpi_nvme_found *found);

/* Command descriptor blocks (SBC-3, 5.11 to 5.35). */
enum dixpi_op {
    DIXPI_READ_10 = 0x28,
    DIXPI_WRITE_10 = 0x2A,
    DIXPI_VERIFY_10 = 0x2F,
    DIXPI_READ_16 = 0x88,
    DIXPI_WRITE_16 = 0x8A,
    DIXPI_VERIFY_16 = 0x8F,
    DIXPI_READ_32 = 0x7F09,
    DIXPI_WRITE_32 = 0x7F0B,
    DIXPI_READ_CAPACITY_16 = 0x9E10
};
enum dixpi_cdb_flag { DIXPI_FUA = 0x08, DIXPI_DPO = 0x10 }; /* VERIFY has no FUA, READ CAPACITY neither */
struct dixpi_cdb {
    uint64_t lba;       /* of READ CAPACITY 0 */
    uint32_t op;        /* enum dixpi_op */
    uint32_t n;         /* blocks, or of READ CAPACITY the allocation length in bytes */
    uint32_t ref;       /* expected tags and mask: of the forms of 32 bytes alone, else 0 */
    uint16_t app, mask;
    uint32_t protect;   /* RDPROTECT, WRPROTECT, VRPROTECT: 0, 1, 3 or 4 */
    uint32_t flags;     /* enum dixpi_cdb_flag, added */
    uint32_t group;     /* GROUP NUMBER, below 32; of READ CAPACITY 0 */
    uint32_t control;   /* CONTROL, below 256 */
};
/* Writes 10, 16 or 32 bytes to out and their number to *len; the rest of out stays. DIXPI_BAD_OPCODE, or
   DIXPI_BAD_FIELD where a field doesn't fit its form. */
DIXPI_STATUS dixpi_cdb_encode(const struct dixpi_cdb *cdb, uint8_t out[32], uint32_t *len);
/* The inverse. DIXPI_BAD_LENGTH where the operation code asks for another number of bytes, DIXPI_BAD_FIELD also where a
   bit is set outside the fields above. */
DIXPI_STATUS dixpi_cdb_decode(const uint8_t *bytes, size_t len, struct dixpi_cdb *cdb);

/* Commands as initiators send them, with each bit that they may set (SBC-3, clause 5; DLD and the sixth bit of the
   group number by SBC-4), in a field that may be longer than the command. */
enum dixpi_more_ops { /* beside those of enum dixpi_op */
    DIXPI_READ_12 = 0xA8,
    DIXPI_WRITE_12 = 0xAA,
    DIXPI_VERIFY_12 = 0xAF,
    DIXPI_VERIFY_32 = 0x7F0A,
    DIXPI_WRITE_AND_VERIFY_10 = 0x2E,
    DIXPI_WRITE_AND_VERIFY_12 = 0xAE,
    DIXPI_WRITE_AND_VERIFY_16 = 0x8E,
    DIXPI_WRITE_AND_VERIFY_32 = 0x7F0C,
    DIXPI_WRITE_SAME_10 = 0x41,
    DIXPI_WRITE_SAME_16 = 0x93,
    DIXPI_WRITE_SAME_32 = 0x7F0D,
    DIXPI_COMPARE_AND_WRITE = 0x89
};
/* Beside DIXPI_FUA of READ, WRITE and COMPARE AND WRITE, and DIXPI_DPO of these, VERIFY and WRITE AND VERIFY. */
enum dixpi_command_flag {
    DIXPI_FUA_NV = 0x02, /* where FUA is */
    DIXPI_RARC = 0x04,   /* of READ */
    DIXPI_NDOB = 0x100,  /* of WRITE SAME(16) and (32) */
    DIXPI_UNMAP = 0x800, /* of WRITE SAME, as ANCHOR */
    DIXPI_ANCHOR = 0x1000
};
struct dixpi_command {
    uint64_t lba;       /* these six as in struct dixpi_cdb; n of COMPARE AND WRITE is below 256 */
    uint32_t op, n, ref;
    uint16_t app, mask;
    uint32_t protect;   /* RDPROTECT, WRPROTECT, VRPROTECT: 0 to 5 */
    uint32_t flags;     /* enum dixpi_cdb_flag and enum dixpi_command_flag, added */
    uint32_t bytchk;    /* BYTCHK of VERIFY and WRITE AND VERIFY, 0 to 3; else 0 */
    uint32_t dld;       /* duration limit of READ and WRITE of 16 and 32 bytes, 0 to 7; else 0 */
    uint32_t group;     /* GROUP NUMBER, below 64; of READ CAPACITY 0 */
    uint32_t control;   /* CONTROL, below 256 */
};
/* How many bytes a command has, by its operation code and behind 7Fh by its byte 7, whether or not it is served; 0
   where the bytes don't tell it: none, fewer than 8 behind 7Fh, or a code that is reserved or a vendor's. */
uint32_t dixpi_cdb_len(const uint8_t *bytes, size_t len);
/* Writes 10, 12, 16 or 32 bytes to out and their number to *len; the rest of out stays. DIXPI_BAD_OPCODE, or
   DIXPI_BAD_FIELD where the form can't carry a number. */
DIXPI_STATUS dixpi_command_encode(const struct dixpi_command *command, uint8_t out[32], uint32_t *len);
/* The inverse, of bytes that begin with the command; what stands behind it isn't read. DIXPI_BAD_LENGTH where there are
   fewer than it asks for, DIXPI_BAD_FIELD also where a bit is set outside the fields. */
DIXPI_STATUS dixpi_command_decode(const uint8_t *bytes, size_t len, struct dixpi_command *command);
/* The checks that a protect field asks of the protection information that travels, for `checks` of struct dixpi_want:
   all for 1 and 5, the tags for 2, the guard for 4; DIXPI_CHECK_NONE for 3, and for 0, with which none travels; else 0,
   which no check takes. */
uint32_t dixpi_protect_checks(uint32_t protect);

/* Sense data. */
struct dixpi_sense {
    uint64_t info;          /* INFORMATION: the LBA of the block that the sense speaks of */
    uint8_t key, asc, ascq; /* sense key, below 16; additional sense code and its qualifier */
    uint8_t has_info;       /* 0: none, and info isn't looked at */
};
/* Writes 18 bytes (fixed format), or 20 (descriptor format) where info needs 64 bits, and their number to *len. The
   rest of out stays. DIXPI_BAD_FIELD: the key isn't below 16. */
DIXPI_STATUS dixpi_sense_encode(const struct dixpi_sense *sense, uint8_t out[20], uint32_t *len);
/* The same in descriptor format, as where D_SENSE is 1: 8 bytes, or 20 where there is an information. */
DIXPI_STATUS dixpi_sense_describe(const struct dixpi_sense *sense, uint8_t out[20], uint32_t *len);
/* The inverse of _encode: DIXPI_BAD_LENGTH where the response code asks for more bytes, DIXPI_BAD_FIELD for any other
   form. */
DIXPI_STATUS dixpi_sense_decode(const uint8_t *bytes, size_t len, struct dixpi_sense *sense);
/* Sense data as devices send them: response codes 70h to 73h, of any length from the qualifier on, whatever stands
   elsewhere. info is that of the fixed format or of the first information descriptor, where it is valid. *deferred is 1
   for 71h and 73h, which tell of an earlier command. DIXPI_BAD_LENGTH: they end before the qualifier, by their number or
   by the additional length. DIXPI_BAD_FIELD: another response code. Then nothing is written. */
DIXPI_STATUS dixpi_sense_find(const uint8_t *bytes, size_t len, struct dixpi_sense *sense, uint32_t *deferred);
/* The check that failed (enum dixpi_check), by additional sense code 10h, or 0. Else *by_target is 1 for ABORTED
   COMMAND, which the target answers, and 0 for ILLEGAL REQUEST, which the adapter does. */
uint32_t dixpi_sense_check(const struct dixpi_sense *sense, uint32_t *by_target);

/* Texts. Each call answers how many bytes its text has, whatever room there is in out, cuts it where it doesn't fit,
   and ends it with a byte of 0 wherever size isn't 0, as snprintf does. 80 bytes are enough for each. */
uint64_t dixpi_check_name(uint32_t check, char *out, size_t size);   /* guard, application tag, reference tag */
uint64_t dixpi_status_text(uint32_t status, char *out, size_t size); /* of enum dixpi_status */
/* block 7: guard wanted f684, has bdb6 */
uint64_t dixpi_found_text(const struct dixpi_found *found, char *out, size_t size);

uint32_t dixpi_version(void); /* 0x000300 is 0.3.0 */

#ifdef __cplusplus
}
#endif
#endif
