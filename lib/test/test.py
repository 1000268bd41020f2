"""Calls each export of libdixpi by ctypes: test.py LIBRARY. Expected values are of a loop here or worked by hand."""
import ctypes
import sys
from ctypes import POINTER, c_size_t, c_uint8, c_uint16, c_uint32, c_uint64, c_void_p

passed = failed = 0


def holds(what, is_true):
    global passed, failed
    if is_true:
        passed += 1
    else:
        failed += 1
        print("not", what)


class Layout(ctypes.Structure):
    _fields_ = [(name, c_uint32) for name in ("data_size", "meta_size", "tuple_at", "type", "guard")]


class Want(ctypes.Structure):
    _fields_ = [("first_ref", c_uint32), ("app", c_uint16), ("mask", c_uint16), ("checks", c_uint32)]


class Found(ctypes.Structure):
    _fields_ = [("block", c_uint64), ("check", c_uint32), ("expected", c_uint32), ("actual", c_uint32)]


class Tuple(ctypes.Structure):
    _fields_ = [("guard", c_uint16), ("app", c_uint16), ("ref", c_uint32)]


class Run(ctypes.Structure):
    _fields_ = [("guard", c_uint32), ("value", c_uint16), ("odd", c_uint16)]


class Sense(ctypes.Structure):
    _fields_ = [("info", c_uint64)] + [(name, c_uint8) for name in ("key", "asc", "ascq", "has_info")]


class Cdb(ctypes.Structure):
    _fields_ = [("lba", c_uint64)] + [(name, c_uint32) for name in ("op", "n", "ref")]
    _fields_ += [("app", c_uint16), ("mask", c_uint16)]
    _fields_ += [(name, c_uint32) for name in ("protect", "flags", "group", "control")]


class Command(ctypes.Structure):
    _fields_ = [("lba", c_uint64)] + [(name, c_uint32) for name in ("op", "n", "ref")]
    _fields_ += [("app", c_uint16), ("mask", c_uint16)]
    _fields_ += [(name, c_uint32) for name in ("protect", "flags", "bytchk", "dld", "group", "control")]


class NvmeLayout(ctypes.Structure):
    _fields_ = [(name, c_uint32) for name in ("data_size", "meta_size", "at_end", "guard", "type", "storage")]


class NvmeTags(ctypes.Structure):
    _fields_ = [("first_ref", c_uint64), ("storage", c_uint64), ("app", c_uint16)]


class NvmeWant(ctypes.Structure):
    _fields_ = [(name, c_uint64) for name in ("first_ref", "storage", "storage_mask")]
    _fields_ += [("app", c_uint16), ("mask", c_uint16), ("checks", c_uint32)]


class NvmeFound(ctypes.Structure):
    _fields_ = [(name, c_uint64) for name in ("block", "expected", "actual")] + [("check", c_uint32)]


class Part(ctypes.Structure):
    _fields_ = [("base", c_void_p), ("len", c_size_t)]


dixpi = ctypes.CDLL(sys.argv[1])
layout_at, want_at, found_at, parts_at = POINTER(Layout), POINTER(Want), POINTER(Found), POINTER(Part)
tuple_at, run_at, sense_at, number_at = POINTER(Tuple), POINTER(Run), POINTER(Sense), POINTER(c_uint32)
cdb_at, command_at = POINTER(Cdb), POINTER(Command)
nvme_layout_at, nvme_tags_at = POINTER(NvmeLayout), POINTER(NvmeTags)
nvme_want_at, nvme_found_at = POINTER(NvmeWant), POINTER(NvmeFound)
bytes_of = (c_void_p, c_size_t)
TYPES = {
    "crc16": (c_uint16, c_void_p, c_size_t),
    "crc16_after": (c_uint16, c_uint16, c_void_p, c_size_t),
    "ip_sum": (c_uint16, c_void_p, c_size_t),
    "crc16v": (c_uint16, parts_at, c_size_t),
    "ip_sumv": (c_uint16, parts_at, c_size_t),
    "run_begin": (None, run_at, c_uint32),
    "run_update": (None, run_at, c_void_p, c_size_t),
    "run_finish": (c_uint16, run_at),
    "tuple_write": (None, c_void_p, tuple_at),
    "tuple_read": (None, c_void_p, tuple_at),
    "check": (c_uint32, c_uint32, c_void_p, c_uint16, want_at, c_uint64, found_at),
    "generate": (c_uint32, c_void_p, c_size_t, layout_at, c_uint16, c_uint32),
    "verify": (c_uint32, c_void_p, c_size_t, layout_at, want_at, found_at),
    "verify_from": (c_uint32, c_void_p, c_size_t, layout_at, want_at, c_uint64, found_at),
    "remap": (c_uint32, c_void_p, c_size_t, layout_at, c_uint32, c_uint32),
    "dix_generate": (c_uint32, parts_at, c_size_t, c_void_p, c_size_t, layout_at, c_uint16, c_uint32),
    "dix_verify": (c_uint32, parts_at, c_size_t, c_void_p, c_size_t, layout_at, want_at, found_at),
    "dix_verify_from": (
        c_uint32, parts_at, c_size_t, c_void_p, c_size_t, layout_at, want_at, c_uint64, found_at,
    ),
    "insert": (c_uint32, parts_at, c_size_t, c_void_p, c_size_t, layout_at, c_uint16, c_uint32),
    "strip": (c_uint32, c_void_p, c_size_t, c_void_p, c_size_t, layout_at, want_at, found_at),
    "strip_all": (
        c_uint32, c_void_p, c_size_t, c_void_p, c_size_t, c_void_p, c_size_t, layout_at, want_at, found_at,
    ),
    "verifyv": (c_uint32, parts_at, c_size_t, layout_at, want_at, c_uint64, found_at),
    "generatev": (c_uint32, parts_at, c_size_t, layout_at, c_uint16, c_uint32),
    "remapv": (c_uint32, parts_at, c_size_t, layout_at, c_uint32, c_uint32),
    "cdb_encode": (c_uint32, cdb_at, c_void_p, number_at),
    "cdb_decode": (c_uint32, c_void_p, c_size_t, cdb_at),
    "cdb_len": (c_uint32, c_void_p, c_size_t),
    "command_encode": (c_uint32, command_at, c_void_p, number_at),
    "command_decode": (c_uint32, c_void_p, c_size_t, command_at),
    "protect_checks": (c_uint32, c_uint32),
    "sense_describe": (c_uint32, sense_at, c_void_p, number_at),
    "check_name": (c_uint64, c_uint32, c_void_p, c_size_t),
    "status_text": (c_uint64, c_uint32, c_void_p, c_size_t),
    "found_text": (c_uint64, found_at, c_void_p, c_size_t),
    "sense_encode": (c_uint32, sense_at, c_void_p, number_at),
    "sense_decode": (c_uint32, c_void_p, c_size_t, sense_at),
    "sense_find": (c_uint32, c_void_p, c_size_t, sense_at, number_at),
    "sense_check": (c_uint32, sense_at, number_at),
    "version": (c_uint32,),
    "crc32c": (c_uint32, *bytes_of),
    "crc32c_after": (c_uint32, c_uint32, *bytes_of),
    "crc64_nvme": (c_uint64, *bytes_of),
    "crc64_nvme_after": (c_uint64, c_uint64, *bytes_of),
    "nvme_generate": (c_uint32, *bytes_of, nvme_layout_at, nvme_tags_at),
    "nvme_verify": (c_uint32, *bytes_of, nvme_layout_at, nvme_want_at, c_uint64, nvme_found_at),
    "nvme_remap": (c_uint32, *bytes_of, nvme_layout_at, c_uint64, c_uint64),
    "nvme_insert": (c_uint32, *bytes_of, *bytes_of, nvme_layout_at, nvme_tags_at),
    "nvme_strip": (c_uint32, *bytes_of, *bytes_of, nvme_layout_at, nvme_want_at, nvme_found_at),
    "nvme_dix_generate": (c_uint32, *bytes_of, *bytes_of, nvme_layout_at, nvme_tags_at),
    "nvme_dix_verify": (c_uint32, *bytes_of, *bytes_of, nvme_layout_at, nvme_want_at, c_uint64, nvme_found_at),
}
for name, (result, *arguments) in TYPES.items():
    function = getattr(dixpi, "dixpi_" + name)
    function.restype, function.argtypes = result, arguments


def crc(data):
    register = 0
    for byte in data:
        register ^= byte << 8
        for _ in range(8):
            register = (register << 1 ^ 0x18BB7 if register & 0x8000 else register << 1) & 0xFFFF
    return register


def memory(data):
    return (ctypes.c_uint8 * len(data))(*data)


def parts(*pieces):
    kept = [memory(piece) for piece in pieces]
    return (Part * len(kept))(*[Part(ctypes.addressof(piece), len(piece)) for piece in kept]), kept


def tell(found):
    return (found.block, found.check, found.expected, found.actual)


NINE = b"123456789"
holds("version", dixpi.dixpi_version() == 0x300)
holds("crc16", dixpi.dixpi_crc16(memory(NINE), 9) == 0xD0DB)
holds("ip_sum", dixpi.dixpi_ip_sum(memory(b"\x00\x01\xf2\x03\xf4\xf5\xf6\xf7"), 8) == 0x220D)
pieces, kept = parts(b"1", b"", b"2345", b"6789")
holds("crc16v", dixpi.dixpi_crc16v(pieces, 4) == 0xD0DB)
pieces, kept = parts(b"\x00", b"\x01\xf2\x03\xf4", b"\xf5\xf6\xf7")
holds("ip_sumv", dixpi.dixpi_ip_sumv(pieces, 3) == 0x220D)
holds("crc16_after", dixpi.dixpi_crc16_after(crc(NINE[:4]), memory(NINE[4:]), 5) == 0xD0DB)
# 3132 + 3334 + 3536 + 3738 + 3900 is 109D4, so 09D5 with its carry.
for kind, wanted in (0, 0xD0DB), (1, 0xFFFF - 0x09D5):
    run = Run()
    dixpi.dixpi_run_begin(run, kind)
    for piece in NINE[:1], NINE[1:4], NINE[4:]:
        dixpi.dixpi_run_update(run, memory(piece), len(piece))
    holds("run_finish", dixpi.dixpi_run_finish(run) == wanted)

eight, back, found = memory(bytes(8)), Tuple(), Found()
dixpi.dixpi_tuple_write(eight, Tuple(0x0102, 0x0304, 0x05060708))
holds("tuple_write", bytes(eight) == bytes(range(1, 9)))
dixpi.dixpi_tuple_read(eight, back)
holds("tuple_read", (back.guard, back.app, back.ref) == (0x0102, 0x0304, 0x05060708))
want = Want(0x05060000, 0x0304, 0xFFFF, 0xE)
holds("check, nothing differs", dixpi.dixpi_check(1, eight, 0x0102, want, 0x0708, found) == 0)
holds("check, the tag differs", dixpi.dixpi_check(1, eight, 0x0102, want, 0x0709, found) == 1)
holds("the tag", tell(found) == (0x0709, 8, 0x05060709, 0x05060708))
holds("check, a type", dixpi.dixpi_check(4, eight, 0x0102, want, 0x0708, found) == 2)

FIRST = 0xFFFFFFFE
layout, want, found = Layout(512, 8, 0, 1, 0), Want(FIRST, 0x1234, 0xFFFF, 0xE), Found(9, 9, 9, 9)
data = [bytes((i * 31 + j * 7 + (j >> 8)) % 256 for j in range(512)) for i in range(6)]
tags = [(FIRST + i) % 2**32 for i in range(6)]
tuples = [crc(block).to_bytes(2, "big") + b"\x12\x34" + tag.to_bytes(4, "big") for block, tag in zip(data, tags)]
whole = b"".join(block + its for block, its in zip(data, tuples))
bare = memory(b"".join(block + bytes(8) for block in data))
holds("generate", dixpi.dixpi_generate(bare, len(bare), layout, 0x1234, FIRST) == 0 and bytes(bare) == whole)
holds("verify, no block differs", dixpi.dixpi_verify(bare, len(bare), layout, want, found) == 0)
holds("nothing found", tell(found) == (9, 9, 9, 9))
bare[3 * 520 + 9] ^= 4
holds("verify, a block differs", dixpi.dixpi_verify(bare, len(bare), layout, want, found) == 1)
holds("found", tell(found) == (3, 2, crc(bytes(bare[3 * 520 : 3 * 520 + 512])), crc(data[3])))
holds("verify_from behind it", dixpi.dixpi_verify_from(bare, len(bare), layout, want, 4, found) == 0)
holds("verify_from it", dixpi.dixpi_verify_from(bare, len(bare), layout, want, 3, found) == 1 and found.block == 3)
for flags in 0, 3, 16, 1 << 1 | 1:
    holds("verify, no check", dixpi.dixpi_verify(bare, len(bare), layout, Want(FIRST, 0, 0, flags), found) == 5)
holds("verify, none", dixpi.dixpi_verify(bare, len(bare), layout, Want(FIRST, 0, 0, 1), found) == 0)
bare[3 * 520 + 9] ^= 4
holds("verify, a length", dixpi.dixpi_verify(bare, len(bare) - 1, layout, want, found) == 3)
holds("verify, a layout", dixpi.dixpi_verify(bare, len(bare), Layout(512, 7, 0, 1, 0), want, found) == 2)
holds("remap", dixpi.dixpi_remap(bare, len(bare), layout, FIRST, 5) == 0)
moved = b"".join(block + its[:4] + (5 + i).to_bytes(4, "big") for i, (block, its) in enumerate(zip(data, tuples)))
holds("remapped", bytes(bare) == moved)

joined = b"".join(data)
pieces, kept = parts(joined[:1], joined[1:1000], b"", joined[1000:])
meta = memory(bytes(48))
holds("dix_generate", dixpi.dixpi_dix_generate(pieces, 4, meta, 48, layout, 0x1234, FIRST) == 0)
holds("the tuples", bytes(meta) == b"".join(tuples))
holds("dix_verify, no block differs", dixpi.dixpi_dix_verify(pieces, 4, meta, 48, layout, want, found) == 0)
meta[4 * 8 + 7] ^= 1
holds("dix_verify, a block differs", dixpi.dixpi_dix_verify(pieces, 4, meta, 48, layout, want, found) == 1)
holds("found apart", tell(found) == (4, 8, 2, 3))
holds("dix_verify_from", dixpi.dixpi_dix_verify_from(pieces, 4, meta, 48, layout, want, 5, found) == 0)
holds("dix_verify, other counts", dixpi.dixpi_dix_verify(pieces, 3, meta, 48, layout, want, found) == 3)

# Data in parts become the six blocks; blocks 1 and 4 are spoilt, and the data of the others come back.
blocks, found = memory(b"\xee" * len(whole)), Found(9, 9, 9, 9)
pieces, kept = parts(joined[:1], joined[1:1000], b"", joined[1000:])
holds("insert", dixpi.dixpi_insert(pieces, 4, blocks, len(blocks), layout, 0x1234, FIRST) == 0)
holds("the blocks", bytes(blocks) == whole)
holds("insert, other counts", dixpi.dixpi_insert(pieces, 3, blocks, len(blocks), layout, 0x1234, FIRST) == 3)
holds("insert, a layout", dixpi.dixpi_insert(pieces, 4, blocks, len(blocks), Layout(512, 7, 0, 1, 0), 0, 0) == 2)
blocks[1 * 520] ^= 1
blocks[4 * 520 + 519] ^= 1
out, bad = memory(b"-" * 3072), memory(b"\xff\xff")
holds("strip", dixpi.dixpi_strip(blocks, len(blocks), out, 3072, layout, want, found) == 1)
holds("what strip found", tell(found) == (1, 2, crc(bytes(blocks[520 : 520 + 512])), crc(data[1])))
holds("what strip left", bytes(out) == data[0] + b"-" * 2560)
holds("strip_all", dixpi.dixpi_strip_all(blocks, len(blocks), out, 3072, bad, 2, layout, want, found) == 1)
gaps = [data[0], b"-" * 512, data[2], data[3], b"-" * 512, data[5]]
holds("what strip_all left", bytes(out) == b"".join(gaps) and bytes(bad) == b"\x12\xff" and found.block == 1)
holds("strip_all, no room", dixpi.dixpi_strip_all(blocks, len(blocks), out, 3072, bad, 0, layout, want, found) == 3)
cuts = bytes(blocks)
pieces, kept = parts(cuts[:515], b"", cuts[515:1050], cuts[1050:])
holds("verifyv", dixpi.dixpi_verifyv(pieces, 4, layout, want, 0, found) == 1 and found.block == 1)
holds("verifyv behind it", dixpi.dixpi_verifyv(pieces, 4, layout, want, 2, found) == 1)
holds("the tag in parts", tell(found) == (4, 8, 2, 3))
holds("verifyv, a length", dixpi.dixpi_verifyv(pieces, 3, layout, want, 0, found) == 3)
cuts = b"".join(it + bytes(8) for it in data)
pieces, kept = parts(cuts[:515], b"", cuts[515:1050], cuts[1050:])
holds("generatev", dixpi.dixpi_generatev(pieces, 4, layout, 0x1234, FIRST) == 0)
holds("made over parts", b"".join(map(bytes, kept)) == whole)
holds("remapv", dixpi.dixpi_remapv(pieces, 4, layout, FIRST, 5) == 0)
holds("remapped over parts", b"".join(map(bytes, kept)) == moved)
holds("generatev, a length", dixpi.dixpi_generatev(pieces, 3, layout, 0x1234, FIRST) == 3)

sense, length, by_target = Sense(0x1234, 0xB, 0x10, 3, 1), c_uint32(), c_uint32()
out = memory(bytes(20))
holds("sense_encode", dixpi.dixpi_sense_encode(sense, out, length) == 0 and length.value == 18)
holds("the sense", bytes(out) == bytes.fromhex("f0000b000012340a000000001003000000000000"))
holds("sense_check", dixpi.dixpi_sense_check(sense, by_target) == 8 and by_target.value == 1)
back = Sense()
holds("sense_decode", dixpi.dixpi_sense_decode(out, 18, back) == 0 and bytes(back)[:12] == bytes(sense)[:12])
holds("sense_decode, a length", dixpi.dixpi_sense_decode(out, 17, back) == 3)
long = memory(bytes.fromhex("f0000b0000123458000000001003") + bytes(82))
holds("sense_decode, of a device", dixpi.dixpi_sense_decode(long, 96, back) == 5)
holds("sense_find", dixpi.dixpi_sense_find(long, 96, back, by_target) == 0 and by_target.value == 0)
holds("the sense found", (back.key, back.asc, back.ascq, back.info) == (0xB, 0x10, 3, 0x1234))
holds("sense_describe", dixpi.dixpi_sense_describe(sense, out, length) == 0 and length.value == 20)
holds("the sense described", bytes(out) == bytes.fromhex("720b10030000000c000a80000000000000001234"))
sense.info = 1 << 32
wide = bytes.fromhex("720b10030000000c000a80000000000100000000")
holds("sense_encode, 64 bits", dixpi.dixpi_sense_encode(sense, out, length) == 0 and length.value == 20)
holds("the wide sense", bytes(out) == wide)
sense.key = 16
holds("sense_encode, a key", dixpi.dixpi_sense_encode(sense, out, length) == 5)

cdb = Cdb(0x0102030405060708, 0x7F09, 0x11121314, 0x21222324, 0x3132, 0x4142, 1, 0x18, 29, 0xC0)
wire = bytes.fromhex("7fc000000000 1d18 0009 3800 0102030405060708 21222324 3132 4142 11121314")
out = memory(bytes(32))
holds("cdb_encode", dixpi.dixpi_cdb_encode(cdb, out, length) == 0 and length.value == 32)
holds("the command", bytes(out) == wire)
back = Cdb()
holds("cdb_decode", dixpi.dixpi_cdb_decode(out, 32, back) == 0 and bytes(back) == bytes(cdb))
holds("cdb_decode, a length", dixpi.dixpi_cdb_decode(out, 31, back) == 3)
out[10] |= 4
holds("cdb_decode, a bit", dixpi.dixpi_cdb_decode(out, 32, back) == 5)
cdb.op = 0x7F0A
holds("cdb_encode, an operation code", dixpi.dixpi_cdb_encode(cdb, out, length) == 4)

# READ(16) with RDPROTECT 1, FUA and duration limit 5, in a field of 32 bytes.
command = Command(0x1234, 0x88, 8, 0, 0, 0, 1, 8, 0, 5, 3, 0)
wire = bytes.fromhex("88290000000000001234000000084300")
out, back = memory(bytes(32)), Command()
holds("command_encode", dixpi.dixpi_command_encode(command, out, length) == 0 and length.value == 16)
holds("its bytes", bytes(out) == wire + bytes(16))
holds("cdb_len", dixpi.dixpi_cdb_len(out, 32) == 16 and dixpi.dixpi_cdb_len(memory(b"\xc0"), 1) == 0)
holds("command_decode", dixpi.dixpi_command_decode(memory(wire + b"x" * 16), 32, back) == 0)
holds("its numbers", bytes(back) == bytes(command))
holds("command_decode, cut", dixpi.dixpi_command_decode(out, 15, back) == 3)
asked = [dixpi.dixpi_protect_checks(protect) for protect in range(8)]
holds("protect_checks", asked == [1, 14, 12, 1, 2, 14, 0, 0])

# The guards of NVMe: the first four of CRC-32C are RFC 3720's.
ups, downs = bytes(range(256)) * 16, bytes(range(255, -1, -1)) * 16
for data, guard in ((bytes(32), 0x8A9136AA), (b"\xff" * 32, 0x62A8AB43), (ups[:32], 0x46DD794E), (downs[-32:], 0x113FDB5C)):
    holds("crc32c", dixpi.dixpi_crc32c(memory(data), 32) == guard)
for data, guard in ((NINE, 0xAE8B14860A799888), (ups, 0x3E729F5F6750449C), (downs, 0x9A2DF64B8E9E517E)):
    holds("crc64_nvme", dixpi.dixpi_crc64_nvme(memory(data), len(data)) == guard)
holds("crc32c_after", dixpi.dixpi_crc32c_after(dixpi.dixpi_crc32c(memory(NINE), 4), memory(NINE[4:]), 5) == 0xE3069283)
part = dixpi.dixpi_crc64_nvme(memory(NINE), 4)
holds("crc64_nvme_after", dixpi.dixpi_crc64_nvme_after(part, memory(NINE[4:]), 5) == 0xAE8B14860A799888)

# Two blocks of 4,096 bytes with a guard of 64 bits, 16 bits of storage tag and 32 of reference tag.
layout, tags = NvmeLayout(4096, 16, 0, 64, 1, 16), NvmeTags(0xFFFFFFFF, 0xBEEF, 0x1234)
want, found = NvmeWant(0xFFFFFFFF, 0xBEEF, 0xFFFF, 0x1234, 0xFFFF, 30), NvmeFound()
infos = [bytes.fromhex("3e729f5f6750449c 1234 beef ffffffff"), bytes.fromhex("9a2df64b8e9e517e 1234 beef 00000000")]
wanted = ups + infos[0] + downs + infos[1]
blocks, data, meta = memory(ups + bytes(16) + downs + bytes(16)), memory(ups + downs), memory(bytes(32))
holds("nvme_generate", dixpi.dixpi_nvme_generate(blocks, 8224, layout, tags) == 0 and bytes(blocks) == wanted)
holds("nvme_verify", dixpi.dixpi_nvme_verify(blocks, 8224, layout, want, 0, found) == 0)
holds("nvme_dix_generate", dixpi.dixpi_nvme_dix_generate(data, 8192, meta, 32, layout, tags) == 0)
holds("their bytes", bytes(meta) == infos[0] + infos[1])
holds("nvme_dix_verify", dixpi.dixpi_nvme_dix_verify(data, 8192, meta, 32, layout, want, 0, found) == 0)
others, copy = memory(bytes(8224)), memory(bytes(8192))
holds("nvme_insert", dixpi.dixpi_nvme_insert(data, 8192, others, 8224, layout, tags) == 0 and bytes(others) == wanted)
holds("nvme_strip", dixpi.dixpi_nvme_strip(others, 8224, copy, 8192, layout, want, found) == 0)
holds("the data", bytes(copy) == ups + downs)
holds("nvme_remap", dixpi.dixpi_nvme_remap(blocks, 8224, layout, 0xFFFFFFFF, 7) == 0)
holds("its tags", bytes(blocks)[4108:4112] + bytes(blocks)[8220:] == bytes.fromhex("0000000700000008"))
holds("nvme_verify, moved", dixpi.dixpi_nvme_verify(blocks, 8224, layout, want, 1, found) == 1)
holds("the difference", (found.block, found.expected, found.actual, found.check) == (1, 0, 8, 8))
layout.storage = 49
holds("nvme_verify, a storage tag", dixpi.dixpi_nvme_verify(blocks, 8224, layout, want, 0, found) == 2)

text = memory(b"x" * 80)


def texts(what, wanted, answer_of):
    holds(f"{what}, its length", answer_of(80) == len(wanted))
    holds(f"{what}, the text", bytes(text).split(b"\0")[0] == wanted)
    holds(f"{what}, cut", answer_of(6) == len(wanted) and bytes(text)[:6] == wanted[:5] + b"\0")


guard, tag = Found(7, 2, 0xF684, 0xBDB6), Found(5, 8, 105, 9)
texts("found_text", b"block 7: guard wanted f684, has bdb6", lambda size: dixpi.dixpi_found_text(guard, text, size))
tags = b"block 5: reference tag wanted 00000069, has 00000009"
texts("found_text of a tag", tags, lambda size: dixpi.dixpi_found_text(tag, text, size))
texts("check_name", b"application tag", lambda size: dixpi.dixpi_check_name(4, text, size))
texts("status_text", b"a block differs", lambda size: dixpi.dixpi_status_text(1, text, size))

print(f"test.py: {passed} passed, {failed} failed")
sys.exit(failed != 0)
