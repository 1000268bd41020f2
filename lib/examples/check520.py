"""Checks a dump of blocks of 512 bytes with their tuples: check520.py FILE TYPE FIRST, where FIRST is the reference tag
of the first block. Prints each block at fault. LIBDIXPI names another library than the installed one."""
import ctypes
import os
import sys
from ctypes import c_char, c_size_t, c_uint16, c_uint32, c_uint64, c_void_p


class Layout(ctypes.Structure):
    _fields_ = [(name, c_uint32) for name in ("data_size", "meta_size", "tuple_at", "type", "guard")]


class Want(ctypes.Structure):
    _fields_ = [("first_ref", c_uint32), ("app", c_uint16), ("mask", c_uint16), ("checks", c_uint32)]


class Found(ctypes.Structure):
    _fields_ = [("block", c_uint64), ("check", c_uint32), ("expected", c_uint32), ("actual", c_uint32)]


dixpi = ctypes.CDLL(os.environ.get("LIBDIXPI", "libdixpi.so.0"))
dixpi.dixpi_verify_from.restype = c_uint32
dixpi.dixpi_verify_from.argtypes = [c_void_p, c_size_t, *map(ctypes.POINTER, (Layout, Want)), c_uint64, ctypes.POINTER(Found)]
GUARD, REF = 2, 8
dixpi.dixpi_found_text.argtypes = [ctypes.POINTER(Found), c_void_p, c_size_t]

if len(sys.argv) != 4:
    sys.exit("usage: check520.py FILE TYPE FIRST")
with open(sys.argv[1], "rb") as file:
    dump = bytearray(file.read())
blocks = (c_char * len(dump)).from_buffer(dump)
layout = Layout(512, 8, 0, int(sys.argv[2], 0), 0)
want, found = Want(int(sys.argv[3], 0), 0, 0, GUARD | REF), Found()
text, start = ctypes.create_string_buffer(80), 0
while (status := dixpi.dixpi_verify_from(blocks, len(dump), layout, want, start, found)) == 1:
    dixpi.dixpi_found_text(found, text, len(text))
    print(text.value.decode())
    start = found.block + 1  # goes on behind it
if status != 0:
    print("no whole blocks of 520 bytes, or no type 1 to 3", file=sys.stderr)
sys.exit(2 if status else start != 0)
