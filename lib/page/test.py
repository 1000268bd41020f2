"""What the page has to say, worked out without it: a guard is a long division here, bit by bit. Where DIXLAB is a dixlab,
each dump is also handed to its `check`, and the page has to write the same lines."""
import base64
import html
import os
import re
import subprocess
import sys

BROWSER, WORK, DIXLAB = os.environ["BROWSER"], os.environ["WORK"], os.environ.get("DIXLAB", "")
counts = {True: 0, False: 0}


def crc16(data):
    register = 0
    for byte in data:
        register ^= byte << 8
        for _ in range(8):
            register = (register << 1 ^ (0x18BB7 if register & 0x8000 else 0)) & 0xFFFF
    return register


def ip_sum(data):
    words = [int.from_bytes((data + b"\0")[i : i + 2], "big") for i in range(0, len(data), 2)]
    return 0xFFFF - ((sum(words) - 1) % 0xFFFF + 1)


def page(**words):
    """The text of the elements `found` and `words` of the page that was opened by a link with these words."""
    link = "&".join(f"{name}={value}" for name, value in words.items())
    words = [BROWSER, "--headless", "--no-sandbox", "--disable-gpu", "--virtual-time-budget=20000", "--dump-dom", f"file://{WORK}/page.html#{link}"]
    for _ in range(5):
        # (a browser may write the page before its module is compiled)
        run = subprocess.run(words, capture_output=True, text=True, timeout=120, check=False)
        if 'data-ready="yes"' in run.stdout:
            break
    texts = {}
    for name in ("found", "words"):
        it = re.search(rf'<pre id="{name}"[^>]*>(.*?)</pre>', run.stdout, re.S)
        texts[name] = html.unescape(it[1]) if it else run.stdout[-300:] + run.stderr[-300:]
    return texts


def tell(what, came, wanted):
    counts[came == wanted] += 1
    print(f"{what}: " + ("as it should be" if came == wanted else f"{came!r} in place of {wanted!r}"))


def dump_told(what, blocks, wanted, **words):
    """A dump that the page is given: what it says of it, and that `dixlab check` says the same."""
    came = page(dump=packed(blocks), **words)["found"]
    tell(what, came, wanted)
    if not os.access(DIXLAB, os.X_OK):
        return
    flags = [it for name, value in words.items() for it in (f"--{name}", str(value))]
    if words.get("type") == 2:
        flags += ["--ref", str(words.get("first", 0))]
    run = subprocess.run([DIXLAB, "check", *flags], input=b"".join(blocks), capture_output=True, timeout=60, check=False)
    tell(f"{what}, beside dixlab check", came, (run.stdout + run.stderr).decode().rstrip("\n"))


def frame(data, app, ref, before=b"", behind=b""):
    return data + before + crc16(data + before).to_bytes(2, "big") + app.to_bytes(2, "big") + ref.to_bytes(4, "big") + behind


def packed(blocks):
    return base64.b64encode(b"".join(blocks)).decode()


def main():
    data = [bytes((7 * i + j) % 251 for j in range(512)) for i in range(8)]
    good = [frame(it, 0x1234, 100 + i) for i, it in enumerate(data)]
    dump_told("a good dump", good, "checked 8 bad 0 unchecked 0", first=100)

    damaged = list(good)
    damaged[2] = bytes([good[2][0] ^ 1]) + good[2][1:]
    damaged[4] = good[4][:512] + b"\xbe\xef" + good[4][514:]
    damaged[5] = good[6]
    damaged[7] = good[7][:514] + b"\xff\xff" + good[7][516:]
    lines = [
        f"0 102 have {crc16(data[2]):04x} 1234 00000066 want {crc16(damaged[2][:512]):04x} 00000066 guard",
        f"0 104 have beef 1234 00000068 want {crc16(data[4]):04x} 00000068 guard",
        f"0 105 have {crc16(data[6]):04x} 1234 0000006a want {crc16(data[6]):04x} 00000069 ref",
        "checked 8 bad 3 unchecked 1",
    ]
    dump_told("each kind of damage", damaged, "\n".join(lines), first=100)
    refs = [f"0 {i} have {crc16(it):04x} 1234 {100 + i:08x} want {crc16(it):04x} {i:08x} ref" for i, it in enumerate(data)]
    dump_told("another first address", good, "\n".join([*refs, "checked 8 bad 8 unchecked 0", "most reference tags are 100 higher: is the first one 100?"]), first=0)
    lower = [f"0 {200 + i} have {crc16(it):04x} 1234 {100 + i:08x} want {crc16(it):04x} {200 + i:08x} ref" for i, it in enumerate(data)]
    dump_told("one above", good, "\n".join([*lower, "checked 8 bad 8 unchecked 0", "most reference tags are 100 lower: is the first one 100?"]), first=200)
    dump_told("a part of a block", good + [b"xyz"], "checked 8 bad 0 unchecked 0\nthe dump ends within a block: 3 of 520 bytes", first=100)
    last = [frame(bytes(range(256)) * 16, 0, 9 + i, before=bytes(56)) for i in range(2)]
    dump_told("the tuple behind other metadata", last, "checked 2 bad 0 unchecked 0", size=4096, meta=64, at=56, first=9)
    dump_told("type 2", damaged[:3], "\n".join([lines[0], "checked 3 bad 1 unchecked 0"]), type=2, first=100)
    wrong = frame(data[0], 5, 77)[:-1] + b"\x01"
    dump_told("type 3", [wrong, bytes([data[0][0] ^ 8]) + wrong[1:]],
              f"0 1 have {crc16(data[0]):04x} 0005 00000001 want {crc16(bytes([data[0][0] ^ 8]) + data[0][1:]):04x} - guard\nchecked 2 bad 1 unchecked 0", type=3)
    tell("no layout", page(meta=4, dump=packed(good))["found"], "no layout: the tuple's eight bytes end within the metadata, sizes are numbers")

    tell("guards of bytes", page(bytes=b"123456789".hex())["words"].splitlines()[0],
         f"9 bytes: CRC d0db, Internet checksum {ip_sum(b'123456789'):04x}")
    sense = page(bytes="70 00 0b 00 00 00 00 0a 00 00 00 00 10 01 00 00 00 00".replace(" ", "%20"))["words"].splitlines()
    tell("sense data", sense[1:], ["sense: key bh aborted command, 10h/01h logical block guard check failed: the guard differs"])
    command = page(bytes="88200000000000000005000000030000")["words"].splitlines()
    tell("a command", command[1:], ["command: READ(16) of 3 blocks from 5 on, protect field 001b"])
    tell("no digits", page(bytes="12 3".replace(" ", "%20"))["words"], "hexadecimal digits are wanted, two a byte")
    print(f"{counts[True]} passed, {counts[False]} failed")
    return counts[False] > 0


sys.exit(main())
