"""How the processor time of each command grows with what it is given, a part of bench/run growth: the least of some rounds
at N, 2 N and 4 N, less that of a call that does nothing, and the exponent between the last two. DIX and DIXLAB name the
programs, `place` a folder.
"""
import math
import os
import resource
import subprocess
import sys

DIX, DIXLAB, PLACE = os.environ["DIX"], os.environ["DIXLAB"], os.environ["place"]
MOST = 1.25
ALL_DONE = (0, 1)
PAGES, BLOCK, FRAME = 256, 512, 520


def path(name):
    return os.path.join(PLACE, name)


def spent(words, text):
    """The seconds of processor that a call takes, for itself and of the system for it."""
    before = resource.getrusage(resource.RUSAGE_CHILDREN)
    done = subprocess.run(words, input=text, stdout=subprocess.PIPE, stderr=subprocess.DEVNULL, check=False)
    after = resource.getrusage(resource.RUSAGE_CHILDREN)
    marks = words[1:2] == ["explain"] and done.returncode == 3
    if done.returncode not in ALL_DONE and not marks and len(words) > 1:
        sys.exit(f"{' '.join(words)} ended with {done.returncode}: {done.stdout[:80]!r}")
    return after.ru_utime + after.ru_stime - before.ru_utime - before.ru_stime


def image(blocks, bad=False, name="image"):
    """An image of one unit of type 1, of which each block is altered where `bad`."""
    subprocess.run([DIX, "format", path(name), f"1:{blocks}"], stdout=subprocess.DEVNULL, check=True)
    if bad:
        with open(path(name), "r+b") as it:
            held = bytearray(it.read())
            for at in range(len(held) - FRAME * blocks, len(held), FRAME):
                held[at] ^= 1
            it.seek(0)
            it.write(held)
    return path(name)


def dump(blocks, bad=False):
    """The blocks of such an image with their tuples, as a dump of a device has them."""
    with open(image(blocks, bad), "rb") as it:
        return it.read()[-FRAME * blocks :]


def segments(blocks):
    """So many blocks of whole pages, from the first on and again where there are more."""
    return ",".join(f"{page % PAGES}:0:{min(8, blocks - page * 8) * BLOCK}" for page in range((blocks + 7) // 8))


def pieces(blocks):
    """So many blocks of which each has four segments, far apart."""
    return ",".join(f"{i % 32 + 32 * part}:{i // 32 * 128}:128" for i in range(blocks) for part in range(4))


def script(blocks, ops, limits="1024 1024 1024", words=(), faults=()):
    """A script over a volume of so many blocks."""
    lines = ["dix 1", "mode crc on on 1", f"limits {limits}", f"pages {PAGES}", f"linear 0 {blocks} dev 0 at 0"]
    lines += faults
    lines += ["schedule " + " ".join(words[i : i + 256]) for i in range(0, len(words), 256)]
    return "\n".join([*lines, "begin", *ops]).encode() + b"\n"


def requests(blocks, each, way="write"):
    return [f"{way} {at} {min(each, blocks - at)} {segments(min(each, blocks - at))}" for at in range(0, blocks, each)]


def run(text, verb="run", blocks=16384, bad=False):
    return [DIX, verb, image(blocks, bad)], text


def in_pieces(n):
    """Requests of 64 blocks of four segments each, which are cut by the limit of segments alone."""
    ops = [f"write {at} 64 {pieces(64)}" for at in range(0, n, 64)]
    return run(script(16384, ops, "1024 4 1024"))


def nvm_line(at, blocks):
    """An NVM Read of so many blocks, at most 1,024, that checks nothing."""
    dword = (blocks - 1) | 1 << 28
    return (b"\x02" + bytes(3) + (1).to_bytes(4, "little") + bytes(32) + at.to_bytes(8, "little") + dword.to_bytes(4, "little") + bytes(12)).hex() + " 00 -"


def listed(n):
    """A dixlab over a script of n requests of a block."""
    return script(16384, requests(n, 1))


# Of each shape its name, N, and what is called with which standard input for a number.
SHAPES = [
    ("run: requests of 16 blocks", 2048, lambda n: run(script(16384, requests(n, 16) + requests(n, 16, "read")))),
    ("run: one request after another of 2,048 blocks", 4096, lambda n: run(script(16384, requests(n, 2048)))),
    ("run: cut block by block, each sent alone", 4096, lambda n: run(script(16384, requests(n, 2048), "1 1024 1024"))),
    ("run: cut one by one by words 0/1", 512, lambda n: run(script(16384, requests(n, 2048), "1024 4 1024", ["0/1"] * n))),
    ("run: cut by the limit of segments", 1024, in_pieces),
    ("run: joins of two", 4096, lambda n: run(script(16384, requests(n, 2048), "2 1024 1024", ["0/1"] * n))),
    ("run: random words", 4096, lambda n: run(script(16384, requests(n, 64), words=[f"{i * 7919 % 65536}/{i % 3 + 1}" for i in range(n)]))),
    ("run: requests that wait for one another", 256, lambda n: run(script(16384, [f"write 0 8 {segments(8)}"] * n))),
    ("run: requests of a block", 256, lambda n: run(listed(n))),
    ("run: bad blocks", 4096, lambda n: run(script(n, requests(n, 2048, "read")), "run", n, True)),
    ("run: flips", 64, lambda n: run(script(16384, requests(4096, 2048), faults=[f"fault 1 {4 * i} medium flip 0 01" for i in range(n)]))),
    ("run: overwrites", 256, lambda n: run(script(16384, [f"overwrite 0 {i} flip 0 01" for i in range(n)]))),
    ("trace: requests of a block", 256, lambda n: run(listed(n), "trace")),
    ("mirror: requests of 16 blocks", 1024, lambda n: run(script(2 * n, requests(n, 16)), "mirror", 2 * n)),
    ("mirror: bad blocks are repaired", 4096, lambda n: run(script(2 * n, []), "mirror", 2 * n, True)),
    ("scrub", 16384, lambda n: ([DIX, "scrub", image(n)], None)),
    ("scrub: bad blocks", 16384, lambda n: ([DIX, "scrub", image(n, True)], None)),
    ("nvme: commands of a block", 256, lambda n: ([DIX, "nvme", image(16384)], "\n".join(nvm_line(i % 16384, 1) for i in range(n)).encode())),
    ("nvme: commands of 1,024 blocks", 16, lambda n: ([DIX, "nvme", image(16384)], "\n".join(nvm_line(0, 1024) for i in range(n)).encode())),
    ("format", 16384, lambda n: ([DIX, "format", path("made"), f"1:{n}"], None)),
    ("big", 256, lambda n: ([DIX, "big", str(n), "7"], None)),
    ("show", 16384, lambda n: ([DIXLAB, "show", image(n), "0"], None)),
    ("export", 16384, lambda n: ([DIXLAB, "export", image(n), "0", "interleaved"], None)),
    ("import", 16384, lambda n: ([DIXLAB, "import", image(n), "0", "plain"], bytes(BLOCK * n))),
    ("diff: blocks that differ", 16384, lambda n: ([DIXLAB, "diff", image(n), "0", image(n, True, "other"), "0"], None)),
    ("check", 16384, lambda n: ([DIXLAB, "check"], dump(n))),
    ("check: bad blocks", 16384, lambda n: ([DIXLAB, "check"], dump(n, True))),
    ("battery", 1024, lambda n: (["tools/battery", f"1:{n}"], None)),
    ("vectors: requests of a block", 256, lambda n: ([DIXLAB, "vectors", image(16384)], listed(n))),
    ("explain a run: requests of a block", 256, lambda n: ([DIXLAB, "explain", image(16384)], listed(n))),
    ("explain: a fault behind skipped lines", 131072, lambda n: ([DIXLAB, "explain"], script(8, []) + b"# 8901\n" * n + b"write\n")),
    ("sweep: requests of a block", 2, lambda n: ([DIXLAB, "sweep", "01", "1:64"], script(64, requests(n, 1)))),
    ("sweep: a unit of many blocks", 1024, lambda n: ([DIXLAB, "sweep", "01", f"1:{n}"], script(n, requests(1, 1)))),
]


def measured(rounds, words_for, n):
    words, text = words_for(n)
    return min(spent(words, text) for _ in range(rounds))


def main(rounds, wanted):
    nothing = min(spent([DIX], None) for _ in range(9))
    print("| Shape | N | N, ms | 2 N | 4 N | exponent |\n|---|---|---|---|---|---|")
    above = 0
    for name, n, words_for in SHAPES:
        if wanted not in name:
            continue
        times = [max(measured(rounds, words_for, n * by) - nothing, 1e-4) for by in (1, 2, 4)]
        exponent = math.log2(times[2] / times[1])
        above += exponent > MOST
        shown = " | ".join(f"{1000 * it:.1f}" for it in times)
        print(f"| {name} | {n:,} | {shown} | {exponent:.2f}{' (above)' if exponent > MOST else ''} |", flush=True)
    print(f"\n{above} above {MOST}; a call that does nothing takes {1000 * nothing:.1f} ms, which is taken off")


main(int(sys.argv[1]) if len(sys.argv) > 1 else 3, sys.argv[2] if len(sys.argv) > 2 else "")
