#!/usr/bin/env python3
"""Times `ifs stub` on texts: from a text to its stub beside llvm-ifs, and texts that are refused.

    bench/texts.py [--program PATH]

The texts are made here, in a temporary folder, and in another process, so that this one stays small: the memory of a
child that is told is at least that of its parent. Each program runs several times, in turns, and the best processor
time counts. The refused texts are of 10 and 100 MB, nested (brackets, maps and lines in one another, brackets that stay
open) and flat (lists, a key over and over, a quote without its end). The status is 1 where a program fails, where an
answer isn't the expected one, or where a bound below is passed.
"""
import argparse
import random
import subprocess
import sys
import tempfile
from math import isqrt
from pathlib import Path

from limits import refusal
from stub import TOP, best_of, find_peer, names_of

SYMBOLS = {100_000: 7, 1_000_000: 3}  # symbols: runs
MB = 10_000_000

# What is wanted: for a million symbols half of the time of llvm-ifs and a quarter of its memory; at most fifteenfold
# time for a tenfold text.
RATIO, MEMORY_RATIO, TENFOLD = 0.5, 0.25, 15.0

START = (b"--- !ifs-v1\nIfsVersion:      3.0\nSoName:          libbench.so.1\n"
         b"Target:          { ObjectFormat: ELF, Arch: x86_64, Endianness: little, BitWidth: 64 }\nSymbols:\n")


def further_right(size):
    """Keys on lines, each further right than the one before, of so many bytes together."""
    return b"--- !ifs-v1\n" + b"".join(b" " * column + b"a:\n" for column in range(isqrt(2 * size)))


# a text by a count, how many bytes each has, and the answer
JUNK = {
    "brackets in one another": (lambda size: b"--- !ifs-v1\n" + b"[" * size + b"]" * size, 2, "Yaml(At(0, Shape))"),
    "maps in one another": (lambda size: b"--- !ifs-v1\n" + b"{a: " * size + b"}" * size, 5, "Yaml(At(0, Shape))"),
    "lines in one another": (further_right, 1, "Yaml(At(0, Shape))"),
    "brackets that stay open": (lambda size: b"--- !ifs-v1\n" + b"[" * size, 1, "Yaml(At(12, Unclosed))"),
    "a flat list": (lambda size: b"--- !ifs-v1\n[ " + b"a, " * size + b"a ]\n", 3, "NotIfs"),
    "a key over and over": (lambda size: b"--- !ifs-v1\n" + b"SoName: a\n" * size, 10, "RepeatedKey(SoName)"),
    "a list of maps": (lambda size: b"--- !ifs-v1\n" + b"- a:\n" * size, 5, "NotIfs"),
    "a quote without its end": (lambda size: b"--- !ifs-v1\n- '" + b"''" * size + b"\n", 2, "Yaml(At(14, Unclosed))"),
}


def text_of(count):
    """A text of symbols in byte order: code and data, mixed."""
    chance = random.Random(count)
    lines = []
    for name in sorted(names_of(count, chance)):
        kind = chance.choice((b"Func", b"Object, Size: %d" % chance.randrange(1, 4096)))
        lines.append(b"  - { Name: %s, Type: %s }\n" % (name, kind))
    return START + b"".join(lines) + b"...\n"


def junk_of(name, size):
    make, each, _ = JUNK[name]
    return make(size // each)


def made(folder, *what):
    """The path of a text, which another process makes."""
    path = str(Path(folder) / "text.ifs")
    subprocess.run([sys.executable, __file__, "--make", *map(str, what), path], check=True)
    return path


def stubs(program, peer, folder):
    """Each bound on texts to stubs, and whether it holds."""
    seconds = {}
    for count, runs in SYMBOLS.items():
        path = made(folder, "symbols", count)
        commands = [[program, "stub", f"--output-elf={folder}/own.so", path]]
        if peer:
            commands.append([peer, "--input-format=IFS", f"--output-elf={folder}/peer.so", path])
        own, *others = best_of(commands, runs)
        seconds[count] = own.seconds
        print(f"{count:,} symbols to a stub: {own.seconds:.2f} s, {own.mib:.0f} MiB", end="")
        for other in others:
            print(f"; llvm-ifs {other.seconds:.2f} s, {other.mib:.0f} MiB", end="")
            if count == 1_000_000:
                ratio, memory = own.seconds / other.seconds, own.mib / other.mib
                yield f"{ratio:.2f} of the time of llvm-ifs, at most {RATIO}", ratio <= RATIO
                yield f"{memory:.2f} of its memory, at most {MEMORY_RATIO}", memory <= MEMORY_RATIO
        print()
    factor = seconds[1_000_000] / seconds[100_000]
    yield f"tenfold symbols, {factor:.1f} times", factor <= TENFOLD


def refusals(program, folder):
    """Each bound on refused texts, and whether it holds."""
    for name, (_, _, cause) in JUNK.items():
        took = []
        for size in (MB, 10 * MB):
            path = made(folder, "junk", name, size)
            with open("/dev/null", "wb") as nowhere:
                took.append(timed(program, path, cause, nowhere))
        print(f"{name}: {took[0]:.2f} s for 10 MB, {took[1]:.2f} s for 100 MB")
        yield f"{name}: tenfold text, {took[1] / took[0]:.1f} times", took[1] <= TENFOLD * took[0]


def timed(program, path, cause, nowhere):
    """The least seconds of three runs that are refused for the cause."""
    results = [refusal([program, "stub", "--output-ifs=-", path], nowhere) for _ in range(3)]
    for _, told in results:
        if told != f"error: {path}: {cause}\n":
            sys.exit(f"{told!r}, and not {cause}")
    return min(seconds for seconds, _ in results)


def main():
    parser = argparse.ArgumentParser(description=__doc__.split("\n\n")[0])
    parser.add_argument("--program", default=str(TOP / "crates/ifs/out/ifs"), help="the built program")
    parser.add_argument("--make", nargs="+", help="only write one of the texts: symbols COUNT, or junk NAME SIZE, PATH")
    args = parser.parse_args()
    if args.make:
        sort, *what, path = args.make
        text = text_of(int(what[0])) if sort == "symbols" else junk_of(what[0], int(what[1]))
        Path(path).write_bytes(text)
        return 0
    with tempfile.TemporaryDirectory() as folder:
        results = [*stubs(args.program, find_peer(), folder), *refusals(args.program, folder)]
    for told, holds in results:
        print(f"{'within' if holds else 'PASSED'}  {told}")
    return 0 if all(holds for _, holds in results) else 1


if __name__ == "__main__":
    sys.exit(main())
