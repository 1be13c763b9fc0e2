#!/usr/bin/env python3
"""Times `ifs stub --output-ifs=-` beside llvm-ifs, on libraries of 1,000 to 1,000,000 symbols.

The libraries are made here, in a temporary folder. Each program runs several times on each, in turns, and the
best processor time, user and system, counts. Ratios within one run of this script tell something; times of two runs
don't. Where no llvm-ifs is installed, the columns that compare with it stay empty. The status is 1 where a program
fails, where the two print different texts, or where a bound below is passed.
"""
import argparse
import datetime
import filecmp
import os
import random
import re
import shutil
import struct
import subprocess
import sys
import tempfile
from pathlib import Path
from typing import NamedTuple, Optional

TOP = Path(__file__).resolve().parent.parent
SIZES = {1_000: 31, 10_000: 31, 100_000: 31, 500_000: 7, 1_000_000: 9}  # symbols: runs
MARKS = ("<!-- bench/stub.py fills this -->", "<!-- up to here -->")

# What is wanted: of the time of llvm-ifs a quarter for a small library and all of it for a larger one, at most
# thirteenfold time for tenfold symbols, at most 300 MiB for 500,000 symbols, half of its memory for a million.
SMALL_RATIO, RATIO, TENFOLD, HALF_MILLION_MIB, MILLION_MEMORY_RATIO = 0.25, 1.0, 13.0, 300.0, 0.5


# ---- a library, as a file of ELF

PT_LOAD, PT_DYNAMIC = 1, 2
SHT_STRTAB, SHT_HASH, SHT_DYNAMIC, SHT_DYNSYM = 3, 5, 6, 11
SHF_ALLOC = 2
DT_NULL, DT_HASH, DT_STRTAB, DT_SYMTAB, DT_STRSZ, DT_SYMENT, DT_SONAME = 0, 4, 5, 6, 10, 11, 14
STT_OBJECT, STT_FUNC, STB_GLOBAL = 1, 2, 1
SONAME = b"libbench.so.1"
SECTION_NAMES = [b"", b".dynsym", b".dynstr", b".hash", b".dynamic", b".shstrtab"]


def names_of(count, chance):
    """Distinct names of 16 to 24 bytes, in no order."""
    for number in range(count):
        letters = chance.choices(b"abcdefghijklmnopqrstuvwxyz", k=8 + chance.randrange(9))
        yield bytes(letters) + b"_%07d" % number


def symbols_of(count):
    """The bytes of the symbol table, and of the strings: code and data, mixed."""
    chance = random.Random(count)
    rows, strings = bytearray(24), bytearray(b"\0")
    for name in names_of(count, chance):
        kind = chance.choice((STT_FUNC, STT_OBJECT))
        size = chance.randrange(1, 4096)
        rows += struct.pack("<IBBHQQ", len(strings), STB_GLOBAL << 4 | kind, 0, 1, 0x1000, size)
        strings += name + b"\0"
    return rows, strings


def hash_of(count):
    """A hash table of one bucket, whose chain goes through all symbols."""
    words = [1, count + 1, 1, 0, *range(2, count + 1), 0]
    return struct.pack(f"<{len(words)}I", *words)


def padded(data):
    return bytes(data) + bytes(-len(data) % 8)


def library(count):
    """A library of that many symbols."""
    return library_of(*symbols_of(count))


def library_of(rows, strings):
    """A library of these rows and strings: 64-bit, little-endian, with section headers."""
    soname_at = len(strings)
    strings += SONAME + b"\0"
    parts, places, at = [], [], 64 + 2 * 56
    for data in (rows, strings, hash_of(len(rows) // 24 - 1)):
        places.append((at, len(data)))
        parts.append(padded(data))
        at += len(parts[-1])
    (rows_at, _), (strings_at, strings_size), (hash_at, _) = places
    entries = [(DT_SONAME, soname_at), (DT_HASH, hash_at), (DT_STRTAB, strings_at), (DT_SYMTAB, rows_at),
               (DT_STRSZ, strings_size), (DT_SYMENT, 24), (DT_NULL, 0)]
    dynamic = b"".join(struct.pack("<QQ", *entry) for entry in entries)
    places.append((at, len(dynamic)))
    loaded = at + len(dynamic)
    name_bytes = b"\0".join(SECTION_NAMES) + b"\0"
    places.append((loaded, len(name_bytes)))
    parts += [dynamic, padded(name_bytes)]
    headers = section_headers(places)
    head = file_header(loaded + len(parts[-1])) + segments(loaded, places[3])
    return head + b"".join(parts) + headers


def section_headers(places):
    """The section headers: none, .dynsym, .dynstr, .hash, .dynamic, .shstrtab."""
    sorts = [(SHT_DYNSYM, SHF_ALLOC, 2, 1, 24), (SHT_STRTAB, SHF_ALLOC, 0, 0, 0), (SHT_HASH, SHF_ALLOC, 1, 0, 4),
             (SHT_DYNAMIC, SHF_ALLOC, 2, 0, 16), (SHT_STRTAB, 0, 0, 0, 0)]
    headers, name_at = bytes(64), 1
    for name, (kind, flags, link, info, each), (at, size) in zip(SECTION_NAMES[1:], sorts, places):
        address = at if flags else 0
        headers += struct.pack("<IIQQQQIIQQ", name_at, kind, flags, address, at, size, link, info, 8, each)
        name_at += len(name) + 1
    return headers


def file_header(sections_at):
    ident = b"\x7fELF" + bytes([2, 1, 1]) + bytes(9)
    return ident + struct.pack("<HHIQQQIHHHHHH", 3, 62, 1, 0, 64, sections_at, 0, 64, 56, 2, 64, 6, 5)


def segments(loaded, dynamic):
    load = struct.pack("<IIQQQQQQ", PT_LOAD, 4, 0, 0, 0, loaded, loaded, 4096)
    at, size = dynamic
    return load + struct.pack("<IIQQQQQQ", PT_DYNAMIC, 4, at, at, at, size, size, 8)


# ---- runs

class Best(NamedTuple):
    """The least time, and the most memory, of several runs."""
    seconds: float
    mib: float


class Row(NamedTuple):
    symbols: int
    own: Best
    peer: Optional[Best]


def run(command, out):
    """One run of a program: its seconds of processor time, which other work on the machine changes little, and its
    peak memory in MiB. The memory that is told is at least that of this process, which started it; so libraries are
    made in another process, and this one stays small."""
    process = subprocess.Popen(command, stdout=out, stdin=subprocess.DEVNULL)
    _, status, usage = os.wait4(process.pid, 0)
    process.returncode = os.waitstatus_to_exitcode(status)
    if process.returncode != 0:
        sys.exit(f"{command[0]} ended with {process.returncode}")
    return usage.ru_utime + usage.ru_stime, usage.ru_maxrss / 1024


def best_of(commands, runs):
    """The best of each command, over runs in turns."""
    seen = [[] for _ in commands]
    with open(os.devnull, "wb") as nowhere:
        for _ in range(runs):
            for command, results in zip(commands, seen):
                results.append(run(command, nowhere))
    return [Best(min(r[0] for r in results), max(r[1] for r in results)) for results in seen]


def check_texts(symbols, commands, folder):
    """Sees that all print the same text. The texts are kept in files, so that this process stays small."""
    paths = [Path(folder) / f"text{i}" for i in range(len(commands))]
    for command, path in zip(commands, paths):
        with open(path, "wb") as out:
            run(command, out)
    if not all(filecmp.cmp(paths[0], path, shallow=False) for path in paths):
        sys.exit(f"{symbols:,} symbols: the programs print different texts")


def measured(program, peer, symbols, runs, folder):
    path = str(Path(folder) / "lib.so")
    subprocess.run([sys.executable, __file__, "--make", str(symbols), path], check=True)
    commands = [[program, "stub", "--output-ifs=-", path]]
    if peer:
        commands.append([peer, "--input-format=ELF", "--output-ifs=-", path])
    check_texts(symbols, commands, folder)
    results = best_of(commands, runs)
    return Row(symbols, results[0], results[1] if peer else None)


def find_peer():
    """llvm-ifs, where it is installed."""
    for name in ("llvm-ifs-19", "llvm-ifs-14", "llvm-ifs"):
        if shutil.which(name):
            return shutil.which(name)
    found = sorted(Path("/usr/lib").glob("llvm-*/bin/llvm-ifs"))
    return str(found[-1]) if found else None


# ---- what they say

def tenfold(rows, row):
    """The time of a row by that of a tenth of its symbols."""
    for other in rows:
        if other.symbols * 10 == row.symbols:
            return row.own.seconds / other.own.seconds
    return None


def bounds(rows):
    """Each bound that was looked at, and whether it holds."""
    for row in rows:
        factor = tenfold(rows, row)
        if factor:
            yield f"{row.symbols:,}: time of a tenth of the symbols, {factor:.1f} times", factor <= TENFOLD
        if row.peer:
            most = SMALL_RATIO if row.symbols == 1_000 else RATIO
            ratio = row.own.seconds / row.peer.seconds
            yield f"{row.symbols:,}: {ratio:.2f} of its time, at most {most}", ratio <= most
        if row.symbols == 500_000:
            yield f"500,000: {row.own.mib:.0f} MiB, at most {HALF_MILLION_MIB:.0f}", row.own.mib <= HALF_MILLION_MIB
        if row.symbols == 1_000_000 and row.peer:
            ratio = row.own.mib / row.peer.mib
            yield f"1,000,000: {ratio:.2f} of its memory, at most {MILLION_MEMORY_RATIO}", ratio <= MILLION_MEMORY_RATIO


def megabytes(mib, floor):
    return f"below {floor * 1.1:.0f} MiB" if mib <= floor * 1.1 else f"{mib:.0f} MiB"


def memory_ratio(row, floor):
    if not row.peer:
        return ""
    sign = "below " if row.own.mib <= floor * 1.1 else ""
    return f"{sign}{row.own.mib / row.peer.mib:.2f}"


def table(rows, floor):
    lines = ["| Symbols | Time, llvm-ifs = 1 | Time, a tenth of the symbols = 1 | Peak memory, llvm-ifs = 1 | Peak memory |",
             "|---:|---:|---:|---:|---:|"]
    for row in rows:
        ratio = f"{row.own.seconds / row.peer.seconds:.2f}" if row.peer else ""
        factor = tenfold(rows, row)
        more = f"{factor:.1f}" if factor else ""
        cells = [f"{row.symbols:,}", ratio, more, memory_ratio(row, floor), megabytes(row.own.mib, floor)]
        lines.append(f"| {' | '.join(cells)} |")
    return "\n".join(lines)


def first_match(pattern, text, otherwise):
    found = re.search(pattern, text, re.M)
    return found.group(1).strip() if found else otherwise


def machine(peer, load):
    """The day and the machine, in words, with its load before the runs."""
    processor = first_match(r"^model name\s*: (.*)$", Path("/proc/cpuinfo").read_text(), "unknown processors")
    system = first_match(r'^PRETTY_NAME="(.*)"$', Path("/etc/os-release").read_text(), "Linux")
    memory = os.sysconf("SC_PAGE_SIZE") * os.sysconf("SC_PHYS_PAGES") / 2**30
    beside = "no llvm-ifs"
    if peer:
        told = subprocess.run([peer, "--version"], capture_output=True, text=True).stdout
        beside = "llvm-ifs of LLVM " + first_match(r"LLVM version (\S+)", told, "?")
    day = datetime.date.today()
    busy = " Other work ran on all processors." if load > os.cpu_count() else ""
    return (f"Measured on {day.day} {day:%B %Y}: {os.cpu_count()} processors ({processor}), "
            f"{memory:.0f} GiB of memory, {system}, {beside}.{busy}")


def fill(page_at, text, marks=MARKS):
    """Puts the text between the marks."""
    page = page_at.read_text(encoding="utf-8")
    before, rest = page.split(marks[0])
    after = rest.split(marks[1])[1]
    page_at.write_text(f"{before}{marks[0]}\n{text}\n{marks[1]}{after}", encoding="utf-8")


def words():
    parser = argparse.ArgumentParser(description=__doc__.split("\n\n")[0])
    parser.add_argument("--program", default=str(TOP / "crates/ifs/out/ifs"), help="the built program")
    parser.add_argument("--most", type=int, default=max(SIZES), help="leave out libraries of more symbols")
    parser.add_argument("--fill", action="store_true", help="put the table into docs/SPEED.md")
    parser.add_argument("--make", nargs=2, metavar=("COUNT", "PATH"), help="only write a library of COUNT symbols")
    return parser.parse_args()


def main():
    args = words()
    if args.make:
        Path(args.make[1]).write_bytes(library(int(args.make[0])))
        return 0
    peer, load = find_peer(), os.getloadavg()[0]
    floor = best_of([["true"]], 3)[0].mib
    with tempfile.TemporaryDirectory() as folder:
        rows = [measured(args.program, peer, n, runs, folder) for n, runs in SIZES.items() if n <= args.most]
    text = f"{table(rows, floor)}\n\n{machine(peer, load)}"
    print(text)
    for row in rows:
        beside = f", llvm-ifs {row.peer.seconds * 1000:.1f} ms and {row.peer.mib:.0f} MiB" if row.peer else ""
        print(f"{row.symbols:,}: {row.own.seconds * 1000:.1f} ms and {row.own.mib:.0f} MiB{beside}")
    if args.fill:
        fill(TOP / "docs/SPEED.md", text)
    results = list(bounds(rows))
    for told, holds in results:
        print(f"{'within' if holds else 'PASSED'}  {told}")
    return 0 if all(holds for _, holds in results) else 1


if __name__ == "__main__":
    sys.exit(main())
