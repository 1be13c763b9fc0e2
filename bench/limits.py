#!/usr/bin/env python3
"""Times `ifs stub --output-ifs=-` on libraries that were made to take long, and measures the memory of the largest.

    bench/limits.py [--program PATH]

The names of a table may overlap. So 1,000,000 rows can each name another place of one long string, and together
their names have far more bytes than the file. Such a library is refused (`NamesTooLarge`), once the names were counted;
the time for a tenth of it tells that the counting is linear. The other library has 1,000,000 rows, and with the soname
33,554,432 bytes of names, as many as there may be. The memory of a run is that of the whole program: its file, the
library that was read, the interface and the text, which aren't all there at once. So it is at least what reading the
library takes. The status is 1 where an answer isn't the expected one, or where a bound below is passed.
"""
import argparse
import os
import struct
import subprocess
import sys
import tempfile
from pathlib import Path

from stub import SONAME, STB_GLOBAL, STT_FUNC, TOP, library_of, run

MOST_ROWS, MOST_NAME_BYTES = 1_000_000, 33_554_432

# What is wanted: at most fifteenfold time for a tenfold library, and 300 MiB beside the file for the largest.
TENFOLD, MIB = 15.0, 300.0


def row(name_at):
    return struct.pack("<IBBHQQ", name_at, STB_GLOBAL << 4 | STT_FUNC, 0, 1, 0x1000, 0)


def overlapping(count):
    """Each row names another place of one string, which has 33 bytes for each row."""
    rows, strings = bytearray(24), b"\0" + b"a" * (33 * count) + b"\0"
    for number in range(count):
        rows += row(1 + 33 * number)
    return library_of(rows, bytearray(strings))


def overlapping_bytes(count):
    """How many bytes these names have together, with the soname."""
    return sum(33 * (count - number) for number in range(count)) + len(SONAME)


def largest():
    """As many rows and bytes of names as there may be."""
    rows, strings = bytearray(24), bytearray(b"\0")
    left = MOST_NAME_BYTES - len(SONAME)
    for number in range(MOST_ROWS):
        size = left // (MOST_ROWS - number)
        left -= size
        rows += row(len(strings))
        strings += b"%07d" % (number * 7919 % MOST_ROWS) + b"n" * (size - 7) + b"\0"
    return library_of(rows, strings)


LIBRARIES = {"tenth": lambda: overlapping(MOST_ROWS // 10), "overlapping": lambda: overlapping(MOST_ROWS), "largest": largest}


def made(name, folder):
    """The path of a library, which another process makes, so that this one stays small."""
    path = str(Path(folder) / f"{name}.so")
    subprocess.run([sys.executable, __file__, "--make", name, path], check=True)
    return path


def refused(program, path, count):
    """The seconds of a run that is refused for its names."""
    with open(os.devnull, "wb") as nowhere:
        seconds, told = refusal([program, "stub", "--output-ifs=-", path], nowhere)
    wanted = f"error: {path}: NamesTooLarge({overlapping_bytes(count)})\n"
    if told != wanted:
        sys.exit(f"{path}: {told!r}, and not {wanted!r}")
    return seconds


def refusal(command, out):
    """The seconds of processor time of a run that is refused, and its line."""
    with tempfile.TemporaryFile() as line:
        process = subprocess.Popen(command, stdout=out, stderr=line, stdin=subprocess.DEVNULL)
        _, status, usage = os.wait4(process.pid, 0)
        process.returncode = os.waitstatus_to_exitcode(status)
        if process.returncode != 1:
            sys.exit(f"{command[0]} ended with {process.returncode}")
        line.seek(0)
        return usage.ru_utime + usage.ru_stime, line.read().decode()


def words():
    parser = argparse.ArgumentParser(description=__doc__.split("\n\n")[0])
    parser.add_argument("--program", default=str(TOP / "crates/ifs/out/ifs"), help="the built program")
    parser.add_argument("--make", nargs=2, metavar=("NAME", "PATH"), help="only write one of the libraries")
    return parser.parse_args()


def main():
    args = words()
    if args.make:
        Path(args.make[1]).write_bytes(LIBRARIES[args.make[0]]())
        return 0
    with tempfile.TemporaryDirectory() as folder:
        tenth, whole = made("tenth", folder), made("overlapping", folder)
        short = min(refused(args.program, tenth, MOST_ROWS // 10) for _ in range(5))
        long = min(refused(args.program, whole, MOST_ROWS) for _ in range(3))
        path = made("largest", folder)
        with open(os.devnull, "wb") as nowhere:
            seconds, mib = run([args.program, "stub", "--output-ifs=-", path], nowhere)
        file = os.path.getsize(path) / 2**20
    print(f"overlapping names: {short * 1000:.0f} ms for {MOST_ROWS // 10:,} rows, {long * 1000:.0f} ms for {MOST_ROWS:,}")
    print(f"largest library: {seconds * 1000:.0f} ms, {mib:.0f} MiB, of which the file has {file:.0f}")
    results = [(f"tenfold rows, {long / short:.1f} times", long <= TENFOLD * short),
               (f"{mib - file:.0f} MiB beside the file, at most {MIB:.0f}", mib - file <= MIB)]
    for told, holds in results:
        print(f"{'within' if holds else 'PASSED'}  {told}")
    return 0 if all(holds for _, holds in results) else 1


if __name__ == "__main__":
    sys.exit(main())
