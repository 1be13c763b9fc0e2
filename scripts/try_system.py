#!/usr/bin/env python3
"""Runs the built `ifs` over the shared libraries of this system, and compares its texts with what readelf says.

    scripts/try_system.py [--program PATH] [--most COUNT] [--segments] [--stubs] [FOLDER ..]

It takes each file below the folders, by default the usual ones of libraries and those of Debian's cross packages,
whose name has `.so` in it and which begins with the magic number of ELF; links aren't followed. It counts what was
printed and the causes of refusal. Where readelf is installed, target, soname, needed libraries and symbols of each
printed text are compared with what readelf says of the file, by the rules of docs/format/interface.md, which are
written here once more. With --segments a copy of each library is run too, whose header says that it has no section
headers. It has to give the same text, but where the library's only hash table, a GNU one, names no row and so
doesn't tell how many there are. With --stubs the stub of each library is written and read. It has to give the same
text, but for the types that a stub doesn't tell, and what readelf warns of in stubs is told. The status is 1 where
something differs, or where a run ended otherwise than with a text or a line of refusal, and 77 where the built program
is missing.
"""
import argparse
import collections
import glob
import itertools
import os
import re
import shutil
import subprocess
import sys
import tempfile
from pathlib import Path

TOP = Path(__file__).resolve().parent.parent
FOLDERS = ["/lib", "/lib32", "/lib64", "/libx32", "/usr/lib", "/usr/lib32", "/usr/lib64", "/usr/libx32",
           "/usr/local", "/opt", *sorted(glob.glob("/usr/*-linux-*/lib"))]
MACHINES = {"AArch64": "AArch64", "ARM": "arm", "Advanced Micro Devices X86-64": "x86_64", "IBM S/390": "s390",
            "Intel 80386": "i386", "MIPS R3000": "mips", "PowerPC": "ppc", "PowerPC64": "ppc64", "RISC-V": "riscv",
            "Sparc": "sparc", "Sparc v9": "sparcv9"}
SHOWN = 20  # differences of one library that are shown


def libraries(folders):
    """The libraries, each file once."""
    seen = set()
    for folder in folders:
        if os.path.islink(folder):
            continue
        for at, _, names in os.walk(folder):
            for name in names:
                path = os.path.join(at, name)
                if ".so" in name and is_elf(path) and os.path.realpath(path) not in seen:
                    seen.add(os.path.realpath(path))
                    yield path


def is_elf(path):
    if os.path.islink(path) or not os.path.isfile(path):
        return False
    try:
        with open(path, "rb") as file:
            return file.read(4) == b"\x7fELF"
    except OSError:
        return False


# ---- a text that was printed, as a dict; all texts are bytes, decoded as latin-1

SCALAR = r"""'(?:[^']|'')*'|"(?:[^"\\]|\\.)*"|[^,'"\s][^,\s]*"""
ESCAPES = {'\\"': '"', "\\\\": "\\"}


def scalar(token):
    """The text of a printed scalar."""
    if token.startswith("'"):
        return token[1:-1].replace("''", "'")
    if token.startswith('"'):
        return re.sub(r'\\(?:x(..)|.)', lambda m: chr(int(m[1], 16)) if m[1] else ESCAPES[m[0]], token[1:-1])
    return token


def entries(text):
    """The entries of a map that stands on one line."""
    return {key: scalar(value) for key, value in re.findall(rf"(\w+): ({SCALAR})", text)}


def symbol_of(line):
    """A symbol's name, and its kind, size, whether it is undefined and whether it is weak."""
    told = entries(line)
    size = int(told["Size"]) if "Size" in told else None
    return told["Name"], (told["Type"], size, "Undefined" in told, "Weak" in told)


def interface_of(text):
    """What a text says: target, soname, needed libraries, symbols in their order."""
    target, soname, needed, symbols, part = None, None, [], [], None
    for line in text.split("\n"):
        if line.startswith("SoName:"):
            soname = scalar(line[17:])
        elif line.startswith("Target:"):
            target = entries(line[17:])
        elif line.startswith(("NeededLibs:", "Symbols:")):
            part = line[:7]
        elif line.startswith("  - ") and part == "NeededL":
            needed.append(scalar(line[4:]))
        elif line.startswith("  - "):
            symbols.append(symbol_of(line))
    return {"target": target, "soname": soname, "needed": needed, "symbols": symbols}


# ---- the same by readelf

ROW = re.compile(r"^\s*(\d+): [0-9a-f]+\s+(0x[0-9a-f]+|\d+) (\S+|<[^>]*>: \S+)\s+(\S+|<[^>]*>: \S+)\s+"
                 r"(DEFAULT|INTERNAL|HIDDEN|PROTECTED)\s+(?:\[[^]]*\]\s+)?(\S+) (.*)$")
KINDS = {"NOTYPE": "NoType", "OBJECT": "Object", "FUNC": "Func", "TLS": "TLS"}
VERSION = re.compile(r"@@?[^@]*?( \(\d+\))?$")


def readelf(path, *options):
    """What readelf prints of a library."""
    command = ["readelf", "-W", *options, path]
    done = subprocess.run(command, capture_output=True, env={**os.environ, "LC_ALL": "C.UTF-8"})
    return done.stdout.decode("latin-1")


def warnings_of(path):
    """What readelf warns of in a file, without numbers."""
    done = subprocess.run(["readelf", "-aW", path], capture_output=True, env={**os.environ, "LC_ALL": "C.UTF-8"})
    return sorted({re.sub(r"\d+", "N", line) for line in done.stderr.decode("latin-1").split("\n") if line})


def rows_told(path):
    """The symbol table, by sections, or by segments where there are none."""
    return readelf(path, "--dyn-syms") or readelf(path, "-D", "--syms")


def row_of(found):
    """A row's name, kind, size, and whether it is defined and weak; None where it isn't visible."""
    number, size, kind, binding, visibility, section, name = found.groups()
    name = VERSION.sub("", name)
    if number == "0" or binding == "LOCAL" or visibility not in ("DEFAULT", "PROTECTED") or not name:
        return None
    return name, KINDS.get(kind, "Unknown"), int(size, 0), section != "UND", binding == "WEAK"


def described(rows):
    """The symbol that the rows of one name describe."""
    defined = [row for row in rows if row[3]]
    _, kind, size, _, weak = (defined or rows)[0]
    kept = None if kind == "Func" or (kind in ("NoType", "Unknown") and size == 0) else size
    return kind, kept, not defined, weak if defined else all(row[4] for row in rows)


def target_of(path):
    """The target by the file header."""
    told = dict(re.findall(r"^  (Class|Data|Machine):\s+(.*)$", readelf(path, "-h"), re.M))
    number = re.search(r"<unknown>: 0x([0-9a-f]+)", told["Machine"])
    arch = f"EM_{int(number[1], 16)}" if number else MACHINES.get(told["Machine"], told["Machine"])
    return {"ObjectFormat": "ELF", "Arch": arch, "Endianness": "little" if "little" in told["Data"] else "big",
            "BitWidth": told["Class"].removeprefix("ELF")}


def by_readelf(path):
    rows = collections.defaultdict(list)
    for line in rows_told(path).split("\n"):
        found = ROW.match(line)
        row = row_of(found) if found else None
        if row:
            rows[row[0]].append(row)
    dynamic = readelf(path, "--dynamic")
    sonames = re.findall(r"\(SONAME\)\s+Library soname: \[(.*)\]", dynamic)
    needed = re.findall(r"\(NEEDED\)\s+Shared library: \[(.*)\]", dynamic)
    symbols = [(name, described(rows[name])) for name in sorted(rows)]
    return {"target": target_of(path), "soname": sonames[0] if sonames and sonames[0] else None,
            "needed": [name for name in needed if name], "symbols": symbols}


def differences(own, other):
    """Each place where the two differ."""
    for key in ("target", "soname", "needed"):
        if own[key] != other[key]:
            yield f"{key}: {own[key]!r}, by readelf {other[key]!r}"
    mine, theirs = dict(own["symbols"]), dict(other["symbols"])
    for name in sorted(mine.keys() | theirs.keys()):
        if mine.get(name) != theirs.get(name):
            yield f"symbol {name!r}: {mine.get(name)}, by readelf {theirs.get(name)}"
    names = [name for name, _ in own["symbols"]]
    if names != sorted(set(names)):
        yield "the names aren't in order, each once"


# ---- all libraries

class Tally:
    """What came of the libraries so far."""

    def __init__(self, args):
        self.args, self.compares = args, shutil.which("readelf") is not None
        self.printed, self.refused = 0, collections.Counter()
        self.differing, self.wrong, self.same_copies, self.uncounted, self.same_stubs = 0, 0, 0, 0, 0
        self.warned = collections.Counter()

    def run(self, path):
        return subprocess.run([self.args.program, "stub", "--output-ifs=-", path], capture_output=True)

    def take(self, path, copy):
        """Runs the program on a library, and on its copy."""
        done = self.run(path)
        if done.returncode == 0 and not done.stderr:
            self.take_text(path, done.stdout)
            if self.args.segments:
                self.take_copy(path, copy, done.stdout)
            if self.args.stubs:
                self.take_stub(path, copy, done.stdout)
        elif done.returncode in (1, 3) and not done.stdout:
            cause = cause_of(done.stderr, path)
            self.refused[cause] += 1
            print(f"refused: {path}: {cause}")
        else:
            self.wrong += 1
            print(f"WRONG: {path}: status {done.returncode}, {done.stderr[:200]!r}")

    def take_text(self, path, text):
        self.printed += 1
        own = interface_of(text.decode("latin-1"))
        found = list(differences(own, by_readelf(path))) if self.compares else []
        self.differing += bool(found)
        for told in found[:SHOWN]:
            print(f"differs: {path}: {told}")

    def take_copy(self, path, copy, text):
        copy.write_bytes(without_sections(Path(path).read_bytes()))
        done = self.run(str(copy))
        if done.stdout == text:
            self.same_copies += 1
        elif self.compares and counts_no_row(path, text):
            self.uncounted += 1
        else:
            self.differing += 1
            lines = f"{done.stdout.count(10)} lines for {text.count(10)}"
            print(f"differs: {path}: by segments status {done.returncode}, {lines}")

    def take_stub(self, path, copy, text):
        written = subprocess.run([self.args.program, "stub", f"--output-elf={copy}", path], capture_output=True)
        done = self.run(str(copy))
        if written.returncode == 0 and done.stdout == text.replace(b", Type: Unknown", b", Type: NoType"):
            self.same_stubs += 1
        else:
            self.differing += 1
            print(f"differs: {path}: by its stub, {written.stderr!r}, {done.stderr!r}")
        if self.compares:
            arch = interface_of(text.decode("latin-1"))["target"]["Arch"]
            self.warned.update((arch, warning) for warning in warnings_of(copy))

    def told(self):
        yield f"{self.printed} printed, {sum(self.refused.values())} refused, {self.wrong} ended otherwise"
        for cause, count in self.refused.most_common():
            yield f"  {count} {cause}"
        yield f"{self.differing} differ from readelf" if self.compares else "no readelf to compare with"
        if self.args.segments:
            yield (f"{self.same_copies} have the same text by segments, "
                   f"{self.uncounted} no hash table that counts their rows")
        if self.args.stubs:
            yield f"{self.same_stubs} have the same text by their stubs"
            for (arch, warning), count in self.warned.most_common():
                yield f"  {count} stubs for {arch}: {warning}"
            if self.compares and not self.warned:
                yield "readelf warns of none of the stubs"


def counts_no_row(path, text):
    """Whether the only hash table is a GNU one that names no row: nothing is defined."""
    dynamic = readelf(path, "--dynamic")
    defines = any(not symbol[2] for _, symbol in interface_of(text.decode("latin-1"))["symbols"])
    return "(GNU_HASH)" in dynamic and "(HASH)" not in dynamic and not defines


def without_sections(data):
    """The library with a header in which e_shoff, e_shnum and e_shstrndx are 0."""
    is_wide = data[4] == 2
    at, size, numbers = (40, 8, 60) if is_wide else (32, 4, 48)
    return data[:at] + bytes(size) + data[at + size:numbers] + bytes(4) + data[numbers + 4:]


def cause_of(line, path):
    """The cause in the line of a refusal, without its numbers."""
    told = line.decode("latin-1").strip()
    start = f"error: {path}: "
    return re.sub(r"\d+", "N", told[len(start):]) if told.startswith(start) else f"line {told!r}"


def words():
    parser = argparse.ArgumentParser(description=__doc__.split("\n\n")[0])
    parser.add_argument("--program", default=str(TOP / "crates/ifs/out/ifs"), help="the built program")
    parser.add_argument("--most", type=int, help="stop after that many libraries")
    parser.add_argument("--segments", action="store_true", help="run a copy without section headers too")
    parser.add_argument("--stubs", action="store_true", help="write and read the stub of each library too")
    parser.add_argument("folders", nargs="*", default=FOLDERS, metavar="FOLDER")
    return parser.parse_args()


def main():
    args = words()
    if not os.access(args.program, os.X_OK):
        print(f"{args.program} isn't there: build it first", file=sys.stderr)
        return 77
    tally = Tally(args)
    with tempfile.TemporaryDirectory() as folder:
        for path in itertools.islice(libraries(args.folders), args.most):
            tally.take(path, Path(folder) / "copy.so")
    print("\n".join(tally.told()))
    return 1 if tally.differing or tally.wrong else 0


if __name__ == "__main__":
    sys.exit(main())
