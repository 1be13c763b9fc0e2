#!/usr/bin/env python3
"""Runs the built program over a table of command lines: what `ifs stub` answers, and what it leaves in real files.

    scripts/try_words.py [--program PATH]

Each case runs in a folder of its own, with its files in it, and has a status, the bytes on standard output and standard
error, and the files that have to be there afterwards. Files are made by scripts/small_elf.py or written here. The status
is 0 where all came so, 1 where one didn't, and 77 where the program isn't built.
"""
import os
import subprocess
import sys
import tempfile
from pathlib import Path
from typing import NamedTuple

from built import TOP, built_program
from small_elf import (FUNC, GLOBAL, HIDDEN, IFUNC, INTERNAL, LOCAL, NOTYPE, OBJECT, PPC, PROTECTED, TLS, WEAK, X86_64, Row,
                       library, without_sections)

LONG_AGO = 946_684_800  # a time of the past, which a file has until it is written


# ---- texts and files

TARGET = "{ ObjectFormat: ELF, Arch: x86_64, Endianness: little, BitWidth: 64 }"
BAR, FOO, BAZ = "{ Name: bar, Type: Object, Size: 42 }", "{ Name: foo, Type: Func }", "{ Name: baz, Type: Func }"


def text(*symbols, target=TARGET, soname="libfoo.so", needed=()):
    """A text as it is printed."""
    lines = ["--- !ifs-v1", "IfsVersion:      3.0"]
    lines += [f"SoName:          {soname}"] if soname else []
    lines += [f"Target:          {target}"] if target else []
    lines += ["NeededLibs:", *(f"  - {name}" for name in needed)] if needed else []
    lines += ["Symbols:", *(f"  - {symbol}" for symbol in symbols)] if symbols else ["Symbols:         []"]
    return ("\n".join(lines) + "\n...\n").encode()


def target_of(arch, order, width):
    return f"{{ ObjectFormat: ELF, Arch: {arch}, Endianness: {order}, BitWidth: {width} }}"


F = (TOP / "crates/ifs/data/libfoo.so").read_bytes()
TEXT, STUB = text(BAR, FOO), library(X86_64, [Row(b"bar", OBJECT, 42), Row(b"foo", FUNC)])
TEXT_32 = text(BAR, FOO, target=target_of("ppc", "big", 32))
STUB_32 = library(PPC, [Row(b"bar", OBJECT, 42), Row(b"foo", FUNC)])
BARE = text(BAR, FOO, target=None)
TRIPLE = text(BAR, FOO, target="x86_64-linux-gnu")
EMPTY = text()


def made(*rows, needed=()):
    return library(X86_64, rows, needed)


class Case(NamedTuple):
    """The words, the files that are there, what has to come, and the files that have to be there then."""
    name: str
    words: list
    files: dict
    status: int
    out: bytes
    err: bytes
    after: dict


def case(name, words, files, out=b"", status=0, err=b"", after=None):
    words = words.split() if isinstance(words, str) else words
    return Case(name, ["stub", *words], files, status, out, err, {**files, **(after or {})})


def refused(name, words, files, status, line, after=None):
    return case(name, words, files, status=status, err=f"error: {line}\n".encode(), after=after)


# ---- libraries and texts

def interfaces():
    yield case("the text of a library", "F", {"F": F}, TEXT)
    yield case("its stub", "--output-elf=o F", {"F": F}, after={"o": STUB})
    yield case("the text of the stub", "F", {"F": STUB}, TEXT)
    yield case("the stub of the text", "--output-elf=- F", {"F": TEXT}, STUB)
    yield case("no symbols", "F", {"F": made()}, EMPTY)
    yield case("the stub of no symbols", "--output-elf=- F", {"F": made()}, made())
    yield case("a big-endian stub of 32 bits", "--output-elf=- T", {"T": TEXT_32}, STUB_32)
    yield case("its text", "F", {"F": STUB_32}, TEXT_32)
    hidden = [Row(b"one", FUNC, visibility=HIDDEN), Row(b"two", FUNC, visibility=INTERNAL),
              Row(b"three", FUNC, binding=LOCAL), Row(b"four", FUNC, visibility=PROTECTED)]
    yield case("what is visible", "F", {"F": made(*hidden)}, text("{ Name: four, Type: Func }"))
    impl = made(Row(b"impl", IFUNC))
    yield case("an unknown type", "F", {"F": impl}, text("{ Name: impl, Type: Unknown }"))
    yield case("its stub has none", "--output-elf=- F", {"F": impl}, made(Row(b"impl", NOTYPE)))
    several = [Row(b"foo", NOTYPE, binding=WEAK, defined=False), Row(b"foo", FUNC),
               Row(b"bar", NOTYPE, binding=WEAK, defined=False), Row(b"bar", NOTYPE, binding=GLOBAL, defined=False)]
    yield case("several rows of a name", "F", {"F": made(*several)},
               text("{ Name: bar, Type: NoType, Undefined: true }", FOO))
    rows = [Row(b"bar", OBJECT, 42), Row(b"foo", FUNC)]
    yield case("rows by a GNU hash table", "F", {"F": without_sections(X86_64, rows, 2)}, TEXT)
    yield case("a GNU hash table of no row", "F", {"F": without_sections(X86_64, rows, 0)}, EMPTY)
    yield refused("a cut file", "F", {"F": STUB[:839]}, 1, "F: Truncated(456)")
    damaged = STUB[:266] + b"x" + STUB[267:]
    yield refused("a soname without its end", "F", {"F": damaged}, 1, "F: BadName(Dynamic(0))")
    yield refused("four bytes of magic", "F", {"F": STUB[:4]}, 1, "F: Truncated(0)")
    yield refused("an archive", "F", {"F": b"!<arch>\n"}, 1, "F: Archive")
    names = [b"true", b"a: b", b"it's", b"\xc3\xa9", b"a\t"]
    quoted = b"".join(b"  - { Name: %s, Type: Func }\n" % name
                      for name in (b'"a\\x09"', b"'a: b'", b"'it''s'", b"'true'", b"'\xc3\xa9'"))
    odd = EMPTY.replace(b"Symbols:         []\n", b"Symbols:\n" + quoted)
    yield case("names in quotes", "F", {"F": made(*(Row(name, FUNC) for name in sorted(names)))}, odd)
    yield case("names in quotes, read", "T", {"T": odd}, odd)
    yield refused("a missing file", "F", {}, 3, "F: missing")


def merged():
    baz = text(BAZ)
    yield case("a library with itself", "F F", {"F": F}, TEXT)
    yield case("a library with a text", "F T", {"F": F, "T": baz}, text(BAR, BAZ, FOO))
    yield case("a text with a library", "T F", {"F": F, "T": baz}, text(BAR, BAZ, FOO))
    yield case("the stub of both", "--output-elf=- T F", {"F": F, "T": baz},
               made(Row(b"bar", OBJECT, 42), Row(b"baz", FUNC), Row(b"foo", FUNC)))
    sized = [text(f"{{ Name: bar, Type: Object, Size: {size} }}") for size in (4, 8)]
    yield refused("two sizes", "A B", dict(zip("AB", sized)), 1, "merge: SizeMismatch(bar, 4, 8)")
    yield refused("a size and none", "A B", {"A": text(BAR), "B": text("{ Name: bar, Type: Object }")}, 1,
                  "merge: SizeMismatch(bar, 42, none)")
    yield refused("two types", "A B", {"A": text(FOO), "B": text("{ Name: foo, Type: TLS }")}, 1,
                  "merge: TypeMismatch(foo, Func, Tls)")
    for word, cause in (("Weak: true", "WeakMismatch"), ("Undefined: true", "UndefinedMismatch"),
                        ("Warning: old", "WarningMismatch")):
        other = text("{ Name: foo, Type: Func, %s }" % word)
        yield refused(f"one of two has {word}", "A B", {"A": text(FOO), "B": other}, 1, f"merge: {cause}(foo)")
    files = {"A": text(FOO), "B": text(BAZ), "C": text(BAZ, soname="libx.so"), "D": text(BAZ, needed=["libc.so.6"]),
             "T": text(BAZ, target="x86_64-linux-gnu")}
    yield refused("another soname", "A B C", files, 1, "merge: SonameMismatch(2)")
    yield refused("other needed libraries", "A D", files, 1, "merge: NeededMismatch(1)")
    yield refused("a triple and its parts", "A T", files, 1, "merge: TargetMismatch(1)")
    yield case("4,096 inputs", ["T"] * 4096, {"T": baz}, baz)


# ---- options

def adjusted():
    f = {"F": F}
    yield case("names that match are left out", ["--exclude=b*", "F"], f, text(FOO))
    yield case("patterns add up", ["--exclude=[!f]*", "--exclude=foo", "F"], f, EMPTY)
    yield case("a set that is turned", ["--exclude=[^f]*", "F"], f, text(FOO))
    yield case("a backslash takes the byte", ["--exclude=\\foo", "F"], f, text(BAR))
    yield case("one byte each", ["--exclude", "?oo", "F"], f, text(BAR))
    yield case("left out of the stub too", ["--exclude=b*", "--output-elf=-", "F"], f, made(Row(b"foo", FUNC)))
    yield case("without sizes", "--strip-size F", f, text("{ Name: bar, Type: Object }", FOO))
    yield case("a stub without sizes", "--strip-size --output-elf=- F", f, made(Row(b"bar", OBJECT), Row(b"foo", FUNC)))
    wants = made(Row(b"foo", FUNC), Row(b"puts", FUNC, defined=False), needed=[b"libc.so.6", b"libm.so.6"])
    puts = "{ Name: puts, Type: Func, Undefined: true }"
    yield case("wanted names", "F", {"F": wants}, text(FOO, puts, needed=["libc.so.6", "libm.so.6"]))
    yield case("without them", "--strip-undefined F", {"F": wants}, text(FOO, needed=["libc.so.6", "libm.so.6"]))
    yield case("a stub without them", "--strip-undefined --output-elf=- F", {"F": wants},
               made(Row(b"foo", FUNC), needed=[b"libc.so.6", b"libm.so.6"]))
    yield case("without needed libraries", "--strip-needed F", {"F": wants}, text(FOO, puts))
    yield case("a stub without them", "--strip-needed --output-elf=- F", {"F": wants},
               made(Row(b"foo", FUNC), Row(b"puts", FUNC, defined=False)))
    yield case("another soname", "--soname=libbar.so.1 F", f, text(BAR, FOO, soname="libbar.so.1"))
    yield case("a soname like an option", "--soname -- F", f, text(BAR, FOO, soname="'--'"))
    yield case("a library as a library", "--input-format=elf F", f, TEXT)
    yield case("a text as a text", "--input-format=Ifs T", {"T": TEXT}, TEXT)
    yield refused("an empty file as a library", "--input-format=ELF E", {"E": b""}, 1, "E: NotElf")
    yield refused("a text as a library", "--input-format ELF T", {"T": TEXT}, 1, "T: NotElf")
    yield refused("a library as a text", "--input-format=IFS F", f, 1, "F: Yaml(At(4, BadByte))")


def targets():
    f, bare, triple = {"F": F}, {"T": BARE}, {"T": TRIPLE}
    yield refused("another machine", "--arch=AArch64 F", f, 1, "adjust: TargetConflict(Arch, x86_64, AArch64)")
    yield refused("another width", "--bitwidth=32 F", f, 1, "adjust: TargetConflict(BitWidth, 64, 32)")
    yield refused("another byte order", "--endianness=big F", f, 1, "adjust: TargetConflict(Endianness, little, big)")
    yield refused("a triple of another machine", "--target=aarch64-linux-gnu F", f, 1,
                  "adjust: TargetConflict(Arch, x86_64, AArch64)")
    yield case("the same parts", "--arch=X86_64 --bitwidth=64 --endianness=little F", f, TEXT)
    yield case("a triple for its parts", "--target=x86_64-linux-gnu F", f, TRIPLE)
    yield case("the same triple", "--target=x86_64-linux-gnu T", triple, TRIPLE)
    yield refused("another triple", "--target=x86_64-pc-linux-gnu T", triple, 1,
                  "adjust: TargetConflict(Triple, x86_64-linux-gnu, x86_64-pc-linux-gnu)")
    yield case("the machine of a triple", "--arch=x86_64 T", triple, TRIPLE)
    yield refused("another machine than a triple's", "--arch=arm T", triple, 1, "adjust: TargetConflict(Arch, x86_64, arm)")
    yield case("the stub of a triple", "--output-elf=- T", triple, STUB)
    yield refused("a stub without a target", "--output-elf=o T", bare, 1, "stub: TargetIncomplete(Arch)")
    yield refused("a stub without a width", "--arch=ppc --output-elf=o T", bare, 1, "stub: TargetIncomplete(BitWidth)")
    yield refused("a stub without a byte order", "--arch=ppc --bitwidth=32 --output-elf=o T", bare, 1,
                  "stub: TargetIncomplete(Endianness)")
    yield case("parts for a text", "--arch ppc --bitwidth 32 --endianness big --output-elf o T", bare, after={"o": STUB_32})
    yield case("a triple for a text", "--target=powerpc-linux --output-elf=- T", bare, STUB_32)
    yield case("a machine by its number", "--arch=EM_20 --bitwidth=32 --endianness=big T", bare, TEXT_32)
    big = text("{ Name: big, Type: Object, Size: 4294967296 }", target=target_of("ppc", "big", 32))
    yield refused("a size that is too wide", "--output-elf=o T", {"T": big}, 1, "stub: SizeTooWide(big)")
    yield refused("no text where the stub is refused", "--output-ifs=o --output-elf=p T", {"T": big, "o": b"before"}, 1,
                  "stub: SizeTooWide(big)")
    yield case("no target in the text", "--strip-ifs-target F", f, BARE)
    yield case("none of a triple", "--strip-ifs-target T", triple, BARE)
    for flag, part in (("arch", " Arch: x86_64,"), ("endianness", " Endianness: little,"), ("bitwidth", ", BitWidth: 64")):
        less = TARGET.replace(part, "")
        yield case(f"no {flag} in the text", f"--strip-ifs-{flag} F", f, text(BAR, FOO, target=less))
        yield case(f"no {flag} of a triple", f"--strip-ifs-{flag} T", triple, text(BAR, FOO, target=less))
    flags = "--strip-ifs-target --strip-ifs-arch --strip-ifs-bitwidth --strip-ifs-endianness"
    yield case("the stub as ever", f"{flags} --output-elf=- F", f, STUB)
    yield case("the text alone is stripped", "--strip-ifs-target --output-ifs=o --output-elf=p F", f,
               after={"o": BARE, "p": STUB})


# ---- words that aren't understood: the cause, and the words behind it

CAUSES = [
    ("UnknownCommand(link)", ["link", "F"]),
    ("UnknownCommand(Stub)", ["Stub", "F"]),
    ("UnknownCommand(--output-ifs=-)", ["--output-ifs=-", "stub", "F"]),
    ("UnknownCommand()", [""]),
    ("UnknownOption(--output-tbd=o)", "--output-tbd=o F"),
    ("UnknownOption(--output-if=o)", "--output-if=o F"),
    ("UnknownOption(-output-ifs=o)", "-output-ifs=o F"),
    ("UnknownOption(-o)", "-o p F"),
    ("UnknownOption(-)", "-"),
    ("UnknownOption(--hint-ifs-target=x86_64-linux-gnu)", "F --hint-ifs-target=x86_64-linux-gnu"),
    ("UnknownOption(--help)", "--help"),
    ("UnknownOption(---)", "--- F"),
    ("MissingValue(--arch)", "--arch"),
    ("MissingValue(--output-ifs)", "F --output-ifs"),
    ("MissingValue(--soname)", "--soname=a F --soname"),
    ("UnwantedValue(--strip-size)", "--strip-size=yes F"),
    ("UnwantedValue(--write-if-changed)", "--write-if-changed= F"),
    ("BadValue(--exclude)", ["--exclude=[", "F"]),
    ("BadValue(--exclude)", ["--exclude", "[b-a]", "F"]),
    ("BadValue(--exclude)", ["--exclude=", "F"]),
    ("BadValue(--exclude)", ["--exclude=a\\", "F"]),
    ("BadValue(--exclude)", ["--exclude=[]]", "F"]),
    ("BadValue(--exclude)", ["--exclude=[!]", "F"]),
    ("BadValue(--output-ifs)", "--output-ifs= F"),
    ("BadValue(--output-elf)", ["--output-elf", "", "F"]),
    ("BadValue(--soname)", "--soname= F"),
    ("BadValue(--input-format)", "--input-format=TBD F"),
    ("BadValue(--arch)", "--arch=62 F"),
    ("BadValue(--arch)", "--arch=EM_65536 F"),
    ("BadValue(--arch)", "--arch=EM_062 F"),
    ("BadValue(--bitwidth)", "--bitwidth=064 F"),
    ("BadValue(--endianness)", "--endianness=Little F"),
    ("BadValue(--target)", "--target=x86_64 F"),
    ("BadValue(--target)", "--target=x86_64-linux-gnux32 F"),
    ("BadValue(--target)", "--target=mips64-linux F"),
    ("Repeated(--soname)", "--soname=a --soname=a F"),
    ("Repeated(--strip-size)", "--strip-size --strip-size F"),
    ("Repeated(--output-ifs)", "--output-ifs=o --output-ifs p F"),
    ("Conflict(--target, --arch)", "--target=x86_64-a --arch=x86_64 F"),
    ("Conflict(--target, --bitwidth)", "--endianness=little --bitwidth=64 --target=x86_64-a F"),
    ("Conflict(--target, --endianness)", "--endianness=little --target=x86_64-a F"),
    ("Conflict(--output-ifs, --output-elf)", "--output-elf=o --output-ifs=o F"),
    ("Conflict(--output-ifs, --output-elf)", "--output-ifs=- --output-elf=- F"),
    ("NoInput", []),
    ("NoInput", "--soname=a --"),
    ("NoInput", "--soname F"),
    ("TooManyInputs(4097)", ["F"] * 4097),
    ("TooManyInputs(5000)", ["--soname=a", *["F"] * 5000]),
    # where several causes stand together
    ("UnknownOption(--nope)", "--nope --arch"),
    ("MissingValue(--arch)", "--target=x86_64-a --arch=x86_64 --arch"),
    ("UnwantedValue(--strip-size)", "--strip-size --strip-size=yes F"),
    ("BadValue(--soname)", "--soname=a --soname= F"),
    ("BadValue(--arch)", "--arch foo --nope F"),
    ("Repeated(--soname)", "--soname=a --soname=b --arch=foo F"),
    ("Conflict(--target, --arch)", "--output-ifs=o --output-elf=o --arch=arm --target=arm-a"),
    ("Conflict(--output-ifs, --output-elf)", ["--output-ifs=o", "--output-elf=o", *["F"] * 4097]),
]
COMMANDS = ("UnknownCommand", "NoCommand")


def causes():
    yield refused("no words", [], {"F": F}, 2, "words: NoCommand")._replace(words=[])
    for cause, words in CAUSES:
        told = refused(f"words, {cause}", words, {"F": F}, 2, f"words: {cause}")
        yield told._replace(words=told.words[1:]) if cause.startswith(COMMANDS) else told


# ---- files

def outputs():
    f, both = {"F": F}, {"o": TEXT, "p": STUB}
    yield case("to standard output by its name", "--output-ifs=- F", f, TEXT)
    yield case("two files", "--output-elf p F --output-ifs o", f, after=both)
    yield case("the text here, the stub there", "--output-ifs=- --output-elf=p F", f, TEXT, after={"p": STUB})
    yield case("the stub alone", "--output-elf=p F", f, after={"p": STUB})
    yield case("over other files", "--output-ifs=o --output-elf=p F", {**f, "o": b"x" * 9999, "p": b""}, after=both)
    yield case("two names of one place", "--output-ifs=o --output-elf=./o F", f, after={"o": STUB})
    yield case("a file named like an option", "-- --soname", {"--soname": F}, TEXT)
    yield case("a file named -", "-- -", {"-": F}, TEXT)
    yield case("an output named like an option", "--output-ifs --soname F", f, after={"--soname": TEXT})
    yield refused("a path behind --", "-- --soname=a", f, 3, "--soname=a: missing")
    yield refused("-- twice", "-- F --", f, 3, "--: missing")
    before = {"o": b"before", "p": b"before", **f}
    yield refused("a missing second input", "--output-ifs=o --output-elf=p F G", before, 3, "G: missing")
    yield refused("a missing input goes before a refused one", "--output-ifs=o D G", {**before, "D": F[:99]}, 3, "G: missing")
    yield refused("the first of two missing", "--output-ifs=o G H", before, 3, "G: missing")
    yield refused("a refused second input", "--output-ifs=o F D", {**before, "D": F[:64]}, 1, "D: Truncated(64)")
    yield refused("the first of two refused", "--output-ifs=o D F E", {**before, "D": b"!<arch>\n", "E": F[:64]}, 1, "D: Archive")
    yield refused("inputs that don't agree", "--output-ifs=o F T", {**before, "T": text(soname="x")}, 1,
                  "merge: SonameMismatch(1)")
    yield refused("the text is written before the stub", "--output-ifs=o --output-elf=none/p F", f, 4,
                  "none/p: write failed", after={"o": TEXT})
    yield refused("no stub where the text failed", "--output-ifs=none/o --output-elf=p F", before, 4, "none/o: write failed")


class Changed(NamedTuple):
    """A run with --write-if-changed: the files before and after it, and which of them it has to leave alone."""
    name: str
    words: str
    files: dict
    after: dict
    alone: set


def changed():
    flags, both = "--write-if-changed --output-ifs=o --output-elf=p F", {"o": TEXT, "p": STUB}
    yield Changed("equal files are left alone", flags, both, both, {"o", "p"})
    yield Changed("missing files are written", flags, {}, both, set())
    yield Changed("a file of other bytes is written", flags, {"o": TEXT, "p": STUB[:-1] + b"x"}, both, {"o"})
    yield Changed("a longer file is written", flags, {"o": TEXT + b"\n", "p": STUB}, both, {"p"})
    yield Changed("a shorter file is written", flags, {"o": TEXT, "p": STUB[:-1]}, both, {"o"})
    yield Changed("an empty file is written", flags, {"o": b"", "p": STUB}, both, {"p"})
    yield Changed("without the flag all are written", flags.split(" ", 1)[1], both, both, set())


# ---- runs

class Runner:
    def __init__(self, program):
        self.program, self.count, self.wrong = program, 0, 0

    def told(self, name, came, wanted):
        self.count += 1
        if came != wanted:
            self.wrong += 1
            print(f"{name}: {differing(came, wanted)}")

    def run(self, words, folder, out=subprocess.PIPE, err=subprocess.PIPE):
        done = subprocess.run([self.program, *words], cwd=folder, stdin=subprocess.DEVNULL, stdout=out, stderr=err)
        return done.returncode, done.stdout, done.stderr

    def take(self, told):
        with tempfile.TemporaryDirectory() as folder:
            put(folder, told.files)
            came = self.run(told.words, folder)
            self.told(told.name, (*came, held(folder)), (told.status, told.out, told.err, told.after))

    def take_changed(self, told):
        with tempfile.TemporaryDirectory() as folder:
            put(folder, {"F": F, **told.files})
            came = self.run(["stub", *told.words.split()], folder)
            left = {name for name in told.after if os.stat(Path(folder) / name).st_mtime == LONG_AGO}
            self.told(told.name, (*came, held(folder), left), (0, b"", b"", {"F": F, **told.after}, told.alone))

    def take_streams(self):
        """Lines and outputs that can't be written."""
        with tempfile.TemporaryDirectory() as folder, open("/dev/full", "wb") as full:
            put(folder, {"F": F})
            line = b"error: words: NoCommand\n"
            self.told("no words, on a full device", self.run([], folder, out=full), (2, None, line))
            self.told("a line that isn't written", self.run(["stub"], folder, err=full), (4, b"", None))
            words = ["stub", "--write-if-changed", "F"]
            self.told("always to standard output", self.run(words, folder), (0, TEXT, b""))
            self.told("nor to a full one", self.run(words, folder, out=full), (4, None, b"error: -: write failed\n"))
            self.told("the folder as it was", held(folder), {"F": F})


def put(folder, files):
    for name, data in files.items():
        path = Path(folder) / name
        path.write_bytes(data)
        os.utime(path, (LONG_AGO, LONG_AGO))


def held(folder):
    return {path.name: path.read_bytes() for path in Path(folder).iterdir()}


def differing(came, wanted):
    """What differs, part by part."""
    if isinstance(came, tuple) and isinstance(wanted, tuple) and len(came) == len(wanted):
        return "; ".join(differing(*pair) for pair in zip(came, wanted) if pair[0] != pair[1])
    if isinstance(came, dict) and isinstance(wanted, dict):
        names = sorted(name for name in came.keys() | wanted.keys() if came.get(name) != wanted.get(name))
        return "; ".join(f"in {name} {differing(came.get(name), wanted.get(name))}" for name in names)
    return f"{shown(came)}, wanted {shown(wanted)}"


def shown(value):
    return repr(value[:300]) + ".." if isinstance(value, bytes) and len(value) > 300 else repr(value)


def main():
    program = built_program(__doc__.split("\n\n")[0])
    if program is None:
        return 77
    runner = Runner(program)
    for cases in (interfaces, merged, adjusted, targets, causes, outputs):
        for told in cases():
            runner.take(told)
    for told in changed():
        runner.take_changed(told)
    runner.take_streams()
    print(f"{runner.count} cases, {runner.wrong} wrong")
    return 1 if runner.wrong else 0


if __name__ == "__main__":
    sys.exit(main())
