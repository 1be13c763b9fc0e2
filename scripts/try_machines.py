#!/usr/bin/env python3
"""Compares the tables of relocation types with what GNU ld writes.

Usage: scripts/try_machines.py

Each type of crates/link_machine/specs/X86.antt and A64.antt that an assembler has a form for is assembled with GNU as,
and resolved by GNU ld with the symbol or the slot at chosen distances: at the least and the greatest value of its range
and at one beyond each, at 0, and at some values between. The field in the made file has to be the one that the row of
the type gives, and a value that the row refuses has to be refused by ld. What ld does otherwise by design stands in
`KNOWN` and in docs/TESTED.md.

Ends with 0 where all agree, with 1 where something differs, and with 77 where a tool is missing.
"""
import random
import re
import shutil
import struct
import subprocess
import sys
import tempfile
from pathlib import Path

TOP = Path(__file__).resolve().parent.parent
SPECS = TOP / "crates/link_machine/specs"
TEXT = 1 << 40  # where the field's section starts
PAGE = 4096
MARK = 0x1234568  # the address of a symbol with a slot
# the dynamic relocations of slots: GLOB_DAT, RELATIVE, DTPMOD, TPOFF, TLSDESC
SLOT_TYPES = {"X86": (6, 8, 16, 18, 36), "A64": (1025, 1027, 1028, 1030, 1031)}
MACHINES = {
    "X86": ("x86_64-linux-gnu-as", "x86_64-linux-gnu-ld", ["-mrelax-relocations=no"]),
    "A64": ("aarch64-linux-gnu-as", "aarch64-linux-gnu-ld", []),
}

# An instruction or datum for each type: its text, the offset of the field in it, and the addend that it brings about.
# S has the symbol, T a thread-local one; {a} is the addend, where a form has room for it.
X86_FORMS = {
    1: [(".quad S{a}", 0, None)],
    2: [(".long S{a}-.", 0, None), ("lea S{a}(%rip), %rax", 3, -4)],
    4: [("call S", 1, -4), (".long S@PLT{a}", 0, None)],
    9: [("mov S@GOTPCREL(%rip), %rax", 3, -4)],
    10: [(".long S{a}", 0, None), ("mov $S, %eax", 1, 0)],
    11: [("mov $S{a}, %rax", 3, None)],
    17: [(".quad T@DTPOFF", 0, 0)],
    19: [("lea T@TLSGD(%rip), %rdi", 3, -4)],
    20: [("lea T@TLSLD(%rip), %rdi", 3, -4)],
    21: [("lea T@DTPOFF(%rax), %rcx", 3, 0)],
    22: [("mov T@GOTTPOFF(%rip), %rax", 3, -4)],
    23: [("mov %fs:T@TPOFF, %rax", 5, 0)],
    24: [(".quad S{a}-.", 0, None)],
    41: [("call *S@GOTPCREL(%rip)", 2, -4)],
    42: [("mov S@GOTPCREL(%rip), %rax", 3, -4)],
}
A64_FORMS = {
    257: [(".xword S{a}", 0, None)],
    258: [(".word S{a}", 0, None)],
    260: [(".xword S{a}-.", 0, None)],
    261: [(".word S{a}-.", 0, None)],
    273: [("ldr x3, S", 0, 0), ("ldr w3, S{a}", 0, None)],
    274: [("adr x3, S{a}", 0, None)],
    275: [("adrp x3, S{a}", 0, None)],
    276: [("adrp x3, :pg_hi21_nc:S{a}", 0, None)],
    277: [("add x3, x4, :lo12:S{a}", 0, None)],
    278: [("ldrb w3, [x4, :lo12:S{a}]", 0, None)],
    279: [("tbz x3, #5, S", 0, 0), ("tbnz w3, #7, S{a}", 0, None)],
    280: [("b.eq S", 0, 0), ("cbz x3, S{a}", 0, None)],
    282: [("b S{a}", 0, None)],
    283: [("bl S{a}", 0, None)],
    284: [("ldrh w3, [x4, :lo12:S{a}]", 0, None)],
    285: [("str w3, [x4, :lo12:S{a}]", 0, None)],
    286: [("ldr x3, [x4, :lo12:S{a}]", 0, None)],
    299: [("ldr q3, [x4, :lo12:S{a}]", 0, None)],
    311: [("adrp x3, :got:S", 0, 0)],
    312: [("ldr x3, [x4, :got_lo12:S]", 0, 0)],
    541: [("adrp x3, :gottprel:T", 0, 0)],
    542: [("ldr x3, [x4, :gottprel_lo12:T]", 0, 0)],
    549: [("add x3, x4, :tprel_hi12:T", 0, 0)],
    550: [("add x3, x4, :tprel_lo12:T", 0, 0)],
    551: [("add x3, x4, :tprel_lo12_nc:T", 0, 0)],
    562: [("adrp x3, :tlsdesc:T", 0, 0)],
    563: [("ldr x3, [x4, :tlsdesc_lo12:T]", 0, 0)],
    564: [("add x3, x4, :tlsdesc_lo12:T", 0, 0)],
    569: [("nop\n.tlsdesccall T\nblr x3", 4, 0)],
}
FORMS = {"X86": X86_FORMS, "A64": A64_FORMS}
# Types for which ld does otherwise with some values: those aren't compared.
KNOWN = {
    ("A64", 261): "ld takes the values of 32 bits with a sign alone",
    ("A64", 282): "ld reaches far targets by a veneer",
    ("A64", 283): "ld reaches far targets by a veneer",
    ("A64", 311): "ld doesn't look at the range",
    ("A64", 541): "ld doesn't look at the range",
    ("A64", 562): "ld doesn't look at the range",
}


def is_known(trial, kind, fits, value):
    """Whether ld does otherwise with this value."""
    if kind == 261 and trial.machine == "A64":
        return value >= 1 << 31
    return (trial.machine, kind) in KNOWN and not fits


# ---- the tables


def number(words):
    return int(words, 0)


def ranges(words):
    """The least value and the end of a range, or None."""
    if words == "Any":
        return None
    kind, bits = words.strip("()").split()
    bits = number(bits)
    return {
        "signed": (-(1 << bits - 1), 1 << bits - 1),
        "unsigned": (0, 1 << bits),
        "either": (-(1 << bits - 1), 1 << bits),
    }[kind]


def fields(words):
    """The bits of a field: (high, low, at), the lower part first."""
    words = {"adrp": "(adr 12)", "add12": "(part 11 0 10)", "load8": "(part 11 3 10)"}.get(words, words)
    if words == "Unchanged":
        return []
    kind, *numbers = words.strip("()").split()
    numbers = [number(n) for n in numbers]
    if kind == "whole":
        return [(numbers[0] - 1, 0, 0)]
    if kind == "part":
        return [tuple(numbers)]
    low = numbers[0]
    return [(low + 1, low, 29), (low + 20, low + 2, 5)]


def table(machine):
    """The rows of a table: type to class, formula, size, bits, range, multiple."""
    rows = {}
    word = r"(\([^)]*\)|\S+)"
    text = (SPECS / f"{machine}.antt").read_text()
    for found in re.finditer(rf"\brow (\d+) (\w+) (\w+) (\d+) {word} {word} (\d+)", text):
        kind, name, formula, size, field, values, multiple = found.groups()
        rows[int(kind)] = (name, formula, int(size), fields(field), ranges(values), int(multiple))
    return rows


def patched(bits, value, old):
    for high, low, at in bits:
        count = high - low + 1
        mask = (1 << count) - 1
        old = old & ~(mask << at) | (value >> low & mask) << at
    return old


def page(x):
    return x - x % PAGE


# ---- what as and ld make


class File:
    """The sections and symbols of an ELF file of 64 bits with the lowest byte first."""

    def __init__(self, path):
        self.bytes = path.read_bytes()
        shoff, = struct.unpack_from("<Q", self.bytes, 40)
        count, names = struct.unpack_from("<HH", self.bytes, 60)
        rows = [struct.unpack_from("<IIQQQQIIQQ", self.bytes, shoff + i * 64) for i in range(count)]
        self.sections = {self.name(rows[names][4], row[0]): row for row in rows}
        self.symbols = {}
        if ".symtab" in self.sections:
            row = self.sections[".symtab"]
            strings = rows[row[6]][4]
            for at in range(row[4], row[4] + row[5], 24):
                name, _, _, _, value, _ = struct.unpack_from("<IBBHQQ", self.bytes, at)
                self.symbols[self.name(strings, name)] = value

    def name(self, strings, at):
        return self.bytes[strings + at : self.bytes.index(0, strings + at)].decode()

    def at(self, section, address, size):
        row = self.sections[section]
        start = row[4] + address - row[3]
        return int.from_bytes(self.bytes[start : start + size], "little")

    def relocations(self, section):
        row = self.sections.get(section)
        return [struct.unpack_from("<QQq", self.bytes, at) for at in range(row[4], row[4] + row[5], 24)] if row else []


def run(*command):
    return subprocess.run([str(word) for word in command], capture_output=True, text=True)


class Try:
    def __init__(self, machine, folder):
        self.machine, self.folder = machine, folder
        self.assembler, self.linker, self.flags = MACHINES[machine]

    def assemble(self, text, addend, before, tls, flags, section='"awx"'):
        words = "" if addend is None or addend == 0 else f"{addend:+#x}"
        source = self.folder / "field.s"
        source.write_text(f""".globl F
.section .field,{section},%progbits
.balign 4096
.skip {before}
F: {text.replace("{a}", words)}
.section .tbss,"awT",%nobits
.balign 16
.skip {tls}
.hidden T
.globl T
T: .skip 16
""")
        made = run(self.assembler, *flags, "-o", self.folder / "field.o", source)
        if made.returncode:
            sys.exit(f"{text}: {made.stderr}")
        relocations = File(self.folder / "field.o").relocations(".rela.field")
        return relocations[0][1] & 0xFFFFFFFF, relocations[0][2], relocations[0][0]

    def link(self, words):
        out = self.folder / "out"
        out.unlink(missing_ok=True)
        made = run(self.linker, "--no-relax", "-z", "max-page-size=4096", "-e", "F", *words, "-o", out, self.folder / "field.o")
        return (File(out) if made.returncode == 0 else None), made.stderr

    def link_with_slots(self, slots, words):
        """The field at TEXT, and the slots at an address."""
        places = sorted([(TEXT, ".field : { *(.field) }"), (slots, ".got : { *(.got) *(.got.plt) }")])
        script = self.folder / "script"
        script.write_text("SECTIONS {\n. = 0x10000; .dynamic : { *(.dynamic) } .tbss : { *(.tbss) }\n"
                          + "".join(f"{name.split(' ', 1)[0]} {at:#x} {name.split(' ', 1)[1]}\n" for at, name in places) + "}\n")
        return self.link(words + ["-T", script])


def slot_of(machine, kind, made):
    """The address of the slot, or of the first slot of the pair."""
    for section in (".rela.dyn", ".rela.got", ".rela.plt"):
        for offset, info, _ in made.relocations(section):
            if info & 0xFFFFFFFF in SLOT_TYPES[machine]:
                return offset
    row = made.sections[".got"]
    return next(at for at in range(row[3], row[3] + row[5], 8) if made.at(".got", at, 8) == MARK)


def values_for(limits, multiple, chance):
    """Values in the range, and values beyond it."""
    low, end = limits if limits else (-(1 << 39), 1 << 39)
    last = (end - 1) // multiple * multiple
    good = {low, low + multiple, last, last - multiple, 0 if low <= 0 < end else low}
    good |= {chance.randrange(low, end) // multiple * multiple for _ in range(12)}
    bad = {low - multiple, last + multiple, low - 16 * multiple, last + 4096 * multiple} if limits else set()
    return sorted(v for v in good if low <= v < end), sorted(bad)


def symbol_for(formula, value, place, addend):
    """Where the symbol has to stand for the value."""
    if formula in ("SymbolFromPlace", "CallFromPlace"):
        return value + place - addend
    if formula == "SymbolPageFromPlace":
        return value // PAGE * PAGE + page(place) - addend + (place * 7 + value // PAGE) % PAGE // 2
    return value - addend


def tries_of_symbols(trial, kind, row, chance):
    """Forms whose value is that of a symbol: (what, wanted field or None, got field or None)."""
    _, formula, size, bits, limits, multiple = row
    paged = formula == "SymbolPageFromPlace"
    for text, offset, fixed in FORMS[trial.machine][kind]:
        addends = [0, 8, -8] if fixed is None else [fixed]
        for wanted_addend in addends:
            given, addend, at = trial.assemble(text, wanted_addend if fixed is None else None, 64 + 4 * chance.randrange(9), 0,
                                               trial.flags)
            if given != kind:
                sys.exit(f"{text}: type {given} in place of {kind}")
            place = TEXT + at
            good, bad = values_for(limits, PAGE if paged else multiple, chance)
            for value in good + bad:
                symbol = symbol_for(formula, value, place, addend)
                if not 0 <= symbol < 1 << 64 or (limits is None and symbol + addend < 0):
                    continue
                value = {"Symbol": symbol + addend}.get(formula, symbol + addend - place)
                if paged:
                    value = page(symbol + addend) - page(place)
                made, said = trial.link([f"--section-start=.field={TEXT:#x}", f"--defsym=S={symbol:#x}"])
                fits = limits is None or limits[0] <= value < limits[1]
                old = File(trial.folder / "field.o").at(".field", at, size)
                if is_known(trial, kind, fits, value):
                    continue
                want = patched(bits, value, old) if fits else None
                got = made.at(".field", place, size) if made else None
                yield f"{text} with {value:#x}", want, got, said


def tries_of_slots(trial, kind, row, chance):
    """Forms whose value is the place of a slot."""
    _, formula, size, bits, limits, _ = row
    threaded = kind in (19, 20, 22, 541, 542, 562, 563, 564)
    words = ["-shared"] if threaded else [f"--defsym=S={MARK:#x}"]
    for text, _, _ in FORMS[trial.machine][kind]:
        flags = [] if kind in (41, 42) else trial.flags
        for end in (0, *(limits or (1 << 33, -(1 << 33)))):
            for more in (-(1 << 20), -PAGE, -8, 0, 8, PAGE, 1 << 20):
                given, addend, at = trial.assemble(text, None, 8 * chance.randrange(500), 0, flags)
                if given != kind:
                    sys.exit(f"{text}: type {given} in place of {kind}")
                place = TEXT + at
                asked = place - addend + end + more
                asked += -asked % 8
                if abs(end + more) < 2 * PAGE:
                    asked += 4 * PAGE  # beside the field
                made, said = trial.link_with_slots(asked, words)
                slot = slot_of(trial.machine, kind, made) if made else asked
                value = {"Slot": slot, "SlotFromPlace": slot + addend - place}.get(formula, page(slot) - page(place))
                old = File(trial.folder / "field.o").at(".field", at, size)
                fits = limits is None or limits[0] <= value < limits[1]
                if is_known(trial, kind, fits, value):
                    continue
                got = made.at(".field", place, size) if made else None
                yield f"{text} with {value:#x}", patched(bits, value, old) if fits else None, got, said


def tries_of_threads(trial, kind, row, chance):
    """Forms whose value is an offset in thread-local storage, or from the thread pointer."""
    _, formula, size, bits, limits, _ = row
    for text, _, _ in FORMS[trial.machine][kind]:
        for before in (0, 16, 4064, 4080, 4096, 1 << 16, (1 << 24) - 32, (1 << 24) - 16, 1 << 24, (1 << 30) + 16):
            # ld takes offsets of 64 bits in sections that aren't loaded alone
            section = '""' if (trial.machine, kind) == ("X86", 17) else '"awx"'
            given, addend, at = trial.assemble(text, None, 64, before, trial.flags, section)
            if given != kind:
                sys.exit(f"{text}: type {given} in place of {kind}")
            # in a program ld makes offsets of 32 bits in code into others
            shared = ["-shared"] if kind in (21, 569) else []
            made, said = trial.link([f"--section-start=.field={TEXT:#x}", *shared])
            size_of_storage = before + 16
            value = before + addend
            if formula == "ThreadPointer":
                value = before + 16 + addend if trial.machine == "A64" else before - size_of_storage + addend
            if formula == "Zero":
                value = 0
            old = File(trial.folder / "field.o").at(".field", at, size)
            fits = limits is None or limits[0] <= value < limits[1]
            got = made.at(".field", made.sections[".field"][3] + at, size) if made else None
            yield f"{text} with {value:#x}", patched(bits, value, old) if fits else None, got, said


def main():
    for machine in MACHINES.values():
        if not all(shutil.which(tool) for tool in machine[:2]):
            print("GNU as and ld of both machines are needed (binutils, binutils-aarch64-linux-gnu)")
            return 77
    chance = random.Random(1)
    count = faults = forms = 0
    for machine, kinds in FORMS.items():
        rows = table(machine)
        missing = sorted(set(rows) - set(kinds) - {0, 256})
        if missing:
            print(f"{machine}: no form for the types {missing}")
            faults += 1
        for kind in kinds:
            formula = rows[kind][1]
            tries = tries_of_symbols
            if formula.startswith("Slot"):
                tries = tries_of_slots
            elif formula in ("Offset", "ThreadPointer", "Zero"):
                tries = tries_of_threads
            forms += len(kinds[kind])
            with tempfile.TemporaryDirectory() as folder:
                for what, want, got, said in tries(Try(machine, Path(folder)), kind, rows[kind], chance):
                    count += 1
                    if want != got:
                        faults += 1
                        shown = [hex(x) if x is not None else "refused" for x in (want, got)]
                        print(f"{machine} {kind}: {what}: {shown[0]} by the table, {shown[1]} by ld {said.strip()[:200]}")
    print(f"{count} fields of {forms} forms, {faults} faults")
    return 1 if faults else 0


if __name__ == "__main__":
    sys.exit(main())
