"""Small shared libraries for the scripts, made field by field from the tables of the System V gABI.

`library` gives a file of the form that docs/format/stub-file.md describes, so of a stub's rows it is the stub. The form
is written here once more, and shares nothing with the program.
"""
import struct
from typing import NamedTuple

NOTYPE, OBJECT, FUNC, TLS, IFUNC = 0, 1, 2, 6, 10
LOCAL, GLOBAL, WEAK = 0, 1, 2
DEFAULT, INTERNAL, HIDDEN, PROTECTED = 0, 1, 2, 3
PT_LOAD, PT_DYNAMIC = 1, 2
SHT_STRTAB, SHT_HASH, SHT_DYNAMIC, SHT_DYNSYM, SHF_ALLOC = 3, 5, 6, 11, 2
DT_NEEDED, DT_HASH, DT_STRTAB, DT_SYMTAB, DT_STRSZ, DT_SYMENT, DT_SONAME = 1, 4, 5, 6, 10, 11, 14
DT_GNU_HASH = 0x6ffffef5
SECTIONS = (b".dynsym", b".dynstr", b".hash", b".dynamic", b".shstrtab")


class Form(NamedTuple):
    """Byte order, as struct has it, bytes of a word, and machine."""
    order: str
    word: int
    machine: int

    def pack(self, kinds, *values):
        """Numbers one after the other: H and I of 2 and 4 bytes, and W of a word."""
        return struct.pack(self.order + kinds.replace("W", "IQ"[self.word == 8]), *values)

    def sizes(self):
        """Of the file header, a program header, a section header and a row."""
        return (64, 56, 64, 24) if self.word == 8 else (52, 32, 40, 16)


class Row(NamedTuple):
    name: bytes
    kind: int
    size: int = 0
    binding: int = GLOBAL
    defined: bool = True
    visibility: int = DEFAULT


X86_64, PPC = Form("<", 8, 62), Form(">", 4, 20)


def row_bytes(form, at, row):
    info, index = row.binding << 4 | row.kind, int(row.defined)
    if form.word == 8:
        return form.pack("IBBHQQ", at, info, row.visibility, index, 0, row.size)
    return form.pack("IIIBBH", at, 0, row.size, info, row.visibility, index)


def segment(form, kind, at, size, align):
    if form.word == 8:
        return form.pack("IIQQQQQQ", kind, 4, at, at, at, size, size, align)
    return form.pack("IIIIIIII", kind, at, at, at, size, size, 4, align)


def section(form, name, kind, flags, at, size, link, info, align, each):
    return form.pack("IIWWWWIIWW", name, kind, flags, at if flags else 0, at, size, link, info, align, each)


def header(form, sections_at, sections):
    size, segment_size, section_size, _ = form.sizes()
    ident = b"\x7fELF" + bytes([form.word // 4, 1 + (form.order == ">"), 1]) + bytes(9)
    return ident + form.pack("HHIWWWIHHHHHH", 3, form.machine, 1, 0, size, sections_at, 0, size, segment_size, 2,
                             section_size, sections, max(sections - 1, 0))


def tables(form, rows, needed, soname):
    """The bytes of the rows and of their strings, and the entries that name strings."""
    table, strings, entries = bytes(form.sizes()[3]), b"\0", []
    for row in rows:
        table += row_bytes(form, len(strings), row)
        strings += row.name + b"\0"
    for kind, names in ((DT_NEEDED, needed), (DT_SONAME, [soname] if soname else [])):
        for name in names:
            entries.append((kind, len(strings)))
            strings += name + b"\0"
    return table, strings, entries


def sysv_hash(form, count):
    """One bucket, whose chain has every row but the first."""
    words = [1, count + 1, min(count, 1), 0, *(i + 1 if i < count else 0 for i in range(1, count + 1))]
    return form.pack(f"{len(words)}I", *words)


def gnu_hash(form, count):
    """One bucket with every row but the first, or with none."""
    chain = [int(i == count - 1) for i in range(count)]
    return form.pack(f"IIIIWI{count}I", 1, 1, 1, 0, 0, min(count, 1), *chain)


class Laid:
    """Parts one after the other, each at a multiple of its alignment."""

    def __init__(self, at):
        self.start, self.data = at, b""

    def put(self, part, align):
        self.data += bytes(-(self.start + len(self.data)) % align) + part
        return self.start + len(self.data) - len(part)


def loaded(form, rows, needed, soname, hash_kind, hash_bytes):
    """What is loaded, behind the program headers; the place and the size of each part."""
    size, segment_size, _, row_size = form.sizes()
    table, strings, entries = tables(form, rows, needed, soname)
    laid, places = Laid(size + 2 * segment_size), []
    for part, align in ((table, form.word), (strings, 1), (hash_bytes, form.word)):
        places.append((laid.put(part, align), len(part)))
    (table_at, _), (strings_at, strings_size), (hash_at, _) = places
    entries += [(hash_kind, hash_at), (DT_STRTAB, strings_at), (DT_SYMTAB, table_at), (DT_STRSZ, strings_size),
                (DT_SYMENT, row_size), (0, 0)]
    dynamic = b"".join(form.pack("WW", *entry) for entry in entries)
    places.append((laid.put(dynamic, form.word), len(dynamic)))
    return laid, places


def programs(form, laid, dynamic):
    end = laid.start + len(laid.data)
    return segment(form, PT_LOAD, 0, end, 4096) + segment(form, PT_DYNAMIC, *dynamic, form.word)


def library(form, rows, needed=(), soname=b"libfoo.so"):
    """A library with section headers and a SysV hash table."""
    laid, places = loaded(form, rows, needed, soname, DT_HASH, sysv_hash(form, len(rows)))
    before = programs(form, laid, places[3])
    names = b"\0" + b"".join(name + b"\0" for name in SECTIONS)
    places.append((laid.put(names, 1), len(names)))
    sorts = [(SHT_DYNSYM, SHF_ALLOC, 2, 1, form.word, form.sizes()[3]), (SHT_STRTAB, SHF_ALLOC, 0, 0, 1, 0),
             (SHT_HASH, SHF_ALLOC, 1, 0, form.word, 4), (SHT_DYNAMIC, SHF_ALLOC, 2, 0, form.word, 2 * form.word),
             (SHT_STRTAB, 0, 0, 0, 1, 0)]
    headers = section(form, *[0] * 9)
    for name, (kind, flags, link, info, align, each), place in zip(SECTIONS, sorts, places):
        headers += section(form, names.index(name + b"\0"), kind, flags, *place, link, info, align, each)
    at = laid.put(headers, form.word)
    return header(form, at, len(SECTIONS) + 1) + before + laid.data


def without_sections(form, rows, hashed):
    """A library without section headers, whose GNU hash table alone says how many rows there are."""
    laid, places = loaded(form, rows, (), b"libfoo.so", DT_GNU_HASH, gnu_hash(form, hashed))
    return header(form, 0, 0) + programs(form, laid, places[3]) + laid.data
