#!/usr/bin/env python3
"""Runs the built `ifs` over texts: its own, those that llvm-ifs writes, and its own as llvm-ifs reads them.

    scripts/try_texts.py [--program PATH] [--llvm-ifs PATH] [--most COUNT] [FOLDER ..]

For each shared library below the folders (those of scripts/try_system.py): the text that `ifs stub` prints is read
by `ifs stub`, and has to give the same text and the same stub as the library. Where an
llvm-ifs is installed, its text of the library is read and compared with the own one, and the own text is given to
llvm-ifs, whose text of that has to be the same. What is known to differ is counted apart (docs/format/ifs-text.md):
machine 3, which llvm-ifs spells `386`; names of STB_GNU_UNIQUE, which it leaves out, and those of several rows; types
that it doesn't know, and texts with the type Unknown or the machine i386, which it doesn't read. The status is 1
where anything else differs, and 77 where the built program is missing.
"""
import argparse
import collections
import re
import shutil
import subprocess
import sys
import tempfile
from pathlib import Path

from try_system import FOLDERS, ROW, SHOWN, TOP, VERSION, interface_of, libraries, rows_told

LLVM = ["llvm-ifs", *(f"llvm-ifs-{version}" for version in range(22, 13, -1))]


def run(*command):
    return subprocess.run(command, capture_output=True)


class Tally:
    def __init__(self, args, folder):
        self.args, self.folder = args, Path(folder)
        self.count = collections.Counter()
        self.wrong = 0

    def differs(self, path, *what):
        self.wrong += 1
        print(f"{path}: {' '.join(str(part) for part in what)}")

    def stub(self, path, option="--output-ifs=-"):
        return run(self.args.program, "stub", option, path)

    def take(self, path):
        own = self.stub(path)
        if own.returncode != 0:
            self.count["libraries that are refused"] += 1
            return
        text = self.folder / "own.ifs"
        text.write_bytes(own.stdout)
        self.take_own(path, text, own.stdout)
        if self.args.llvm_ifs:
            self.take_theirs(path, own.stdout)
            self.give_own(path, text, own.stdout)

    def take_own(self, path, text, printed):
        """The own text, read again."""
        again = self.stub(text)
        if (again.returncode, again.stdout) != (0, printed):
            self.differs(path, "its text isn't read back:", again.stderr.decode("latin-1").strip() or "another text")
        one, other = self.stub(path, "--output-elf=-"), self.stub(text, "--output-elf=-")
        if (one.returncode, one.stdout) != (other.returncode, other.stdout):
            self.differs(path, "its text has another stub")
        self.count["own texts"] += 1

    def take_theirs(self, path, printed):
        """The text that llvm-ifs writes of the library."""
        theirs = self.folder / "llvm.ifs"
        done = run(self.args.llvm_ifs, f"--output-ifs={theirs}", path)
        if done.returncode != 0:
            self.count["libraries that llvm-ifs refuses"] += 1
            return
        read = self.stub(theirs)
        if read.returncode != 0:
            if b"Arch: '386'" in theirs.read_bytes() and read.stderr.endswith(b"BadValue(Arch)\n"):
                self.count["texts of llvm-ifs with the machine 386"] += 1
            else:
                self.differs(path, "the text of llvm-ifs is refused:", read.stderr.decode("latin-1").strip())
            return
        self.count["texts of llvm-ifs"] += 1
        self.compare(path, interface_of(printed.decode("latin-1")), interface_of(read.stdout.decode("latin-1")))

    def compare(self, path, own, theirs):
        for key in ("target", "soname", "needed"):
            if own[key] != theirs[key]:
                self.differs(path, key, own[key], "in the text of llvm-ifs", theirs[key])
        mine, others = dict(own["symbols"]), dict(theirs["symbols"])
        names = [name for name in mine.keys() | others.keys() if mine.get(name) != others.get(name)]
        if names:
            known = special_names(path)
            unknown = sorted(name for name in names if name not in known)
            for name in unknown[:SHOWN]:
                self.differs(path, "symbol", repr(name), mine.get(name), "in the text of llvm-ifs", others.get(name))
            self.count["texts of llvm-ifs that differ as is known"] += not unknown

    def give_own(self, path, text, printed):
        """The own text, as llvm-ifs reads it."""
        if b"Type: Unknown" in printed or b"Arch: i386" in printed:
            self.count["own texts with words that llvm-ifs doesn't know"] += 1
            return
        back = self.folder / "back.ifs"
        done = run(self.args.llvm_ifs, f"--output-ifs={back}", text)
        if done.returncode != 0:
            self.differs(path, "llvm-ifs refuses its text:", done.stderr.decode("latin-1").strip()[:200])
            return
        theirs = interface_of(back.read_bytes().decode("latin-1"))
        own = interface_of(printed.decode("latin-1"))
        if theirs != own:
            names = [f"{one} / {other}" for one, other in zip(own["symbols"], theirs["symbols"]) if one != other]
            self.differs(path, "llvm-ifs reads its text otherwise", *names[:3])
        self.count["own texts that llvm-ifs reads"] += 1


def special_names(path):
    """The names of STB_GNU_UNIQUE, those of a type that llvm-ifs doesn't know, and those of several rows."""
    rows, special = collections.Counter(), set()
    for line in rows_told(path).split("\n"):
        found = ROW.match(line)
        if found:
            name = VERSION.sub("", found[7])
            rows[name] += 1
            if found[4] not in ("GLOBAL", "WEAK") or found[3] not in ("NOTYPE", "OBJECT", "FUNC", "TLS"):
                special.add(name)
    return special | {name for name, count in rows.items() if count > 1}


def main():
    parser = argparse.ArgumentParser(description=__doc__, formatter_class=argparse.RawDescriptionHelpFormatter)
    parser.add_argument("--program", default=str(TOP / "crates/ifs/out/ifs"))
    parser.add_argument("--llvm-ifs", default=next((path for name in LLVM if (path := shutil.which(name))), None))
    parser.add_argument("--most", type=int, default=None, help="how many libraries are taken")
    parser.add_argument("folders", nargs="*", default=FOLDERS)
    args = parser.parse_args()
    if not Path(args.program).is_file():
        print(f"{args.program} is missing: make builds it")
        return 77
    with tempfile.TemporaryDirectory() as folder:
        tally = Tally(args, folder)
        for number, path in enumerate(libraries(args.folders)):
            if number == args.most:
                break
            tally.take(path)
    for what, count in sorted(tally.count.items()):
        print(f"{count:6} {what}")
    print(f"{tally.wrong:6} differences")
    if not args.llvm_ifs:
        print("no llvm-ifs is installed: only own texts were read")
    return 1 if tally.wrong else 0


if __name__ == "__main__":
    sys.exit(main())
