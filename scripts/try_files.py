#!/usr/bin/env python3
"""Runs the built program against the real file system, one fault at a time.

    scripts/try_files.py [--program PATH]

Each case has the words, where standard output goes, and the status and the line that have to come. Ends with 0
where all came so, with 1 where one didn't, and with 77 where the program isn't built.
"""
import os
import subprocess
import sys
import tempfile
from pathlib import Path

from built import TOP, built_program

LIBRARY = TOP / "crates/ifs/data/libfoo.so"
TEXT = (TOP / "crates/ifs/stdout").read_bytes()


def closed_pipe():
    """The end of a pipe that nobody reads."""
    reader, writer = os.pipe()
    os.close(reader)
    return writer


def leave_root():
    """Gives up root's leave to read and write everything."""
    if os.geteuid() == 0:
        os.setgid(65534)
        os.setuid(65534)


def cases(program, folder):
    """The name of each case, what came, and what has to come."""
    def run(words, out=subprocess.PIPE, before=None):
        done = subprocess.run([program, *words], stdout=out, stderr=subprocess.PIPE, preexec_fn=before)
        return done.returncode, done.stdout, done.stderr

    def as_nobody(words):
        return run(words, before=leave_root)

    text, stub = folder / "o.ifs", folder / "o.so"
    yield "a text", run(["stub", "--output-ifs=-", LIBRARY]), (0, TEXT, b"")
    yield "two files", run(["stub", f"--output-elf={stub}", f"--output-ifs={text}", LIBRARY]), (0, b"", b"")
    yield "their text", (text.read_bytes(),), (TEXT,)
    yield "the stub's text", run(["stub", "--output-ifs=-", stub]), (0, TEXT, b"")
    missing = folder / "missing.so"
    yield "a missing file", run(["stub", "--output-ifs=-", missing]), (3, b"", b"error: %s: missing\n" % bytes(missing))
    yield "the empty path", run(["stub", "--output-ifs=-", ""]), (3, b"", b"error: : missing\n")
    yield "a folder", run(["stub", "--output-ifs=-", folder]), (3, b"", b"error: %s: read failed\n" % bytes(folder))
    through = LIBRARY / "inside"
    yield "a path through a file", run(["stub", "--output-ifs=-", through]), (
        3, b"", b"error: %s: read failed\n" % bytes(through))
    large = folder / "large.so"
    with open(large, "wb") as file:
        file.truncate(134_217_729)
    yield "a file above the limit", run(["stub", "--output-ifs=-", large]), (3, b"", b"error: %s: too large\n" % bytes(large))
    yield "an endless file", run(["stub", "--output-ifs=-", "/dev/zero"]), (3, b"", b"error: /dev/zero: too large\n")
    secret = folder / "secret.so"
    secret.write_bytes(LIBRARY.read_bytes())
    secret.chmod(0)
    folder.chmod(0o755)
    yield "an unreadable file", as_nobody(["stub", "--output-ifs=-", secret]), (
        3, b"", b"error: %s: read failed\n" % bytes(secret))
    with open("/dev/full", "wb") as full:
        yield "a full device", run(["stub", "--output-ifs=-", LIBRARY], full), (4, None, b"error: -: write failed\n")
        yield "a stub on a full device", run(["stub", "--output-elf=-", LIBRARY], full), (4, None, b"error: -: write failed\n")
    yield "a full file", run(["stub", "--output-ifs=/dev/full", LIBRARY]), (4, b"", b"error: /dev/full: write failed\n")
    nowhere = folder / "none" / "o.ifs"
    yield "a file in no folder", run(["stub", f"--output-ifs={nowhere}", LIBRARY]), (
        4, b"", b"error: %s: write failed\n" % bytes(nowhere))
    writer = closed_pipe()
    yield "a closed pipe", run(["stub", "--output-ifs=-", LIBRARY], writer), (4, None, b"error: -: write failed\n")
    os.close(writer)
    before = text.read_bytes()
    damaged = folder / "damaged.so"
    damaged.write_bytes(LIBRARY.read_bytes()[:100])
    status, out, err = run(["stub", f"--output-ifs={text}", damaged])
    yield "a damaged file", (status, out, err[:7 + len(bytes(damaged))]), (1, b"", b"error: " + bytes(damaged))
    yield "the file of an earlier run", (text.read_bytes(),), (before,)
    yield "no text where an output is named", run(["stub", f"--output-elf={stub}", LIBRARY]), (0, b"", b"")
    yield "the text where none is", run(["stub", stub]), (0, TEXT, b"")
    equal = folder / "equal.ifs"
    equal.write_bytes(TEXT)
    equal.chmod(0o444)
    words = ["stub", "--write-if-changed", f"--output-ifs={equal}"]
    yield "an equal file that can't be written", as_nobody([*words, LIBRARY]), (0, b"", b"")
    yield "another one", as_nobody([*words, "--strip-size", LIBRARY]), (4, b"", b"error: %s: write failed\n" % bytes(equal))
    equal.chmod(0o222)
    yield "one that can't be compared", as_nobody([*words, LIBRARY]), (4, b"", b"error: %s: write failed\n" % bytes(equal))
    yield "words", run(["stub"]), (2, b"", b"error: words: NoInput\n")
    yield "words that aren't UTF-8", run(["stub", "--output-ifs=-", b"\xff"]), (2, b"", b"error: words: not UTF-8\n")


def main():
    program = built_program(__doc__.split("\n\n")[0])
    if program is None:
        return 77
    wrong = count = 0
    with tempfile.TemporaryDirectory() as folder:
        for name, came, wanted in cases(program, Path(folder)):
            count += 1
            if came != wanted:
                wrong += 1
                print(f"{name}: {came!r}, wanted {wanted!r}")
    print(f"{count} cases, {wrong} wrong")
    return 1 if wrong else 0


if __name__ == "__main__":
    sys.exit(main())
