#!/usr/bin/env python3
"""Lets real tools take stub libraries that the built program writes.

Usage: scripts/link_stubs.py

For each machine whose gcc is installed (x86-64, and of Debian's cross compilers AArch64, i386, a big-endian one)
a small library is compiled, its stub written, and then:
- readelf -aW of the stub prints no warning;
- each linker that is there (ld.bfd, gold, lld) links small programs, compiled with -fPIE and with -fPIC, against the
  library and against the stub, and both programs want the same names, need the same libraries and copy the same data;
- the stub of the stub is the stub, and its text is the library's.

Ends with 0 where all agree but for what docs/DECISIONS.md tells of (`known`), with 1 where something doesn't, and with
77 where nothing could be tried.
"""
import collections
import itertools
import re
import shutil
import subprocess
import sys
import tempfile
from pathlib import Path

TOP = Path(__file__).resolve().parent.parent
PROGRAM = TOP / "crates/ifs/out/ifs"
COMPILERS = ["x86_64-linux-gnu-gcc", "aarch64-linux-gnu-gcc", "i686-linux-gnu-gcc", "s390x-linux-gnu-gcc", "powerpc-linux-gnu-gcc"]
LINKERS = ["bfd", "gold", "lld"]
MODELS = ["-fPIE", "-fPIC"]  # with -fPIE a program may have copies of the library's data
LIBRARY = """
int counter = 3, other = 4;
__attribute__((weak)) int spare = 5;
__thread int local = 4;
int twice(int x) { return 2 * x; }
__attribute__((weak)) int maybe(int x) { return x; }
__attribute__((visibility("hidden"))) int hidden(void) { return 1; }
"""
CLIENTS = {
    "functions": "extern int twice(int), maybe(int); int main(void) { return twice(1) + maybe(1); }",
    "data": "extern int counter, twice(int); int main(void) { return twice(counter); }",
    "weak data": "extern int spare; int main(void) { return spare; }",
}


def run(*command):
    return subprocess.run([str(word) for word in command], capture_output=True, text=True)


def wants(program):
    """The undefined names of a program and those of data that it copies, and the libraries that it needs."""
    rows = run("readelf", "--dyn-syms", "-W", program).stdout
    names = sorted({*re.findall(r" UND (\w+)", rows), *re.findall(r"OBJECT .* (\w+)$", rows, re.M)})
    needed = re.findall(r"\(NEEDED\).*\[(.*)\]", run("readelf", "-d", "-W", program).stdout)
    return names, needed


def made_library(compiler, folder):
    """The library, its stub and its text, or why there is none."""
    (folder / "lib.c").write_text(LIBRARY)
    for name, source in CLIENTS.items():
        (folder / f"{name}.c").write_text(source)
    lld = shutil.which("ld.lld") or shutil.which("ld.lld-14")
    if lld:
        (folder / "ld.lld").symlink_to(lld)  # it links for all machines, and cross compilers look for it by another name
    library, stub = folder / "libsmall.so", folder / "stub/libsmall.so"
    stub.parent.mkdir(exist_ok=True)
    made = run(compiler, "-shared", "-fPIC", "-nostdlib", "-Wl,-soname,libsmall.so", "-o", library, folder / "lib.c")
    if made.returncode:
        return None, f"the library isn't compiled: {made.stderr.strip()}"
    text = run(PROGRAM, "stub", "--output-ifs=-", f"--output-elf={stub}", library)
    if text.returncode:
        return None, text.stderr.strip()
    return (library, stub, text.stdout), None


def stub_faults(stub, text, folder):
    """What readelf warns of, and whether the stub of the stub is the stub."""
    for line in run("readelf", "-aW", stub).stderr.splitlines():
        if line:
            yield f"readelf: {line}"
    again = folder / "again.so"
    if run(PROGRAM, "stub", "--output-ifs=-", f"--output-elf={again}", stub).stdout != text:
        yield "the stub has another text"
    elif again.read_bytes() != stub.read_bytes():
        yield "the stub of the stub is another file"


def linked(compiler, linker, model, client, side):
    """What the program wants that is linked against this side, or why it isn't linked."""
    program = client.with_suffix("")
    done = run(compiler, f"-B{client.parent}", f"-fuse-ld={linker}", "-nostartfiles", "-nostdlib", model, "-pie", "-Wl,-e,main",
               "-o", program, client, side)
    return (wants(program), None) if done.returncode == 0 else (None, done.stderr.strip())


def try_client(compiler, linker, model, client, library, stub):
    """What is wrong with the client that is linked against the stub; None where it isn't even linked against the library."""
    by_library, fault = linked(compiler, linker, model, client, library)
    if fault:
        return None  # this linker isn't there, or doesn't know the machine
    by_stub, fault = linked(compiler, linker, model, client, stub)
    if fault:
        return f"refuses the stub: {fault}"
    return "" if by_library == by_stub else f"differs: {by_library} by the library, {by_stub} by the stub"


def is_known_link(linker, model, client):
    """Whether docs/DECISIONS.md tells of differences here: copies of data, and ld.bfd with data that is weak."""
    return client != "functions" and model == "-fPIE" or client == "weak data" and linker == "bfd"


def is_known_warning(fault):
    """Whether docs/DECISIONS.md tells of it: readelf and the hash words of s390x."""
    return "Invalid number of dynamic entries" in fault


def try_machine(compiler, folder):
    """The faults that are known, the others, and how often linkers agree."""
    made, fault = made_library(compiler, folder)
    if fault:
        return [], [fault], {}
    library, stub, text = made
    known, wrong, agree = [], [], collections.Counter()
    for fault in stub_faults(stub, text, folder):
        (known if is_known_warning(fault) else wrong).append(fault)
    for linker, model, client in itertools.product(LINKERS, MODELS, CLIENTS):
        fault = try_client(compiler, linker, model, folder / f"{client}.c", library, stub)
        if fault:
            (known if is_known_link(linker, model, client) else wrong).append(f"{linker} {model}, {client}: {fault}")
        elif fault is not None:
            agree[linker] += 1
    return known, wrong, agree


def main():
    if not PROGRAM.exists() or not shutil.which("readelf"):
        print("skipped: the program isn't built, or there is no readelf")
        return 77
    status = 77
    for compiler in COMPILERS:
        if not shutil.which(compiler):
            print(f"{compiler}: not installed")
            continue
        with tempfile.TemporaryDirectory() as folder:
            known, wrong, agree = try_machine(compiler, Path(folder))
        counts = ", ".join(f"{linker} {count}" for linker, count in agree.items())
        print(f"{compiler}: of {len(MODELS) * len(CLIENTS)} programs agree by {counts or 'no linker'}")
        for sort, faults in (("known", known), ("WRONG", wrong)):
            for fault in faults:
                print(f"  {sort}: {fault}")
        status = 1 if wrong else (0 if status == 77 else status)
    return status


if __name__ == "__main__":
    sys.exit(main())
