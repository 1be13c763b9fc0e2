#!/usr/bin/env python3
"""Times builds by ninja after a change of code alone: 40 clients of one library of 500 functions.

    bench/builds.py [--program PATH] [--peer PATH] [--fill]

Three builds are timed in turns, and the best counts: the clients are linked against the stub that `ifs stub` writes,
against the one that llvm-ifs writes, and against the library itself. The first two link no client then, and the last all
of them, which is seen to. A change is tried in two ways: another library is put there ready-made, so that what is timed
is ninja and the stub; or the library is compiled and linked in the build too. Times are those that pass, since builds do
several things at once. The status is 1 where a build fails or links other than it should, or where a bound below is
passed, and 77 where a tool is missing.
"""
import argparse
import os
import shlex
import shutil
import subprocess
import sys
import tempfile
import time
from pathlib import Path

from stub import TOP, fill, find_peer, machine

CLIENTS, FUNCTIONS = 40, 500
MARKS = ("<!-- bench/builds.py fills this -->", "<!-- bench/builds.py ends here -->")
RUNS, LINKING_RUNS = 41, 5  # of builds that link no client, and of those that do

# What is wanted: of the build with llvm-ifs half of the time, where the library is put there ready-made.
RATIO = 0.5

RULES = """
rule cc
  command = gcc -fPIC -c -o $out $in
rule solink
  command = gcc -shared -Wl,-soname,libx.so -o $out $in
rule stub
  command = {stub}
  restat = 1
rule link
  command = echo $out >> links.log && gcc -o $out $in -Wl,-rpath,'$$ORIGIN'
"""
COMPILED = """build libx.o: cc libx.c
build libx.so: solink libx.o
"""
STUB = "build libx.so.ifso: stub libx.so\n"


def library_source(turn):
    """500 functions, whose code alone differs from turn to turn."""
    return "".join(f"int function_{i:03}(int x) {{ return x * {i + 2} + {turn}; }}\n" for i in range(FUNCTIONS))


def client_source(number):
    """A client that calls a few of them."""
    names = [f"function_{(number * 12 + i) % FUNCTIONS:03}" for i in range(12)]
    calls = " + ".join(f"{name}(1)" for name in names)
    return "".join(f"int {name}(int);\n" for name in names) + f"int main(void) {{ return ({calls}) == 0; }}\n"


class Build:
    """A build in a folder: how the stub is written, if it is, and whether the library is compiled in the build."""

    def __init__(self, folder, stub, compiled):
        self.folder, self.compiled, self.links = folder, compiled, CLIENTS if stub is None else 0
        folder.mkdir(parents=True)
        against = "libx.so" if stub is None else "libx.so.ifso"
        text = RULES.replace("{stub}", stub or "false") + (COMPILED if compiled else "") + (STUB if stub else "")
        for number in range(CLIENTS):
            (folder / f"app{number}.c").write_text(client_source(number))
            text += f"build app{number}.o: cc app{number}.c\nbuild app{number}: link app{number}.o {against}\n"
        (folder / "build.ninja").write_text(text)

    def change(self, turn, libraries):
        """Other code, as a source file or as a library that is ready."""
        if self.compiled:
            (self.folder / "libx.c").write_text(library_source(turn))
        else:
            shutil.copyfile(libraries[turn % 2], self.folder / "libx.so")

    def run(self):
        """The seconds that a build takes."""
        log = self.folder / "links.log"
        log.write_text("")
        start = time.perf_counter()
        done = subprocess.run(["ninja", "-C", self.folder], capture_output=True, text=True)
        took = time.perf_counter() - start
        if done.returncode != 0:
            sys.exit(f"ninja ended with {done.returncode}: {done.stdout[-500:]}")
        self.linked = len(log.read_text().split())
        return took

    def timed(self, turn, libraries):
        self.change(turn, libraries)
        took = self.run()
        if self.linked != self.links:
            sys.exit(f"{self.folder.name}: {self.linked} clients were linked, and not {self.links}")
        return took


def made_libraries(folder):
    """Two libraries that differ in code alone."""
    paths = []
    for turn in (0, 1):
        source, path = folder / f"lib{turn}.c", folder / f"lib{turn}.so"
        source.write_text(library_source(turn))
        subprocess.run(["gcc", "-shared", "-fPIC", "-Wl,-soname,libx.so", "-o", path, source], check=True)
        paths.append(path)
    return paths


def commands(program, peer):
    """How each build writes the stub."""
    given = [[program, "stub", "--write-if-changed", "--output-elf=$out", "$in"]]
    if peer:
        given.append([peer, "--write-if-changed", "--input-format=ELF", "--output-elf=$out", "$in"])
    return [" ".join([shlex.quote(words[0]).replace("$", "$$"), *words[1:]]) for words in given]


def measured(folder, stubs, compiled, libraries):
    """The best time of each build, in turns: with each way to write the stub, and without one."""
    builds = [Build(folder / name, stub, compiled) for name, stub in zip(("own", "peer"), stubs)]
    against = Build(folder / "none", None, compiled)
    for build in (*builds, against):
        build.change(0, libraries)
        build.run()
    seen = [[] for _ in builds]
    for turn in range(1, RUNS + 1):
        for build, times in zip(builds, seen):
            times.append(build.timed(turn, libraries))
    linking = min(against.timed(turn, libraries) for turn in range(1, LINKING_RUNS + 1))
    best = [min(times) for times in seen]
    return best[0], best[1] if len(best) > 1 else None, linking


def cells(told, own, peer, linking):
    beside = [f"{peer * 1000:.0f} ms", f"{own / peer:.2f}"] if peer else ["", ""]
    return f"| {' | '.join([told, f'{own * 1000:.0f} ms', *beside, f'{linking * 1000:.0f} ms'])} |"


def table(ready, compiled):
    return "\n".join(["| The library | Build with `ifs stub` | with llvm-ifs | llvm-ifs = 1 | without a stub |",
                      "|:---|---:|---:|---:|---:|",
                      cells("is there", *ready), cells("is compiled and linked in the build", *compiled)])


def main():
    parser = argparse.ArgumentParser(description=__doc__, formatter_class=argparse.RawDescriptionHelpFormatter)
    parser.add_argument("--program", default=str(TOP / "crates/ifs/out/ifs"), help="the built program")
    parser.add_argument("--peer", default=find_peer(), help="the llvm-ifs that is compared with")
    parser.add_argument("--fill", action="store_true", help="put the table into docs/SPEED.md")
    args = parser.parse_args()
    program = Path(args.program).resolve()
    if not program.is_file() or not all(shutil.which(tool) for tool in ("gcc", "ninja")):
        print("skipped: the program isn't built, or gcc or ninja is missing")
        return 77
    load, stubs = os.getloadavg()[0], commands(str(program), args.peer)
    with tempfile.TemporaryDirectory() as folder:
        libraries = made_libraries(Path(folder))
        ready, compiled = (measured(Path(folder) / f"build{way}", stubs, way, libraries) for way in (False, True))
    text = f"{table(ready, compiled)}\n\n{machine(args.peer, load)}"
    print(text)
    if args.fill:
        fill(TOP / "docs/SPEED.md", text, MARKS)
    if not args.peer:
        return 0
    ratio = ready[0] / ready[1]
    print(f"{'within' if ratio <= RATIO else 'PASSED'}  {ratio:.2f} of the build with llvm-ifs, at most {RATIO}")
    return 0 if ratio <= RATIO else 1


if __name__ == "__main__":
    sys.exit(main())
