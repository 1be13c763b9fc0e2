#!/usr/bin/env python3
"""Puts the built program into real builds: clients of a library are linked against its stub, and a change of code alone
relinks none of them.

    scripts/try_builds.py [--program PATH]

The library and its clients are compiled with gcc. Each build goes through the same changes: nothing, code alone, a new
function, code alone again, and a function that is gone. Link steps are counted by a log that each of them appends to,
and by what ninja tells; and the programs are run, against the library itself.

- ninja: the stub is a file of its own, made of the library by a rule with `restat = 1`; and once more without
  `--write-if-changed`, where all are linked again.
- solink: one rule links the library and writes its stub, as GN's tool of that name does.
- gn: the same, written by GN itself.
- Bazel: a toolchain whose interface library builder is a script of two lines, with Bazel as Debian packs it.
- Bazel's call: the one that its link_dynamic_library.sh makes of such a builder, by hand, and by that script where it is
  installed.

A build whose tool is missing is skipped, and said so. The status is 0 where all went so, 1 where something didn't, and
77 where the program isn't built or nothing could be tried.
"""
import re
import shlex
import shutil
import subprocess
import sys
import tempfile
from pathlib import Path

import bazel_build
from built import built_program

CLIENTS = ["app1", "app2", "app3"]
CLIENT = """#include <stdio.h>
int first(void), second(void);
int main(void) { printf("%d\\n", first() + second()); return 0; }
"""

# What stands at the start of each build file: how the program is called, and how clients are linked.
RULES = r"""
rule cc
  command = gcc -fPIC -c -o $out $in
rule link
  command = echo $out >> links.log && gcc -o $out $in -Wl,-rpath,'$$ORIGIN'
"""
NINJA = RULES + r"""
rule solink
  command = echo $out >> links.log && gcc -shared -Wl,-soname,$out -o $out $in
rule stub
  command = {program} stub --write-if-changed --output-elf=$out $in
  restat = 1
build libx.o: cc libx.c
build libx.so: solink libx.o
build libx.so.ifso: stub libx.so
"""
SOLINK = RULES + r"""
rule solink
  command = echo $lib >> links.log && gcc -shared -Wl,-soname,$lib -o $lib $in && {program} stub --write-if-changed --output-elf=$lib.ifso $lib
  restat = 1
build libx.o: cc libx.c
build libx.so libx.so.ifso: solink libx.o
  lib = libx.so
"""
GN = r"""
toolchain("gcc") {
  tool("cc") {
    command = "gcc -fPIC -c -o {{output}} {{source}}"
    outputs = [ "{{source_out_dir}}/{{source_name_part}}.o" ]
  }
  tool("solink") {
    soname = "{{target_output_name}}{{output_extension}}"
    lib = "{{root_out_dir}}/$soname"
    stub = "$lib.ifso"
    command = "echo $soname >> links.log && gcc -shared -Wl,-soname,$soname -o $lib {{inputs}} && PROGRAM stub --write-if-changed --output-elf=$stub $lib"
    outputs = [ lib, stub ]
    link_output = stub
    depend_output = stub
    runtime_outputs = [ lib ]
    default_output_extension = ".so"
    restat = true
  }
  tool("link") {
    app = "{{root_out_dir}}/{{target_output_name}}"
    command = "echo {{target_output_name}} >> links.log && gcc -o $app {{inputs}} {{solibs}} -Wl,-rpath,'\$ORIGIN'"
    outputs = [ app ]
  }
  tool("stamp") {
    command = "touch {{output}}"
  }
}
shared_library("libx") {
  sources = [ "libx.c" ]
}
"""
GN_CLIENT = """
executable("%s") {
  sources = [ "%s.c" ]
  deps = [ ":libx" ]
}
"""
LINK_SCRIPT = bazel_build.TOOLS / "tools/cpp/link_dynamic_library.sh"


def library(values, more=""):
    """The source of the library: functions that give these values, and what else it has."""
    names = ("first", "second")
    return "".join(f"int {name}(void) {{ return {value}; }}\n" for name, value in zip(names, values)) + more


def run(*command, folder=None):
    return subprocess.run([str(word) for word in command], cwd=folder, capture_output=True, text=True, errors="replace")


def written(path):
    """When a file was written, and None where it isn't there."""
    return path.stat().st_mtime_ns if path.exists() else None


# ---- builds by ninja

class Build:
    """A build in a folder: its source files, and where ninja runs."""

    def __init__(self, sources, out):
        self.sources, self.out, self.steps = sources, out, 0
        for client in CLIENTS:
            (sources / f"{client}.c").write_text(CLIENT)

    def change(self, text):
        (self.sources / "libx.c").write_text(text)

    def ninja(self, *words):
        return run("ninja", *words, folder=self.out)

    def build(self):
        """The status, the files that were linked by the log, and the clients that ninja says it linked."""
        done = self.ninja("-v")
        log = self.out / "links.log"
        lines = log.read_text().split() if log.exists() else []
        new, self.steps = lines[self.steps:], len(lines)
        told = [name for name in CLIENTS if f"-o {name} " in done.stdout or f"-o ./{name} " in done.stdout]
        return done.returncode, sorted(new), told

    def is_done(self):
        return "no work to do" in self.ninja("-n").stdout

    def printed(self):
        return [run(self.out / client).stdout.strip() for client in CLIENTS]

    def stub(self):
        """The bytes of the stub, and when it was written."""
        path = self.out / "libx.so.ifso"
        return path.read_bytes(), written(path)


EVERY, ALONE, NOTHING = (0, [*CLIENTS, "libx.so"], CLIENTS), (0, ["libx.so"], []), (0, [], [])


def always(build):
    """The same where the stub is always written: what is linked again is seen."""
    for values in ((1, 2), (10, 20)):
        build.change(library(values))
        yield f"the code {values}", build.build(), EVERY


def changes(build):
    """The name of each step, what came, and what has to come."""
    build.change(library((1, 2)))
    first = build.build()
    yield "the first build", first, EVERY
    if first != EVERY:
        return
    yield "what it prints", build.printed(), ["3"] * len(CLIENTS)
    yield "nothing more to do", (build.is_done(), build.build()), (True, NOTHING)
    stub = build.stub()
    build.change(library((10, 20)))
    yield "code alone", build.build(), ALONE
    yield "the stub as it was", build.stub(), stub
    yield "the new code is run", build.printed(), ["30"] * len(CLIENTS)
    yield "nothing more to do after code alone", build.is_done(), True
    build.change(library((10, 20), "int third(void) { return 3; }\n"))
    yield "a new function", build.build(), EVERY
    yield "another stub", build.stub()[0] != stub[0], True
    build.change(library((11, 22), "int third(void) { return 3 * 4; }\n"))
    yield "code alone again", build.build(), ALONE
    yield "the newer code is run", build.printed(), ["33"] * len(CLIENTS)
    build.change(library((11,)))
    status, _, _ = build.build()
    yield "a function that is gone is refused", status != 0, True
    build.change(library((5, 6)))
    yield "and taken when it is back", build.build()[0], 0
    yield "with its code", build.printed(), ["11"] * len(CLIENTS)


def by_ninja(rules, program, folder, steps=changes):
    clients = "".join(f"build {name}.o: cc {name}.c\nbuild {name}: link {name}.o libx.so.ifso\n" for name in CLIENTS)
    (folder / "build.ninja").write_text(rules.replace("{program}", program.replace("$", "$$")) + clients)
    yield from steps(Build(folder, folder))


def by_gn(program, folder):
    (folder / ".gn").write_text('buildconfig = "//BUILDCONFIG.gn"\n')
    (folder / "BUILDCONFIG.gn").write_text('set_default_toolchain("//:gcc")\n')
    targets = "".join(GN_CLIENT % (name, name) for name in CLIENTS)
    (folder / "BUILD.gn").write_text(GN.replace("PROGRAM", program) + targets)
    build = Build(folder, folder / "out")
    build.change(library((1, 2)))
    made = run("gn", "gen", "out", folder=folder)
    yield "gn gen", (made.returncode, made.stderr), (0, "")
    yield from changes(build)


class BazelBuild(Build):
    """The same by Bazel, in a workspace of its own."""

    def __init__(self, program, folder):
        self.folder = folder
        super().__init__(bazel_build.write(folder, program, CLIENTS), folder / "work/bazel-bin")

    def bazel(self, verb, *words):
        return run(*bazel_build.command(self.folder, verb, *words), folder=self.sources)

    def build(self):
        """The status, and the files that Bazel says it linked."""
        done = self.bazel("build", "-s", *(f"//:{name}" for name in CLIENTS))
        linked = re.findall(r"^SUBCOMMAND: .*'Linking (\S+)'", done.stderr, re.M)
        return done.returncode, sorted(linked), [name for name in CLIENTS if name in linked]

    def is_done(self):
        return self.build() == NOTHING

    def stub(self):
        """The bytes alone: Bazel takes every output away before it is made again."""
        return (self.out / "libx.ifso").read_bytes(), None


def by_bazel(program, folder):
    build = BazelBuild(program, folder)
    try:
        yield from changes(build)
    finally:
        build.bazel("shutdown")


# ---- Bazel's call

def compiled(folder, name, text):
    (folder / f"{name}.c").write_text(text)
    run("gcc", "-fPIC", "-c", "-o", folder / f"{name}.o", folder / f"{name}.c")
    return folder / f"{name}.o"


def runs_against(stub, lib, folder):
    """What a client prints that is linked against the stub, and finds the library where it runs."""
    client, app = compiled(folder, "app", CLIENT), folder / "app"
    linked = run("gcc", "-o", app, client, stub, f"-Wl,-rpath,{lib.parent}")
    return run(app).stdout if linked.returncode == 0 else linked.stderr


def by_call(program, folder):
    """The builder, called as the script calls it: the library, and where the interface library goes."""
    builder = folder / "build_interface_so"
    builder.write_text(bazel_build.BUILDER % program)
    builder.chmod(0o755)
    lib, stub = folder / "libx.so", folder / "libx.ifso"
    shared = ["-shared", f"-Wl,-soname,{lib.name}", "-o", lib, compiled(folder, "libx", library((1, 2)))]
    run("gcc", *shared)
    yield "two paths", run(builder, lib, stub).returncode, 0
    yield "a client that runs", runs_against(stub, lib, folder), "3\n"
    at, none = written(stub), folder / "none.ifso"
    yield "again", (run(builder, lib, stub).returncode, written(stub)), (0, at)
    yield "a missing library", (run(builder, folder / "none.so", none).returncode, written(none)), (3, None)
    yield "an object", (run(builder, folder / "libx.o", none).returncode, written(none)), (1, None)
    if LINK_SCRIPT.exists():
        yield from by_its_script(builder, shared, folder)
    else:
        print("link_dynamic_library.sh isn't installed: its call is made by hand alone")


def by_its_script(builder, shared, folder):
    """The library linked by Bazel's own script, which then calls the builder."""
    lib, stub, gcc = folder / "libx.so", folder / "libx.ifso", shutil.which("gcc")

    def link(interface, words):
        return run("bash", LINK_SCRIPT, interface, builder, lib, stub, gcc, *words).returncode

    stub.unlink(missing_ok=True)
    yield "the script without an interface", (link("no", shared), stub.exists()), (0, False)
    yield "the script with one", (link("yes", shared), stub.exists()), (0, True)
    at = written(stub)
    compiled(folder, "libx", library((10, 20)))
    yield "the script after code alone", (link("yes", shared), written(stub)), (0, at)
    yield "a client that runs the new code", runs_against(stub, lib, folder), "30\n"
    parameters = folder / "libx.params"
    parameters.write_text("".join(f"{word}\n" for word in ("yes", builder, lib, stub, gcc, *shared)))
    done = run("bash", LINK_SCRIPT, f"@{parameters}")
    yield "the script with a parameter file", (done.returncode, written(stub)), (0, at)
    yield "the script passes a refusal on", link("yes", ["-r", "-o", lib, folder / "libx.o"]), 1


# ---- all of them

BUILDS = {
    "ninja": (["gcc", "ninja"], lambda program, folder: by_ninja(NINJA, program, folder)),
    "ninja, a stub that is always written": (["gcc", "ninja"], lambda program, folder: by_ninja(
        NINJA.replace(" --write-if-changed", ""), program, folder, always)),
    "solink": (["gcc", "ninja"], lambda program, folder: by_ninja(SOLINK, program, folder)),
    "gn": (["gcc", "ninja", "gn"], by_gn),
    "Bazel": (["gcc", "bazel"], by_bazel),
    "Bazel's call": (["gcc", "bash"], by_call),
}


def tried(name, program):
    """The number of steps of a build that went otherwise; None where its tools are missing."""
    tools, make = BUILDS[name]
    missing = [tool for tool in tools if not shutil.which(tool)]
    missing += ["its repositories"] if make == by_bazel and not missing and not bazel_build.is_there() else []
    if missing:
        print(f"{name}: skipped, without {', '.join(missing)}")
        return None
    wrong = count = 0
    with tempfile.TemporaryDirectory(ignore_cleanup_errors=True) as folder:
        for step, came, wanted in make(program, Path(folder)):
            count += 1
            if came != wanted:
                wrong += 1
                print(f"{name}, {step}: {came!r}, wanted {wanted!r}")
    print(f"{name}: {count} steps, {wrong} wrong")
    return wrong


def main():
    program = built_program(__doc__)
    if program is None:
        return 77
    results = [tried(name, shlex.quote(str(program))) for name in BUILDS]
    counted = [wrong for wrong in results if wrong is not None]
    return 77 if not counted else int(any(counted))


if __name__ == "__main__":
    sys.exit(main())
