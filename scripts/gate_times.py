#!/usr/bin/env python3
"""Runs a command of the gate and tells how many processor seconds it takes for each crate.

    scripts/gate_times.py [--page PATH] [--anew] [NAME ..]

`rt ci`, with the names of crates if there are some, is run at the top of the checkout, and its checks are looked at once a
second: each is a process that names its crate, in a folder of its own where an edit is tried. Without `--anew` what
an earlier run passed on this machine is not done again, and takes no time. `--page` writes the table to that file.
The status is that of `rt ci`.
"""
import argparse
import os
import subprocess
import sys
import time
from collections import defaultdict
from pathlib import Path

TOP = Path(__file__).resolve().parent.parent
TICKS = os.sysconf("SC_CLK_TCK")
KINDS = ("proof", "tests", "edits")


def checks(top):
    """The checks that run for that process: an identity, their crate and kind, and their processor seconds."""
    for entry in Path("/proc").iterdir():
        if not entry.name.isdigit():
            continue
        try:
            words = (entry / "cmdline").read_bytes().split(b"\0")
            fields = (entry / "stat").read_text().rsplit(")", 1)[1].split()
            folder = os.readlink(entry / "cwd")
        except OSError:
            continue
        if b"--crate-name" in words and fields[2 - 1] == str(top):
            name = words[words.index(b"--crate-name") + 1].decode()
            kind = "edits" if "/rt-edit-" in folder else "tests" if b"--test" in words else "proof"
            yield (entry.name, fields[19]), (name.removesuffix("_tests"), kind), (int(fields[11]) + int(fields[12])) / TICKS


def watch(process):
    """The processor seconds of each crate and kind while the process runs."""
    seconds, owners = {}, {}
    while process.poll() is None:
        for check, owner, spent in checks(process.pid):
            seconds[check], owners[check] = spent, owner
        time.sleep(1)
    totals = defaultdict(float)
    for check, spent in seconds.items():
        totals[owners[check]] += spent
    return totals


def table(totals, passed):
    names = sorted({name for name, _ in totals})
    lines = ["| Crate | Proof | Tests | Edits | Together |", "|:---|---:|---:|---:|---:|"]
    for name in names:
        each = [totals[name, kind] for kind in KINDS]
        lines.append(f"| `{name}` | " + " | ".join(f"{spent / 60:.1f}" for spent in [*each, sum(each)]) + " |")
    whole = [sum(totals[name, kind] for name in names) for kind in KINDS]
    lines.append("| all | " + " | ".join(f"{spent / 60:.1f}" for spent in [*whole, sum(whole)]) + " |")
    return "\n".join(lines) + f"\n\nProcessor minutes; the run took {passed / 60:.0f} minutes on {os.cpu_count()} processors.\n"


def main():
    parser = argparse.ArgumentParser(description=__doc__, formatter_class=argparse.RawDescriptionHelpFormatter)
    parser.add_argument("--page", help="write the table to this file")
    parser.add_argument("--anew", action="store_true", help="prove all again")
    parser.add_argument("names", nargs="*", help="crates; the whole gate without any")
    args = parser.parse_args()
    start = time.monotonic()
    process = subprocess.Popen(["rt", "ci", *(["--anew"] if args.anew else []), *args.names], cwd=TOP)
    totals = watch(process)
    told = table(totals, time.monotonic() - start)
    print(told)
    if args.page:
        Path(args.page).write_text(told, encoding="utf-8")
    return process.returncode


if __name__ == "__main__":
    sys.exit(main())
