#!/usr/bin/env python3
"""The repository's own checks, beside the gate of the kit: that its papers say what is there.

Run it anywhere; it reads the files of this checkout, says each fault on standard error and nothing else, and ends
with 1 where there is one.
"""
import os
import re
import shutil
import subprocess
import sys
from pathlib import Path

from completions import commands

TOP = Path(__file__).resolve().parent.parent
OWN = Path(__file__).resolve()
TEXTS = {".md", ".rt", ".antt", ".edit", ".py", ".sh", ".1", ".txt", ""}
# The repository stands alone: no paper of the task is cited by a page, a letter or a number.
CITATION = re.compile(r"[Dd]ocument 0[1-4]\b|\b0[1-4] [A-L]\b|shared/(?:spec|design)|\b[Dd]emand \d|\brequest R\d")
PAPERS = ["README.md", *sorted(f"docs/{path.name}" for path in (TOP / "docs").glob("*.md"))]

CAUSES = {"ifs_words/specs/Printed.antt": "docs/format/words.md", "ifs_edit/specs/Printed.antt": "docs/format/edits.md",
          "ifs_stub/specs/Printed.antt": "docs/format/stub-file.md", "elf_file/specs/Printed.antt": "docs/format/elf-library.md",
          "ifs_text/specs/Cause.antt": "docs/format/ifs-text.md"}
UNSEEN = {"BadGlob", "MissingOption"}


def text_of(path):
    """The text of a file, empty where it isn't there."""
    full = TOP / path
    return full.read_text(encoding="utf-8") if full.exists() else ""


def files():
    """All text files but those that a build made."""
    for at, folders, names in os.walk(TOP):
        folders[:] = sorted(set(folders) - {".git", "out", "data"})
        for path in (Path(at) / name for name in sorted(names)):
            if path.suffix in TEXTS and path != OWN:
                yield path


def crates():
    return re.findall(r"^(\w+)(?: staticlib)?:", text_of("crates.txt"), re.M)


def handles():
    if text_of("HANDLES") != "Handles allowed: none.\n":
        yield "HANDLES isn't its one line"


def citations():
    for path in files():
        for number, line in enumerate(path.read_text(encoding="utf-8", errors="replace").splitlines(), 1):
            if CITATION.search(line):
                yield f"{path.relative_to(TOP)}:{number} cites a paper of the task: {line.strip()[:80]}"


def named_crates():
    for paper in ("docs/PROVED.md", "docs/ARCHITECTURE.md"):
        for name in crates():
            if not re.search(rf"\b{name}\b", text_of(paper)):
                yield f"{paper} says nothing of the crate {name}"


def edits():
    for name in crates():
        crate = TOP / "crates" / name
        if not list(crate.glob("must-fail/*.edit")) and not (crate / "src/main.rt").exists():
            yield f"the crate {name} has no edit that the check must refuse"


def pages():
    return [*PAPERS, *sorted(str(p.relative_to(TOP)) for p in (TOP / "docs/format").glob("*.md"))]


def spans(paper):
    """What stands between single backticks, outside of blocks."""
    return set(re.findall(r"`([^`\n]+)`", re.sub(r"```.*?```", "", text_of(paper), flags=re.S)))


def named_paths():
    """Each path that a page gives is there."""
    for paper in pages():
        links = re.findall(r"\]\(([^)#:]+)\)", text_of(paper))
        missing = [link for link in links if not ((TOP / paper).parent / link).exists()]
        paths = [s for s in spans(paper) if re.fullmatch(r"(?:crates|docs|bench|scripts)/[\w./-]+", s)]
        missing += [path for path in paths if "/out/" not in path and not (TOP / path).exists()]
        for path in missing:
            yield f"{paper} names {path}, which isn't there"


def named_definitions():
    """Each name in a row of the table of definitions stands in the module that the row gives."""
    for row in re.findall(r"^\| `(\w+/specs/\w+\.antt)` \|(.*)\|$", text_of("docs/ARCHITECTURE.md"), re.M):
        module = TOP / "crates" / row[0]
        if not module.exists():
            yield f"docs/ARCHITECTURE.md names {row[0]}, which isn't there"
            continue
        for name in re.findall(r"`([^`]+)`", row[1]):
            if not re.search(rf"(?<!\w){re.escape(name)}(?!\w)", module.read_text(encoding="utf-8")):
                yield f"docs/ARCHITECTURE.md looks for {name} in {row[0]}"


def named_words():
    """Each name with an underscore that a page gives is a word of the code."""
    sources = [p for p in files() if p.suffix in (".rt", ".antt", ".edit")]
    code = set(re.findall(r"\w+", "\n".join(p.read_text(encoding="utf-8") for p in sources)))
    for paper in pages():
        for span in spans(paper):
            if "_" in span and re.fullmatch(r"[A-Za-z]\w*(?:::\w+)*(?:\(\))?", span):
                missing = [word for word in re.findall(r"\w+", span) if word not in code]
                if missing and span not in crates():
                    yield f"{paper} names {span}, which the code doesn't"


def told_options():
    """Each option of the code stands in the page of words, and in the manual where a command of the program takes it."""
    taken = {option for _, options in commands() for option, _ in options}
    for option in re.findall(r'codes "(--[\w-]+)"', text_of("crates/ifs_words/specs/Settings.antt")):
        for paper in ("docs/format/words.md", "docs/ifs.1") if option in taken else ("docs/format/words.md",):
            if option not in text_of(paper).replace("\\-", "-"):
                yield f"{paper} says nothing of {option}"


def told_causes():
    """Each cause that is printed stands in the page of its format, and in the manual unless no line has it yet."""
    for module, paper in CAUSES.items():
        for cause in re.findall(r'^printed_\w+_cause .*codes "([A-Z]\w+)', text_of(f"crates/{module}"), re.M):
            papers = [paper] if cause in UNSEEN else [paper, "docs/ifs.1"]
            for each in papers if cause != "Memory" else []:
                if not re.search(rf"\b{cause}\b", text_of(each)):
                    yield f"{each} says nothing of the cause {cause}"


def readme():
    if text_of("crates/ifs/stdout") not in text_of("README.md"):
        yield "README.md doesn't show what the program prints of crates/ifs/data/libfoo.so"
    if 150 < len(text_of("README.md").splitlines()):
        yield "README.md has more than 150 lines"
    page = text_of("docs/SPEED.md")
    for mark in ("<!-- bench/stub.py fills this -->", "<!-- up to here -->",
                 "<!-- bench/builds.py fills this -->", "<!-- bench/builds.py ends here -->"):
        if page.count(mark) != 1:
            yield f"docs/SPEED.md has not just one {mark}"


def manual():
    if shutil.which("groff"):
        command = ["groff", "-man", "-Tutf8", "-z", "-ww", str(TOP / "docs/ifs.1")]
        done = subprocess.run(command, capture_output=True, text=True, stdin=subprocess.DEVNULL)
        if done.returncode != 0 or done.stderr:
            yield f"docs/ifs.1: {done.stderr.strip()}"


def scripts():
    for path in [*(TOP / "bench").glob("*.py"), *(TOP / "scripts").glob("*.py")]:
        try:
            compile(path.read_text(encoding="utf-8"), str(path), "exec")
        except SyntaxError as error:
            yield f"{path.relative_to(TOP)}: {error}"


def main():
    found = [fault for check in (handles, citations, named_crates, edits, named_paths, named_definitions, named_words,
                                 told_options, told_causes, readme, manual, scripts) for fault in check()]
    for fault in found:
        print(f"check: {fault}", file=sys.stderr)
    return 1 if found else 0


if __name__ == "__main__":
    sys.exit(main())
