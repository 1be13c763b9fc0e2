"""The built program, as the scripts here take it."""
import argparse
from pathlib import Path
from typing import Optional

TOP = Path(__file__).resolve().parent.parent


def built_program(about) -> Optional[Path]:
    """The program that the words of a script name, or the one of this checkout; None, once that is said, where it isn't there."""
    parser = argparse.ArgumentParser(description=about, formatter_class=argparse.RawDescriptionHelpFormatter)
    parser.add_argument("--program", default=str(TOP / "crates/ifs/out/ifs"), help="the built program")
    program = Path(parser.parse_args().program).resolve()
    if program.is_file():
        return program
    print("skipped: the program isn't built")
    return None
