#!/usr/bin/env python3
"""Writes shell completions for bash and zsh from the table of options, so that they never lag behind it.

    scripts/completions.py bash|zsh

The options of a command are those that crates/ifs_words/specs/Settings.antt lists for it. The commands are those that
crates/ifs_words/specs/Words.antt tells apart: a table may be there before its command is.
"""
import re
import sys
from pathlib import Path

TABLE = Path(__file__).resolve().parent.parent / "crates/ifs_words/specs/Settings.antt"
WORDS = TABLE.with_name("Words.antt")


def commands():
    """Each command with its options: their names, each with whether it takes a value."""
    text = TABLE.read_text(encoding="utf-8")
    rows = {name: (word, kind != "flag")
            for name, kind, word in re.findall(r'^row_of (\w+) = (\w+) \(codes "(--[\w-]+)"\)', text, re.M)}
    known = re.findall(r'bytes_eq command \(codes "(\w+)"\)', WORDS.read_text(encoding="utf-8"))
    for command, settings in re.findall(r"^(\w+)_settings =((?: .*)?\n(?:    .*\n)*)", text, re.M):
        if command in known:
            yield command, [rows[name] for name in re.findall(r"\w+", settings) if name in rows]


def words_of(options):
    return " ".join(word + ("=" if valued else "") for word, valued in options)


def bash():
    cases = "".join(f'    {command}) words="{words_of(options)}" ;;\n' for command, options in commands())
    names = " ".join(command for command, _ in commands())
    return f"""_ifs() {{
  local word=${{COMP_WORDS[COMP_CWORD]}} words=
  if [ "$COMP_CWORD" -eq 1 ]; then
    COMPREPLY=($(compgen -W "{names}" -- "$word"))
    return
  fi
  case ${{COMP_WORDS[1]}} in
{cases}  esac
  case $word in
    -*) COMPREPLY=($(compgen -W "$words" -- "$word")); [[ ${{COMPREPLY[0]-}} == *= ]] && compopt -o nospace ;;
    *) COMPREPLY=($(compgen -f -- "$word")) ;;
  esac
}}
complete -o filenames -F _ifs ifs
"""


def zsh():
    cases = "".join(f"    {command}) _arguments {' '.join(zsh_option(o) for o in options)} '*:file:_files' ;;\n"
                    for command, options in commands())
    names = " ".join(command for command, _ in commands())
    return f"""#compdef ifs
if (( CURRENT == 2 )); then
  compadd {names}
else
  local command=$words[2]
  shift words
  (( CURRENT-- ))
  case $command in
{cases}  esac
fi
"""


def zsh_option(option):
    word, valued = option
    return f"'{word}=:value:_files'" if valued else f"'{word}'"


def main():
    writers = {"bash": bash, "zsh": zsh}
    if len(sys.argv) != 2 or sys.argv[1] not in writers:
        print(__doc__, file=sys.stderr)
        return 2
    sys.stdout.write(writers[sys.argv[1]]())
    return 0


if __name__ == "__main__":
    sys.exit(main())
