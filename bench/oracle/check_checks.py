#!/usr/bin/env python3
"""Works out what the checks of five files among the rows of crates/cases have to print, by bench/oracle/plain_check.py and
bench/oracle/plain_transition.py, which have nothing of the crates.

    bench/oracle/check_checks.py           prints it
"""
import pathlib
import sys

sys.path.insert(0, str(pathlib.Path(__file__).resolve().parent))
import plain_check
import plain_transition

STDIN = pathlib.Path(__file__).resolve().parents[2] / "crates/cases/stdin"


def part_of(told):
    """The bytes that a part of a line stands for."""
    return told.encode("latin-1").decode("unicode_escape").encode("latin-1")


def changed(text, change):
    """The text with another part in the place of the first of a kind."""
    old, new = map(part_of, change.split("|", 1))
    if old not in text:
        sys.exit(f"check_checks: nothing to change: {change}")
    return text.replace(old, new, 1)


def answer(files):
    """The status and the line."""
    for end in plain_check.ENDS:
        if end not in files:
            return 7, f"no such file: p.{end}"
    judge = plain_transition if plain_transition.is_slow(files["rep"]) else plain_check
    return judge.check(files)


def rows():
    """Each check's line, and the lines that have to come."""
    texts, files, name = {}, {}, None
    for line in STDIN.read_text(encoding="latin-1").split("\n"):
        verb, _, rest = line.partition(" ")
        if line.startswith("|"):
            told = line[1:]
            texts[name] += part_of(told[:-1] if told.endswith("\\") else told + "\n")
        elif verb == "text":
            name = rest
            texts[name] = b""
        elif verb == "files":
            files = {end: texts[f"{rest}.{end}"] for end in plain_check.ENDS}
        elif verb == "change":
            end, _, change = rest.partition(" ")
            files[end] = changed(files[end], change)
        elif verb == "missing":
            del files[rest]
        elif verb == "check":
            status, said = answer(files)
            yield line, [f"status {status}", f"|{said}"]


if __name__ == "__main__":
    for row, came in rows():
        print(row, *came, sep="\n")
