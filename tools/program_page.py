"""The table of commands of docs/PROGRAM.md, for the man page and the completion that are made of it."""

import collections
import pathlib
import re

ROOT = pathlib.Path(__file__).resolve().parent.parent
PAGE = ROOT / "docs/PROGRAM.md"

# A command line: its word, its places in order (NET, STIL), and the options that it has, each with the word for its value.
Command = collections.namedtuple("Command", "word places options")


def commands_of(text):
    """The commands of the table, in order."""
    for words in re.findall(r"^\| `([a-z]+ [^`]+)` \|", text, re.M):
        word, *places = re.sub(r"\[.*?\]", "", words).split()
        yield Command(word, places, re.findall(r"\[(--\w+) (\w+)\]", words))


def engines_of(text):
    """The values of --engine."""
    return re.search(r"E is the search: `(\w+)`, `(\w+)`, or `(\w+)`", text).groups()
