"""Which texts are reports, by regular expressions, apart from the crates."""
import re

NUMBER = r"(?:0|[1-9][0-9]*)"
NAME = r"""[!$%&*+\-./0-9:;<>?@A-Z\[\\\]^_`a-z{|}~]+"""
FAULT = rf"(?:(?:stem|out) {NAME}/[01]|pin {NAME} {NUMBER}/[01])"
OUTCOME = rf"(?:redundant|aborted|unasked|detected {NUMBER} {NUMBER} {NAME})"
WORDS = "inputs outputs gates cells chains faults classes patterns cycles limit detected redundant aborted untested"
COUNTS = "".join(rf"{word} {NUMBER}\n" for word in WORDS.split())
SHARES = rf"coverage {NUMBER}\.[0-9][0-9]\nefficiency {NUMBER}\.[0-9][0-9]\n"
HOLD = rf"hold {NAME} [01]\n"
UNASKED = r"unasked [1-9][0-9]*\n"
TIMES = rf"detect {NUMBER}\n(?:times {NUMBER}\n)*"
HEAD = (rf"atpg report 1\n{COUNTS}{SHARES}|atpg report 2\n{COUNTS}{SHARES}(?:{HOLD})+|atpg report 3\n{COUNTS}{UNASKED}{SHARES}(?:{HOLD})*|"
        rf"atpg report 4\n{COUNTS}(?:{UNASKED})?{SHARES}{TIMES}(?:{HOLD})*")
REPORT = re.compile(rf"(?:{HEAD})(?:{FAULT} {OUTCOME}\n)*")


def numbers(text):
    """The numbers of a text of this form."""
    lines = [line.split(" ") for line in text.split("\n")[1:-1]]
    shares = [line[0] for line in lines].index("efficiency") + 1
    for line in lines[:shares]:
        yield line[1].split(".")[0]
    for line in lines[shares:]:
        if line[0] in ("detect", "times"):
            yield line[1]
        if line[0] == "pin":
            yield line[2].split("/")[0]
        if len(line) > 4 and line[-4] == "detected":
            yield from line[-3:-1]


def are_counted(text):
    """Whether detections are counted to 2 or more, and none are counted further; or nothing says that they are."""
    most = re.search(r"^detect (.*)$", text, re.M)
    return most is None or 2 <= int(most[1]) and all(int(found) <= int(most[1]) for found in re.findall(r"^times (.*)$", text, re.M))


def is_report(text):
    return REPORT.fullmatch(text) is not None and all(int(number) < 2**64 for number in numbers(text)) and are_counted(text)
