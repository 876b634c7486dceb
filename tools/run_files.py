"""Reading the files of a run, of stuck lines or of slow ones: its netlist, report and certificate. What isn't one is refused in a line (Bad)."""

import collections
import re

HEADER = ("inputs outputs gates cells chains faults classes patterns cycles limit detected redundant aborted untested coverage "
          "efficiency").split()
SHARES = ("coverage", "efficiency")
STATEMENT = re.compile(r"(?:(\S+) = )?(\w+)\((.*)\)$")
SETTLED = ("detected", "redundant", "aborted")
ENDS = (*SETTLED, "unasked")

# Whether it is of slow lines.
FIRST_LINES = {f"atpg report {version}": False for version in (1, 2, 3, 4)} | {f"atpg transition {version}": True for version in (1, 2)}
SLOW = {"rise": "0", "fall": "1"}  # the bit that a slow line keeps too long

# A line of the report: the fault's text, its line and its bit, what came of it, and where it is detected.
Verdict = collections.namedtuple("Verdict", "fault line bit end pattern cycle pin")

# A report's head: its numbers as they are written, how many patterns detect each fault (none where that isn't counted), the held inputs as pairs of
# name and bit, and whether it is of slow lines.
Head = collections.namedtuple("Head", "numbers times held is_slow")

# A line of the certificate: its number, the fault, how many nodes its tree has (0: it is a refutation) or steps its refutation, whether an end is
# open, and the line's text.
Evidence = collections.namedtuple("Evidence", "number fault nodes steps is_open text")

PlainNetlist = collections.namedtuple("PlainNetlist", "inputs outputs cells definitions kind pins order signals points")


class Bad(Exception):
    """A file isn't what it should be."""


def beside(prefix, end):
    return prefix.with_name(f"{prefix.name}.{end}")


def point_name(point):
    """An observed point as it is called in what is shown."""
    word, name, *_ = point.split(" ")
    return f"output {name}" if word == "out" else f"pin of cell {name}"


class Design:
    """The netlist: what drives each signal, in file order."""

    def __init__(self, path):
        self.inputs, self.outputs, self.kinds, self.pins = [], [], {}, {}
        with open(path, encoding="ascii") as lines:
            for number, line in enumerate(lines, 1):
                match = STATEMENT.match(line)
                if match is None:
                    raise Bad(f"{path} line {number}: no line of a canonical netlist")
                name, word, names = match.groups()
                if name is not None:
                    self.kinds[name], self.pins[name] = word, names.split(", ") if names else []
                elif word == "INPUT":
                    self.inputs.append(names)
                    self.kinds[names], self.pins[names] = "INPUT", []
                else:
                    self.outputs.append(names)

    def points(self):
        """What is observed: outputs, then cells by their pins."""
        return [f"out {name}" for name in self.outputs] + [f"pin {name} 0" for name, kind in self.kinds.items() if kind == "DFF"]

    def signal_at(self, point):
        """The signal that a point observes."""
        return self.signal_of(point)

    def signal_of(self, line):
        """The signal whose value a line carries."""
        word, name, *place = line.split(" ")
        return self.pins[name][int(place[0])] if word == "pin" else name

    def is_point(self, line):
        """Whether a branch leads to an observed point and nothing else."""
        word, name, *_ = line.split(" ")
        return word == "out" or word == "pin" and self.kinds[name] == "DFF"

    def is_source(self, name):
        return self.kinds[name] in ("INPUT", "DFF")

    def as_plain(self):
        """The netlist as bench/oracle/plain_design.py takes it."""
        points = [(point, self.signal_at(point)) for point in self.points()]
        return PlainNetlist(
            inputs=self.inputs, outputs=self.outputs, cells=[name for name, kind in self.kinds.items() if kind == "DFF"],
            definitions=[(name, kind, self.pins[name]) for name, kind in self.kinds.items() if kind != "INPUT"], kind=self.kinds,
            pins=self.pins, order=list(evaluation_order(self)), signals=list(self.kinds), points=lambda: points)


def number_of(line, word, path):
    """What stands behind a word of the head, as it is written."""
    found, _, value = line.rstrip("\n").partition(" ")
    if found != word or not re.fullmatch(r"\d+\.\d\d" if word in SHARES else r"\d+", value):
        raise Bad(f"{path}: no line `{word}` where it should stand")
    return value


def read_head(lines, path):
    """The numbers of a report's head, and no number of detections or held input yet."""
    first = next(lines, "").rstrip("\n")
    is_slow = FIRST_LINES.get(first)
    if is_slow is None:
        raise Bad(f"{path}: no report")
    numbers = {}
    for word in [*HEADER, "detect"] if first == "atpg report 4" else HEADER:
        line = next(lines, "")
        if word == SHARES[0] and (first == "atpg report 3" or first == "atpg report 4" and line.startswith("unasked ")):
            numbers["unasked"], line = number_of(line, "unasked", path), next(lines, "")
        numbers[word] = number_of(line, word, path)
    return Head(numbers, [], [], is_slow)


def fault_of(words, is_slow):
    """A fault's line and bit by the words of its text; None where they are of none of this kind."""
    if is_slow:
        line, bit = " ".join(words[:-1]), SLOW.get(words[-1])
    else:
        line, _, bit = " ".join(words).rpartition("/")
    return (line, bit) if bit in ("0", "1") else None


def verdict_of(text, path, is_slow):
    words = text.split()
    place = next((k for k, word in enumerate(words) if word in ENDS and k >= 2), None)
    fault = None if place is None else fault_of(words[:place], is_slow)
    if fault is None or words[place] == "detected" and len(words) != place + 4:
        raise Bad(f"{path}: no fault's line: {text.rstrip()}")
    seen = (int(words[place + 1]), int(words[place + 2]), words[place + 3]) if words[place] == "detected" else (None, None, None)
    return Verdict(" ".join(words[:place]), *fault, words[place], *seen)


def read_report(path, take):
    """Hands the verdict of each fault to `take`, and answers the head."""
    with open(path, encoding="ascii") as lines:
        head = read_head(lines, path)
        for text in lines:
            if text.startswith("times "):
                head.times.append(int(text.removeprefix("times ")))
            elif text.startswith("hold "):
                _, name, bit = text.split()
                head.held.append((name, int(bit)))
            else:
                take(verdict_of(text, path, head.is_slow))
    return head


def nodes_in(words):
    """How many nodes the words of a tree are, and whether an end is open."""
    nodes = opens = skip = 0
    for word in words:
        if skip:
            skip -= 1
            continue
        nodes += 1
        skip = {"S": 1, "F": 2}.get(word, 0)
        opens += word == "?"
    return nodes, opens > 0


def read_evidence(path, is_slow=False):
    """Each line of the certificate."""
    with open(path, encoding="ascii") as lines:
        if next(lines, "").rstrip("\n") not in [f"atpg {'transition ' * is_slow}certificate {version}" for version in (1, 2)]:
            raise Bad(f"{path}: no certificate{' of slow lines' * is_slow}")
        for number, text in enumerate(lines, 2):
            words = text.split()
            place = (3 if words[0] == "pin" else 2) + is_slow
            fault, line = " ".join(words[:place]), text.rstrip("\n")
            if words[place:place + 1] == ["R"]:
                yield Evidence(number, fault, 0, words[place:].count("("), False, line)
            else:
                nodes, is_open = nodes_in(words[place:])
                yield Evidence(number, fault, nodes, 0, is_open, line)


def evaluation_order(design):
    """Gates after what they read; inputs and cells are known. One pass by counts of what is missing."""
    readers, missing, ready = collections.defaultdict(list), {}, collections.deque()
    for name, pins in design.pins.items():
        if design.is_source(name):
            continue
        missing[name] = sum(not design.is_source(pin) for pin in pins)
        for pin in pins:
            if not design.is_source(pin):
                readers[pin].append(name)
        if missing[name] == 0:
            ready.append(name)
    while ready:
        name = ready.popleft()
        yield name
        for reader in readers[name]:
            missing[reader] -= 1
            if missing[reader] == 0:
                ready.append(reader)
