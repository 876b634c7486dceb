"""What is counted of a report: faults by their ends, by kind of line, by cone and by module; coverage by patterns; sizes of trees."""

import collections
import re

from run_files import ENDS, SETTLED, Bad, evaluation_order

# How many faults the first and the last k patterns detect together, for k from 0; and whether the first are known exactly.
Curves = collections.namedtuple("Curves", "first last is_exact")

# How many trees there are of each size, redundant and aborted apart; the greatest with its fault; and the same of refutations, which have steps.
Sizes = collections.namedtuple("Sizes", "redundant aborted greatest refuted longest")

NO_MODULE = "(no module in the name)"
TOP = "(top)"


def percent(part, whole):
    """Hundredths of a percent, rounded down, as the report has them."""
    hundredths = 10_000 * part // whole if whole else 0
    return f"{hundredths // 100}.{hundredths % 100:02}"


class Tally:
    """How many faults ended in each way."""

    __slots__ = ENDS

    def __init__(self, detected=0, redundant=0, aborted=0, unasked=0):
        self.detected, self.redundant, self.aborted, self.unasked = detected, redundant, aborted, unasked

    def add(self, end, count=1):
        setattr(self, end, getattr(self, end) + count)

    def faults(self):
        return sum(getattr(self, end) for end in ENDS)

    def untested(self):
        return self.redundant + self.aborted

    def testable(self):
        """Those that aren't shown redundant."""
        return self.faults() - self.redundant

    def test_coverage(self):
        """The share of these that is detected; none where there are none."""
        return percent(self.detected, self.testable()) if self.testable() else "-"

    def row(self, ends):
        """What stands in the columns of these ends."""
        counts = [self.faults(), *(getattr(self, end) for end in ends)]
        return [f"{count:,}" for count in counts] + [percent(self.detected, self.faults()), self.test_coverage()]


def columns(ends):
    return ["faults", *ends, "fault coverage", "test coverage"]


class Counts:
    """What is counted as the report goes by."""

    def __init__(self, design):
        self.design = design
        self.by_kind = collections.defaultdict(Tally)
        self.by_owner = collections.defaultdict(Tally)  # a signal, or a point where the line is a branch to it
        self.untested = collections.defaultdict(list)
        self.lasts = collections.Counter()
        self.verdicts = []

    def owner(self, line):
        """The signal whose cone the line belongs to: a stem's own, a pin's gate's; a branch to a point is that point's alone."""
        return line if self.design.is_point(line) else line.split(" ")[1]

    def kind(self, line):
        word, name = line.split(" ")[:2]
        kind = self.design.kinds[name]
        if word == "stem":
            return f"stem of {dict(INPUT='input', DFF='cell').get(kind, kind)}"
        return "branch to output" if word == "out" else f"branch to {'cell' if kind == 'DFF' else kind}"

    def take(self, verdict):
        line, end = verdict.line, verdict.end
        try:
            owner = self.owner(line)
            self.by_kind[self.kind(line)].add(end)
        except (KeyError, ValueError):
            raise Bad(f"the netlist has no line {line}") from None
        self.by_owner[owner].add(end)
        self.verdicts.append(verdict)
        if end == "detected":
            self.lasts[verdict.pattern] += 1
        elif end != "unasked":
            self.untested[line.split(" ")[1]].append(verdict)

    def faults(self):
        return len(self.verdicts)

    def ends(self):
        """The ends that are told of: that faults weren't asked for only where there are such."""
        return ENDS if self.whole().unasked else SETTLED

    def whole(self):
        total = Tally()
        for tally in self.by_kind.values():
            for end in ENDS:
                total.add(end, getattr(tally, end))
        return total


# Cones.

def cone_masks(design):
    """For each signal the set of signals that lead to it, cells and inputs at its ends, as a number with a bit for each."""
    place = {name: k for k, name in enumerate(design.kinds)}
    masks = {name: 1 << place[name] for name in design.kinds if design.is_source(name)}
    for name in evaluation_order(design):
        mask = 1 << place[name]
        for pin in design.pins[name]:
            mask |= masks[pin]
        masks[name] = mask
    return masks


def planes_of(design, by_owner, end):
    """The counts of an end, signal by signal, as planes of bits: plane k has the signals whose count has bit k."""
    planes = []
    for place, name in enumerate(design.kinds):
        tally = by_owner.get(name)
        count, k = getattr(tally, end) if tally else 0, 0
        while count:
            if len(planes) <= k:
                planes.append(bytearray(len(design.kinds) // 8 + 1))
            if count & 1:
                planes[k][place // 8] |= 1 << place % 8
            count, k = count >> 1, k + 1
    return [int.from_bytes(plane, "little") for plane in planes]


def cones(design, by_owner):
    """For each point the tally of the lines that lead to it."""
    masks = cone_masks(design)
    planes = {end: planes_of(design, by_owner, end) for end in ENDS}
    for point in design.points():
        mask, tally = masks[design.signal_at(point)], Tally()
        for end in ENDS:
            tally.add(end, sum((mask & plane).bit_count() << k for k, plane in enumerate(planes[end])))
            own = by_owner.get(point)
            tally.add(end, getattr(own, end) if own else 0)
        yield point, tally


# Modules.

def yosys_names(path):
    """The table that tools/bench_from_yosys writes beside a netlist: Yosys's name of each signal that has another there."""
    return dict(line.split("\t", 1) for line in path.read_text(encoding="utf-8").splitlines() if "\t" in line)


def module_of(name):
    """The modules that a flattened name goes through, from the top, as a tuple; None where only a tool has named the signal."""
    parts = [part.lstrip("\\") for part in re.split(r"[./]", name.removeprefix("$flatten"))]
    made = next((k for k, part in enumerate(parts) if part.startswith("$")), len(parts) - 1)
    return None if made == 0 and parts[0].startswith("$") else tuple(parts[:made])


def by_module(verdicts, names):
    """For each module, by its path, the tally of the lines in it and in those within it; empty where no name has a module."""
    tallies = collections.defaultdict(Tally)
    for verdict in verdicts:
        signal = verdict.line.split(" ")[1]
        path = module_of(names.get(signal, signal))
        if path is None:
            tallies[NO_MODULE].add(verdict.end)
            path = ()
        for depth in range(len(path) + 1):
            tallies[".".join(path[:depth]) or TOP].add(verdict.end)
    return dict(tallies) if set(tallies) - {TOP, NO_MODULE} else {}


# Patterns.

def summed(counts, order):
    sums = [0]
    for pattern in order:
        sums.append(sums[-1] + counts[pattern])
    return sums


def curves_of(lasts, found, count):
    """Of the first patterns by what was found by simulation, else by what the report names: a bound."""
    first = found[0] if found else lasts
    return Curves(summed(first, range(count)), summed(lasts, reversed(range(count))), found is not None)


def reached(curve, faults, below):
    """How few patterns come within so many hundredths of a percent of all faults below what all patterns detect."""
    return next(k for k, detected in enumerate(curve) if 10_000 * detected >= 10_000 * curve[-1] - below * faults)


# Trees and refutations.

def sizes_of(evidence):
    redundant, aborted, refuted = (collections.Counter() for _ in range(3))
    greatest = longest = (0, "")
    for each in evidence:
        # sizes go by powers of two: 1, 2 to 3, 4 to 7, ..
        if each.nodes:
            (aborted if each.is_open else redundant)[each.nodes.bit_length() - 1] += 1
            greatest = max(greatest, (each.nodes, each.fault))
        else:
            refuted[max(1, each.steps).bit_length() - 1] += 1
            longest = max(longest, (each.steps, each.fault))
    return Sizes(redundant, aborted, greatest, refuted, longest)
