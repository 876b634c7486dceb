"""Which of a test's patterns is the first to detect each fault: by simulating the patterns of the STIL file, all at a time, apart from the
crates. A report names the last one, so the first k patterns' coverage takes a simulation.

Detecting is by the netlist with the pattern's inputs and cells, at an output or at a cell's pin; what a tester sees before the first
pattern, while it flushes the chains, doesn't count."""

import collections
import heapq
import pathlib
import sys

sys.path.insert(0, str(pathlib.Path(__file__).resolve().parent.parent / "bench/oracle"))
import plain_check  # noqa: E402
import plain_design as plain  # noqa: E402
import plain_transition  # noqa: E402

from run_files import beside, evaluation_order  # noqa: E402

MOST_STEPS = 8_000_000  # gates evaluated: about half a minute


def packed(patterns, sources):
    """For each input and cell a number whose bit j is that of pattern j."""
    return {name: sum(pattern[name] << j for j, pattern in enumerate(patterns)) for name in sources}


class Simulation:
    """The good values of many patterns at a time, and what a stuck line changes of them."""

    def __init__(self, design, sources, ones):
        self.design, self.ones, self.steps = design, ones, 0
        self.order = {name: place for place, name in enumerate(evaluation_order(design))}
        self.readers, self.seen = collections.defaultdict(list), {design.signal_at(point) for point in design.points()}
        self.good = dict(sources)
        for name in self.order:
            self.good[name] = plain.gate(design.kinds[name], [self.good[pin] for pin in design.pins[name]], self.ones)
            for pin in design.pins[name]:
                self.readers[pin].append(name)

    def told(self, line, bit):
        """The patterns that detect a line stuck at a bit, as the bits of a number."""
        stuck = self.ones if bit == "1" else 0
        words = line.split(" ")
        name = words[1]
        if words[0] == "out":
            return self.good[name] ^ stuck
        if words[0] == "stem":
            return self.spread({name: stuck})
        if self.design.kinds[name] == "DFF":
            return self.good[self.design.pins[name][0]] ^ stuck
        pins = [stuck if k == int(words[2]) else self.good[pin] for k, pin in enumerate(self.design.pins[name])]
        return self.spread({name: plain.gate(self.design.kinds[name], pins, self.ones)})

    def spread(self, changed):
        """Where a changed signal is told: gate by gate in order, as far as something differs."""
        told, ahead = 0, []
        (name, value), = changed.items()
        while True:
            if value != self.good[name]:
                changed[name] = value
                told |= value ^ self.good[name] if name in self.seen else 0
                for reader in self.readers[name]:
                    heapq.heappush(ahead, (self.order[reader], reader))
            if not ahead:
                return told
            _, name = heapq.heappop(ahead)
            while ahead and ahead[0][1] == name:
                heapq.heappop(ahead)
            self.steps += 1
            value = plain.gate(self.design.kinds[name], [changed.get(pin, self.good[pin]) for pin in self.design.pins[name]], self.ones)


class Launches(Simulation):
    """The same of slow lines by launch on capture: what they change is seen behind a second capture, in patterns that launch them."""

    def __init__(self, design, sources, ones):
        first = Simulation(design, sources, ones)
        taken = {name: first.good[design.pins[name][0]] for name, kind in design.kinds.items() if kind == "DFF"}
        super().__init__(design, sources | taken, ones)
        self.first = first.good

    def told(self, line, bit):
        launched = self.first[self.design.signal_of(line)] ^ (0 if bit == "1" else self.ones)
        return super().told(line, bit) & launched


def patterns_of(prefix, design, head):
    """The patterns of the STIL file; None where it isn't that of patterns."""
    tokens = plain.stil_tokens(beside(prefix, "stil").read_bytes())
    netlist = design.as_plain()
    chains = plain.chains_of(netlist.cells, int(head.numbers["chains"]))
    if not tokens or b"Pattern" not in tokens:
        return None
    if head.is_slow:
        try:
            return plain_transition.patterns_of(tokens, netlist, chains, dict(head.held))
        except (IndexError, ValueError):  # fewer words than such a test has
            return None
    return plain_check.patterns_of(tokens, netlist, chains, dict(head.held))


def firsts(prefix, design, head, verdicts, most=MOST_STEPS):
    """How many faults each pattern is the first to detect; and a fault whose last one isn't as the report says, if there is one.

    None in place of both where the file isn't that of the report's patterns, or where it is more work than is done unasked."""
    patterns = patterns_of(prefix, design, head)
    if patterns is None or len(patterns) != int(head.numbers["patterns"]):
        return None
    sources = packed(patterns, filter(design.is_source, design.kinds))
    simulation = (Launches if head.is_slow else Simulation)(design, sources, (1 << len(patterns)) - 1)
    counts, wrong = collections.Counter(), None
    for verdict in verdicts:
        if verdict.end != "detected":
            continue
        told = simulation.told(verdict.line, verdict.bit)
        if simulation.steps > most:
            return None
        if wrong is None and told.bit_length() - 1 != verdict.pattern:
            wrong = verdict.fault
        if told:
            counts[(told & -told).bit_length() - 1] += 1
    return counts, wrong
