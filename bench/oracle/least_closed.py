#!/usr/bin/env python3
"""That each tree which shows one redundant fault of the example datapath has 128 Closed at least: the fault's effect goes into eight slices
of a bus, and all eight have to be decided.

    bench/oracle/least_closed.py

The reason; what is marked by a letter is worked out here for all patterns. What a tree is stands in docs/CERTIFICATE_AND_REPORT.md.

Take 512 patterns: a bit is free in each of seven slices, two are in the eighth, all else is fixed. No pattern detects the fault, so each lies
below a closed label: at a Closed, or at the closed side of a Forced. A label that has several patterns below it decides only signals that
have one value in all of them; deciding all of these tells no less. Call four patterns that differ in the eighth slice alone a square.

a. Where no signal is decided that follows one slice's bit alone, an observed point may differ. So a closed label tells all seven bits, and
   what lies below it is in one square.
b. Where two opposite corners of a square lie below a label, an observed point may differ. So a closed label has two patterns at most.
c. Where one of seven bits is told by one decision at a closed label, two opposite corners of the neighbouring square never lie below the
   label without that decision. So at a Forced, which takes one decision less than its closed side, four patterns lie at most.

Some Closed lies below each Forced, as below every node. So to a Closed come four patterns at most: its own and those that the highest Forced
above it keeps. 512 patterns need 128 Closed.
"""
import functools
import itertools
import pathlib

import plain_design

NETLIST = pathlib.Path(__file__).resolve().parents[2] / "examples" / "datapath.bench"
GATE, PIN, STUCK = "n146", 0, 1
SLICES = [f"memory_out[{k}]" for k in (0, 1, 2, 3, 4, 5, 7)]
EIGHTH = ["address[6]", "memory_out[6]"]
OPPOSITE = [((0, 0), (1, 1)), ((0, 1), (1, 0))]
ONES = ["busy", "does[0]", "does[1]"]  # the OR of both operands is written into register 0; all else is 0


def through(kind, values):
    """What a gate makes of 0, 1 and None, which is unknown."""
    if kind in ("CONST0", "CONST1"):
        return int(kind == "CONST1")
    if kind in ("AND", "NAND", "OR", "NOR"):
        controls = int(kind in ("OR", "NOR"))
        made = controls if controls in values else None if None in values else 1 - controls
    else:
        made = None if None in values else functools.reduce(int.__xor__, values)
    return 1 - made if made is not None and kind in ("NAND", "NOR", "XNOR", "NOT") else made


def settled(netlist, pattern):
    values = dict(pattern)
    for name in netlist.order:
        values[name] = through(netlist.kind[name], [values[pin] for pin in netlist.pins[name]])
    return values


def may_differ(netlist, decided):
    """Whether an observed point may differ under the label in which these signals are decided."""
    good = {name: decided.get(name) for name in netlist.inputs + netlist.cells}
    faulty, differs = dict(good), dict.fromkeys(good, False)
    for name in netlist.order:
        kind, pins = netlist.kind[name], netlist.pins[name]
        good[name] = decided[name] if name in decided else through(kind, [good[pin] for pin in pins])
        read = [faulty[pin] for pin in pins]
        told = [differs[pin] for pin in pins]
        if name == GATE:
            read[PIN], told[PIN] = STUCK, good[pins[PIN]] != STUCK
        faulty[name] = through(kind, read) if any(told) else good[name]
        differs[name] = any(told) and not (good[name] is not None and good[name] == faulty[name])
    return any(differs[name] for _, name in netlist.points())


class Patterns:
    """The settled values of each of the patterns, by its bits: those of seven slices, and the two of the eighth."""

    def __init__(self, netlist):
        fixed = {name: int(name in ONES) for name in netlist.inputs + netlist.cells}
        self.netlist = netlist
        self.settled = {bits: settled(netlist, fixed | dict(zip(SLICES + EIGHTH, bits))) for bits in itertools.product((0, 1), repeat=9)}
        self.read = {name: {name} & set(SLICES + EIGHTH) for name in fixed}
        for name in netlist.order:
            self.read[name] = set().union(*(self.read[pin] for pin in netlist.pins[name]))

    def neighbour(self, bits, k):
        return bits[:k] + (1 - bits[k],) + bits[k + 1:]

    def corners(self, bits):
        return [[bits[:7] + corner for corner in pair] for pair in OPPOSITE]

    def followers(self, bits, k):
        """The signals that read the bit of a slice and no other, and change with it."""
        here, there = self.settled[bits], self.settled[self.neighbour(bits, k)]
        return {name for name, read in self.read.items() if read == {SLICES[k]} and here[name] != there[name]}

    def common(self, several):
        """The signals that have one value in several patterns, with it."""
        first, *others = (self.settled[bits] for bits in several)
        return {name: value for name, value in first.items() if all(other[name] == value for other in others)}

    def told_without(self, bits, k):
        followers = self.followers(bits, k)
        return {name: value for name, value in self.settled[bits].items() if name not in followers}

    def told_beside(self, bits, k, pair):
        here = self.settled[bits]
        return self.common([bits, *pair]) | {name: here[name] for name in self.followers(bits, k)}

    def labels(self):
        """The labels of a, b and c."""
        for bits in self.settled:
            for k in range(7):
                yield "a", self.told_without(bits, k)
                yield from (("c", self.told_beside(bits, k, pair)) for pair in self.corners(self.neighbour(bits, k)))
            yield from (("b", self.common(pair)) for pair in self.corners(bits))


def main():
    patterns = Patterns(plain_design.read(NETLIST.read_bytes()))
    seen = dict.fromkeys("abc", 0)
    for letter, decided in patterns.labels():
        if not may_differ(patterns.netlist, decided):
            print(f"{letter} is false")
            return 1
        seen[letter] += 1
    print("may differ:", ", ".join(f"{letter} {count} labels" for letter, count in seen.items()))
    return 0


if __name__ == "__main__":
    raise SystemExit(main())
