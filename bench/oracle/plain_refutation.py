#!/usr/bin/env python3
"""Whether refutations hold, by their page in docs/CERTIFICATE_AND_REPORT.md alone: a plain program apart from the crates.

    bench/oracle/plain_refutation.py NET FILE [--hold LIST]     FILE has lines `FAULT R STEPS`; other lines are passed over

Prints each line that is no refutation of its fault, with the first cause, and how many are. The status is 1 where one isn't.
"""

import argparse
import pathlib
import re
import sys

import plain_design as plain

NUMBER = r"(?:0|[1-9][0-9]*)"
LITERAL = rf"{NUMBER}:[01]{{4}}"
REASON = rf"(?:={NUMBER}|\*{NUMBER}|!|~)"
MOVE = rf"(?:{LITERAL} {REASON}|~)"
STEP = re.compile(rf" \( ((?:{LITERAL} )*); ((?:{MOVE} )*); ({REASON}) \)")
PAIRS = [(0, 0), (0, 1), (1, 0), (1, 1)]  # without the fault, with it: the bits of a set from the left
ANY, SAME = frozenset(PAIRS), frozenset([(0, 0), (1, 1)])


class NoText(Exception):
    """A text of no steps."""


class Wrong(Exception):
    """Why steps don't refute a fault."""


# Reading.

def number_of(text):
    value = int(text)
    if value >= 2 ** 32:
        raise NoText(f"{text} is too large")
    return value


def literal_of(text):
    signal, bits = text.split(":")
    return number_of(signal), frozenset(pair for pair, bit in zip(PAIRS, bits) if bit == "1")


def reason_of(text):
    return (text[0], number_of(text[1:])) if text[0] in "=*" else (text, None)


def moves_of(text):
    words, moves = text.split(), []
    while words:
        if words[0] == "~":
            moves.append(("~", None, None))
            words = words[1:]
        else:
            moves.append((":", literal_of(words[0]), reason_of(words[1])))
            words = words[2:]
    return moves


def steps_of(text):
    """The steps of a text: for each its clause, its moves and its last reason."""
    steps, place = [], 0
    while place < len(text):
        match = STEP.match(text, place)
        if match is None:
            raise NoText(f"no step at {place}")
        steps.append(([literal_of(word) for word in match[1].split()], moves_of(match[2]), reason_of(match[3])))
        place = match.end()
    return steps


# What signals may have.

class Question:
    """A fault of a netlist, with held inputs; signals by their numbers."""

    def __init__(self, netlist, fault, held):
        self.names = netlist.signals
        number = {name: k for k, name in enumerate(self.names)}
        self.kind = [netlist.kind.get(name) for name in self.names]
        self.pins = [[number[pin] for pin in netlist.pins.get(name, [])] for name in self.names]
        self.outputs = [number[name] for name in netlist.outputs]
        self.cells = [k for k, kind in enumerate(self.kind) if kind == "DFF"]
        self.gates = [k for k, kind in enumerate(self.kind) if kind not in (None, "DFF")]
        self.readers = [[] for _ in self.names]
        for gate in self.gates:
            for pin in self.pins[gate]:
                self.readers[pin].append(gate)
        line, bit = fault.rsplit("/", 1)
        words = line.split(" ")
        self.sort, self.signal, self.pin, self.bit = words[0], number[words[1]], int(words[2]) if words[0] == "pin" else None, int(bit)
        self.held = {number[name]: value for name, value in held}
        self.told = self.start()

    def entry(self):
        """The signals at which the fault enters."""
        if self.sort == "stem" or (self.sort == "pin" and self.signal in set(self.gates)):
            return [self.signal]
        return []

    def start(self):
        """What signals may have before any step."""
        reached, waiting = set(self.entry()), self.entry()
        while waiting:
            for gate in self.readers[waiting.pop()]:
                if gate not in reached:
                    reached.add(gate)
                    waiting.append(gate)
        told = [ANY if k in reached else SAME for k in range(len(self.names))]
        if self.sort == "stem":
            told[self.signal] = frozenset(p for p in told[self.signal] if p[1] == self.bit)
        for k, value in self.held.items():
            told[k] = frozenset(p for p in told[k] if p[0] == value)
        carried = self.pins[self.signal][self.pin] if self.sort == "pin" else self.signal
        told[carried] = frozenset(p for p in told[carried] if p[0] != self.bit)
        return told

    # Gates.

    def made(self, told, gate):
        """The pairs that a gate makes of pairs that its pins may have."""
        kind = self.kind[gate]
        all_of = kind in ("AND", "NAND", "BUFF", "NOT", "CONST1")
        parity = kind in ("XOR", "XNOR")
        sums = {(1, 1) if all_of else (0, 0)}
        for k, pin in enumerate(self.pins[gate]):
            stuck = self.sort == "pin" and self.signal == gate and self.pin == k
            pairs = {(p[0], self.bit) for p in told[pin]} if stuck else told[pin]
            sums = {tuple(a & b if all_of else a ^ b if parity else a | b for a, b in zip(s, p)) for s in sums for p in pairs}
        if kind in ("NAND", "NOT", "NOR", "XNOR"):
            sums = {(1 - s[0], 1 - s[1]) for s in sums}
        return {(s[0], self.bit) for s in sums} if self.sort == "stem" and self.signal == gate else sums

    def is_blocked(self, told, gate):
        return not self.made(told, gate) & told[gate]

    def kept(self, told, gate, signal):
        """The pairs of a line of a gate with which alone the gate isn't blocked."""
        return frozenset(p for p in told[signal] if not self.is_blocked(told[:signal] + [frozenset([p])] + told[signal + 1:], gate))

    def swept(self, told):
        """The most that gates allow, all of them together; None where that leaves a signal nothing."""
        told, waiting = list(told), list(self.gates)
        waits = set(waiting)
        if not all(told):
            return None
        while waiting:
            gate = waiting.pop()
            waits.discard(gate)
            for signal in [gate] + self.pins[gate]:
                left = self.kept(told, gate, signal)
                if not left:
                    return None
                if left != told[signal]:
                    told[signal] = left
                    for other in self.readers[signal] + ([signal] if signal in self.gate_set() else []):
                        if other not in waits:
                            waits.add(other)
                            waiting.append(other)
        return told

    def gate_set(self):
        if not hasattr(self, "_gates"):
            self._gates = set(self.gates)
        return self._gates

    # Reasons.

    def is_open(self, told):
        """Whether a way leads to an observed point, through signals that may differ."""
        if self.sort == "out" or (self.sort == "pin" and self.kind[self.signal] == "DFF"):
            return True
        seen = set(self.outputs) | {pin for cell in self.cells for pin in self.pins[cell]}
        met = {k for k in self.entry() if told[k] - SAME}
        waiting = list(met)
        while waiting:
            for gate in self.readers[waiting.pop()]:
                if gate not in met and told[gate] - SAME:
                    met.add(gate)
                    waiting.append(gate)
        return bool(met & seen)

    def is_contradicted(self, told, clauses, reason):
        sort, number = reason
        if sort == "=":
            return number in self.gate_set() and self.is_blocked(told, number)
        if sort == "*":
            return number < len(clauses) and not any(told[signal] & pairs for signal, pairs in clauses[number])
        return not self.is_open(told) if sort == "!" else self.swept(told) is None

    # Steps.

    def narrow(self, told, signal, pairs):
        if signal >= len(told):
            raise Wrong(f"{signal} is no signal")
        return told[:signal] + [told[signal] & pairs] + told[signal + 1:]

    def check_moves(self, told, clauses, moves, last):
        for sort, literal, reason in moves:
            if sort == "~":
                told = self.swept(told)
                if told is None:
                    return
                continue
            signal, pairs = literal
            if not self.is_contradicted(self.narrow(told, signal, ANY - pairs), clauses, reason):
                raise Wrong(f"{signal} needn't be so")
            told = self.narrow(told, signal, pairs)
        if not self.is_contradicted(told, clauses, last):
            raise Wrong("the last reason leaves something")

    def check(self, steps):
        told, clauses = self.told, []
        for clause, moves, last in steps:
            denied = told
            for signal, pairs in clause:
                denied = self.narrow(denied, signal, ANY - pairs)
            self.check_moves(denied, clauses, moves, last)
            clauses.append(clause)
            if len(clause) == 1:
                told = self.narrow(told, *clause[0])
        if not clauses or clauses[-1]:
            raise Wrong("the last clause isn't empty")


def cause_of(netlist, line, held):
    """Why a line is no refutation of its fault; None where it is."""
    fault, text = line.split(" R", 1)
    try:
        Question(netlist, fault, held).check(steps_of(text))
    except (NoText, Wrong) as cause:
        return f"{type(cause).__name__}: {cause}"
    return None


def main():
    parser = argparse.ArgumentParser()
    parser.add_argument("net", type=pathlib.Path)
    parser.add_argument("file", type=pathlib.Path)
    parser.add_argument("--hold", default="")
    words = parser.parse_args()
    netlist = plain.read(words.net.read_bytes())
    held = [(item.split("=")[0], int(item.split("=")[1])) for item in words.hold.split(",") if item]
    lines = [line for line in words.file.read_text().splitlines() if re.match(r"\S+ \S+( \S+)? R( |$)", line)]
    wrong = [(line, cause) for line in lines if (cause := cause_of(netlist, line, held))]
    for line, cause in wrong:
        print(f"{cause}: {line}")
    print(f"{len(lines)} refutations, {len(wrong)} wrong")
    return 1 if wrong else 0


if __name__ == "__main__":
    sys.exit(main())
