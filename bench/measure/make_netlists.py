#!/usr/bin/env python3
"""Makes .bench netlists of 10,000, 100,000 and 1,000,000 signals below bench/made/, to time reading and writing.

The same seed makes the same bytes. Each netlist has the shape of the ISCAS'89 benchmarks: an eighth of the signals are cells, gates have
one to six pins with most two, and there is no loop. Names are as long at each size, so that bytes grow as signals do.

Wires are as in designs: of the signals in the order in which a flat netlist writes them, a block of B has about B^p wires to the others
(Rent's rule; Landman and Russo, On a pin versus block relationship for partitions of logic graphs, 1971, found p from 0.57 to 0.75). So a
wire is longer than d with probability d^(p - 1). Here p is 2/3.

With --scattered instead, a fifth of the pins read a signal from anywhere, and lines stand in a random order of blocks of 50: there is
hardly a near wire in the file. No design is like that; it is the worst case for caches.

    bench/measure/make_netlists.py [--seed N] [--into DIR] [--scattered] [SIGNALS ..]
"""

import argparse
import pathlib
import random

MADE = pathlib.Path(__file__).resolve().parent.parent / "made"
SIZES = [10_000, 100_000, 1_000_000]
KINDS = ["AND", "NAND", "OR", "NOR", "XOR", "XNOR", "NOT", "BUFF"]
WEIGHTS = [18, 26, 14, 18, 4, 2, 14, 4]
RENT = 2 / 3
NEAR = 2_000
FIRST_NUMBER = 1_000_000


def pins_of(rng, kind):
    """How many pins a gate has."""
    if kind in ("NOT", "BUFF"):
        return 1
    if kind in ("XOR", "XNOR"):
        return 2  # berkeley-abc reads no others
    return rng.choices([2, 3, 4, 6], [70, 18, 9, 3])[0]


def counts_of(signals):
    """How many inputs, cells and gates a netlist of so many signals has."""
    inputs = max(8, signals // 200)
    cells = signals // 8
    return inputs, cells, signals - inputs - cells



class Design:
    """Inputs (I), cells (Q) and gates (G), mixed evenly along a line, and wires by Rent's rule along it."""

    def __init__(self, rng, signals):
        inputs, cells, gates = counts_of(signals)
        self.rng = rng
        self.letters = list("I" * inputs + "Q" * cells + "G" * gates)
        rng.shuffle(self.letters)
        self.names = [f"{letter}{FIRST_NUMBER + place}" for place, letter in enumerate(self.letters)]

    def places(self, letter):
        return [place for place, other in enumerate(self.letters) if other == letter]

    def wire_from(self, place, allows):
        """A signal that a pin at this place may read, as near as wires are."""
        for _ in range(1_000):
            length = int(self.rng.random() ** (1 / (RENT - 1)))
            other = place + (length if self.rng.random() < 0.5 else -length)
            if 0 <= other < len(self.names) and allows(other):
                return self.names[other]
        return self.names[self.letters.index("I")]

    def gate(self, place):
        kind = self.rng.choices(KINDS, WEIGHTS)[0]
        pins = []
        for _ in range(pins_of(self.rng, kind)):
            # gates read earlier gates, inputs and cells, so there is no loop, and each once
            pins.append(self.wire_from(place, lambda x: (x < place or self.letters[x] != "G") and self.names[x] not in pins))
        return f"{self.names[place]} = {kind}({', '.join(pins)})"

    def cell(self, place):
        return f"{self.names[place]} = DFF({self.wire_from(place, lambda x: self.letters[x] == 'G')})"

    def lines(self):
        gates = self.places("G")
        yield f"# {len(self.names)} signals"
        outputs = sorted(self.rng.sample(gates, max(8, len(gates) // 100)))
        yield from (f"INPUT({self.names[place]})" for place in self.places("I"))
        yield from (f"OUTPUT({self.names[place]})" for place in outputs)
        for place, letter in enumerate(self.letters):
            if letter == "G":
                yield self.gate(place)
            elif letter == "Q":
                yield self.cell(place)


def scattered_pin(rng, count):
    """The place of a signal below count: mostly one of the last NEAR."""
    if rng.random() < 0.8:
        return count - 1 - rng.randrange(min(count, NEAR))
    return rng.randrange(count)


def scattered_gate(rng, name, names):
    kind = rng.choices(KINDS, WEIGHTS)[0]
    read = ", ".join(names[scattered_pin(rng, len(names))] for _ in range(pins_of(rng, kind)))
    return f"{name} = {kind}({read})"


def scattered(rng, signals):
    """The lines of a netlist with hardly a near wire."""
    inputs, cells, gates = counts_of(signals)
    names = [f"I{i}" for i in range(inputs)] + [f"Q{i}" for i in range(cells)]
    equations = []
    for i in range(gates):
        equations.append(scattered_gate(rng, f"G{i}", names))
        names.append(f"G{i}")
    for i in range(cells):
        equations.append(f"Q{i} = DFF(G{rng.randrange(gates)})")
    outputs = sorted(rng.sample(range(gates), max(8, signals // 100)))
    blocks = [equations[i:i + 50] for i in range(0, len(equations), 50)]
    rng.shuffle(blocks)
    yield f"# {signals} signals: {inputs} inputs, {cells} cells, {gates} gates, {len(outputs)} outputs"
    yield from (f"INPUT(I{i})" for i in range(inputs))
    yield from (f"OUTPUT(G{i})" for i in outputs)
    for number, block in enumerate(blocks):
        if number % 20 == 0:
            yield f"# block {number}"
        yield from block


def lines_of(rng, signals, is_scattered):
    return scattered(rng, signals) if is_scattered else Design(rng, signals).lines()


def main():
    parser = argparse.ArgumentParser(description=__doc__, formatter_class=argparse.RawDescriptionHelpFormatter)
    parser.add_argument("signals", nargs="*", type=int, default=SIZES)
    parser.add_argument("--seed", type=int, default=1)
    parser.add_argument("--into", type=pathlib.Path, default=MADE)
    parser.add_argument("--scattered", action="store_true")
    arguments = parser.parse_args()
    arguments.into.mkdir(parents=True, exist_ok=True)
    kind = "scattered" if arguments.scattered else "signals"
    for signals in arguments.signals:
        path = arguments.into / f"{kind}_{signals}.bench"
        with open(path, "w", encoding="ascii", newline="\n") as out:
            for line in lines_of(random.Random(f"{arguments.seed} {signals}"), signals, arguments.scattered):
                out.write(line + "\n")
        print(f"{path}: {path.stat().st_size} bytes")


if __name__ == "__main__":
    main()
