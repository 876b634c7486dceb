"""Which stuck lines of a design a test detects, by a plain program apart from the crates: every gate is worked out in three values in every cycle."""

import plain_design as plain
from plain_play import site_of, unmet


def grade(scanned, cycles, fault):
    """Where the other bit is first known to be shown; else whether each strobe is met, or at some nothing is known."""
    missed = list(unmet(scanned, cycles, fault))
    wrong = next(((number, pin) for number, pin, is_unknown in missed if not is_unknown), None)
    if wrong is not None:
        return f"detected {wrong[0]} {wrong[1]}"
    return "unknown" if missed else "undetected"


def grades(netlist, asked, cycles):
    """The text that is written, and the line that is shown."""
    scanned = plain.scanned(netlist, plain.chains_of(netlist.cells, asked))
    cycles = list(cycles)
    told = [(line, bit, grade(scanned, cycles, site_of(netlist, (line, bit)))) for line, bit in plain.universe(netlist)]
    count = {word: sum(said.split(" ")[0] == word for _, _, said in told) for word in ("detected", "undetected", "unknown")}
    counts = f"faults {len(told)} " + " ".join(f"{word} {number}" for word, number in count.items()) + "\n"
    return "atpg grade 1\n" + counts + "".join(f"{line}/{bit} {said}\n" for line, bit, said in told), counts
