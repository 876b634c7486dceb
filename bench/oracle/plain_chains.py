"""What a test shows of the faults in a design's scan hardware, by a plain program apart from the crates: every gate is worked out in three values in every cycle."""

import plain_design as plain
from plain_play import site_of, unmet


def first_wrong(scanned, cycles, fault):
    """The first cycle and signal at which the other bit is known to be shown; None where there is none."""
    return next(((number, pin) for number, pin, is_unknown in unmet(scanned, cycles, fault) if not is_unknown), None)


def hardware_faults(netlist, scanned):
    """The faults of the scanned netlist that stand for none of the design's."""
    sites = {site_of(netlist, fault) for fault in plain.universe(netlist)}
    return [fault for fault in plain.universe(scanned) if fault not in sites]


def chain_test(netlist, asked, cycles):
    """The text that a chain test shows."""
    scanned = plain.scanned(netlist, plain.chains_of(netlist.cells, asked))
    faults = hardware_faults(netlist, scanned)
    told = [first_wrong(scanned, cycles, fault) for fault in faults]
    fails = sum(place is not None for place in told)
    lines = [f"faults {len(faults)} fails {fails} untold {len(faults) - fails}"]
    for (line, bit), place in zip(faults, told):
        lines.append(f"{line}/{bit} " + (f"fails {place[0]} {place[1]}" if place else "untold"))
    return "".join(line + "\n" for line in lines)
