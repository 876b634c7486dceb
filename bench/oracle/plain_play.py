"""A plain player: it works out every gate in three values in every cycle, from cells of which nothing is known."""

import plain_design as plain
from plain_check import X, tri_gate


def unmet(scanned, cycles, fault):
    """The strobes that aren't met, in order: cycle, pin, and whether nothing is known there."""
    return unmet_with(scanned, cycles, dict([fault]) if fault else {})


def unmet_with(scanned, cycles, stuck):
    """The same where each of some lines is stuck at a bit."""
    state = dict.fromkeys(scanned.cells, X)
    pins = plain.pin_names(scanned)
    on = lambda branch, value: stuck.get(branch, value)
    for number, (drive, strobe, pulse) in enumerate(cycles):
        values = {name: int(bit) for name, bit in zip(scanned.inputs, drive)} | state
        values = {name: on(f"stem {name}", value) for name, value in values.items()}
        for name in scanned.order:
            read = [on(f"pin {name} {k}", values[pin]) for k, pin in enumerate(scanned.pins[name])]
            values[name] = on(f"stem {name}", tri_gate(scanned.kind[name], read))
        for name, pin, wanted in zip(scanned.outputs, pins, strobe):
            value = on(f"out {name}", values[name])
            if wanted != "X" and value != "LH".index(wanted):
                yield number, pin, value is X
        if pulse:
            state = {name: on(f"pin {name} 0", values[scanned.pins[name][0]]) for name in scanned.cells}


def site_of(netlist, fault):
    """The fault at the line of the scanned netlist that stands for its line: a cell's pin is at its first new gate."""
    line, stuck = fault
    words = line.split(" ")
    if words[0] == "pin" and words[1] in netlist.cells:
        return f"pin SC__a_{words[1]} 0", stuck
    return line, stuck
