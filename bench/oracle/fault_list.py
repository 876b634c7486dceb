#!/usr/bin/env python3
"""Prints the list of faults of a .bench netlist as `atpg faults` does, worked out by a plain program apart from it.

It takes the definitions as they stand in docs/FAULTS.md: classes are found by spreading each fault's class over all joined pairs until
nothing changes, so it is for small netlists. The text has to be one that `atpg` accepts.

    diff <(./atpg faults examples/s27.bench) <(bench/oracle/fault_list.py examples/s27.bench)
"""
import re
import sys

STATEMENT = re.compile(r"(?:([^\s(),=]+)\s*=\s*)?([^\s(),=]+)\s*\(([^)]*)\)")


def netlist_of(text):
    """Inputs, outputs without repetition, and definitions as (name, kind, pins), each in file order."""
    inputs, outputs, definitions = [], [], []
    for line in text.splitlines():
        found = STATEMENT.search(line.split("#")[0])
        if not found:
            continue
        name, word, names = found.groups()
        names = [x.strip() for x in names.split(",") if x.strip()]
        if name is not None:
            definitions.append((name, word.upper().replace("BUFF", "BUF"), names))
        elif word.upper() == "INPUT":
            inputs += names
        elif names[0] not in outputs:
            outputs += names
    return inputs, outputs, definitions


def readers_of(outputs, definitions):
    """The branches of each signal, as their texts: pins in the order of definition and place, then the output."""
    readers = {}
    for name, _, pins in definitions:
        for place, pin in enumerate(pins):
            readers.setdefault(pin, []).append(f"pin {name} {place}")
    for name in outputs:
        readers.setdefault(name, []).append(f"out {name}")
    return readers


def joined_values(kind):
    """The pairs of a pin's and an output's stuck values that one gate makes equal."""
    return {
        "AND": [(0, 0)],
        "NAND": [(0, 1)],
        "OR": [(1, 1)],
        "NOR": [(1, 0)],
        "BUF": [(0, 0), (1, 1)],
        "NOT": [(0, 1), (1, 0)],
    }.get(kind, [])


def fault_list(text):
    inputs, outputs, definitions = netlist_of(text)
    readers = readers_of(outputs, definitions)
    lines = []
    for signal in inputs + [name for name, _, _ in definitions]:
        branches = readers.get(signal, [])
        lines += [f"stem {signal}"] + (branches if len(branches) >= 2 else [])
    faults = [f"{line}/{value}" for line in lines for value in (0, 1)]
    pairs = []
    for name, kind, pins in definitions:
        for place, pin in enumerate(pins):
            line = f"pin {name} {place}" if len(readers[pin]) >= 2 else f"stem {pin}"
            pairs += [(f"{line}/{v}", f"stem {name}/{w}") for v, w in joined_values(kind)]
    first = {fault: place for place, fault in enumerate(faults)}
    changed = True
    while changed:
        changed = False
        for one, other in pairs:
            low = min(first[one], first[other])
            changed |= (first[one], first[other]) != (low, low)
            first[one] = first[other] = low
    representatives = sorted(set(first.values()))
    number = {place: k for k, place in enumerate(representatives)}
    yield f"faults {len(faults)} classes {len(representatives)}"
    for fault in faults:
        yield f"{fault} class {number[first[fault]]}"


def main():
    with open(sys.argv[1], encoding="latin-1") as file:
        for line in fault_list(file.read()):
            print(line)


if __name__ == "__main__":
    main()
