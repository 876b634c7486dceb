#!/usr/bin/env python3
"""Makes a report and a certificate of a netlist with verdicts that are drawn, not found: of the right form, to try tools/show_report.

    tools/made_report.py NET PREFIX [--patterns P] [--seed S]

writes PREFIX.net (the canonical text of NET), PREFIX.rep and PREFIX.cert. No line of them is true but the head's counts.
"""

import argparse
import pathlib
import random
import re
import sys

sys.path.insert(0, str(pathlib.Path(__file__).resolve().parent.parent / "bench/oracle"))
from fault_list import netlist_of, readers_of  # noqa: E402


def lines_of(inputs, outputs, definitions):
    """The lines of a netlist: for each signal its stem, and its branches where it has two or more."""
    readers = readers_of(outputs, definitions)
    for signal in inputs + [name for name, _, _ in definitions]:
        yield f"stem {signal}"
        branches = readers.get(signal, [])
        if len(branches) >= 2:
            yield from branches


def canonical(inputs, outputs, definitions):
    yield from (f"INPUT({name})" for name in inputs)
    yield from (f"OUTPUT({name})" for name in outputs)
    yield from (f"{name} = {'BUFF' if kind == 'BUF' else kind}({', '.join(pins)})" for name, kind, pins in definitions)


def tree(rng, names, splits, ends):
    """Nodes in preorder: so many splits, and ends drawn of `ends`."""
    if splits == 0:
        return [rng.choice(ends)]
    name = rng.choice(names)
    if rng.random() < 0.5:
        return [f"F {name} {rng.randrange(2)}"] + tree(rng, names, splits - 1, ends)
    left = rng.randrange(splits)
    return [f"S {name}"] + tree(rng, names, left, ends) + tree(rng, names, splits - 1 - left, ends)


def percent(part, whole):
    hundredths = 10_000 * part // whole
    return f"{hundredths // 100}.{hundredths % 100:02}"


def made(text, patterns, seed):
    """The three texts."""
    inputs, outputs, definitions = netlist_of(text)
    rng = random.Random(seed)
    cells = [name for name, kind, _ in definitions if kind == "DFF"]
    faults = [f"{line}/{bit}" for line in lines_of(inputs, outputs, definitions) for bit in (0, 1)]
    said, trees, counts = [], ["atpg certificate 1"], {"detected": 0, "redundant": 0, "aborted": 0}
    for fault in faults:
        end = rng.choices(["detected", "redundant", "aborted"], [96, 3, 1])[0]
        counts[end] += 1
        if end == "detected":
            # most faults are detected by many patterns, so the last of them is mostly a late one
            pattern = patterns - 1 - int(rng.random() ** 4 * patterns)
            said.append(f"{fault} detected {pattern} {pattern} {rng.choice(outputs)}")
            continue
        said.append(f"{fault} {end}")
        splits = int(rng.expovariate(0.5)) if end == "redundant" else rng.randrange(40, 120)
        nodes = tree(rng, inputs + cells, min(splits, 200), ["!"] if end == "redundant" else ["!", "?"])
        trees.append(f"{fault} {' '.join(nodes if end == 'redundant' else nodes[:-1] + ['?'])}")
    untested = counts["redundant"] + counts["aborted"]
    head = [("inputs", len(inputs)), ("outputs", len(outputs)), ("gates", len(definitions) - len(cells)), ("cells", len(cells)),
            ("chains", min(1, len(cells))), ("faults", len(faults)), ("classes", len(faults)), ("patterns", patterns),
            ("cycles", (patterns + 4) * len(cells) + patterns), ("limit", 100), *counts.items(), ("untested", untested),
            ("coverage", percent(counts["detected"], len(faults))), ("efficiency", percent(len(faults) - counts["aborted"], len(faults)))]
    report = ["atpg report 1"] + [f"{word} {number}" for word, number in head] + said
    return {"net": list(canonical(inputs, outputs, definitions)), "rep": report, "cert": trees}


def write(net, prefix, patterns, seed):
    for end, lines in made(net.read_text(encoding="latin-1"), patterns, seed).items():
        prefix.with_name(f"{prefix.name}.{end}").write_text("\n".join(lines) + "\n", encoding="ascii")


def main():
    parser = argparse.ArgumentParser(description=__doc__, formatter_class=argparse.RawDescriptionHelpFormatter)
    parser.add_argument("net", type=pathlib.Path)
    parser.add_argument("prefix", type=pathlib.Path)
    parser.add_argument("--patterns", type=int, default=100)
    parser.add_argument("--seed", type=int, default=1)
    arguments = parser.parse_args()
    write(arguments.net, arguments.prefix, arguments.patterns, arguments.seed)


if __name__ == "__main__":
    main()
