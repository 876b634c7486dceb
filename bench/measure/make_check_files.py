#!/usr/bin/env python3
"""Makes five good files of a great many lines, without `run`: `check` on a long certificate and a long report.

    bench/measure/make_check_files.py PREFIX [--trees 50000] [--faults 1200000]

Each input is read by a buffer, which drives an output; some are read by an inverter besides, which nothing reads. Of such an input and its gates
six faults are detected and four are redundant, in two classes, each with a tree that ends at its root; of the other inputs and their buffers all
four faults are detected. Two patterns, all ones and all zeros, are the test. The numbers of trees and faults have to come out even.
"""
import argparse
import sys


def texts(inputs, inverted):
    """The five texts for so many inputs, the first of them read by an inverter too."""
    each, dangling = range(inputs), range(inverted)
    net = [f"INPUT(a{k})" for k in each] + [f"OUTPUT(y{k})" for k in each]
    net += [f"y{k} = BUFF(a{k})" for k in each] + [f"z{k} = NOT(a{k})" for k in dangling]
    certificate = ["atpg certificate 1"] + [f"pin z{k} 0/{bit} !" for k in dangling for bit in (0, 1)]
    return {"net": net, "scan": net, "stil": stil(inputs), "cert": certificate, "rep": report(inputs, inverted)}


def stil(inputs):
    ports = [("a", "In", "pi"), ("y", "Out", "po")]
    lines = ["STIL 1.0;", "Header {", '  Title "full scan test";', "}", "Signals {"]
    lines += [f'  "{letter}{k}" {way};' for letter, way, _ in ports for k in range(inputs)] + ["}", "SignalGroups {"]
    lines += [f'  "SC__{group}" = \'' + " + ".join(f'"{letter}{k}"' for k in range(inputs)) + "';" for letter, _, group in ports]
    lines += ["}", "Timing {", '  WaveformTable "wft" {', "    Period '100ns';", "    Waveforms {"]
    lines += ["      \"SC__pi\" { 01 { '0ns' D/U; } }", "      \"SC__po\" { HLX { '40ns' H/L/X; } }", "    }", "  }", "}"]
    lines += ['PatternBurst "burst" {', '  PatList { "pattern"; }', "}", "PatternExec {", '  PatternBurst "burst";', "}", 'Pattern "pattern" {', '  W "wft";']
    return lines + [f'  V {{ "SC__pi" = {bit * inputs}; "SC__po" = {level * inputs}; }}' for bit, level in ("1H", "0L")] + ["}"]


def report(inputs, inverted):
    detected, redundant = 4 * inputs + 2 * inverted, 4 * inverted
    faults = detected + redundant
    share = 10_000 * detected // faults
    counts = {"inputs": inputs, "outputs": inputs, "gates": inputs + inverted, "cells": 0, "chains": 0, "faults": faults, "classes": 2 * inputs + 4 * inverted,
              "patterns": 2, "cycles": 2, "limit": 100, "detected": detected, "redundant": redundant, "aborted": 0, "untested": redundant}
    lines = ["atpg report 1"] + [f"{word} {count}" for word, count in counts.items()]
    lines += [f"coverage {share // 100}.{share % 100:02}", "efficiency 100.00"]
    # the all-ones pattern comes first and shows what is stuck at 0
    seen = [f"detected {bit} {bit} y" for bit in (0, 1)]
    for k in range(inputs):
        lines += [f"stem a{k}/{bit} {seen[bit]}{k}" for bit in (0, 1)]
        if k < inverted:
            lines += [f"pin y{k} 0/{bit} {seen[bit]}{k}" for bit in (0, 1)] + [f"pin z{k} 0/{bit} redundant" for bit in (0, 1)]
    lines += [f"stem y{k}/{bit} {seen[bit]}{k}" for k in range(inputs) for bit in (0, 1)]
    return lines + [f"stem z{k}/{bit} redundant" for k in range(inverted) for bit in (0, 1)]


def main():
    parser = argparse.ArgumentParser(description=__doc__, formatter_class=argparse.RawDescriptionHelpFormatter)
    parser.add_argument("prefix")
    parser.add_argument("--trees", type=int, default=50_000)
    parser.add_argument("--faults", type=int, default=1_200_000)
    arguments = parser.parse_args()
    inverted = arguments.trees // 2
    inputs = inverted + (arguments.faults - 10 * inverted) // 4
    if 2 * inverted != arguments.trees or inputs <= inverted or 4 * inputs + 6 * inverted != arguments.faults:
        sys.exit("make_check_files: no such numbers of trees and faults")
    for end, lines in texts(inputs, inverted).items():
        with open(f"{arguments.prefix}.{end}", "w", encoding="ascii") as file:
            file.writelines(line + "\n" for line in lines)


if __name__ == "__main__":
    main()
