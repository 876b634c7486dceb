#!/usr/bin/env python3
"""Whether trees that FAN made keep its rules: each split decides a place (a head line, a fanout stem, or an input or cell that is bound), and what is
forced is a bound signal or a head line. Of a slow line that is so on the two frames in which it alone is slow.

    bench/oracle/check_places.py PREFIX     reads PREFIX.net, .cert and .rep of `run` or `transition` with `--engine fan`

It prints how many trees were tried, or each fault whose tree breaks a rule with its first such node, and ends with 1.
"""
import pathlib
import sys

sys.path.insert(0, str(pathlib.Path(__file__).resolve().parent))
import plain_design as plain
import plain_transition
from plain_check import fault_text, nodes_of, path_of

FIRST = {"atpg certificate 1": fault_text, "atpg certificate 2": fault_text} | dict.fromkeys(plain_transition.FIRST, plain_transition.fault_text)


def situation_of(netlist, fault, is_slow):
    """The netlist on which a fault is searched, and its line there."""
    if not is_slow:
        return netlist, fault[0]
    two, (line, _) = plain_transition.frames(netlist, fault)
    return two, line


def held_in(report):
    """The inputs that a report says are held."""
    return {line.split(" ")[1] for line in report.split("\n") if line.startswith("hold ")}


def trees_in(lines, is_slow):
    """Of each line that has a tree the fault and the words of the nodes; refutations are passed over."""
    for line in lines:
        words = line.split(" ")
        count = (3 if words[0] == "pin" else 2) + is_slow
        if words[count] != "R":
            yield " ".join(words[:count]), words[count:]


def wrong_trees(netlist, certificate, held=()):
    """How many trees there are; and of each that breaks a rule the fault and the node."""
    first, *lines = certificate.split("\n")[:-1]
    faults, is_slow, wrong = {FIRST[first](fault): fault for fault in plain.universe(netlist)}, "transition" in first, []
    trees = list(trees_in(lines, is_slow))
    for text, nodes in trees:
        searched, site = situation_of(netlist, faults[text], is_slow)
        node = plain_transition.Roles(searched, site, held).first_wrong(nodes_of(nodes, set(searched.signals)))
        if node is not None:
            wrong.append((text, " ".join(node)))
    return len(trees), wrong


def main():
    prefix = pathlib.Path(sys.argv[1])
    certificate, report = (path_of(prefix, end).read_text("latin-1") for end in ("cert", "rep"))
    count, wrong = wrong_trees(plain.read(path_of(prefix, "net").read_bytes()), certificate, held_in(report))
    for text, node in wrong:
        print(f"{text}: {node}")
    if wrong:
        sys.exit(f"false: {len(wrong)} of {count} trees")
    print(f"tried {count} trees")


if __name__ == "__main__":
    main()
