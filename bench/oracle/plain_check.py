#!/usr/bin/env python3
"""What `atpg check` has to answer, by a plain program apart from the crates; and five good files of small designs, made without `run`.

    bench/oracle/plain_check.py PREFIX                     checks PREFIX.net, .scan, .stil, .cert and .rep
    bench/oracle/plain_check.py --make NET PREFIX [--chains C] [--limit L] [--hold LIST] [--patterns N] [--seed S] [--refute] [--unasked LIST] [--detect N]
                                                    makes the files: patterns are drawn, those that are no last detector are left out,
                                                    and trees split inputs and cells in order; or, for redundant faults, refutations by
                                                    the same cases. The faults of LIST, parted by commas, aren't asked for. With --detect
                                                    the report says how many patterns detect each fault, counted to N, and the patterns
                                                    that are kept are the last N to detect some fault

It ends with the status and prints the line that `check` has to print. It is for designs of up to some hundred gates.
"""

import argparse
import functools
import operator
import pathlib
import random
import re
import sys

import plain_design as plain
import plain_refutation
from plain_stil import is_stil

ENDS = ("net", "scan", "stil", "cert", "rep")
COUNTS = ("inputs outputs gates cells chains faults classes patterns cycles limit detected redundant aborted untested").split()
MOST_LIMIT = 100_000
X = None


# Reading certificates and reports.

class NotText(Exception):
    """A text that is outside its grammar."""


def fault_text(fault):
    return f"{fault[0]}/{fault[1]}"


def nodes_of(words, names):
    """The nodes of one tree in preorder."""
    nodes, open_sides = [], 1
    words = iter(words)
    for word in words:
        if open_sides == 0:
            raise NotText
        if word in ("!", "?"):
            nodes.append((word,))
            open_sides -= 1
        elif word in ("S", "F"):
            name = next(words, None)
            if name not in names:
                raise NotText
            bit = () if word == "S" else (next(words, None),)
            if bit not in ((), ("0",), ("1",)):
                raise NotText
            nodes.append((word, name, *bit))
            open_sides += word == "S"
        else:
            raise NotText
    if open_sides:
        raise NotText
    return nodes


def evidence_of(line, place, words, names):
    """The kind of a line's evidence, and its nodes or its steps."""
    if words[place:place + 1] != ["R"]:
        return "tree", nodes_of(words[place:], names)
    try:
        return "refutation", plain_refutation.steps_of(line[len(" ".join(words[:place + 1])):])
    except plain_refutation.NoText:
        raise NotText


def read_certificate(text, netlist, faults):
    """Pairs of a fault's text and its evidence."""
    first, *lines = text.split(b"\n")
    if first not in (b"atpg certificate 1", b"atpg certificate 2") or lines[-1:] != [b""]:
        raise NotText
    texts, names = {fault_text(fault) for fault in faults}, set(netlist.signals)
    evidence = []
    for line in [line.decode("latin-1") for line in lines[:-1]]:
        words = line.split(" ")
        place = 3 if words[0] == "pin" else 2
        fault = " ".join(words[:place])
        if fault not in texts:
            raise NotText
        evidence.append((fault, evidence_of(line, place, words, names)))
    if any(kind == "refutation" for _, (kind, _) in evidence) != first.endswith(b"2"):
        raise NotText
    return evidence


NUMBER = r"(0|[1-9][0-9]*)"
NAME = r"((?:(?![\"'#(),=])[!-~])+)"
FAULT = rf"((?:stem|out) {NAME}/[01]|pin {NAME} {NUMBER}/[01])"
SAID = re.compile(rf"{FAULT} (?:detected {NUMBER} {NUMBER} {NAME}|(redundant|aborted|unasked))")


def small(number):
    value = int(number)
    if value >= 2 ** 64:
        raise NotText
    return value


def read_report(text):
    """The head as a dictionary, the held inputs, and for each line the fault and what is said."""
    version, *lines = [line.decode("latin-1") for line in text.split(b"\n")]
    has_unasked = len(lines) > len(COUNTS) and lines[len(COUNTS)].startswith("unasked ")
    counted = [*COUNTS, "unasked"] if has_unasked else COUNTS
    if len(lines) < len(counted) + 3 or lines[-1] != "":
        raise NotText
    head = {"unasked": 0}
    for word, line in zip(counted, lines):
        match = re.fullmatch(rf"{word} {NUMBER}", line)
        if match is None:
            raise NotText
        head[word] = small(match[1])
    lines = lines[len(counted):]
    for word, line in zip(("coverage", "efficiency"), lines):
        match = re.fullmatch(rf"{word} {NUMBER}\.([0-9][0-9])", line)
        if match is None:
            raise NotText
        head[word] = 100 * small(match[1]) + int(match[2])
    head["detect"], head["times"], place = read_times(lines)
    held = []
    while place < len(lines) - 1 and lines[place].startswith("hold "):
        match = re.fullmatch(rf"hold {NAME} ([01])", lines[place])
        if match is None:
            raise NotText
        held.append((match[1], int(match[2])))
        place += 1
    if has_unasked != (head["unasked"] > 0) or version != f"atpg report {version_of(head, held)}":
        raise NotText
    return head, held, [said_of(line) for line in lines[place:-1]]


def read_times(lines):
    """To how many detections are counted (0: they aren't), the numbers, and the place behind their lines, which stand behind the shares."""
    most = re.fullmatch(rf"detect {NUMBER}", lines[2])
    if most is None:
        return 0, [], 2
    times, place = [], 3
    while match := re.fullmatch(rf"times {NUMBER}", lines[place]):
        times.append(small(match[1]))
        place += 1
    if small(most[1]) < 2 or any(count > int(most[1]) for count in times):
        raise NotText
    return int(most[1]), times, place


def version_of(head, held):
    """The version that says no more than it needs: detections, else faults that weren't asked for, else held inputs."""
    return 4 if head["detect"] else 3 if head["unasked"] else 2 if held else 1


def said_of(line):
    match = SAID.fullmatch(line)
    if match is None:
        raise NotText
    if match[4] is not None:
        small(match[4])
    if match[5] is not None:
        return match[1], ("detected", small(match[5]), small(match[6]), match[7])
    return match[1], (match[8],)


# The patterns of a file.

def words_after(tokens, name):
    """The words that are assigned to a signal, in the order of the file."""
    return [tokens[k + 2].decode() for k in range(len(tokens) - 2) if tokens[k] == b'"' + name + b'"' and tokens[k + 1] == b"="]


def patterns_of(tokens, netlist, chains, held):
    """Patterns whose file has these tokens; None where there are none such. It takes candidates and compares the whole text."""
    start = tokens.index(b"Pattern") if b"Pattern" in tokens else len(tokens)
    pi = words_after(tokens[start:], b"SC__pi")
    loads = [words_after(tokens[start:], f"SC__si{c}".encode()) for c in range(len(chains))]
    try:
        patterns = []
        for p, word in enumerate(pi):
            pattern = dict(zip(netlist.inputs, (int(bit) for bit in word), strict=False))
            for chain, words in zip(chains, loads):
                # three flush loads, then for each pattern its load and its vector
                bits = words[3 + 2 * p][::-1]
                pattern |= {cell: int(bits[k]) for k, cell in enumerate(chain)}
            patterns.append(pattern)
    except (IndexError, ValueError):
        return None
    sources = netlist.inputs + netlist.cells
    if any(pattern.get(name) not in (0, 1) for pattern in patterns for name in sources):
        return None
    if any(pattern[name] != bit for pattern in patterns for name, bit in held.items()):
        return None
    ours = plain.stil_text(netlist, chains, held, plain.items_of(netlist, chains, patterns))
    return patterns if plain.stil_tokens(ours) == tokens else None


# Trees, by labels.

def tri_gate(kind, values):
    if kind in ("CONST0", "CONST1"):
        return int(kind == "CONST1")
    if kind in ("AND", "NAND"):
        value = 0 if 0 in values else X if X in values else 1
    elif kind in ("OR", "NOR"):
        value = 1 if 1 in values else X if X in values else 0
    else:
        value = X if X in values else sum(values) % 2
    return value if value is X or kind in ("AND", "OR", "XOR", "BUFF") else 1 - value


def labels(netlist, fault, path, held):
    """For each signal its own value, good value, faulty value and whether they may differ; and whether some point may differ."""
    line, stuck = fault
    found = {}

    def seen(branch, label):
        """What a branch has of its signal's label."""
        return (label[1], stuck, label[1] != stuck) if branch == line else label[1:]

    def place(name, own, faulty, differs):
        good = path.get(name, own)
        if line == f"stem {name}":
            found[name] = (own, good, stuck, good != stuck)
        elif not differs:
            found[name] = (own, good, good, False)
        else:
            found[name] = (own, good, faulty, good is X or faulty is X or good != faulty)

    for name in netlist.inputs + netlist.cells:
        place(name, held.get(name, X), X, False)
    for name in netlist.order:
        read = [seen(f"pin {name} {k}", found[pin]) for k, pin in enumerate(netlist.pins[name])]
        kind = netlist.kind[name]
        place(name, tri_gate(kind, [each[0] for each in read]), tri_gate(kind, [each[1] for each in read]), any(each[2] for each in read))
    differs = any(seen(branch, found[name])[2] for branch, name in netlist.points())
    contradicted = any(found[name][0] is not X and found[name][0] != bit for name, bit in path.items())
    return found, contradicted or not differs


def counts_of(netlist, fault, nodes, held):
    """How many closed and open ends a tree has; None where it doesn't fit."""
    waiting, closed, left_open = [{}], 0, 0
    for node in nodes:
        path = waiting.pop()
        found, is_closed = labels(netlist, fault, path, held)
        if is_closed != (node[0] == "!"):
            return None
        closed, left_open = closed + (node[0] == "!"), left_open + (node[0] == "?")
        if node[0] in "SF" and found[node[1]][1] is not X:
            return None
        if node[0] == "S":
            waiting += [path | {node[1]: 1}, path | {node[1]: 0}]
        elif node[0] == "F":
            side = int(node[2])
            if not labels(netlist, fault, path | {node[1]: 1 - side}, held)[1]:
                return None
            waiting.append(path | {node[1]: side})
    return closed, left_open


def ends_of(netlist, fault, evidence, held):
    """How many ends of evidence are closed and how many open, or None where a tree doesn't fit or steps don't refute the fault."""
    kind, told = evidence
    if kind == "tree":
        return counts_of(netlist, fault, told, held)
    try:
        plain_refutation.Question(netlist, fault_text(fault), held.items()).check(told)
    except plain_refutation.Wrong:
        return None
    return 0, 0


# The check.

class Situation:
    """What follows of a netlist, chains, held inputs and patterns."""

    def __init__(self, netlist, chains, held, patterns):
        self.netlist, self.chains, self.held, self.patterns = netlist, chains, held, patterns
        self.faults = plain.universe(netlist)
        self.first = plain.classes(netlist, self.faults)
        self.representatives = sorted(set(self.first))
        self.last = [self.last_detector(fault) for fault in self.faults]

    def differences(self, fault):
        """For each point the patterns under which it differs, as a number with a bit for each."""
        netlist, ones = self.netlist, (1 << len(self.patterns)) - 1
        sources = {name: sum(pattern[name] << j for j, pattern in enumerate(self.patterns)) for name in netlist.inputs + netlist.cells}
        _, good = plain.settled(netlist, sources, ones)
        _, faulty = plain.settled(netlist, sources, ones, fault)
        return [a ^ b for a, b in zip(good, faulty)]

    def last_detector(self, fault):
        """The last pattern that detects a fault, and the first point of it."""
        if not self.patterns:
            return None
        differ = self.differences(fault)
        last = max(word.bit_length() for word in differ) - 1
        return None if last < 0 else (last, next(k for k, word in enumerate(differ) if word >> last & 1))

    def detectors(self, fault):
        """The patterns that detect a fault, in order."""
        found = functools.reduce(operator.or_, self.differences(fault), 0) if self.patterns else 0
        return [place for place in range(len(self.patterns)) if found >> place & 1]

    def times(self, most):
        """How many patterns detect each fault, counted to most."""
        return [min(most, len(self.detectors(fault))) for fault in self.faults]

    def detected(self, last):
        """What a report says of a fault with this last detector."""
        pattern, point = last
        longest = max((len(chain) for chain in self.chains), default=0)
        count = len(self.netlist.outputs)
        if point < count:
            return "detected", pattern, longest * 3 + pattern * (longest + 1) + longest if longest else pattern, plain.pin_names(self.netlist)[point]
        cell = self.netlist.cells[point - count]
        number = next(c for c, chain in enumerate(self.chains) if cell in chain)
        chain = self.chains[number]
        return "detected", pattern, 3 * longest + (pattern + 1) * (longest + 1) + len(chain) - 1 - chain.index(cell), f"SC__so{number}"

    def head(self, said, limit, detect=0):
        """The numbers that follow of what is said; with those of detections, counted to so many, unless that is 0."""
        netlist, faults = self.netlist, len(self.faults)
        longest = max((len(chain) for chain in self.chains), default=0)
        ends = [verdict[0] for _, verdict in said]
        detected, redundant, aborted, unasked = (ends.count(word) for word in ("detected", "redundant", "aborted", "unasked"))
        patterns = len(self.patterns)
        return {"inputs": len(netlist.inputs), "outputs": len(netlist.outputs), "gates": len(netlist.definitions) - len(netlist.cells),
                "cells": len(netlist.cells), "chains": len(self.chains), "faults": faults, "classes": len(self.representatives),
                "patterns": patterns, "cycles": (patterns + 4) * longest + patterns, "limit": limit, "detected": detected,
                "redundant": redundant, "aborted": aborted, "untested": redundant + aborted, "unasked": unasked,
                "coverage": 10_000 * detected // faults, "efficiency": 10_000 * (detected + redundant) // faults,
                "detect": detect, "times": self.times(detect) if detect else []}


def false_fault(situation, said, evidence, limit):
    """The first fault of which the report's line is missing, another's or false."""
    by_fault = {}
    for fault, told in evidence:
        by_fault.setdefault(fault, told)
    counted = {}
    for k, fault in enumerate(situation.faults):
        text = fault_text(fault)
        if k >= len(said):
            return text
        if said[k][0] != text:
            return said[k][0]
        verdict, last = said[k][1], situation.last[k]
        if verdict[0] == "unasked":
            continue
        if verdict[0] == "detected":
            if last is None or verdict != situation.detected(last):
                return text
            continue
        first = situation.first[k]
        if first not in counted:
            representative = situation.faults[first]
            told = by_fault.get(fault_text(representative))
            counted[first] = told and ends_of(situation.netlist, representative, told, situation.held)
        counts = counted[first]
        wanted = counts is not None and (counts[1] == 0 if verdict[0] == "redundant" else counts[0] == limit and counts[1] > 0)
        if last is not None or not wanted:
            return text
    return None


def further_fault(situation, said, evidence):
    """A further line of the report, or the first line of the certificate that isn't that of the next class with a fault that is redundant or aborted."""
    if len(said) > len(situation.faults):
        return said[len(situation.faults)][0]
    owing = {first for first, (_, verdict) in zip(situation.first, said) if verdict[0] in ("redundant", "aborted")}
    left = [fault_text(situation.faults[k]) for k in sorted(owing)]
    return next((fault for k, (fault, _) in enumerate(evidence) if k >= len(left) or left[k] != fault), None)


def are_holds(netlist, held):
    places = [netlist.inputs.index(name) if name in netlist.inputs else -1 for name, _ in held]
    return -1 not in places and all(a < b for a, b in zip(places, places[1:]))


def check(files):
    """The status and the line: on standard output where it is 0 or 1, else on standard error."""
    try:
        netlist = plain.read(files["net"])
    except plain.Refusal as refusal:
        return 3, str(refusal)
    if not is_stil(files["stil"]):
        return 4, "not a stil file"
    faults = plain.universe(netlist)
    try:
        evidence = read_certificate(files["cert"], netlist, faults)
    except NotText:
        return 4, "not a certificate"
    try:
        head, held, said = read_report(files["rep"])
    except NotText:
        return 4, "not a report"
    return clauses(files, netlist, evidence, head, held, said)


def clauses(files, netlist, evidence, head, held, said):
    asked = head["chains"]
    if (asked == 0 and netlist.cells) or asked >= 2 ** 32:
        return 1, "scan differs"
    chains = plain.chains_of(netlist.cells, asked)
    if files["scan"] != plain.canonical(plain.scanned(netlist, chains)):
        return 1, "scan differs"
    if not are_holds(netlist, held):
        return 1, "hold differs"
    held = dict(held)
    patterns = patterns_of(plain.stil_tokens(files["stil"]), netlist, chains, held)
    if patterns is None:
        return 1, "stil differs"
    situation = Situation(netlist, chains, held, patterns)
    false = false_fault(situation, said, evidence, head["limit"]) or further_fault(situation, said, evidence)
    if false is not None:
        return 1, f"fault {false}"
    if head != situation.head(said, head["limit"], head["detect"]) or not 1 <= head["limit"] <= MOST_LIMIT:
        return 1, "totals differ"
    return 0, f"checked {len(situation.faults)} faults"


# Making files.

def tree_of(netlist, fault, limit, held):
    """A tree that splits sources in order until each label is closed, or the backtrack limit is met; Open beyond it."""
    nodes, left, sources = [], limit, [name for name in netlist.inputs + netlist.cells if name not in held]
    waiting = [{}]
    while waiting:
        path = waiting.pop()
        _, is_closed = labels(netlist, fault, path, held)
        free = [name for name in sources if name not in path]
        if is_closed and left:
            nodes.append("!")
            left -= 1
        elif is_closed:
            return None  # a closed label where none may be counted any more: the limit can't be met so
        elif left == 0 or not free:
            nodes.append("?")
        else:
            nodes.append(f"S {free[0]}")
            waiting += [path | {free[0]: 1}, path | {free[0]: 0}]
    return nodes


def cases_of(netlist, fault, held):
    """The steps of a refutation by cases of sources in order: each says that its path can't be, by what gates then allow or by both cases of a source."""
    asked = plain_refutation.Question(netlist, fault_text(fault), held.items())
    free = [asked.names.index(name) for name in netlist.inputs + netlist.cells if name not in held]
    has = [frozenset(pair for pair in plain_refutation.PAIRS if pair[0] == bit) for bit in (0, 1)]
    steps = []

    def add(path):
        clause = "".join(f"{signal}:{'1100' if bit else '0011'} " for signal, bit in path)
        told = asked.told
        for signal, bit in path:
            told = asked.narrow(told, signal, has[bit])
        told = asked.swept(told)
        if told is None or not asked.is_open(told):
            steps.append(f"( {clause}; ~ ; ! )")
        else:
            source = free[len(path)]
            zero, one = (add(path + [(source, bit)]) for bit in (0, 1))
            steps.append(f"( {clause}; {source}:0011 *{zero} ; *{one} )")
        return len(steps) - 1

    add([])
    return steps


def kept_patterns(situation, unasked=(), detect=1):
    """The patterns that are among the last so many to detect some fault that is asked for."""
    kept = sorted({place for fault in situation.faults if fault_text(fault) not in unasked for place in situation.detectors(fault)[-detect:]})
    return [situation.patterns[k] for k in kept]


def percent(share):
    return f"{share // 100}.{share % 100:02}"


def make(netlist, chains, limit, held, count, seed, refutes=False, unasked=(), detect=0):
    """The five texts; with refutations of redundant faults, or with trees alone; and nothing of the faults with these texts. Detections are counted to
    2 or more, or not at all."""
    rng = random.Random(seed)
    drawn = [{name: held.get(name, rng.randrange(2)) for name in netlist.inputs + netlist.cells} for _ in range(count)]
    situation = Situation(netlist, chains, held, kept_patterns(Situation(netlist, chains, held, drawn), unasked, detect or 1))
    owing = {first for fault, first in zip(situation.faults, situation.first) if fault_text(fault) not in unasked}
    evidence, ends = [], {}
    for k in situation.representatives:
        if situation.last[k] is None and k in owing:
            nodes = tree_of(netlist, situation.faults[k], limit, held)
            if nodes is None:
                sys.exit(f"plain_check: no tree of {fault_text(situation.faults[k])} with this limit")
            ends[k] = "aborted" if "?" in nodes else "redundant"
            words = ["R", *cases_of(netlist, situation.faults[k], held)] if refutes and ends[k] == "redundant" else nodes
            evidence.append(f"{fault_text(situation.faults[k])} {' '.join(words)}")
    texts = [fault_text(fault) for fault in situation.faults]
    said = [(text, ("unasked",) if text in unasked else situation.detected(last) if last else (ends[first],))
            for text, last, first in zip(texts, situation.last, situation.first)]
    head = situation.head(said, limit, detect)
    lines = [f"atpg report {version_of(head, held)}"] + [f"{word} {head[word]}" for word in COUNTS]
    lines += [f"unasked {head['unasked']}"] * (head["unasked"] > 0)
    lines += [f"{word} {percent(head[word])}" for word in ("coverage", "efficiency")]
    lines += [f"detect {detect}", *(f"times {count}" for count in head["times"])] if detect else []
    lines += [f"hold {name} {held[name]}" for name in netlist.inputs if name in held]
    lines += [" ".join(str(each) for each in (fault, *verdict)) for fault, verdict in said]
    join = lambda lines: "".join(line + "\n" for line in lines).encode()
    return {"net": plain.canonical(netlist), "scan": plain.canonical(plain.scanned(netlist, chains)),
            "stil": plain.stil_text(netlist, chains, held, plain.items_of(netlist, chains, situation.patterns)),
            "cert": join([f"atpg certificate {2 if refutes and 'redundant' in ends.values() else 1}"] + evidence), "rep": join(lines)}


def path_of(prefix, end):
    return prefix.with_name(f"{prefix.name}.{end}")


def read_files(prefix):
    return {end: path_of(prefix, end).read_bytes() for end in ENDS}


def main():
    parser = argparse.ArgumentParser(description=__doc__, formatter_class=argparse.RawDescriptionHelpFormatter)
    parser.add_argument("prefix", type=pathlib.Path)
    parser.add_argument("--make", type=pathlib.Path, metavar="NET")
    parser.add_argument("--chains", type=int, default=1)
    parser.add_argument("--limit", type=int, default=100)
    parser.add_argument("--hold", default="")
    parser.add_argument("--patterns", type=int, default=64)
    parser.add_argument("--seed", type=int, default=1)
    parser.add_argument("--refute", action="store_true")
    parser.add_argument("--unasked", default="")
    parser.add_argument("--detect", type=int, default=0)
    arguments = parser.parse_args()
    if arguments.make is None:
        status, line = check(read_files(arguments.prefix))
        print(line, file=sys.stdout if status < 2 else sys.stderr)
        sys.exit(status)
    netlist = plain.read(arguments.make.read_bytes())
    held = {name: int(bit) for name, bit in (item.split("=") for item in arguments.hold.split(",") if item)}
    chains = plain.chains_of(netlist.cells, arguments.chains)
    unasked = {text for text in arguments.unasked.split(",") if text}
    files = make(netlist, chains, arguments.limit, held, arguments.patterns, arguments.seed, arguments.refute, unasked, arguments.detect)
    for end, text in files.items():
        path_of(arguments.prefix, end).write_bytes(text)


if __name__ == "__main__":
    main()
