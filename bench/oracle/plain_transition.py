#!/usr/bin/env python3
"""Slow lines by launch on capture, by a plain program apart from the crates, for small designs.

    bench/oracle/plain_transition.py PREFIX     tries all that the five files of `atpg transition` say: PREFIX.net, .scan, .stil, .cert and .rep
    bench/oracle/plain_transition.py --all NET [--hold LIST]  counts by all patterns that obey how many transition faults there are tests for
    bench/oracle/plain_transition.py --check PREFIX     prints the line that `check` has to print, and ends with its status
    bench/oracle/plain_transition.py --make NET PREFIX [--chains C] [--limit L] [--hold LIST] [--patterns N] [--seed S] [--refute]
                                                makes five good files, as bench/oracle/plain_check.py does for stuck lines

It prints how many faults there are, or the first thing that is false, and ends with 1. It plays the test with each slow line from some power-up
states (all of up to three cells), and tries all patterns where there are up to 17 inputs and cells.
"""
import argparse
import itertools
import pathlib
import random
import re
import sys

import plain_check
import plain_design as plain
from plain_check import ENDS, NotText
from plain_stil import is_stil
from sample_netlist import Pcg32

MOST_SOURCES = 17
BATCH = 64
STEP = 16  # the first round takes each fault of so many
ENOUGH = 128  # no more faults that are left need no first round
FIRST = ("atpg transition certificate 1", "atpg transition certificate 2")  # without refutations, and with some
REPORT = ("atpg transition 1", "atpg transition 2")  # without held inputs, and with some
SLOW = ("rise", "fall")  # of a line that is slow to leave 0, or 1
FAULT = re.compile(r"((?:stem|out) \S+|pin \S+ \d+) (rise|fall) ")


class False_(Exception):
    """What is false."""


def need(holds, *what):
    if not holds:
        raise False_(" ".join(map(str, what)))


def fault_text(fault):
    return f"{fault[0]} {SLOW[fault[1]]}"


# What detects a transition fault.

def signal_of(netlist, line):
    """The signal whose value a line carries."""
    kind, name, *place = line.split(" ")
    return netlist.pins[name][int(place[0])] if kind == "pin" else name


def second_of(netlist, sources, points):
    """Inputs stay, and cells hold what they took."""
    return {name: sources[name] for name in netlist.inputs} | dict(zip(netlist.cells, points[len(netlist.outputs):]))


class Launches:
    """Patterns, bit j of each word being that of pattern j, in both frames."""

    def __init__(self, netlist, sources, ones):
        self.netlist, self.ones = netlist, ones
        self.first, points = plain.settled(netlist, sources, ones)
        self.sources = second_of(netlist, sources, points)
        _, self.good = plain.settled(netlist, self.sources, ones)

    def detections(self, fault):
        """For each observed point the patterns that detect the fault there."""
        line, old = fault
        launched = self.first[signal_of(self.netlist, line)] ^ (0 if old else self.ones)
        _, faulty = plain.settled(self.netlist, self.sources, self.ones, fault)
        return [(a ^ b) & launched for a, b in zip(self.good, faulty)]


def packed(netlist, patterns):
    sources = {name: sum(pattern[name] << j for j, pattern in enumerate(patterns)) for name in netlist.inputs + netlist.cells}
    return Launches(netlist, sources, (1 << len(patterns)) - 1)


def all_patterns(names):
    """For each name its bits under all patterns, bit j of a word being that of pattern j; and the word of ones."""
    ones = (1 << (1 << len(names))) - 1
    return {name: ones ^ ones // ((1 << (1 << k)) + 1) for k, name in enumerate(names)}, ones


def free_of(netlist, held):
    """The inputs and cells that a test may choose."""
    return [name for name in netlist.inputs + netlist.cells if name not in held]


def tests_of(netlist, held):
    """For each transition fault the patterns, of all that obey the held inputs, that detect it: a bit for each."""
    columns, ones = all_patterns(free_of(netlist, held))
    launches = Launches(netlist, columns | {name: ones * bit for name, bit in held.items()}, ones)
    found = []
    for fault in plain.universe(netlist):
        word = 0
        for each in launches.detections(fault):
            word |= each
        found.append(word)
    return found


# The two frames, and the stuck-at fault that makes a line slow there.

def frames(netlist, fault):
    line, old = fault
    kind, name, *place = line.split(" ")
    slow = signal_of(netlist, line)
    first = {x: f"SC__1_{x}" for x in netlist.signals} | {x: x for x in netlist.inputs + netlist.cells}
    second = {x: f"SC__2_{x}" for x in netlist.signals} | {x: x for x in netlist.inputs}

    def read(branch, x):
        """What a reader in the second frame reads."""
        return "SC__g" if x == slow and (kind == "stem" or branch == line) else second[x]

    firsts, seconds = [], []  # in this order, by which steps of refutations have their numbers
    for z, gate, pins in netlist.definitions:
        late_pins = [read(f"pin {z} {k}", x) for k, x in enumerate(pins)]
        firsts.append((z, gate, late_pins) if gate == "DFF" else (first[z], gate, [first[x] for x in pins]))
        seconds.append((second[z], "BUFF", [first[pins[0]]]) if gate == "DFF" else (second[z], gate, late_pins))
    tie, hold, late = ("CONST0", "AND", "OR") if old else ("CONST1", "OR", "AND")
    slow_gates = [("SC__e", tie, []), ("SC__h", hold, [first[slow], "SC__e"]), ("SC__g", late, [second[slow], "SC__h"])]
    outputs = [read(f"out {y}", y) for y in netlist.outputs]
    return plain.Netlist(netlist.inputs, outputs, firsts + seconds + slow_gates), ("stem SC__e", old)


def reached(netlist, starts):
    """What is reached from these signals over at least one gate."""
    found, waiting = set(), list(starts)
    while waiting:
        signal = waiting.pop()
        more = [z for z, gate, pins in netlist.definitions if gate != "DFF" and signal in pins and z not in found]
        found.update(more)
        waiting += more
    return found


class Roles:
    """What FAN tells signals apart by, for a fault of a netlist: bound signals, head lines, and the places on which it may split. Ties and held inputs
    bind what they reach, of which a place is what would be one without them."""

    def __init__(self, netlist, line, held=()):
        self.netlist, readers = netlist, plain.readers_of(netlist)
        self.stems = {x for x in netlist.signals if len(readers[x]) >= 2}
        kind, name, *_ = line.split(" ")
        sites = [name] if kind == "stem" or kind == "pin" and netlist.kind[name] != "DFF" else []
        constants = [x for x in netlist.signals if netlist.kind.get(x) in ("CONST0", "CONST1") or x in held]
        fixed, moved = {*constants} | reached(netlist, constants), {*sites} | reached(netlist, [*sites, *self.stems])
        self.bound = moved | fixed
        self.heads = self.edge_of(self.bound)
        self.places = (self.places_of(moved) & fixed) | (self.places_of(self.bound) - fixed)

    def edge_of(self, bound):
        """What isn't bound, and read by a bound gate, a cell or an output."""
        gates = [(gate, pins) for z, gate, pins in self.netlist.definitions if gate == "DFF" or z in bound]
        return ({x for _, pins in gates for x in pins} | set(self.netlist.outputs)) - bound

    def places_of(self, bound):
        return self.stems | self.edge_of(bound) | bound & {*self.netlist.inputs, *self.netlist.cells}

    def first_wrong(self, nodes):
        """The first node that splits a signal that is no place, or forces one that is neither bound nor a head line."""
        for node in nodes:
            if node[0] == "S" and node[1] not in self.places or node[0] == "F" and node[1] not in self.bound | self.heads:
                return node
        return None


def most_places(netlist, held):
    """The most signals on which a search of FAN may split, over all slow lines."""
    most = 0
    for fault in plain.universe(netlist):
        two, (line, _) = frames(netlist, fault)
        most = max(most, len(Roles(two, line, held).places))
    return most


# The test.

def items_of(netlist, chains, patterns):
    """For each pattern a capture that strobes nothing, and one that strobes."""
    captured = []
    for pattern, (_, cells) in zip(patterns, plain.capture_of(netlist, patterns)):
        behind = {name: pattern[name] for name in netlist.inputs} | cells
        outs, cells = plain.capture_of(netlist, [behind])[0]
        captured.append(([plain.vector_of(netlist, pattern, [2] * len(outs)), plain.vector_of(netlist, behind, outs)], cells))
    return plain.items_of(netlist, chains, patterns, captured)


def stil_of(netlist, chains, held, patterns):
    return plain.stil_text(netlist, chains, held, items_of(netlist, chains, patterns))


def patterns_of(tokens, netlist, chains, held):
    """Patterns whose file has these tokens; None where there are none such. It takes candidates and compares the whole text."""
    start = tokens.index(b"Pattern") if b"Pattern" in tokens else len(tokens)
    pi = plain_check.words_after(tokens[start:], b"SC__pi")
    loads = [plain_check.words_after(tokens[start:], f"SC__si{c}".encode()) for c in range(len(chains))]
    patterns = []
    try:
        for p, word in enumerate(pi[::2]):
            pattern = dict(zip(netlist.inputs, map(int, word)))
            for chain, words in zip(chains, loads):
                # three flush loads, then for each pattern its load and two vectors
                pattern |= {cell: int(bit) for cell, bit in zip(chain, words[3 + 3 * p][::-1])}
            patterns.append(pattern)
    except (IndexError, ValueError):
        return None
    if any(pattern.get(name) not in (0, 1) for pattern in patterns for name in netlist.inputs + netlist.cells):
        return None
    if any(pattern[name] != bit for pattern in patterns for name, bit in held.items()):
        return None
    return patterns if plain.stil_tokens(stil_of(netlist, chains, held, patterns)) == tokens else None


def failing(scanned, cycles, state, fault=None):
    """The strobes that fail in the run from a power-up state, with a line that is slow behind a launch, or none: cycles and pins."""
    line, old = fault if fault else (None, 0)
    pins, fails, before = plain.pin_names(scanned), [], None
    for number, (drive, strobe, pulse) in enumerate(cycles):
        sources = dict(zip(scanned.inputs, map(int, drive))) | state
        is_capture = not sources["SC__se"] if scanned.cells else True
        is_slow = fault is not None and is_capture and before == old
        values, points = plain.settled(scanned, sources, 1, fault if is_slow else None)
        fails += [(number, pin) for pin, bit, wanted in zip(pins, points, strobe) if wanted != "X" and bit != "LH".index(wanted)]
        is_launch = is_capture and (bool(scanned.cells) or number % 2 == 0)
        before = values[signal_of(scanned, line)] if fault and is_launch else None
        if pulse:
            state = dict(zip(scanned.cells, points[len(scanned.outputs):]))
    return fails


def power_ups(cells):
    if len(cells) <= 3:
        return [dict(zip(cells, bits)) for bits in itertools.product((0, 1), repeat=len(cells))]
    rng = random.Random(1)
    return [dict.fromkeys(cells, 0), dict.fromkeys(cells, 1)] + [{cell: rng.randrange(2) for cell in cells} for _ in range(2)]


def site_of(netlist, line):
    words = line.split(" ")
    return f"pin SC__a_{words[1]} 0" if words[0] == "pin" and words[1] in netlist.cells else line


# The files.

class SlowLines(plain_check.Situation):
    """What follows of a design, its chains, held inputs and patterns: each fault is a class of its own."""

    def __init__(self, netlist, chains, held, patterns):
        self.netlist, self.chains, self.held, self.patterns = netlist, chains, held, patterns
        self.faults = plain.universe(netlist)
        self.representatives = list(range(len(self.faults)))
        self.launches = packed(netlist, patterns)
        self.last = [self.last_detector(fault) for fault in self.faults]

    def differences(self, fault):
        return self.launches.detections(fault)

    def detected(self, last):
        pattern, point = last
        longest = max((len(chain) for chain in self.chains), default=0)
        begin, step, count = 3 * longest, longest + 2, len(self.netlist.outputs)
        if point < count:
            return "detected", pattern, begin + pattern * step + longest + 1, plain.pin_names(self.netlist)[point]
        cell = self.netlist.cells[point - count]
        number = next(c for c, chain in enumerate(self.chains) if cell in chain)
        chain = self.chains[number]
        return "detected", pattern, begin + (pattern + 1) * step + len(chain) - 1 - chain.index(cell), f"SC__so{number}"

    def cycles(self):
        return (len(self.patterns) + 4) * max((len(chain) for chain in self.chains), default=0) + 2 * len(self.patterns)

    def head(self, said, limit, detect=0):
        return super().head(said, limit, detect) | {"cycles": self.cycles()}


def cube_of(netlist, held, tests):
    """The bits that all tests of a fault have, where its tests are all patterns that have these; else None."""
    columns, _ = all_patterns(free_of(netlist, held))
    cube = {name: int(bool(tests & column)) for name, column in columns.items() if tests & column in (0, tests)}
    return held | cube if tests.bit_count() == 2 ** (len(columns) - len(cube)) else None


def batch_of(netlist, held, seed):
    """The patterns that are drawn before any search: one word a bit that isn't held, in order."""
    return completed(netlist, [held] * BATCH, Pcg32(seed, 1))


def completed(netlist, cubes, words):
    """The patterns of cubes: the open bits of each, in order, are the lowest bits of words."""
    return [{name: cube[name] if name in cube else words.next_u32() & 1 for name in netlist.inputs + netlist.cells} for cube in cubes]


def first_round(last):
    """The faults that are searched first, of those that no drawn pattern detects."""
    left = [k for k, known in enumerate(last) if known is None]
    return [k for k in left if k % STEP == 0] if len(left) > ENOUGH else []


def cubes_of(netlist, held, tests, places):
    """The cubes of these faults that can be detected; None for one whose tests aren't those of a cube."""
    return [cube_of(netlist, held, tests[k]) for k in places if tests[k]]


def with_tests(netlist, chains, held, tests, seed):
    """The drawn patterns, and behind them those of two rounds of searches: the second is over what the patterns before it leave. None where some
    tests aren't those of a cube."""
    patterns = batch_of(netlist, held, seed)
    for stream in (2, 0):
        last = SlowLines(netlist, chains, held, patterns).last
        places = first_round(last) if stream == 2 else [k for k, known in enumerate(last) if known is None]
        cubes = cubes_of(netlist, held, tests, places)
        if None in cubes:
            return None
        patterns = patterns + filled(netlist, cubes, seed, stream)
    return patterns


def filled(netlist, cubes, seed, stream):
    """Cubes merged in order, each with the first that it doesn't contradict, and filled by the lowest bits of words drawn from a stream."""
    results = []
    for cube in cubes:
        fitting = next((result for result in results if all(result.get(name, bit) == bit for name, bit in cube.items())), None)
        if fitting is None:
            results.append(dict(cube))
        else:
            fitting.update(cube)
    return completed(netlist, results, Pcg32(seed, stream))


def kept(netlist, chains, held, patterns):
    """What follows of the patterns that are the last to detect some fault."""
    return SlowLines(netlist, chains, held, plain_check.kept_patterns(SlowLines(netlist, chains, held, patterns)))


def report_of(situation, limit):
    """The report's text, where each fault that isn't detected is redundant."""
    said = [(fault_text(fault), situation.detected(last) if last else ("redundant",)) for fault, last in zip(situation.faults, situation.last)]
    return text_of(situation, limit, said)


def text_of(situation, limit, said):
    """The report's text, where this is said of the faults."""
    head = situation.head(said, limit)
    lines = [REPORT[bool(situation.held)]] + [f"{word} {head[word]}" for word in plain_check.COUNTS]
    lines += [f"{word} {plain_check.percent(head[word])}" for word in ("coverage", "efficiency")]
    lines += [f"hold {name} {situation.held[name]}" for name in situation.netlist.inputs if name in situation.held]
    lines += [" ".join(str(each) for each in (fault, *verdict)) for fault, verdict in said]
    return "".join(line + "\n" for line in lines)


def read_report(text):
    """The head, the held inputs and what is said of each fault: but for its first line and the faults' texts it is a report of stuck lines."""
    first, *lines = text.decode("latin-1").split("\n")
    need(first in REPORT, "the report's first line")
    begin = next((place for place, line in enumerate(lines) if place >= 16 and not line.startswith("hold ")), len(lines))
    need(all(FAULT.match(line) for line in lines[begin:-1]), "a line of the report")
    stuck = [FAULT.sub(lambda match: f"{match[1]}/{SLOW.index(match[2])} ", line) for line in lines[begin:]]
    version = 1 + REPORT.index(first)
    head, held, said = plain_check.read_report("\n".join([f"atpg report {version}"] + lines[:begin] + stuck).encode("latin-1"))
    texts = [FAULT.match(line)[0].rstrip() for line in lines[begin:-1]]
    return head, held, [(text, verdict) for text, (_, verdict) in zip(texts, said)]


def is_slow(text):
    """Whether a report is one of slow lines, in whatever version."""
    return text.startswith(b"atpg transition ")


def read_certificate(text, netlist):
    """Pairs of a slow line's text and its evidence. The signals of the two frames have the same names for each."""
    first, *lines = text.decode("latin-1").split("\n")
    if first not in FIRST or lines[-1:] != [""]:
        raise NotText
    faults = plain.universe(netlist)
    texts, names = {fault_text(fault) for fault in faults}, set(frames(netlist, faults[0])[0].signals)
    evidence = []
    for line in lines[:-1]:
        words = line.split(" ")
        place = 4 if words[0] == "pin" else 3
        fault = " ".join(words[:place])
        if fault not in texts:
            raise NotText
        evidence.append((fault, plain_check.evidence_of(line, place, words, names)))
    if first != FIRST[any(kind == "refutation" for _, (kind, _) in evidence)]:
        raise NotText
    return evidence


def false_fault(situation, said, evidence, limit):
    """The first slow line of which the report's line is missing, another's or false."""
    by_fault = {}
    for fault, told in evidence:
        by_fault.setdefault(fault, told)
    for k, fault in enumerate(situation.faults):
        text = fault_text(fault)
        if k >= len(said):
            return text
        if said[k][0] != text:
            return said[k][0]
        verdict, last = said[k][1], situation.last[k]
        if verdict[0] == "unasked":
            return text
        if verdict[0] == "detected":
            if last is None or verdict != situation.detected(last):
                return text
            continue
        told = by_fault.get(text)
        counts = told and plain_check.ends_of(*frames(situation.netlist, fault), told, situation.held)
        wanted = counts is not None and (counts[1] == 0 if verdict[0] == "redundant" else counts[0] == limit and counts[1] > 0)
        if last is not None or not wanted:
            return text
    return None


def further_fault(situation, said, evidence):
    """A further line of the report, or the first line of the certificate that isn't that of the next slow line that is redundant or aborted."""
    if len(said) > len(situation.faults):
        return said[len(situation.faults)][0]
    left = [fault for fault, verdict in said if verdict[0] in ("redundant", "aborted")]
    return next((fault for k, (fault, _) in enumerate(evidence) if k >= len(left) or left[k] != fault), None)


def check(files):
    """The status and the line: on standard output where it is 0 or 1, else on standard error."""
    try:
        netlist = plain.read(files["net"])
    except plain.Refusal as refusal:
        return 3, str(refusal)
    if not is_stil(files["stil"]):
        return 4, "not a stil file"
    try:
        evidence = read_certificate(files["cert"], netlist)
    except NotText:
        return 4, "not a certificate"
    try:
        head, held, said = read_report(files["rep"])
    except (NotText, False_):
        return 4, "not a report"
    return clauses(files, netlist, evidence, head, held, said)


def clauses(files, netlist, evidence, head, held, said):
    asked = head["chains"]
    if (asked == 0 and netlist.cells) or asked >= 2 ** 32:
        return 1, "scan differs"
    chains = plain.chains_of(netlist.cells, asked)
    if files["scan"] != plain.canonical(plain.scanned(netlist, chains)):
        return 1, "scan differs"
    if not plain_check.are_holds(netlist, held):
        return 1, "hold differs"
    held = dict(held)
    patterns = patterns_of(plain.stil_tokens(files["stil"]), netlist, chains, held)
    if patterns is None:
        return 1, "stil differs"
    situation = SlowLines(netlist, chains, held, patterns)
    false = false_fault(situation, said, evidence, head["limit"]) or further_fault(situation, said, evidence)
    if false is not None:
        return 1, f"fault {false}"
    if head != situation.head(said, head["limit"]) or not 1 <= head["limit"] <= plain_check.MOST_LIMIT:
        return 1, "totals differ"
    return 0, f"checked {len(situation.faults)} faults"


def try_evidence(text, situation, said, limit):
    """Each fault that isn't detected has evidence on its two frames: a tree that fits, with the ends that it needs, or steps that refute it; and there is
    no other. The first line says whether there are refutations."""
    first, *lines = text.decode("latin-1").split("\n")
    need(first in FIRST and lines[-1] == "", "the certificate's first line")
    left = [(fault, verdict[0]) for fault, (_, verdict) in zip(situation.faults, said) if verdict[0] != "detected"]
    need(len(lines) - 1 == len(left), "how many lines the certificate has")
    kinds = set()
    for line, (fault, verdict) in zip(lines, left):
        told = fault_text(fault)
        need(line.startswith(told + " "), "the evidence of", told)
        netlist, stuck = frames(situation.netlist, fault)
        evidence = plain_check.evidence_of(line, len(told.split(" ")), line.split(" "), set(netlist.signals))
        counts = plain_check.ends_of(netlist, stuck, evidence, situation.held)
        need(counts is not None and (counts[1] == 0 if verdict == "redundant" else counts[0] == limit and counts[1] > 0), "the evidence of", told)
        kinds.add(evidence[0])
    need(first == FIRST["refutation" in kinds], "the certificate's first line")


def try_on_tester(situation, said):
    """The good netlist passes; a detected fault fails where it is said, and a fault that no pattern detects nowhere."""
    netlist, chains = situation.netlist, situation.chains
    scanned = plain.scanned(netlist, chains)
    cycles = list(plain.cycles_of(netlist, chains, items_of(netlist, chains, situation.patterns), situation.held))
    need(len(cycles) == situation.cycles(), "the cycles of the file")
    drives = [dict(zip(netlist.inputs, map(int, drive))) for drive, _, _ in cycles]
    need(all(drive[name] == bit for drive in drives for name, bit in situation.held.items()), "each cycle drives held inputs with their bits")
    for state in power_ups(scanned.cells):
        need(not failing(scanned, cycles, state), "the good netlist passes")
        for (line, old), (text, verdict) in zip(situation.faults, said):
            fails = failing(scanned, cycles, state, (site_of(netlist, line), old))
            need(verdict[2:] in fails if verdict[0] == "detected" else not fails, "on the tester:", text)


def try_files(files):
    """How many faults there are, where nothing is false."""
    netlist = plain.read(files["net"])
    need(plain.canonical(netlist) == files["net"], ".net is the canonical text")
    head, held, said = read_report(files["rep"])
    chains = plain.chains_of(netlist.cells, head["chains"])
    need(plain.canonical(plain.scanned(netlist, chains)) == files["scan"], ".scan is the scanned netlist")
    need(plain_check.are_holds(netlist, held), "the report's held inputs are the netlist's, in order")
    held = dict(held)
    need(is_stil(files["stil"]), ".stil is a STIL file")
    patterns = patterns_of(plain.stil_tokens(files["stil"]), netlist, chains, held)
    need(patterns is not None, ".stil is the file of patterns")
    situation = SlowLines(netlist, chains, held, patterns)
    need({last[0] for last in situation.last if last} == set(range(len(patterns))), "each pattern is needed")
    need([text for text, _ in said] == [fault_text(fault) for fault in situation.faults], "each fault stands once")
    for last, (text, verdict) in zip(situation.last, said):
        need(verdict == situation.detected(last) if last else verdict[0] != "detected", "of", text)
    need(head == situation.head(said, head["limit"]), "the numbers of the report")
    try_evidence(files["cert"], situation, said, head["limit"])
    try_on_tester(situation, said)
    if len(free_of(netlist, held)) <= MOST_SOURCES:
        for tests, (text, verdict) in zip(tests_of(netlist, held), said):
            need(not tests or verdict[0] != "redundant", "redundant:", text)
    return len(said)


def make(netlist, chains, limit, held, count, seed, refutes=False):
    """Five texts: drawn patterns of which those are left out that are no last detector; trees split inputs and cells in order, or redundant slow lines
    have refutations by the same cases."""
    rng = random.Random(seed)
    drawn = [{name: held.get(name, rng.randrange(2)) for name in netlist.inputs + netlist.cells} for _ in range(count)]
    situation = kept(netlist, chains, held, drawn)
    said, lines, kinds = [], [], set()
    for fault, last in zip(situation.faults, situation.last):
        if last:
            said.append((fault_text(fault), situation.detected(last)))
            continue
        two, stuck = frames(netlist, fault)
        nodes = plain_check.tree_of(two, stuck, limit, held)
        if nodes is None:
            sys.exit(f"plain_transition: no tree of {fault_text(fault)} with this limit")
        if "?" in nodes and nodes.count("!") < limit:
            sys.exit(f"plain_transition: drawn patterns leave {fault_text(fault)}, which can be detected")
        end = "aborted" if "?" in nodes else "redundant"
        refuted = refutes and end == "redundant"
        kinds.add(refuted)
        lines.append(" ".join([fault_text(fault), *(["R", *plain_check.cases_of(two, stuck, held)] if refuted else nodes)]))
        said.append((fault_text(fault), (end,)))
    certificate = "".join(line + "\n" for line in [FIRST[True in kinds], *lines])
    return {"net": plain.canonical(netlist), "scan": plain.canonical(plain.scanned(netlist, chains)), "stil": stil_of(netlist, chains, held, situation.patterns),
            "cert": certificate.encode(), "rep": text_of(situation, limit, said).encode()}


def main():
    parser = argparse.ArgumentParser(description=__doc__, formatter_class=argparse.RawDescriptionHelpFormatter)
    parser.add_argument("path", type=pathlib.Path)
    parser.add_argument("--all", action="store_true")
    parser.add_argument("--check", action="store_true")
    parser.add_argument("--make", type=pathlib.Path, metavar="NET")
    parser.add_argument("--chains", type=int, default=1)
    parser.add_argument("--limit", type=int, default=100)
    parser.add_argument("--hold", default="")
    parser.add_argument("--patterns", type=int, default=64)
    parser.add_argument("--seed", type=int, default=1)
    parser.add_argument("--refute", action="store_true")
    asked = parser.parse_args()
    held = {name: int(bit) for name, bit in (item.split("=") for item in asked.hold.split(",") if item)}
    if asked.all:
        tests = tests_of(plain.read(asked.path.read_bytes()), held)
        detected = sum(bool(each) for each in tests)
        print(f"faults {len(tests)} detected {detected} redundant {len(tests) - detected}")
        return
    if asked.make:
        netlist = plain.read(asked.make.read_bytes())
        files = make(netlist, plain.chains_of(netlist.cells, asked.chains), asked.limit, held, asked.patterns, asked.seed, asked.refute)
        for end, text in files.items():
            plain_check.path_of(asked.path, end).write_bytes(text)
        return
    if asked.check:
        status, line = check(plain_check.read_files(asked.path))
        print(line, file=sys.stdout if status < 2 else sys.stderr)
        sys.exit(status)
    try:
        print(f"tried {try_files(plain_check.read_files(asked.path))} faults")
    except (False_, NotText, plain.Refusal) as what:
        sys.exit(f"false: {what or 'a text outside its grammar'}")


if __name__ == "__main__":
    main()
