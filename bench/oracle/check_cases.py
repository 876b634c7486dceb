#!/usr/bin/env python3
"""Works out what the rows of crates/calls and crates/cases have to print, by plain programs apart from the crates, and compares.

A row that this program doesn't know (a refusal, a line of an error output) is worked out by hand; how many there are is printed.

    bench/oracle/check_cases.py
"""
import itertools
import os
import re
import subprocess
import sys

sys.path.insert(0, os.path.dirname(os.path.abspath(__file__)))
import check_certificates
import check_checks
import check_trees
import list_play
import plain_chains
import plain_check
import plain_design
import plain_program
import plain_refutation
import stil_file
from check_reports import is_report
from fault_list import fault_list, netlist_of, readers_of
from plain_stil import is_stil
from sample_netlist import Pcg32

ROOT = os.path.dirname(os.path.dirname(os.path.dirname(os.path.abspath(__file__))))
WORDS = {"BUF": "BUFF"}
RUNS = ("case ", "run ", "keep ", "meet ", "twice ", "cut ")
CHECK = "check "


def shown(text):
    """The lines in which a text is shown."""
    if isinstance(text, plain_program.Begun):
        raise plain_program.Unknown
    lines = text.split("\n")
    escaped = ["|" + "".join(escape(ord(c)) for c in line) for line in lines]
    return escaped[:-1] + ([escaped[-1] + "\\"] if lines[-1] else [])


def escape(byte):
    if byte == 92:
        return "\\\\"
    return chr(byte) if 32 <= byte <= 126 else f"\\x{byte:02x}"


def unescape(line):
    """The bytes that a line stands for."""
    out, k = "", 0
    while k < len(line):
        if line[k] != "\\":
            out, k = out + line[k], k + 1
        elif line[k + 1 : k + 2] == "x":
            out, k = out + chr(int(line[k + 2 : k + 4], 16)), k + 4
        elif line[k + 1 : k + 2] == "\\":
            out, k = out + "\\", k + 2
        else:
            return out
    return out + "\n"


def checksum(text):
    total = 0x811C9DC5
    for byte in text.encode("latin-1"):
        total = ((total ^ byte) * 0x01000193) & 0xFFFFFFFF
    return total


def gate(kind, bits):
    if kind in ("CONST0", "CONST1"):
        return kind == "CONST1"
    if kind in ("AND", "NAND"):
        value = all(bits)
    elif kind in ("OR", "NOR"):
        value = any(bits)
    elif kind in ("XOR", "XNOR"):
        value = sum(bits) % 2 == 1
    else:
        value = bits[0]
    return not value if kind in ("NAND", "NOR", "XNOR", "NOT") else value


def forced(kind, values):
    """What every choice of bits for the Xs gives."""
    choices = itertools.product(*["01" if v == "X" else v for v in values])
    given = {gate(kind, [c == "1" for c in choice]) for choice in choices}
    return "X" if len(given) == 2 else digits(given)


class Netlist:
    def __init__(self, text):
        self.inputs, self.outputs, self.definitions = netlist_of(text)
        self.defined = {name: (kind, pins) for name, kind, pins in self.definitions}
        self.cells = [name for name, kind, _ in self.definitions if kind == "DFF"]
        self.signals = self.inputs + [name for name, _, _ in self.definitions]

    def settled(self, inputs, state, fault=None):
        """Signals, outputs and next state, with a line stuck or none."""
        line, value = fault.rsplit("/", 1) if fault else (None, "0")
        stuck = value == "1"
        driven = dict(zip(self.inputs, inputs)) | dict(zip(self.cells, state))
        bits = {}

        def stem(name):
            if name not in bits:
                kind, pins = self.defined.get(name, (None, []))
                value = driven[name] if name in driven else gate(kind, [pin(name, k) for k in range(len(pins))])
                bits[name] = stuck if line == f"stem {name}" else value
            return bits[name]

        def pin(name, place):
            value = stem(self.defined[name][1][place])
            return stuck if line == f"pin {name} {place}" else value

        outputs = [stuck if line == f"out {name}" else stem(name) for name in self.outputs]
        return [stem(x) for x in self.signals], outputs, [pin(name, 0) for name in self.cells]

    def canonical(self):
        lines = [f"INPUT({x})" for x in self.inputs] + [f"OUTPUT({y})" for y in self.outputs]
        lines += [f"{name} = {WORDS.get(kind, kind)}({', '.join(pins)})" for name, kind, pins in self.definitions]
        return "".join(line + "\n" for line in lines)

    def chains(self, asked):
        count = min(asked, len(self.cells))
        chains, start = [], 0
        for chain in range(count):
            end = start + len(self.cells) // count + (chain < len(self.cells) % count)
            chains.append(self.cells[start:end])
            start = end
        return chains

    def scanned(self, asked):
        """The text with scan cells in chains (docs/SCAN_AND_STIL.md)."""
        chains = self.chains(asked)
        if not chains:
            return self.canonical()
        before = {}
        for place, chain in enumerate(chains):
            last = f"SC__si{place}"
            for cell in chain:
                before[cell] = last
                last = f"SC__s_{cell}"
        inputs = self.inputs + ["SC__se"] + [f"SC__si{k}" for k in range(len(chains))]
        outputs = self.outputs + [f"SC__so{k}" for k in range(len(chains))]
        lines = [f"INPUT({x})" for x in inputs] + [f"OUTPUT({y})" for y in outputs] + ["SC__nse = NOT(SC__se)"]
        for name, kind, pins in self.definitions:
            if kind == "DFF":
                lines += [
                    f"SC__a_{name} = AND({pins[0]}, SC__nse)",
                    f"SC__b_{name} = AND({before[name]}, SC__se)",
                    f"SC__d_{name} = OR(SC__a_{name}, SC__b_{name})",
                    f"SC__s_{name} = DFF(SC__d_{name})",
                    f"{name} = BUFF(SC__s_{name})",
                ]
            else:
                lines.append(f"{name} = {WORDS.get(kind, kind)}({', '.join(pins)})")
        lines += [f"SC__so{k} = BUFF(SC__s_{chain[-1]})" for k, chain in enumerate(chains)]
        return "".join(line + "\n" for line in lines)

    def site(self, line):
        word, name, *place = line.split(" ")
        return f"pin SC__a_{name} 0" if word == "pin" and name in self.cells else line

    def pin_name(self, place):
        name = self.outputs[place]
        return f"SC__o_{name}" if name in self.inputs else name


def digits(bits):
    return "".join("1" if bit else "0" for bit in bits)


def bits_of(text):
    return [c == "1" for c in text if c in "01"]


def numbered(count, number):
    return [number >> k & 1 == 1 for k in range(count)]


def observed(netlist, text):
    """A checksum of outputs and next states over all inputs and states, with no fault and with each of the list."""
    for fault in [None] + [line.split(" class")[0] for line in list(fault_list(text))[1:]]:
        seen = ""
        for state in range(2 ** len(netlist.cells)):
            for number in range(2 ** len(netlist.inputs)):
                _, outputs, cells = netlist.settled(numbered(len(netlist.inputs), number), numbered(len(netlist.cells), state), fault)
                seen += digits(outputs) + digits(cells) + "\n"
        yield f"{fault or 'no fault'} {checksum(seen)}"


def filled(state, stream, cube):
    """A cube filled by the words of PCG (O'Neill 2014, XSH RR 64/32), and the next word."""
    most = 2**64 - 1
    increment = (stream << 1 | 1) & most
    at = ((increment + state) * 6364136223846793005 + increment) & most

    def word():
        nonlocal at
        old, at = at, (at * 6364136223846793005 + increment) & most
        mixed, turn = (((old >> 18) ^ old) >> 27) & 0xFFFFFFFF, old >> 59
        return (mixed >> turn | mixed << (-turn & 31)) & 0xFFFFFFFF

    pattern = "".join(c if c in "01/" else str(word() & 1) for c in cube)
    return f"{pattern} next word {word()}"


def merged(cubes):
    """Each cube joins the first result with which it has no bit against bit; else it is a new one."""
    if len({(len(cube), cube.index("/")) for cube in cubes}) > 1:
        return ["cubes of other widths"]
    results = []
    for cube in cubes:
        for place, result in enumerate(results):
            if not any({a, b} == {"0", "1"} for a, b in zip(result, cube)):
                results[place] = "".join(b if a == "X" else a for a, b in zip(result, cube))
                break
        else:
            results.append(cube)
    return results


def sample(seed, gates):
    command = [sys.executable, f"{ROOT}/bench/oracle/sample_netlist.py", seed, gates]
    return subprocess.run(command, capture_output=True, text=True, check=True).stdout


def with_no_netlist(verb, rest):
    words = rest.split(" ")
    if verb == "gate":
        return ["".join(forced(words[0], values) for values in words[1:] or [""])]
    if verb == "merge":
        return merged(words)
    if verb == "fill":
        return [filled(int(words[0]), int(words[1]), words[2])]
    text = sample(words[0], words[1])
    return shown(text) if verb == "generate" else [str(checksum(text))]


def spread(prefix, names):
    return [" ".join([prefix, *names])]


def on_netlist(verb, text, rest):
    """What a call says of a netlist; None where this program doesn't know."""
    netlist = Netlist(text)
    if verb == "signals":
        return spread("inputs", netlist.inputs) + spread("outputs", netlist.outputs) + spread("cells", netlist.cells)
    if verb == "readers":
        return readers_of(netlist.outputs, netlist.definitions).get(rest, [])
    if verb == "definition":
        kind, pins = netlist.defined.get(rest, ("input", []))
        return [" ".join([WORDS.get(kind, kind), *pins])]
    if verb == "eval":
        inputs, state, *fault = rest.split(" ", 2)
        signals, outputs, cells = netlist.settled(bits_of(inputs), bits_of(state), *fault)
        return [f"signals {digits(signals)}", f"outputs {digits(outputs)}", f"next {digits(cells)}"]
    if verb == "observed":
        return list(observed(netlist, text))
    if verb == "chains":
        return [line for chain in netlist.chains(int(rest)) for line in spread("chain", chain)]
    if verb == "insert":
        return shown(netlist.scanned(int(rest)))
    if verb == "site":
        return [netlist.site(rest.split(" ", 1)[1])]
    if verb == "pin-name":
        return [netlist.pin_name(int(rest))]
    if verb in ("search", "search-fan"):
        return searched(netlist, verb == "search-fan", *rest.split(" ", 2))
    if verb in ("last", "hits"):
        names, texts = rest.split(": ", 1)
        if verb == "hits" and len(texts.split(" ")) > 64:
            return ["more than 64 patterns"]
        return [last_detected(netlist, fault, texts) for fault in names.split(", ")]
    if verb in ("drawn-hits", "drawn-last"):
        seed, count = rest.split(" ")
        return [str(checksum(drawn(netlist, text, int(seed), int(count))))]
    if verb == "drawn-stil":
        asked, seed, count = (int(word) for word in rest.split(" "))
        return [str(checksum("".join(line + "\n" for line in drawn_file(netlist, asked, seed, count))))]
    if verb == "events":
        return [f"{rest.split(' ')[1]} changes, all as from scratch"]
    if verb == "tree":
        return [tree(netlist, *rest.split(" ", 1))]
    if verb in ("vectors", "stil", "stil-but"):
        return stil_answer(netlist, verb, *rest.split(": ", 1))
    faults = [line.rsplit(" class ", 1) for line in list(fault_list(text))[1:]]
    if verb == "fault":
        return [rest if rest in [fault for fault, _ in faults] else "no fault"]
    if verb == "first-member":
        return [next(fault for fault, number in faults if number == rest)]
    return None


def tree(netlist, held, rest):
    """What the check of a tree answers; a closed tree is compared with all patterns besides."""
    fault, _, nodes = rest.partition(": ")
    held = {} if held == "-" else dict([held.split("=")])
    said = check_trees.answer(netlist, gate, fault, nodes, held)
    if said.startswith("closed") and said.endswith("open 0") and check_trees.is_detected(netlist, fault, held):
        return "a closed tree of a fault that some pattern detects"
    return said


def stil_answer(netlist, verb, head, texts):
    """The patterns' vectors, or their file and of which patterns it is read as the file; None where a word is another in it."""
    asked, held, *_ = head.split(" ")
    held = {} if held == "-" else {name: bit == "1" for name, bit in [held.split("=")]}
    patterns = [(bits_of(inputs), bits_of(cells)) for inputs, _, cells in (text.partition("/") for text in texts.split() if text != "none")]
    if any(inputs[netlist.inputs.index(name)] != bit for inputs, _ in patterns for name, bit in held.items()):
        return ["no patterns that obey"]
    read = " ".join(["patterns"] + [f"{digits(inputs)}/{digits(cells)}" for inputs, cells in patterns])
    if verb == "vectors":
        return stil_file.vectors(netlist, int(asked), held, patterns)
    return shown(stil_file.stil(netlist, int(asked), held, patterns)) + [read] if verb == "stil" else None


def searched(netlist, by_fan, held, limit, fault):
    """A test or none, by all patterns; None where the backtrack limit might end the search before. FAN also decides stems; head lines stand for sources."""
    held = {} if held == "-" else dict([held.split("=")])
    sources = len(netlist.inputs) - len(held) + len(netlist.cells)
    if by_fan:
        sources += sum(len(readers) >= 2 for readers in readers_of(netlist.outputs, netlist.definitions).values())
    if check_trees.is_detected(netlist, fault, held):
        found = "test"
    else:
        found = "closed"
    return [found] if int(limit) >= 2**sources else None


def last_detected(netlist, fault, texts):
    """The last pattern that detects the fault, and the first point at which it does."""
    for place, text in reversed(list(enumerate(texts.split(" ")))):
        inputs, _, cells = text.partition("/")
        patterns = bits_of(inputs), bits_of(cells)
        good, bad = netlist.settled(*patterns), netlist.settled(*patterns, fault)
        for word, one, other in (("output", good[1], bad[1]), ("cell", good[2], bad[2])):
            differ = [k for k, (a, b) in enumerate(zip(one, other)) if a != b]
            if differ:
                return f"pattern {place} {word} {differ[0]}"
    return "never"


class Packed:
    """Evaluation of many patterns at once, a bit of a number for each."""

    def __init__(self, netlist, columns, count):
        self.netlist, self.ones, self.columns = netlist, (1 << count) - 1, columns
        self.good = self.settled(None, 0)

    def made(self, kind, words):
        word = words[0]
        for other in words[1:]:
            word = word & other if kind in ("AND", "NAND") else word | other if kind in ("OR", "NOR") else word ^ other
        return word ^ self.ones if kind in ("NAND", "NOR", "XNOR", "NOT") else word

    def settled(self, line, stuck):
        """The words of outputs and next states, with a line stuck or none."""
        netlist, words = self.netlist, {}

        def stem(name):
            if name not in words:
                kind, pins = netlist.defined.get(name, (None, []))
                word = self.columns[name] if name in self.columns else self.made(kind, [pin(name, k) for k in range(len(pins))])
                words[name] = stuck if line == f"stem {name}" else word
            return words[name]

        def pin(name, place):
            word = stem(netlist.defined[name][1][place])
            return stuck if line == f"pin {name} {place}" else word

        outputs = [stuck if line == f"out {name}" else stem(name) for name in netlist.outputs]
        return outputs, [pin(name, 0) for name in netlist.cells]

    def last(self, fault):
        line, value = fault.rsplit("/", 1)
        bad = self.settled(line, self.ones if value == "1" else 0)
        differs = [[one ^ other for one, other in zip(*pair)] for pair in zip(self.good, bad)]
        last = max((word for words in differs for word in words), key=int.bit_length, default=0).bit_length() - 1
        if last < 0:
            return "never"
        where = [f"{point} {k}" for point, words in zip(("output", "cell"), differs) for k, word in enumerate(words) if word >> last & 1]
        return f"pattern {last} {where[0]}"


def drawn_file(netlist, asked, seed, count):
    """The file of so many patterns drawn by PCG, and of which it is read as the file: a word's lowest bit for each input, then each cell."""
    words, width = Pcg32(seed, 54), len(netlist.inputs)
    rows = [digits([words.next_u32() & 1 for _ in netlist.inputs + netlist.cells]) for _ in range(count)]
    return stil_answer(netlist, "stil", f"{asked} -", " ".join(f"{row[:width]}/{row[width:]}" for row in rows))


def drawn(netlist, text, seed, count):
    """What so many patterns drawn by PCG say of all faults, a line for each: a word's lowest bit for each input, then each cell."""
    words = Pcg32(seed, 54)
    columns = {name: 0 for name in netlist.inputs + netlist.cells}
    for pattern in range(count):
        for name in columns:
            columns[name] |= (words.next_u32() & 1) << pattern
    packed = Packed(netlist, columns, count)
    faults = [line.rsplit(" class ", 1)[0] for line in list(fault_list(text))[1:]]
    return "".join(packed.last(fault) + "\n" for fault in faults)


def certificate(verb, text, read):
    """What the reader of certificates answers."""
    faults = [line.rsplit(" class ", 1)[0] for line in list(fault_list(text))[1:]]
    lines = check_certificates.answer(set(Netlist(text).signals), faults, read)
    if lines is None:
        return ["NotCertificate"]
    kinds, whole = [kind for kind, _ in lines], "".join(line for _, line in lines)
    counts = [f"{kind}s {kinds.count(kind)}" for kind in ("refutation", "tree") if kind == "tree" or kind in kinds]
    return counts + (shown(whole) if verb == "certificate" else [f"sum {checksum(whole)}"])


def texts_and_rows(path):
    """The texts that an input tells, and its other lines."""
    texts, rows, name = {}, [], None
    with open(path, encoding="latin-1") as file:
        for line in file.read().split("\n"):
            verb, _, rest = line.partition(" ")
            if line.startswith("|"):
                texts[name].append(unescape(line[1:]))
            elif verb == "text":
                name = rest
                texts[name] = []
            elif verb == "repeat":
                count, what = rest.split(" ", 1)
                texts[name].append(what * int(count))
            elif verb == "numbered":
                first, last, form = rest.split(" ", 2)
                numbers = range(int(first), int(last))
                texts[name] += [form.replace("@", str(max(k - 1, 0))).replace("%", str(k)) + "\n" for k in numbers]
            elif line and not line.startswith("#"):
                rows.append(line)
    return {name: "".join(parts) for name, parts in texts.items()}, rows


def answers(path, heads):
    """The lines behind each head, in order."""
    rows, current = [], None
    with open(path, encoding="latin-1") as file:
        for line in file.read().split("\n"):
            if heads and line == heads[0]:
                current = []
                rows.append(current)
                heads = heads[1:]
            elif current is not None:
                current.append(line)
    return rows


def differs(row, wanted, given):
    if wanted == given:
        return 0
    print(f"{row}\n  worked out: {wanted}\n  stored:     {given}")
    return 1


def reported(verb, text, change):
    """What comes of reading a report, or one with a change."""
    if verb == "report-with":
        old, _, new = change.partition("|")
        text = text.replace(unescape(old + "\\"), unescape(new + "\\"), 1)
    if not is_report(text):
        return ["NotReport"]
    return ["as given"] if verb == "report-with" else shown(text)


def wanted_of(texts, verb, rest, given):
    """What a row has to print; None where this program doesn't know."""
    name, _, more = rest.partition(" ")
    if verb in ("gate", "merge", "fill", "generate", "generate-sum"):
        return with_no_netlist(verb, rest)
    if verb in ("report", "report-with"):
        return reported(verb, texts[name], more)
    if verb in ("read", "read-scanned"):
        return None if given[0].startswith("line ") else shown(Netlist(texts[name]).canonical())
    if verb in ("certificate", "certificate-sum"):
        return certificate(verb, texts[name], texts[more])
    if verb == "first-wrong":
        return first_wrong(texts, name, *more.split(" ", 1))
    if verb == "applied":
        return applied(texts, name, *more.split(" "))
    if verb == "labels":
        return labelled(Netlist(texts[name]), more, given)
    if verb == "words":
        return settled_words(Netlist(texts[name]), more)
    if verb in ("list", "compacted", "shares", "searches"):
        return on_fault_list(verb, name, texts[name], more, given)
    return on_netlist(verb, texts[name], more)


def first_wrong(texts, net, stil, fault):
    """The first strobe that is known to be wrong."""
    scanned, (line, _, bit) = plain_program.netlist_of(texts[net], False), fault.rpartition("/")
    if not is_stil(texts[stil].encode("latin-1")):
        return ["not stil"]
    try:
        cycles = plain_program.cycles_that_fit(texts[stil], scanned)
    except plain_program.Refused:
        return ["does not fit"]
    place = plain_chains.first_wrong(scanned, cycles, (line, int(bit)))
    return [f"fails {place[0]} {place[1]}" if place else "untold"]


def applied(texts, net, stil, asked, held):
    """The patterns of the netlist that a file applies."""
    if not is_stil(texts[stil].encode("latin-1")):
        return ["not stil"]
    held = {} if held == "-" else dict([held.split("=")])
    return [" ".join(["patterns", *stil_file.applied(texts[stil], Netlist(texts[net]), int(asked), held)])]


def first_members(text):
    """The first member of each class."""
    members = {}
    for line in list(fault_list(text))[1:]:
        fault, number = line.rsplit(" class ", 1)
        members.setdefault(int(number), fault)
    return [members[number] for number in sorted(members)]


FOUND = {}


def searched_all(name, text, limit, given):
    """What the searches of a design found, where each answer is right: a cube of which each pattern is a test, or a tree that fits and closes as
    it says. Which of the right answers comes, the search's guide decides."""
    netlist, found = Netlist(text), {}
    for number, (fault, line) in enumerate(zip(first_members(text), given, strict=True)):
        head, kind, answer = line.split(" ", 3)[0:2], line.split(" ", 3)[2], line.split(" ", 3)[3]
        if head != ["class", str(number)]:
            return ["another class"]
        if kind == "cube":
            choices = [answer.replace("X", "0"), answer.replace("X", "1")]
            if len(answer) < 16:
                choices = ["".join(c) for c in itertools.product(*["01" if c == "X" else c for c in answer])]
            if any(last_detected(netlist, fault, choice) == "never" for choice in choices):
                return [f"class {number}: not each pattern of the cube is a test"]
        else:
            said = check_trees.answer(netlist, gate, fault, answer, {})
            closed = answer.split().count("!")
            wanted = f"closed {closed} open {answer.split().count('?')}"
            if said != wanted or (kind == "aborted") != ("?" in answer.split()) or (kind == "aborted" and closed != int(limit)):
                return [f"class {number}: {said}"]
        found[number] = (kind, answer)
    FOUND[name, limit] = found
    return given


def state_lines(netlist, fault, path, given):
    """The state of a fault under decisions, the labels where the search may go on, and the trail. Its order is taken from what is given."""
    found, points = check_trees.labels(netlist, gate, fault, path, {})
    start, _ = check_trees.labels(netlist, gate, fault, {}, {})
    changed = [name for name in netlist.signals if found[name] != start[name]]
    trail = next((line for line in given if sorted(line.split(" ")[1:]) == sorted(changed) and line.startswith("trail")), "another trail")
    if check_trees.is_closed(netlist, gate, fault, path, {}):
        return ["blocked", trail]
    for place, (_, good, faulty, differs) in enumerate(points):
        if differs and "X" not in (good, faulty) and good != faulty:
            cells = place - len(netlist.outputs)
            return [f"test output {place}" if cells < 0 else f"test cell {cells}"]
    said = ["going"] + [f"{name} {own}{good}{faulty}{'d' if differs else 's'}" for name, (own, good, faulty, differs) in ((x, found[x]) for x in netlist.signals)]
    return [" ".join(said), trail]


def labelled(netlist, rest, given):
    """The states of a fault under each decision."""
    fault, _, decisions = rest.partition(": ")
    lines = state_lines(netlist, fault, {}, given)
    for decision in decisions.split(";"):
        name, bit = decision.strip().split("=")
        lines += state_lines(netlist, fault, {name: bit}, given)
    return lines + state_lines(netlist, fault, {}, given)


def settled_words(netlist, rest):
    """For each signal its bit under each pattern."""
    patterns = [[bits_of(part) for part in text.partition("/")[::2]] for text in rest.split(" ")]
    columns = [netlist.settled(*pattern)[0] for pattern in patterns]
    return [f"{name} {digits(column[k] for column in columns)}" for k, name in enumerate(netlist.signals)]


def on_fault_list(verb, name, text, rest, given):
    """What calls of a list of fault classes answer."""
    numbers, _, calls = rest.partition(": ")
    limit, *chosen = numbers.split(" ")[verb == "shares":]
    if verb == "searches":
        return searched_all(name, text, limit, given)
    netlist = Netlist(text)
    design = plain_design.read(text.encode())

    def last(fault, patterns):
        return last_detected(netlist, fault, " ".join(patterns))

    def refutes(fault, steps):
        return plain_refutation.cause_of(design, f"{fault} R{steps}", []) is None

    members = first_members(text)
    chosen = [int(number) for number in chosen] or range(len(members))
    faults = list_play.List([members[number] for number in chosen], int(limit), last, merged, refutes)
    if verb == "list":
        return list(list_play.on_list(faults, calls))
    if verb == "compacted":
        return list(list_play.on_compacted(faults, calls))
    found = FOUND.get((name, limit), {})
    return list(list_play.on_shares(faults, {place: found.get(number) for place, number in enumerate(chosen)}, calls))


def check_calls():
    texts, rows = texts_and_rows(f"{ROOT}/crates/calls/stdin")
    stored = answers(f"{ROOT}/crates/calls/stdout", rows)
    wrong, known = int(len(stored) != len(rows)), 0
    for row, given in zip(rows, stored):
        verb, _, rest = row.partition(" ")
        given = [line for line in given if line]
        wanted = wanted_of(texts, verb, rest, given)
        if wanted is not None:
            known += 1
            wrong += differs(row, wanted, given)
    print(f"calls: {known} of {len(rows)} rows worked out, {wrong} differ")
    return wrong


class Case:
    """What a case has said so far: its files, which calls fail, and how its outputs are shown."""

    def __init__(self):
        self.files, self.fails, self.showing = {}, plain_program.Fails({}, {}, {}), {"out": "whole", "err": "whole"}
        self.said = {}  # by the words of a run the lines that stand for it

    def take(self, verb, rest, texts):
        """Takes a line that isn't a run."""
        target = verb.split("-")[0]
        if verb == "file":
            name, *parts = rest.split(" ")
            self.files[name] = "".join(texts[part] for part in parts)
        elif verb.endswith("-fails"):
            number, kept = map(int, rest.split(" "))
            getattr(self.fails, target)[number] = kept
        elif verb.endswith("-as"):
            self.showing[target] = rest

    def ending(self, words, told, files=None):
        return plain_program.ending([word.replace("~", " ") for word in words], files or self.files, self.fails, told)

    def shown_output(self, name, text):
        """An output as it is shown: whole, or up to the count of patterns."""
        text = text.split(" patterns ")[0] if self.showing[name].split(" ")[0] in ("totals", "cycles") else text
        return [name] + shown(text) if text else []

    def told(self, words, ended):
        """The lines of a run."""
        lines = [f"status {ended.status}"] + self.shown_output("out", ended.out) + self.shown_output("err", ended.err)
        for name, before in self.files.items():
            after = ended.files.get(name)
            lines += [f"file {name} as before"] if after == before else [f"file {name} now"] + shown(after)
        for word in words:
            if word not in self.files and word in ended.files:
                lines += [f"file {word}"] + shown(ended.files[word])
        return lines + [f"files {len(ended.files)}"]

    def told_cut(self, name, words, told):
        """What comes of each proper prefix of a file, lengths with one answer together."""
        answers = []
        for length in range(len(self.files[name])):
            ended = self.ending(words, told, self.files | {name: self.files[name][:length]})
            answers.append([f"status {ended.status}"] + self.shown_output("out", ended.out) + self.shown_output("err", ended.err))
        lines, start = [], 0
        for k in range(1, len(answers) + 1):
            if k == len(answers) or answers[k] != answers[start]:
                status, *others = answers[start]
                lines += [f"{start} to {k - 1}: {status}", *others]
                start = k
        return lines


def run_of_sample(case, seed, gates):
    """What a run of the case says of the same netlist with the same seed, a line for each number behind that of the faults."""
    assert case.files["n"] == sample(seed, gates)
    _, _, shown = case.said[f"atpg run n p --seed {seed}"][:3]
    words = shown[1:].split(" ")[2:]
    return "".join(f"{word} {number}\n" for word, number in zip(words[::2], words[1::2]))


def sweep_answer(case, words):
    """The lines that don't depend on the search; with so many cells on one chain there are (P + 4) * cells + P cycles."""
    gates = int(words[3])
    if case.fails.out:
        return case.told(words, plain_program.Ended(6, f"gates {gates}\n"[:case.fails.out[1]], "write failed: -\n", {}))
    faults, classes = next(iter(fault_list(sample(words[2], words[3])))).split(" ")[1::2]
    if case.showing["out"] == "whole":
        head = f"gates {gates}\ncells {gates // 8}\nfaults {faults}\nclasses {classes}\n"
        return case.told(words, plain_program.Ended(0, head + run_of_sample(case, words[2], words[3]) + "play ok\n", "", case.files))
    return ["status 0", "out", f"|gates {gates}", f"|cells {gates // 8}", f"|faults {faults}", f"|classes {classes}",
            f"|detected, redundant or aborted {faults}", f"|cycles {gates // 8 + 1}P + {gates // 8 * 4}", "|play ok", "files 0"]


def run_with_cycles(case, words, told):
    """The lines of a run on one chain, with the cycles by the number of patterns behind its output; with so many cells there are as many cycles as
    `sweep_answer` says."""
    cells = case.files[words[2]].count("DFF(")
    lines = case.told(words, case.ending(words, told))
    assert lines[1] == "out" and lines[2].endswith("\\") and "--chains" not in words
    return lines[:3] + [f"|cycles {cells + 1}P + {4 * cells}"] + lines[3:]


def keep_files(case, prefix, words, told):
    """The files of a run stand in those that follow; where nobody can say what they hold, so."""
    try:
        made = case.ending(words, told).files
    except plain_program.Unknown:
        made = {}
    case.files |= {f"{prefix}.{end}": made.get(f"{prefix}.{end}") for end in plain_check.ENDS}


def no_value(words):
    """What is wrong with a number, an engine or an order that clap takes, if anything."""
    given = dict(zip(words, words[1:]))
    engine, then = given.get("--engine", "podem"), given.get("--then")
    if (engine, then) not in (("podem", None), ("fan", None), ("clauses", None), ("podem", "clauses"), ("fan", "clauses")):
        return "the engine is podem, fan or clauses, and then, behind podem or fan alone, clauses"
    if "--order" in given and "--chains" in given:
        return "--order says how many chains there are, so that --chains can't be given beside it"
    if any(len(word) > 1 and word.isdigit() and word.startswith("0") for word in words):
        return "a number is written in decimal digits, without a sign or a leading zero"
    return None


def case_answer(case, verb, rest, told):
    """The lines of a run; Unknown where this program can't say them."""
    name, _, behind = rest.partition(" ")
    if verb == "twice":
        return ["the same"]
    if verb == "cut":
        return case.told_cut(name, behind.split(" "), told)
    if verb == "meet":
        return [*case_answer(case, "run", rest, told), "met"]
    words = (behind if verb == "keep" else rest).split(" ")
    if case.showing["err"] == "hidden":
        raise plain_program.Unknown
    if wrong := no_value(words):
        text = f"error: {wrong}\n\nFor more information, try '--help'.\n"
        return case.told(words, plain_program.Ended(2, "", text, case.files))
    if words[1] == "sweep":
        return sweep_answer(case, words)
    if case.showing["out"].startswith("cycles") and words[1] == "run":
        return run_with_cycles(case, words, told)
    if case.showing["out"] not in ("whole", "totals"):
        raise plain_program.Unknown
    return case.told(words, case.ending(words, told))


def told_runs(texts):
    """The runs whose five texts the input tells, by netlist and options."""
    gates = texts["two_gates"]
    runs = {(gates, ("--limit", "2")): [gates, gates] + [texts[f"two_gates_{end}"] for end in ("stil", "cert", "rep")]}
    runs[gates, ("--detect", "1"), ("--limit", "2")] = runs[gates, ("--limit", "2")]
    runs[gates, ("--detect", "2"), ("--limit", "2")] = [gates, gates] + [texts[f"two_gates_{end}"] for end in ("stil", "cert", "counted_rep")]
    for name in ("nothing", "one_fault", "one_fault_redundant", "two_faults"):
        runs[gates, ("--faults", texts[name]), ("--limit", "2")] = [gates, gates, *texts_of_some(texts, texts[name].split("\n"))]
    return runs


def texts_of_some(texts, asked):
    """The test, the certificate and the report of the two gates where only some faults are asked for: of the whole ones what is said of these. No other
    keeps a pattern or has evidence."""
    numbers, begin, lines = texts["two_gates_rep"].partition("stem ")
    ends = {fault: end for fault, _, end in (re.match("(.*/[01]) ((detected|redundant).*)", line).group(1, 3, 2) for line in (begin + lines).split("\n")[:-1])}
    kept = sorted({ends[fault].split(" ")[1] for fault in asked if ends.get(fault, "").startswith("detected")})
    classes = dict(line.split(" class ") for line in list(fault_list(texts["two_gates"]))[1:])
    left = {classes[fault] for fault in asked if ends.get(fault) == "redundant"}
    vectors = [line for line in texts["two_gates_stil"].split("\n") if line.startswith("  V ")]
    stil = texts["two_gates_stil"].replace("\n".join(vectors) + "\n", "".join(vectors[int(place)] + "\n" for place in kept))
    evidence = [line for line in texts["two_gates_cert"].split("\n")[1:-1] if classes[line[:-2]] in left]
    said = []
    for fault, end in ends.items():
        place = kept.index(end.split(" ")[1]) if fault in asked and end != "redundant" else None
        said.append(f"{fault} unasked" if fault not in asked else f"{fault} redundant" if place is None else f"{fault} detected {place} {place} y")
    detected, redundant, unasked = (sum(word in line for line in said) for word in (" detected", " redundant", " unasked"))
    head = {"patterns": len(kept), "cycles": len(kept), "detected": detected, "redundant": redundant, "untested": redundant}
    head |= {"coverage": f"{10 * detected}.00", "efficiency": f"{10 * (detected + redundant)}.00"}
    report = [f"{word} {head[word]}" if (word := line.split(" ")[0]) in head else line for line in numbers.split("\n")[1:-1]]
    report.insert(next(place for place, line in enumerate(report) if line.startswith("coverage ")), f"unasked {unasked}")
    return stil, "\n".join(["atpg certificate 1", *evidence, ""]), "\n".join(["atpg report 3", *report, *said, ""])


def head_of(row):
    """The line by which the output of a row begins."""
    verb, _, rest = row.partition(" ")
    return "run " + rest if verb == "meet" else "run " + rest.split(" ", 1)[1] if verb == "keep" else row


def check_cases():
    texts, rows = texts_and_rows(f"{ROOT}/crates/cases/stdin")
    heads = [head_of(row) for row in rows if row.startswith((*RUNS, CHECK))]
    stored = iter(answers(f"{ROOT}/crates/cases/stdout", heads))
    checks = check_checks.rows()
    wrong, known, count, checked, case, runs = 0, 0, 0, 0, Case(), told_runs(texts)
    for row in rows:
        verb, _, rest = row.partition(" ")
        given = [line for line in next(stored, []) if line] if row.startswith((*RUNS, CHECK)) else []
        if verb == "case":
            case = Case()
        elif row.startswith(CHECK):
            checked += 1
            wrong += differs(row, next(checks), (row, given))
        elif not row.startswith(RUNS):
            case.take(verb, rest, texts)
        else:
            count += 1
            told = plain_program.Told(runs, any(" aborted 0" in line for line in given))
            try:
                wrong += differs(row, case_answer(case, verb, rest, told), given)
                known += 1
            except plain_program.Unknown:
                pass
            case.said[rest] = given
            if verb == "keep":
                keep_files(case, rest.split(" ")[0], rest.split(" ")[1:], told)
    print(f"cases: {known} of {count} runs and {checked} of {checked} checks of five files worked out, {wrong} differ")
    return wrong


if __name__ == "__main__":
    sys.exit(1 if check_calls() + check_cases() else 0)
