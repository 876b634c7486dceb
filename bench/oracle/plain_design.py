"""A plain program for small designs, apart from the crates: reading .bench with every refusal, scan insertion, values, faults and classes,
the test's vectors and its STIL text. It follows docs/BENCH.md, docs/SCAN_AND_STIL.md and docs/FAULTS.md and takes no care of speed."""

import re

GATES = {"AND": (1, 1024), "NAND": (1, 1024), "OR": (1, 1024), "NOR": (1, 1024), "XOR": (2, 1024), "XNOR": (2, 1024), "NOT": (1, 1),
         "BUFF": (1, 1), "DFF": (1, 1), "CONST0": (0, 0), "CONST1": (0, 0)}
BLANKS = b" \t\r"
MARKS = b"(),="


class Refusal(Exception):
    """A text that is no netlist: the line and the kind."""

    def __str__(self):
        return f"netlist line {self.args[0]}: {self.args[1]}"


class Netlist:
    def __init__(self, inputs, outputs, definitions):
        self.inputs, self.outputs, self.definitions = inputs, outputs, definitions
        self.kind = {name: kind for name, kind, _ in definitions}
        self.pins = {name: pins for name, _, pins in definitions}
        self.cells = [name for name, kind, _ in definitions if kind == "DFF"]
        self.signals = inputs + [name for name, _, _ in definitions]
        self.order = [name for name in depth_first(self) if self.kind.get(name) not in (None, "DFF")]

    def points(self):
        """Observed points: outputs, then cells by their pins; each as its branch's text and its signal."""
        return [(f"out {name}", name) for name in self.outputs] + [(f"pin {name} 0", self.pins[name][0]) for name in self.cells]


def depth_first(netlist):
    done, waiting = set(), list(reversed(netlist.signals))
    while waiting:
        name = waiting[-1]
        missing = [] if netlist.kind.get(name) in (None, "DFF") else [pin for pin in netlist.pins[name] if pin not in done]
        if name in done or not missing:
            waiting.pop()
            if name not in done:
                done.add(name)
                yield name
        else:
            waiting += missing


# Reading.

def tokens_of(line):
    """The tokens of a line without its comment; None where it has a bad byte."""
    line = line.split(b"#", 1)[0]
    if any(byte not in BLANKS and not (0x21 <= byte <= 0x7E and byte not in b"\"'") for byte in line):
        return None
    return [token.decode() for token in re.findall(rb"[(),=]|[^ \t\r(),=]+", line)]


def statement_of(tokens):
    """The kind of a line and its names: (word, None or z, names); None where it has none of the forms."""
    names = [token not in "(),=" for token in tokens]
    if len(tokens) == 4 and tokens[1] == "(" and tokens[3] == ")" and names[0] and names[2] and tokens[0].upper() in ("INPUT", "OUTPUT"):
        return tokens[0].upper(), None, [tokens[2]]
    if len(tokens) >= 5 and names[0] and tokens[1] == "=" and names[2] and tokens[3] == "(" and tokens[-1] == ")":
        inner, marks = tokens[4:-1:2], tokens[5:-1:2]
        if not tokens[4:-1] or (len(tokens[4:-1]) % 2 == 1 and all(mark == "," for mark in marks) and all(x not in "(),=" for x in inner)):
            return tokens[2].upper(), tokens[0], inner
    return None


def line_refusal(tokens, defined, is_design):
    """The least kind of 1 to 6 that applies to a line."""
    if tokens is None:
        return "BadByte"
    statement = statement_of(tokens)
    if statement is None or any(len(token) > (255 if is_design else 261) for token in tokens):
        return "BadLine"
    word, name, names = statement
    if name is not None:
        gate = {"BUF": "BUFF"}.get(word, word)
        if gate not in GATES:
            return "UnknownGate"
        if not GATES[gate][0] <= len(names) <= GATES[gate][1]:
            return "BadPins"
    new = name if name is not None else names[0] if word == "INPUT" else None
    if new in defined:
        return "DefinedTwice"
    if is_design and any(each.startswith("SC__") for each in names + [name or ""]):
        return "Reserved"
    return None


def read(text, is_design=True):
    """The netlist that a text stands for, or its refusal."""
    inputs, outputs, definitions, defined, reads = [], [], [], {}, []
    for number, line in enumerate(text.split(b"\n"), 1):
        tokens = tokens_of(line)
        if tokens == []:
            continue
        refusal = line_refusal(tokens, defined, is_design)
        if refusal is not None:
            raise Refusal(number, refusal)
        word, name, names = statement_of(tokens)
        if name is not None:
            definitions.append((name, {"BUF": "BUFF"}.get(word, word), names))
            defined[name] = number
            reads.append((number, names))
        elif word == "INPUT":
            inputs += names
            defined[names[0]] = number
        else:
            outputs += [each for each in names if each not in outputs]
            reads.append((number, names))
    return whole(inputs, outputs, definitions, defined, reads, is_design)


def whole(inputs, outputs, definitions, defined, reads, is_design):
    """The refusals that take the whole text."""
    if len(defined) > (1_000_000 if is_design else 8_000_000):
        raise Refusal(0, "TooMany")
    if not inputs:
        raise Refusal(0, "NoInput")
    if not outputs:
        raise Refusal(0, "NoOutput")
    undefined = [number for number, names in reads if any(each not in defined for each in names)]
    if undefined:
        raise Refusal(min(undefined), "Undefined")
    gates = {name: pins for name, kind, pins in definitions if kind != "DFF"}
    while True:
        left = {name: pins for name, pins in gates.items() if any(pin in gates for pin in pins)}
        if len(left) == len(gates):
            break
        gates = left
    if gates:
        raise Refusal(min(defined[name] for name in gates), "Loop")
    return Netlist(inputs, outputs, definitions)


def canonical(netlist):
    lines = [f"INPUT({name})" for name in netlist.inputs] + [f"OUTPUT({name})" for name in netlist.outputs]
    lines += [f"{name} = {kind}({', '.join(pins)})" for name, kind, pins in netlist.definitions]
    return "".join(line + "\n" for line in lines).encode()


# Scan.

def chains_of(cells, asked):
    """At most so many chains; the first have a cell more."""
    count = min(asked, len(cells))
    if count == 0:
        return []
    short, longer = divmod(len(cells), count)
    chains, place = [], 0
    for k in range(count):
        size = short + (k < longer)
        chains.append(cells[place:place + size])
        place += size
    return chains


def scanned(netlist, chains):
    if not chains:
        return netlist
    before = {cell: f"SC__s_{chain[k - 1]}" if k else f"SC__si{c}" for c, chain in enumerate(chains) for k, cell in enumerate(chain)}
    definitions = [("SC__nse", "NOT", ["SC__se"])]
    for name, kind, pins in netlist.definitions:
        if kind != "DFF":
            definitions.append((name, kind, pins))
            continue
        definitions += [(f"SC__a_{name}", "AND", [pins[0], "SC__nse"]), (f"SC__b_{name}", "AND", [before[name], "SC__se"]),
                        (f"SC__d_{name}", "OR", [f"SC__a_{name}", f"SC__b_{name}"]), (f"SC__s_{name}", "DFF", [f"SC__d_{name}"]),
                        (name, "BUFF", [f"SC__s_{name}"])]
    definitions += [(f"SC__so{c}", "BUFF", [f"SC__s_{chain[-1]}"]) for c, chain in enumerate(chains)]
    inputs = netlist.inputs + ["SC__se"] + [f"SC__si{c}" for c in range(len(chains))]
    outputs = netlist.outputs + [f"SC__so{c}" for c in range(len(chains))]
    return Netlist(inputs, outputs, definitions)


# Values of many patterns at a time: bit j of a number is the value under pattern j.

def gate(kind, words, ones):
    if kind in ("CONST0", "CONST1"):
        return ones if kind == "CONST1" else 0
    value = words[0]
    for word in words[1:]:
        value = value & word if kind in ("AND", "NAND") else value | word if kind in ("OR", "NOR") else value ^ word
    return value ^ ones if kind in ("NAND", "NOR", "XNOR", "NOT") else value


def settled(netlist, sources, ones, fault=None):
    """The word of each signal, and of each observed point; `sources` has those of inputs and cells, `fault` is a line and a bit."""
    line, stuck = fault if fault else (None, 0)
    stuck = ones if stuck else 0
    values = {}

    def placed(name, value):
        values[name] = stuck if line == f"stem {name}" else value

    for name in netlist.inputs + netlist.cells:
        placed(name, sources[name])
    for name in netlist.order:
        words = [stuck if line == f"pin {name} {k}" else values[pin] for k, pin in enumerate(netlist.pins[name])]
        placed(name, gate(netlist.kind[name], words, ones))
    points = [stuck if line == branch else values[name] for branch, name in netlist.points()]
    return values, points


# Faults.

def readers_of(netlist):
    readers = {name: [] for name in netlist.signals}
    for name, _, pins in netlist.definitions:
        for place, pin in enumerate(pins):
            readers[pin].append(f"pin {name} {place}")
    for name in netlist.outputs:
        readers[name].append(f"out {name}")
    return readers


def universe(netlist):
    """All faults, as a line and a bit."""
    readers, lines = readers_of(netlist), []
    for name in netlist.signals:
        lines += [f"stem {name}"] + (readers[name] if len(readers[name]) >= 2 else [])
    return [(line, bit) for line in lines for bit in (0, 1)]


JOINED = {"AND": [(0, 0)], "NAND": [(0, 1)], "OR": [(1, 1)], "NOR": [(1, 0)], "BUFF": [(0, 0), (1, 1)], "NOT": [(0, 1), (1, 0)]}


def classes(netlist, faults):
    """For each fault the place of its class's representative in the list."""
    place, readers = {fault: k for k, fault in enumerate(faults)}, readers_of(netlist)
    first = list(range(len(faults)))

    def root(k):
        while first[k] != k:
            first[k] = first[first[k]]
            k = first[k]
        return k

    for name, kind, pins in netlist.definitions:
        for k, pin in enumerate(pins):
            line = f"pin {name} {k}" if len(readers[pin]) >= 2 else f"stem {pin}"
            for low, high in JOINED.get(kind, []):
                a, b = root(place[line, low]), root(place[f"stem {name}", high])
                first[max(a, b)] = min(a, b)
    return [root(k) for k in range(len(faults))]


# The test.

def capture_of(netlist, patterns):
    """For each pattern, a dictionary of inputs and cells, its outputs and what its cells take."""
    ones = (1 << len(patterns)) - 1
    sources = {name: sum(pattern[name] << j for j, pattern in enumerate(patterns)) for name in netlist.inputs + netlist.cells}
    _, points = settled(netlist, sources, ones)
    count = len(netlist.outputs)
    bits = [[word >> j & 1 for word in points] for j in range(len(patterns))]
    return [(row[:count], dict(zip(netlist.cells, row[count:]))) for row in bits]


def pin_names(netlist):
    """The names of the outputs' pins."""
    return [f"SC__o_{name}" if name in netlist.inputs else name for name in netlist.outputs]


def load_words(chains, longest, values, before):
    """A call's words for each chain: what is shifted in, and what is strobed of what the cells held."""
    into, out = [], []
    for chain in chains:
        into.append("0" * (longest - len(chain)) + "".join(str(values[cell]) for cell in reversed(chain)))
        seen = ["LH"[before[cell]] for cell in reversed(chain)] if before is not None else ["X"] * len(chain)
        out.append("".join(seen) + "X" * (longest - len(chain)))
    return into, out


def vector_of(netlist, pattern, outs):
    return "vector", "".join(str(pattern[name]) for name in netlist.inputs), "".join("LHX"[bit] for bit in outs)


def items_of(netlist, chains, patterns, captured=None):
    """Calls and vectors: ("call", in words, out words) and ("vector", pi, po). For each pattern `captured` has its vectors and what the cells
    then hold; without it, that is one capture."""
    if captured is None:
        captured = [([vector_of(netlist, pattern, outs)], cells) for pattern, (outs, cells) in zip(patterns, capture_of(netlist, patterns))]
    if not chains:
        return [vector for vectors, _ in captured for vector in vectors]
    longest = max(len(chain) for chain in chains)
    flush = {cell: int((len(chain) - 1 - k) % 4 >= 2) for chain in chains for k, cell in enumerate(chain)}
    other = {cell: 1 - bit for cell, bit in flush.items()}
    zeros = dict.fromkeys(flush, 0)
    items = [("call", *load_words(chains, longest, values, before)) for values, before in ((flush, None), (other, flush), (zeros, other))]
    before = None
    for pattern, (vectors, cells) in zip(patterns, captured):
        items += [("call", *load_words(chains, longest, pattern, before)), *vectors]
        before = cells
    return items + [("call", *load_words(chains, longest, zeros, before))]


def shift_word(netlist, held):
    """What a shift drives on the inputs and behind them: held inputs have their bits, the others 0."""
    return "".join(str(held.get(name, 0)) for name in netlist.inputs) + "1"


def cycles_of(netlist, chains, items, held={}):
    """Each cycle's drives of the scanned netlist's inputs, strobes of its outputs, and whether there is a pulse."""
    count, outputs, shift = len(chains), len(netlist.outputs), shift_word(netlist, held)
    for item in items:
        if item[0] == "call":
            for t in range(len(item[1][0])):
                yield shift + "".join(word[t] for word in item[1]), "X" * outputs + "".join(word[t] for word in item[2]), True
        else:
            yield item[1] + "0" * (count + 1 if chains else 0), item[2] + "X" * count, bool(chains)


def stil_text(netlist, chains, held, items):
    """The text of a file, as the writer lays it out."""
    count = range(len(chains))
    pi = netlist.inputs + (["SC__se"] if chains else [])
    po = pin_names(netlist)
    lines = ["STIL 1.0;", "Header {", '  Title "full scan test";', "}", "Signals {"]
    lines += [f'  "{name}" In;' for name in pi] + [f'  "SC__si{c}" In {{ ScanIn; }}' for c in count]
    lines += ['  "SC__ck" In;'] * bool(chains) + [f'  "{name}" Out;' for name in po]
    lines += [f'  "SC__so{c}" Out {{ ScanOut; }}' for c in count] + ["}", "SignalGroups {"]
    lines += [f'  "SC__{word}" = \'' + " + ".join(f'"{name}"' for name in names) + "';" for word, names in (("pi", pi), ("po", po))]
    lines += ["}", "Timing {", '  WaveformTable "wft" {', "    Period '100ns';", "    Waveforms {"]
    drives, strobes = "{ 01 { '0ns' D/U; } }", "{ HLX { '40ns' H/L/X; } }"
    lines += [f'      "SC__pi" {drives}'] + [f'      "SC__si{c}" {drives}' for c in count]
    lines += ['      "SC__ck" { 0 { \'0ns\' D; } P { \'0ns\' D; \'45ns\' U; \'55ns\' D; } }'] * bool(chains)
    lines += [f'      "SC__po" {strobes}'] + [f'      "SC__so{c}" {strobes}' for c in count] + ["    }", "  }", "}"]
    if chains:
        lines += ["ScanStructures {"]
        for c, chain in enumerate(chains):
            cells = " ".join(f'"{name}"' for name in chain)
            lines += [f'  ScanChain "chain{c}" {{', f"    ScanLength {len(chain)};", f'    ScanIn "SC__si{c}";', f'    ScanOut "SC__so{c}";',
                      f"    ScanCells {cells};", '    ScanMasterClock "SC__ck";', "  }"]
        lines += ["}"]
    lines += ['PatternBurst "burst" {', '  PatList { "pattern"; }', "}", "PatternExec {", '  PatternBurst "burst";', "}"]
    if chains:
        inner = [f'"SC__pi" = {shift_word(netlist, held)};'] + [f'"SC__si{c}" = #;' for c in count] + ['"SC__ck" = P;', f'"SC__po" = {"X" * len(po)};']
        inner += [f'"SC__so{c}" = #;' for c in count]
        lines += ["Procedures {", '  "load_unload" {', '    W "wft";', "    Shift {", f"      V {{ {' '.join(inner)} }}", "    }", "  }", "}"]
    lines += ['Pattern "pattern" {', '  W "wft";'] + [item_line(item, chains) for item in items] + ["}"]
    return "".join(line + "\n" for line in lines).encode()


def item_line(item, chains):
    if item[0] == "call":
        words = [f'"SC__si{c}" = {word};' for c, word in enumerate(item[1])] + [f'"SC__so{c}" = {word};' for c, word in enumerate(item[2])]
        return f'  Call "load_unload" {{ {" ".join(words)} }}'
    words = [f'"SC__pi" = {item[1]}{"0" * bool(chains)};'] + [f'"SC__si{c}" = 0;' for c in range(len(chains))]
    words += ['"SC__ck" = P;'] * bool(chains) + [f'"SC__po" = {item[2]};'] + [f'"SC__so{c}" = X;' for c in range(len(chains))]
    return f"  V {{ {' '.join(words)} }}"


STIL_TOKEN = re.compile(rb'[ \t\r\n]+|//[^\n]*|/\*.*?\*/|("[^"]*"|\'[^\']*\'|[{}=;]|(?:(?!//|/\*)[A-Za-z0-9_.#/])+)', re.S)


def stil_tokens(text):
    """The tokens of a STIL text; None where it is outside the grammar of tokens."""
    tokens, place = [], 0
    while place < len(text):
        match = STIL_TOKEN.match(text, place)
        if match is None:
            return None
        if match[1] is not None:
            tokens.append(match[1])
        place = match.end()
    return tokens
