"""Reading what goes to layout and tester: the STIL file of a run, cycle by cycle, and the table of real names. What isn't one is refused in
a line (run_files.Bad)."""

import collections
import re

from run_files import Bad

TOKEN = re.compile(r"\s+|//[^\n]*|/\*.*?\*/|(\"[^\"]*\"|'[^']*'|[{}=;]|(?:(?!//|/\*)[\w.#/])+)", re.S | re.A)

# What the tester does in one cycle: a character for each input and each output, and whether it pulses the clock.
Cycle = collections.namedtuple("Cycle", "drives strobes has_pulse")

# A chain: the names of its scan input, scan output and clock, and its cells from scan in to scan out.
Chain = collections.namedtuple("Chain", "scan_in scan_out clock cells")

# The four prefixes that scan insertion puts before a cell's name, and the one of an output's pin.
OF_A_CELL = re.compile(r"(SC__[abdso]_)(.+)")

CLOCK, EDGE, MODULE = "SC__ck", "SC__edge", "SC__module"


# STIL, of the profile of docs/SCAN_AND_STIL.md; names may be others than there.

def tokens_of(text):
    """Pairs of a token and where it stands."""
    place, tokens = 0, []
    while place < len(text):
        match = TOKEN.match(text, place)
        if match is None:
            raise ValueError(f"no token at byte {place}")
        if match[1] is not None:
            tokens.append((match[1], match.start()))
        place = match.end()
    return tokens


def unquoted(token):
    if token[0] != '"':
        raise ValueError(f"{token} stands where a name should")
    return token[1:-1]


class Test:
    """A STIL file: its inputs and outputs (first those of the design, then the chains'), its chains and its cycles."""

    def __init__(self, text):
        self.tokens = [token for token, _ in tokens_of(text)]
        self.chains = [self.chain_at(k) for k, token in enumerate(self.tokens) if token == "ScanChain"]
        self.design_inputs, self.design_outputs = self.group("SC__pi"), self.group("SC__po")
        self.inputs = self.design_inputs + [chain.scan_in for chain in self.chains]
        self.outputs = self.design_outputs + [chain.scan_out for chain in self.chains]
        self.clock = self.chains[0].clock if self.chains else None
        self.cycles = list(self.cycles_of())

    def after(self, start, *wanted):
        """The token behind these, the first that stand behind a place."""
        for k in range(start, len(self.tokens) - len(wanted)):
            if self.tokens[k:k + len(wanted)] == list(wanted):
                return k + len(wanted)
        raise ValueError(f"no {' '.join(wanted)}")

    def group(self, name):
        """The signals of a group, in order."""
        return re.findall(r'"([^"]*)"', self.tokens[self.after(0, f'"{name}"', "=")])

    def chain_at(self, place):
        begin = self.after(place, "ScanCells")
        end = self.tokens.index(";", begin)
        named = [unquoted(self.tokens[self.after(place, word)]) for word in ("ScanIn", "ScanOut", "ScanMasterClock")]
        return Chain(*named, [unquoted(token) for token in self.tokens[begin:end]])

    def assigned(self, place):
        """The words behind an open brace, by their names: `"name" = word;` up to the brace that closes it."""
        end, words = self.tokens.index("}", place), {}
        for k in range(place, end, 4):
            name, equals, word, stop = self.tokens[k:k + 4]
            if (equals, stop) != ("=", ";"):
                raise ValueError(f"no assignment to {name}")
            words[unquoted(name)] = word
        return words, end

    def cycles_of(self):
        """Each vector is a cycle, each call as many as its words have characters."""
        shift = self.assigned(self.after(0, "Shift", "{", "V", "{"))[0] if self.chains else {}
        place = self.after(0, "Pattern", '"pattern"', "{", "W", '"wft"', ";")
        while self.tokens[place] != "}":
            is_call = self.tokens[place] == "Call"
            if not is_call and self.tokens[place] != "V":
                raise ValueError(f"{self.tokens[place]} stands where a vector or call should")
            words, end = self.assigned(place + (3 if is_call else 2))
            yield from self.loaded(shift, words) if is_call else [self.vector(words)]
            place = end + 1

    def vector(self, words):
        drives = words["SC__pi"] + "".join(words[chain.scan_in] for chain in self.chains)
        strobes = words["SC__po"] + "".join(words[chain.scan_out] for chain in self.chains)
        return self.checked(Cycle(drives, strobes, words.get(self.clock) == "P"))

    def loaded(self, shift, words):
        """The cycles of a call: in each the vector of Shift, with one character of every chain's words."""
        ins, outs = ([words[name] for name in names] for names in zip(*((chain.scan_in, chain.scan_out) for chain in self.chains)))
        if len({len(word) for word in ins + outs}) != 1:
            raise ValueError("the words of a call have several lengths")
        for into, out in zip(zip(*ins), zip(*outs)):
            yield self.checked(Cycle(shift["SC__pi"] + "".join(into), shift["SC__po"] + "".join(out), shift[self.clock] == "P"))

    def checked(self, cycle):
        wanted = (len(self.inputs), len(self.outputs))
        if (len(cycle.drives), len(cycle.strobes)) != wanted or set(cycle.drives) - set("01") or set(cycle.strobes) - set("HLX"):
            raise ValueError("a vector doesn't fit the signals")
        return cycle


def read_test(path):
    text = path.read_text(encoding="ascii", errors="replace")
    try:
        return Test(text)
    except (ValueError, KeyError, IndexError) as why:
        raise Bad(f"{path}: no STIL file of docs/SCAN_AND_STIL.md: {why}") from why


# Names.

class RealNames:
    """What signals and pins are called outside: our name to the real one, where the two differ."""

    def __init__(self, table=None):
        self.table = dict(table or {})
        self.edge = self.table.pop(EDGE, "rising")
        self.module = self.table.pop(MODULE, None)

    def of(self, name):
        """A signal's or pin's real name; what scan insertion adds to a cell goes by the cell's. One that begins with a dollar sign was made by
        Yosys and is nobody's; before a name of the design's that looks so, or like a number, Yosys puts a backslash."""
        if name in self.table:
            return name if self.table[name].startswith("$") else self.table[name].removeprefix("\\")
        match = OF_A_CELL.fullmatch(name)
        return match[1] + self.of(match[2]) if match else name.removeprefix("\\")


def read_names(paths):
    """The tables of these files, the later ones' lines before the earlier ones'."""
    table = {}
    for path in paths:
        for number, line in enumerate(path.read_text(encoding="utf-8").splitlines(), 1):
            ours, tab, real = line.partition("\t")
            if not (ours and tab and real) or "\t" in real:
                raise Bad(f"{path} line {number}: no line `our name<tab>real name`")
            table[ours] = real
    if table.get(EDGE, "rising") not in ("rising", "falling"):
        raise Bad(f"{EDGE} is {table[EDGE]}, neither rising nor falling")
    return RealNames(table)


def names_beside(prefix, asked):
    """The names of the files asked for, or else of PREFIX.names where it stands."""
    beside = prefix.with_name(f"{prefix.name}.names")
    return read_names(asked or [beside] * beside.exists())
