"""Whether a STIL text is a file of the profile of docs/SCAN_AND_STIL.md: its tokens are read one after the other, as the profile lays them out."""

import re

from plain_design import stil_tokens

NAME = re.compile(r'"([!#-&(-~]{1,261})"')
DRIVES = "{ 01 { '0ns' D/U ; } }".split()
CLOCKED = "{ 0 { '0ns' D ; } P { '0ns' D ; '45ns' U ; '55ns' D ; } }".split()
STROBES = "{ HLX { '40ns' H/L/X ; } }".split()


class NotStil(Exception):
    """A token that the profile doesn't have in this place."""


class Walk:
    def __init__(self, tokens):
        self.tokens = [token.decode("latin-1") for token in tokens]
        self.place = 0

    def next_is(self, *wanted):
        return self.tokens[self.place:self.place + len(wanted)] == list(wanted)

    def expect(self, *wanted):
        if not self.next_is(*wanted):
            raise NotStil
        self.place += len(wanted)

    def take(self):
        if self.place == len(self.tokens):
            raise NotStil
        self.place += 1
        return self.tokens[self.place - 1]

    def name(self):
        match = NAME.fullmatch(self.take())
        if match is None:
            raise NotStil
        return match[1]

    def names_before(self, *end):
        """Names, each followed by these tokens, as long as such stand here."""
        names = []
        while NAME.fullmatch(" ".join(self.tokens[self.place:self.place + 1])) and self.tokens[self.place + 1:self.place + 1 + len(end)] == list(end):
            names.append(self.name())
            self.expect(*end)
        return names

    def assigned(self, signal, letters, size):
        """`"signal" = word ;`: the word, of these letters and of this size where one is given."""
        self.expect(f'"{signal}"', "=")
        word = self.take()
        if not set(word) <= set(letters) or size is not None and len(word) != size or word in ("", ";"):
            raise NotStil
        self.expect(";")
        return word


def signals(walk):
    """The block of signals: inputs, how many chains, outputs."""
    walk.expect("Signals", "{")
    inputs = walk.names_before("In", ";")
    chains = len(walk.names_before("In", "{", "ScanIn", ";", "}"))
    if chains:
        walk.expect('"SC__ck"', "In", ";")
    outputs = walk.names_before("Out", ";")
    scan_outputs = walk.names_before("Out", "{", "ScanOut", ";", "}")
    walk.expect("}")
    everything = inputs + [f"SC__si{c}" for c in range(chains)] + ["SC__ck"] * bool(chains) + outputs + [f"SC__so{c}" for c in range(chains)]
    if not inputs or not outputs or len(scan_outputs) != chains or len(set(everything)) != len(everything):
        raise NotStil
    return inputs, chains, outputs


def are_numbered(tokens, chains):
    """Whether scan inputs and scan outputs have their own names, in order."""
    text = " ".join(token.decode("latin-1") for token in tokens[:tokens.index(b"SignalGroups")])
    return all(f'"SC__si{c}" In {{ ScanIn' in text and f'"SC__so{c}" Out {{ ScanOut' in text for c in range(chains))


def timing(walk, chains):
    walk.expect("Timing", "{", "WaveformTable", '"wft"', "{", "Period", "'100ns'", ";", "Waveforms", "{", '"SC__pi"', *DRIVES)
    for c in range(chains):
        walk.expect(f'"SC__si{c}"', *DRIVES)
    if chains:
        walk.expect('"SC__ck"', *CLOCKED)
    walk.expect('"SC__po"', *STROBES)
    for c in range(chains):
        walk.expect(f'"SC__so{c}"', *STROBES)
    walk.expect("}", "}", "}")


def structures(walk, chains):
    walk.expect("ScanStructures", "{")
    for c in range(chains):
        walk.expect("ScanChain", f'"chain{c}"', "{", "ScanLength")
        length = walk.take()
        walk.expect(";", "ScanIn", f'"SC__si{c}"', ";", "ScanOut", f'"SC__so{c}"', ";", "ScanCells")
        cells = walk.names_before()
        walk.expect(";", "ScanMasterClock", '"SC__ck"', ";", "}")
        if not cells or length != str(len(cells)):
            raise NotStil
    walk.expect("}")


def procedures(walk, inputs, chains, outputs):
    walk.expect("Procedures", "{", '"load_unload"', "{", "W", '"wft"', ";", "Shift", "{", "V", "{")
    walk.assigned("SC__pi", "01", len(inputs))
    for c in range(chains):
        walk.expect(f'"SC__si{c}"', "=", "#", ";")
    walk.expect('"SC__ck"', "=", "P", ";", '"SC__po"', "=", "X" * len(outputs), ";")
    for c in range(chains):
        walk.expect(f'"SC__so{c}"', "=", "#", ";")
    walk.expect("}", "}", "}", "}")


def item(walk, inputs, chains, outputs):
    """A call, whose words have one length, or a vector."""
    if chains and walk.next_is("Call"):
        walk.expect("Call", '"load_unload"', "{")
        size = None
        for side, letters in (("si", "01"), ("so", "HLX")):
            for c in range(chains):
                size = len(walk.assigned(f"SC__{side}{c}", letters, size))
    else:
        walk.expect("V", "{")
        walk.assigned("SC__pi", "01", len(inputs))
        for c in range(chains):
            walk.assigned(f"SC__si{c}", "01", 1)
        if chains:
            walk.assigned("SC__ck", "0P", 1)
        walk.assigned("SC__po", "HLX", len(outputs))
        for c in range(chains):
            walk.assigned(f"SC__so{c}", "HLX", 1)
    walk.expect("}")


def whole(walk, tokens):
    walk.expect("STIL", "1.0", ";", "Header", "{", "Title", '"full scan test"', ";", "}")
    inputs, chains, outputs = signals(walk)
    if not are_numbered(tokens, chains):
        raise NotStil
    group = lambda names: "'" + " + ".join(f'"{name}"' for name in names) + "'"
    walk.expect("SignalGroups", "{", '"SC__pi"', "=", group(inputs), ";", '"SC__po"', "=", group(outputs), ";", "}")
    timing(walk, chains)
    if chains:
        structures(walk, chains)
    walk.expect("PatternBurst", '"burst"', "{", "PatList", "{", '"pattern"', ";", "}", "}")
    walk.expect("PatternExec", "{", "PatternBurst", '"burst"', ";", "}")
    if chains:
        procedures(walk, inputs, chains, outputs)
    walk.expect("Pattern", '"pattern"', "{", "W", '"wft"', ";")
    while not walk.next_is("}"):
        item(walk, inputs, chains, outputs)
    walk.expect("}")
    if walk.place != len(walk.tokens):
        raise NotStil


def is_stil(text):
    """Whether the bytes stand for a file."""
    tokens = stil_tokens(text)
    if tokens is None or b"SignalGroups" not in tokens:
        return False
    try:
        whole(Walk(tokens), tokens)
    except NotStil:
        return False
    return True


def assigned_behind(tokens, place):
    """The words behind a brace, by their names: `"name" = word;` up to the brace that closes it."""
    end = tokens.index("}", place)
    return {tokens[k].strip('"'): tokens[k + 2] for k in range(place, end, 4)}


def words_of(words, side):
    """The words of scan inputs or scan outputs, in order."""
    return [words[f"SC__{side}{c}"] for c in range(sum(name.startswith(f"SC__{side}") for name in words))]


def cycles_in(text):
    """The cycles of a file: drives of the inputs, strobes of the outputs, and whether there is a pulse."""
    tokens, cycles, shift = [token.decode("latin-1") for token in stil_tokens(text)], [], {}
    if "Shift" in tokens:
        shift = assigned_behind(tokens, tokens.index("Shift") + 4)
    begin = max(k for k, token in enumerate(tokens) if token == "Pattern")
    for place in range(begin, len(tokens)):
        if tokens[place] == "V":
            words = assigned_behind(tokens, place + 2)
            cycles.append((words["SC__pi"] + "".join(words_of(words, "si")), words["SC__po"] + "".join(words_of(words, "so")), words.get("SC__ck") == "P"))
        elif tokens[place] == "Call":
            words = assigned_behind(tokens, place + 3)
            ins, outs = words_of(words, "si"), words_of(words, "so")
            cycles += [(shift["SC__pi"] + "".join(word[t] for word in ins), shift["SC__po"] + "".join(word[t] for word in outs), True) for t in range(len(ins[0]))]
    return cycles
