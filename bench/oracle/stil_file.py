"""The STIL file of patterns by a plain program: docs/SCAN_AND_STIL.md has its rules."""

import re

FLUSH = "0011"


def digits(bits):
    return "".join("1" if bit else "0" for bit in bits)


def strobes(bits):
    return "".join("H" if bit else "L" for bit in bits)


class Tester:
    """Writes loads and captures of a netlist with chains."""

    def __init__(self, netlist, asked, holds):
        self.netlist, self.holds = netlist, holds
        self.chains = netlist.chains(asked)
        self.longest = max((len(chain) for chain in self.chains), default=0)
        self.lines = []

    def load(self, bits, held):
        """Bits by cell, and what the cells should hold before, if it is known."""
        if not self.chains:
            return
        words = []
        for k, chain in enumerate(self.chains):
            word = "".join("1" if bits[cell] else "0" for cell in reversed(chain))
            words.append((f"SC__si{k}", word.rjust(self.longest, "0")))
        for k, chain in enumerate(self.chains):
            word = strobes([held[cell] for cell in reversed(chain)]) if held else ""
            words.append((f"SC__so{k}", word.ljust(self.longest, "X")))
        self.line('Call "load_unload"', words)

    def capture(self, inputs, outputs):
        count = len(self.chains)
        words = [("SC__pi", digits(inputs) + "0" * min(count, 1))]
        words += [(f"SC__si{k}", "0") for k in range(count)]
        words += [("SC__ck", "P")] * min(count, 1)
        words += [("SC__po", strobes(outputs))]
        words += [(f"SC__so{k}", "X") for k in range(count)]
        self.line("V", words)

    def line(self, head, words):
        self.lines.append(f"  {head} {{ " + "".join(f'"{name}" = {word}; ' for name, word in words) + "}")

    def pattern(self, patterns):
        """The lines of the pattern's block."""
        cells = self.netlist.cells
        flush = {}
        for chain in self.chains:
            shifted = (FLUSH * len(chain))[: len(chain)]
            flush |= {cell: bit == "1" for cell, bit in zip(reversed(chain), shifted)}
        other = {cell: not bit for cell, bit in flush.items()}
        zeros = dict.fromkeys(cells, False)
        self.load(flush, None)
        self.load(other, flush)
        self.load(zeros, other)
        held = None
        for inputs, state in patterns:
            self.load(dict(zip(cells, state)), held)
            _, outputs, taken = self.netlist.settled(inputs, state)
            self.capture(inputs, outputs)
            held = dict(zip(cells, taken))
        self.load(zeros, held)
        return self.lines


def quoted(names, between):
    return between.join(f'"{name}"' for name in names)


def stil(netlist, asked, holds, patterns):
    """The whole text."""
    tester = Tester(netlist, asked, holds)
    count = len(tester.chains)
    pi = netlist.inputs + ["SC__se"] * min(count, 1)
    po = [netlist.pin_name(k) for k in range(len(netlist.outputs))]
    si, so = [f"SC__si{k}" for k in range(count)], [f"SC__so{k}" for k in range(count)]
    clock = ["SC__ck"] * min(count, 1)
    lines = ["STIL 1.0;", "Header {", '  Title "full scan test";', "}", "Signals {"]
    lines += [f'  "{name}" In;' for name in pi] + [f'  "{name}" In {{ ScanIn; }}' for name in si]
    lines += [f'  "{name}" In;' for name in clock]
    lines += [f'  "{name}" Out;' for name in po] + [f'  "{name}" Out {{ ScanOut; }}' for name in so]
    lines += ["}", "SignalGroups {", f"  \"SC__pi\" = '{quoted(pi, ' + ')}';", f"  \"SC__po\" = '{quoted(po, ' + ')}';", "}"]
    lines += ["Timing {", '  WaveformTable "wft" {', "    Period '100ns';", "    Waveforms {"]
    lines += [f"      \"{name}\" {{ 01 {{ '0ns' D/U; }} }}" for name in ["SC__pi"] + si]
    lines += [f"      \"{name}\" {{ 0 {{ '0ns' D; }} P {{ '0ns' D; '45ns' U; '55ns' D; }} }}" for name in clock]
    lines += [f"      \"{name}\" {{ HLX {{ '40ns' H/L/X; }} }}" for name in ["SC__po"] + so]
    lines += ["    }", "  }", "}"]
    if count:
        lines += ["ScanStructures {"]
        for k, chain in enumerate(tester.chains):
            lines += [f'  ScanChain "chain{k}" {{', f"    ScanLength {len(chain)};", f'    ScanIn "{si[k]}";']
            lines += [f'    ScanOut "{so[k]}";', f"    ScanCells {quoted(chain, ' ')};", '    ScanMasterClock "SC__ck";', "  }"]
        lines += ["}"]
    lines += ['PatternBurst "burst" {', '  PatList { "pattern"; }', "}", "PatternExec {", '  PatternBurst "burst";', "}"]
    if count:
        idle = digits([holds.get(name, False) for name in netlist.inputs]) + "1"
        words = [("SC__pi", idle)] + [(name, "#") for name in si] + [("SC__ck", "P"), ("SC__po", "X" * len(po))] + [(name, "#") for name in so]
        shift = "".join(f'"{name}" = {word}; ' for name, word in words)
        lines += ["Procedures {", '  "load_unload" {', '    W "wft";', "    Shift {", f"      V {{ {shift}}}", "    }", "  }", "}"]
    lines += ['Pattern "pattern" {', '  W "wft";'] + tester.pattern(patterns) + ["}"]
    return "".join(line + "\n" for line in lines)


def vectors(netlist, asked, holds, patterns):
    """What the inputs of the scanned netlist are driven with, what its outputs are strobed for and the clock, cycle by cycle. A load is as many
    cycles as the longest chain has cells: there the inputs idle at their held bits or 0, with the scan enable at 1."""
    tester = Tester(netlist, asked, holds)
    count, ports = len(tester.chains), len(netlist.outputs)
    idle = digits([holds.get(name, False) for name in netlist.inputs]) + "1"
    cycles = []
    for line in tester.pattern(patterns):
        words = [part.split(" = ") for part in line[line.index("{") + 2 : -3].split("; ")]
        words = {name.strip('"'): word for name, word in words}
        ins = [words[f"SC__si{k}"] for k in range(count)]
        outs = [words[f"SC__so{k}"] for k in range(count)]
        if line.startswith("  Call"):
            cycles += [f"{idle}{''.join(i)} {'X' * ports}{''.join(o)} P" for i, o in zip(zip(*ins), zip(*outs))]
        else:
            cycles.append(f"{words['SC__pi']}{''.join(ins)} {words['SC__po']}{''.join(outs)} {'P' if count else '0'}")
    return [f"cycle {cycle}" for cycle in cycles]


def applied(text, netlist, asked, held):
    """The patterns that a file applies, as texts: what each load brings to the cells and the vector right behind it drives the inputs with; without chains
    each vector. Those of the netlist's widths that obey count."""
    chains, names = netlist.chains(asked), len(re.findall(r"^\s*ScanChain ", text, re.M))
    lines = re.findall(r"^ *(Call|V)\b[^{]*\{(.*)\}", text[text.index('Pattern "pattern" {') :], re.M)
    items = [(head, dict(re.findall(r'"([^"]+)" = ([^;]+);', body))) for head, body in lines]
    found = []
    for (before, load), (head, words) in zip([("", {})] + items, items):
        if head != "V" or chains and before != "Call":
            continue
        inputs = words["SC__pi"][:-1] if names else words["SC__pi"]
        brought = [load.get(f"SC__si{k}", "")[::-1][: len(chain)] for k, chain in enumerate(chains)]
        fits = len(inputs) == len(netlist.inputs) and [len(bits) for bits in brought] == [len(chain) for chain in chains]
        if fits and all(inputs[netlist.inputs.index(name)] == bit for name, bit in held.items()):
            found.append(f"{inputs}/{''.join(brought)}")
    return found
