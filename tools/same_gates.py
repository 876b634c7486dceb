"""Whether a .bench file has a netlist's own gates and names, for tools/compare_bench.

The netlist is Yosys's JSON: gates, or instances of library cells. Of each of its cells the signals of the cell's output nets are looked up by
name, and from there .bench is walked back to signals that are nets of the netlist too. They have to be nets of the cell's own pins; what
stands between has to be the cell's function, by all bits of those nets, and no more gates than the cell has. A gate of .bench that is no
cell's, and a net whose name is lost, differ as well. It shares no code with tools/bench_from_yosys.
"""

CONSTANTS = {"0": 0, "1": 1}
MOST_PINS = 16

# A gate of Yosys's by the words of its pins, `all` being as many ones as there are cases.
YOSYS = {
    "$_BUF_": lambda all, A: A, "$_NOT_": lambda all, A: all ^ A, "$_AND_": lambda all, A, B: A & B, "$_OR_": lambda all, A, B: A | B,
    "$_XOR_": lambda all, A, B: A ^ B, "$_NAND_": lambda all, A, B: all ^ (A & B), "$_NOR_": lambda all, A, B: all ^ (A | B),
    "$_XNOR_": lambda all, A, B: all ^ A ^ B, "$_MUX_": lambda all, A, B, S: A & (all ^ S) | B & S,
}
FLIP_FLOPS = ("$_DFF_P_", "$_DFF_N_")


class Differs(Exception):
    """Something of the netlist isn't so in .bench."""


def parity(words):
    found = 0
    for word in words:
        found ^= word
    return found


def bench_gate(kind, words, all):
    """A gate of .bench by the words of its pins."""
    if kind in ("CONST0", "CONST1"):
        return all * (kind == "CONST1")
    if kind in ("XOR", "XNOR"):
        return parity(words) ^ all * (kind == "XNOR")
    found = all if kind in ("AND", "NAND") else 0
    for word in words:
        found = found & word if kind in ("AND", "NAND") else found | word
    return found ^ all * (kind in ("NAND", "NOR", "NOT"))


def names_of(name, word):
    """The names of a port's or a net's bits."""
    count, start = len(word["bits"]), word.get("offset", 0)
    return [name] if count == 1 else [f"{name}[{start + (count - 1 - k if word.get('upto') else k)}]" for k in range(count)]


class Nets:
    """The netlist's nets: the bit of each name, and the names of each bit that the design gave."""

    def __init__(self, module):
        self.bits, self.given = {}, {}
        for words in (module["netnames"], module["ports"]):
            for name, word in words.items():
                for single, bit in zip(names_of(name, word), word["bits"]):
                    self.bits[single] = bit
                    if not word.get("hide_name"):
                        self.given.setdefault(bit, set()).add(single)


class Bench:
    """The definitions of a .bench file, and which net each of its signals is."""

    def __init__(self, definitions, table, nets):
        self.definitions = definitions  # name -> (kind, pins), of inputs too
        self.table = table
        self.bits = {name: nets.bits.get(table.get(name, name)) for name in definitions}
        self.signals = {bit: name for name, bit in self.bits.items() if bit is not None and not self.is_spare(name)}
        self.ours = {theirs: ours for ours, theirs in table.items()}
        self.owners = {}

    def is_spare(self, name):
        """A second name of a net, or a constant: no cell's gate."""
        kind, pins = self.definitions[name]
        bit = self.bits[name]
        return kind in ("CONST0", "CONST1") and (bit is None or bit in CONSTANTS) or kind == "BUFF" and bit is not None and self.bits[pins[0]] == bit


class Cell:
    """A cell of the netlist: Yosys's gates with the bits of their pins, and what its pins are joined to."""

    def __init__(self, name, instance, modules):
        module = modules.get(instance["type"])
        self.name, self.gates, self.flip_flops, self.names = name, {}, {}, {}
        if module is None:
            parts, bits = [instance], {}
            out = "Q" if instance["type"] in FLIP_FLOPS else "Y"
            self.outputs = [(instance["connections"][out][0],) * 2]
            self.inputs = {bits[0]: bits[0] for pin, bits in instance["connections"].items() if pin not in (out, "C")}
        else:
            parts = module["cells"].values()
            joined = {direction: [(port["bits"][0], instance["connections"][pin][0]) for pin, port in module["ports"].items()
                                  if port["direction"] == direction and instance["connections"].get(pin)] for direction in ("input", "output")}
            self.inputs, self.outputs = dict(joined["input"]), joined["output"]
            for each, word in sorted(module["netnames"].items(), key=lambda pair: -pair[1].get("hide_name", 0)):  # as the flat netlist has them
                self.names[word["bits"][0]] = f"$flatten\\{name}.{each}" if word.get("hide_name") else f"{name}.{each}"
        for part in parts:
            pins = {pin: bits[0] for pin, bits in part["connections"].items()}
            if part["type"] in FLIP_FLOPS:
                self.flip_flops[pins["Q"]] = pins["D"]
            elif part["type"] in YOSYS:
                self.gates[pins.pop("Y")] = (part["type"], pins)
            else:
                raise Differs(f"cell {name} has a {part['type']}, of which .bench has no gate")

    def words(self):
        """A word for each net that the cell reads and each flip-flop, which have all bits between them; and a word of ones."""
        variables = [*dict.fromkeys(net for net in self.inputs.values() if net not in CONSTANTS), *(("state", each) for each in self.flip_flops)]
        if len(variables) > MOST_PINS:
            raise Differs(f"cell {self.name} has more pins than are tried ({MOST_PINS})")
        cases = 1 << len(variables)
        words = {variable: sum(1 << case for case in range(cases) if case >> place & 1) for place, variable in enumerate(variables)}
        return words, (1 << cases) - 1

    def value(self, bit, words, all):
        """What Yosys's gates make of a bit of the cell."""
        if bit in CONSTANTS:
            return CONSTANTS[bit] * all
        if ("state", bit) in words:
            return words["state", bit]
        if bit in self.gates:
            kind, pins = self.gates[bit]
            return YOSYS[kind](all, **{pin: self.value(each, words, all) for pin, each in pins.items()})
        net = self.inputs.get(bit)
        if net is None:
            raise Differs(f"cell {self.name} reads what nothing drives")
        return CONSTANTS[net] * all if net in CONSTANTS else words[net]

    def most(self):
        """How many gates and flip-flops of .bench it may have, and with how many pins: its own, of a multiplexer four with seven, and one for
        each output pin that is another pin or a constant."""
        driven = {bit for bit, _ in self.outputs if bit in self.gates or bit in self.flip_flops}
        multiplexers = sum(kind == "$_MUX_" for kind, _ in self.gates.values())
        others = len(self.flip_flops) + len(self.outputs) - len(driven)
        return len(self.gates) + 3 * multiplexers + others, sum(len(pins) for _, pins in self.gates.values()) + 4 * multiplexers + others

    def used(self, bits):
        """The flip-flops that lead to some bits."""
        waiting, found = list(bits), set()
        while waiting:
            bit = waiting.pop()
            if bit not in found:
                found.add(bit)
                waiting += self.gates[bit][1].values() if bit in self.gates else [self.flip_flops[bit]] if bit in self.flip_flops else []
        return [bit for bit in self.flip_flops if bit in found]


class Walk:
    """What .bench has of one cell."""

    def __init__(self, bench, cell):
        self.bench, self.cell, self.count, self.pins = bench, cell, 0, 0
        self.words, self.all = cell.words()
        self.states = {}  # a flip-flop of .bench, and its word

    def own(self, name):
        owner = self.bench.owners.setdefault(name, self.cell.name)
        if owner != self.cell.name:
            raise Differs(f"{name} belongs to two cells, {owner} and {self.cell.name}")
        self.count += 1
        self.pins += len(self.bench.definitions[name][1])

    def made(self, name):
        """What a signal's own gate makes."""
        self.own(name)
        kind, pins = self.bench.definitions[name]
        if kind == "DFF":
            if name not in self.states:
                raise Differs(f"{name} is a flip-flop, and cell {self.cell.name} has none there")
            return self.states[name]
        return bench_gate(kind, [self.value(pin) for pin in pins], self.all)

    def value(self, name):
        bit = self.bench.bits[name]
        if name in self.states:
            return self.states[name]
        if bit in self.words:
            return self.words[bit]
        kind, _ = self.bench.definitions[name]
        if self.bench.is_spare(name) and kind != "BUFF":
            return self.all * (kind == "CONST1")
        if bit is not None or kind == "INPUT":
            raise Differs(f"cell {self.cell.name} doesn't read {name}, and its gates of .bench do")
        if kind == "BUFF":
            raise Differs(f"cell {self.cell.name} has {name} between its gates")
        return self.made(name)

    def flip_flop(self, bit):
        """The name in .bench of one of the cell's flip-flops."""
        net = next((net for each, net in self.cell.outputs if each == bit), None)
        inner = self.cell.names.get(bit)
        name = self.bench.signals.get(net) if net is not None else self.bench.ours.get(inner, inner)
        if name not in self.bench.definitions or self.bench.definitions[name][0] != "DFF":
            raise Differs(f"cell {self.cell.name} has a flip-flop that .bench hasn't")
        return name

    def compare(self):
        flip_flops = {bit: self.flip_flop(bit) for bit in self.cell.used(bit for bit, _ in self.cell.outputs)}
        self.states = {name: self.words["state", bit] for bit, name in flip_flops.items()}
        for bit, net in self.cell.outputs:
            if net not in self.bench.signals:
                raise Differs(f"a net that cell {self.cell.name} drives has no signal")
            if self.made(self.bench.signals[net]) != self.cell.value(bit, self.words, self.all):
                raise Differs(f"{self.bench.signals[net]} is another function than cell {self.cell.name}")
        for bit, name in flip_flops.items():
            self.bench.owners[name] = self.cell.name
            if self.value(self.bench.definitions[name][1][0]) != self.cell.value(self.cell.flip_flops[bit], self.words, self.all):
                raise Differs(f"{name} takes another bit than the flip-flop of cell {self.cell.name}")
        gates, pins = self.cell.most()
        if self.count > gates or self.pins > pins:
            raise Differs(f"cell {self.cell.name} has {self.count} gates with {self.pins} pins in .bench, and may have {gates} with {pins}")


def compare_names(bench, nets):
    """Each net that the design names has a name of it."""
    for bit, name in bench.signals.items():
        if bit in nets.given and bench.table.get(name, name) not in nets.given[bit]:
            raise Differs(f"{name} has none of its net's names: {', '.join(sorted(nets.given[bit]))}")


def difference(module, modules, definitions, table):
    """What differs first; None where gates and names are the netlist's. `modules` are the library cells."""
    try:
        nets = Nets(module)
        bench = Bench(definitions, table, nets)
        for name, instance in module["cells"].items():
            Walk(bench, Cell(name, instance, modules)).compare()
        for name, (kind, _) in definitions.items():
            if kind != "INPUT" and name not in bench.owners and not bench.is_spare(name):
                raise Differs(f"{name} is no cell's gate")
        compare_names(bench, nets)
    except Differs as why:
        return str(why)
    return None
