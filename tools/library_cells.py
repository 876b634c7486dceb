"""Library cells as gates of .bench, for tools/bench_from_yosys: what each instance of a mapped netlist becomes.

A cell is a module of Yosys's JSON that is marked `library_cell` (by tools/bench_from_verilog). Its function
becomes as few gates as show it: an AND that a NOT alone reads is a NAND, an AND that an AND alone reads is one wide AND; so with OR and XOR.
Each instance gets gates of its own, a buffer is a BUFF, and nothing is joined across two instances. What leads to no pin that is joined to a
net is left out.
"""

import collections

from yosys_gates import FLIP_FLOPS, GATES, TIES, Gate, Refused, flip_flop_of, gate_of, one_bit, shown, why_refused

COMPLEMENT = {"AND": "NAND", "OR": "NOR", "XOR": "XNOR"}

# A cell by the bits of its module: gates, pairs of flip-flop and clock, pins by name, and for a bit its name and whether Yosys made it.
Cell = collections.namedtuple("Cell", "gates flip_flops inputs outputs names")


def is_library_cell(module):
    return int(str(module.get("attributes", {}).get("library_cell", "0")), 2) != 0


def multiplexer(name, cell):
    """Its gates; what is between them has no number in Yosys."""
    zero, one, select, out = (one_bit(name, cell, pin) for pin in "ABSY")
    between = [(name, part) for part in range(3)]
    return [Gate(name, "NOT", [select], between[0]), Gate(name, "AND", [zero, between[0]], between[1]),
            Gate(name, "AND", [one, select], between[2]), Gate(name, "OR", between[1:], out)]


def joined_kind(above, below):
    """The kind of one gate that does what two do, of which one alone reads the other; None where there is no such gate."""
    if below not in COMPLEMENT:
        return None
    return COMPLEMENT[below] if above == "NOT" else above if above in (below, COMPLEMENT[below]) else None


def joined_once(gates, readers):
    """Joins one gate with the only reader of its output; answers whether there was one."""
    for gate in gates.values():
        for place, bit in enumerate(gate.pins):
            below = gates.get(bit)
            kind = joined_kind(gate.kind, below.kind) if below is not None and readers[bit] == 1 else None
            if kind is not None:
                gates[gate.out] = gate._replace(kind=kind, pins=gate.pins[:place] + below.pins + gate.pins[place + 1:])
                del gates[bit]
                return True
    return False


def joined(gates, read):
    """As few gates of .bench as show the function; `read` are the bits that something else reads."""
    by_output = {gate.out: gate for gate in gates}
    readers = collections.Counter(bit for gate in gates for bit in gate.pins) + collections.Counter(read)
    while joined_once(by_output, readers):
        pass
    return list(by_output.values())


def pins_of(module, direction):
    pins = {name: port["bits"] for name, port in module["ports"].items() if port["direction"] == direction}
    for name, bits in pins.items():
        if direction == "inout" or len(bits) != 1:
            raise Refused(f"its pin {shown(name)} is {'inout' if direction == 'inout' else 'a word'}")
    return {name: bits[0] for name, bits in pins.items()}


def cell_of(module):
    """A library cell; refused where it has something that .bench hasn't."""
    gates, flip_flops = [], []
    for name, part in module["cells"].items():
        if part["type"] == "$_MUX_":
            gates += multiplexer(name, part)
        elif part["type"] in GATES:
            gates.append(gate_of(name, part))
        elif part["type"] in FLIP_FLOPS:
            flip_flops.append(flip_flop_of(name, part))
        else:
            raise Refused(why_refused(part["type"]))
    pins_of(module, "inout")
    inputs, outputs = pins_of(module, "input"), pins_of(module, "output")
    read = [*outputs.values(), *(bit for part, (clock, _) in flip_flops for bit in (*part.pins, clock))]
    nets = sorted(module["netnames"].items(), key=lambda pair: -pair[1].get("hide_name", 0))  # where a bit has several names, a given one
    names = {word["bits"][0]: (name, bool(word.get("hide_name"))) for name, word in nets}
    return Cell(joined(gates, read), flip_flops, inputs, outputs, names)


def parts_needed(cell, bits):
    """The gates and flip-flops of a cell that lead to some of its bits."""
    drivers = {part.out: part for part in [*cell.gates, *(part for part, _ in cell.flip_flops)]}
    waiting, found = list(bits), set()
    while waiting:
        bit = waiting.pop()
        if bit in drivers and bit not in found:
            found.add(bit)
            waiting += drivers[bit].pins
    return [part for part in cell.gates if part.out in found], [pair for pair in cell.flip_flops if pair[0].out in found]


def joined_outputs(cell, name, instance):
    """The cell's output pins that are joined to a net: pairs of the cell's bit and the net's."""
    pairs = [(bit, one_bit(name, instance, pin)) for pin, bit in cell.outputs.items() if instance["connections"].get(pin)]
    known = {*TIES, *cell.inputs.values(), *(part.out for part in cell.gates), *(part.out for part, _ in cell.flip_flops)}
    for bit, net in pairs:
        if bit not in known:
            raise Refused(f"cell {shown(name)} ({instance['type']}): an output pin has no function")
    return pairs


class Instances:
    """The gates of the instances of library cells, and names for the bits within them."""

    def __init__(self, modules):
        self.modules = {name: module for name, module in modules.items() if is_library_cell(module)}
        self.cells = {}
        self.names = {}  # of a bit within an instance, as .bench has it
        self.flat = {}  # the same for flip-flops, as Yosys has it where it flattens the netlist

    def cell(self, name, kind):
        if kind not in self.cells:
            try:
                self.cells[kind] = cell_of(self.modules[kind])
            except Refused as why:
                raise Refused(f"cell {shown(name)} ({kind}): {why}") from None
        return self.cells[kind]

    def name_inner(self, cell, name, parts, bits):
        """Names what an instance drives and no pin of it is joined to."""
        for number, part in enumerate(parts, 1):
            if part.out not in bits:
                bits[part.out] = inner = (name, part.out)
                given, made = cell.names.get(part.out, ("", True))
                self.names[inner] = f"{name}.{number if made else given}"
                if part.kind == "DFF":
                    self.flat[inner] = f"$flatten\\{name}.{given}" if made else f"{name}.{given}"

    def parts_of(self, name, instance):
        """An instance's gates, and its pairs of flip-flop and clock, by the bits of the netlist."""
        cell = self.cell(name, instance["type"])
        outputs = joined_outputs(cell, name, instance)
        gates, flip_flops = parts_needed(cell, [bit for bit, _ in outputs])
        made = [*gates, *(part for part, _ in flip_flops)]
        read = {bit for part in made for bit in part.pins} | {clock for _, (clock, _) in flip_flops} | {bit for bit, _ in outputs}
        bits = {bit: one_bit(name, instance, pin) for pin, bit in cell.inputs.items() if bit in read} | {bit: bit for bit in TIES}
        passed = []  # an output pin that is another pin or a constant
        for bit, net in outputs:
            if bit in bits:
                passed.append(Gate(name, TIES[bit], [], net) if bit in TIES else Gate(name, "BUFF", [bits[bit]], net))
            else:
                bits[bit] = net
        self.name_inner(cell, name, made, bits)
        moved = lambda part: Gate(name, part.kind, [bits[bit] for bit in part.pins], bits[part.out])
        return [moved(part) for part in gates] + passed, [(moved(part), (bits[clock], edge)) for part, (clock, edge) in flip_flops]
