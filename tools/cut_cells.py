"""Cells that can't be scanned, cut open, for tools/bench_from_yosys --cut.

A black box (an instance of a module without a body), a memory, a latch and a tristate cell go away, whole. A bit that one of them drives, or
several, becomes an input that the tester can't set. So does each bit of a pin that is input and output: the tester leaves it alone. What such a
cell reads is no output, since the tester doesn't see its pins.
"""

import re

from library_cells import is_library_cell
from yosys_design import CONSTANTS, all_names, bit_names, is_marked, ports_of
from yosys_gates import CUT_OPEN, Refused, shown

NAMELESS = "$cut$"  # before the name of an output port that such a cell drives, in the table of names: the input has a name of its own
# Flip-flops with a set, reset or load that doesn't wait for the clock, and the pins of these.
AT_ONCE = re.compile(r"\$(adffe?|aldffe?|dffsre?)$|\$_(DFF_..._|DFFE_...._|DFFSRE?_|ALDFFE?_)")
AT_ONCE_PINS = ("ARST", "ALOAD", "AD", "SET", "CLR", "R", "S", "L")
CLOCKED = re.compile(r"\$_?(|a|s|al|A|S|AL)(dff|DFF)")


def undriven_outputs(module):
    """The output ports of a module that have a bit which nothing drives."""
    driven = {bit for _, bit in ports_of(module, "input")} | set("01")
    for cell in module["cells"].values():
        ways = cell.get("port_directions", {})
        driven |= {bit for pin, bits in cell["connections"].items() for bit in bits if ways.get(pin) != "input" and (pin in ways or pin in "YQ")}
    return [name for name, port in module["ports"].items() if port["direction"] == "output" and not driven.issuperset(port["bits"])]


def is_cut_kind(cell, modules):
    """Whether a cell can't be scanned: a latch, a tristate cell, a memory, a black box; or an instance of a library cell that has such a part, a
    pin that is input and output, or a joined output without a function."""
    module = modules.get(cell["type"])
    if module is None:
        return re.match(CUT_OPEN, cell["type"]) is not None or not cell["type"].startswith("$")
    if not is_library_cell(module):
        return is_marked(module, "blackbox") or not module["cells"] and bool(undriven_outputs(module))
    has_part = any(re.match(CUT_OPEN, part["type"]) for part in module["cells"].values())
    return has_part or bool(ports_of(module, "inout")) or any(cell["connections"].get(pin) for pin in undriven_outputs(module))


def pins_of(name, cell, modules):
    """For each bit that a cell is joined to: its pin's direction, and what the bit is called there."""
    ports = modules.get(cell["type"], {}).get("ports", {})
    for pin, bits in cell["connections"].items():
        way = ports.get(pin, {}).get("direction") or cell.get("port_directions", {}).get(pin)
        if way is None:
            raise Refused(f"cell {shown(name)} ({cell['type']}): nothing says whether its pin {shown(pin)} is an output; give its module, "
                          "without a body")
        for label, bit in zip(bit_names(f"{name}.{pin}", {**ports.get(pin, {}), "bits": bits}), bits):
            yield way, label, bit


class Cut:
    """What is cut open, of one module: the bits that the tester can't set, and those that the cells read."""

    def __init__(self, module, modules, asked, outputs):
        self.modules, self.asked, self.outputs, self.count = modules, asked, outputs, 0
        self.drivers = {bit: f"port {shown(name)}" for name, bit in ports_of(module, "inout")}  # what drives a bit, the first of several
        self.inputs = {bit for _, bit in ports_of(module, "input")}
        self.labels, self.read = {}, set()
        output_names = {name for name, _ in ports_of(module, "output")}
        self.output_of = {bit: name for name, bit in ports_of(module, "output")[::-1]}
        self.own_names = {bit: name for name, bit in all_names(module) if name not in output_names}
        if self.drivers and not asked:
            port = next(iter(self.drivers.values()))
            raise Refused(f"{port} is inout: tristate pins have no .bench; --cut makes inputs of them that the tester can't set")

    def hint(self, cell):
        """What is said behind a cell's refusal."""
        return "; --cut cuts it open" if not self.asked and is_cut_kind(cell, self.modules) else ""

    def takes(self, name, cell):
        """Whether a cell is cut open."""
        if not self.asked or not is_cut_kind(cell, self.modules):
            return False
        self.count += 1
        for way, label, bit in pins_of(name, cell, self.modules):
            if way != "output":
                self.read.add(bit)
            if way != "input" and bit not in ("x", "z"):
                self.drivers.setdefault(bit, f"cell {shown(name)} ({cell['type']}), which is cut open,")
                if not name.startswith("$"):
                    self.labels.setdefault(bit, label)
        return True

    def seen(self):
        """The bits that such cells read and the tester sees: none, but where it is said."""
        return self.read - self.inputs - self.drivers.keys() - set(CONSTANTS) if self.outputs else set()

    def given(self, names):
        """The design's names of bits; of those that are cut without those of output ports: these are signals of their own."""
        return {bit: name for bit, name in names.items() if bit not in self.drivers} | {
            bit: self.own_names[bit] for bit in self.drivers if bit in self.own_names}

    def label(self, bit):
        """What a cut bit is called that has no name of its own: by a cell that the design names, else by its output port; None else."""
        return self.labels.get(bit) or (f"cut_{self.output_of[bit]}" if bit in self.output_of else None)

    def theirs(self, bit, hidden):
        """What the table of names has for such a bit."""
        return hidden.get(bit) or f"{NAMELESS}{self.output_of[bit]}"


# A set or reset that doesn't wait for the clock has to be held off, which can't be where such a cell drives it.

def cone_of(bits, drivers):
    """All that leads to some bits, up to flip-flops."""
    waiting, found = list(bits), set()
    while waiting:
        bit = waiting.pop()
        if bit not in found:
            found.add(bit)
            waiting += drivers.get(bit, [])
    return found


def check_resets(module, modules, memories):
    """Refuses a set or reset that what is cut open leads to; the netlist is flat, and memories are cut only where it is said."""
    drivers, cut, asked = {}, {bit: f"port {shown(name)}" for name, bit in ports_of(module, "inout")}, []
    for name, cell in module["cells"].items():
        kind, pins = cell["type"], list(pins_of(name, cell, modules))
        is_cut = is_cut_kind(cell, modules) and (memories or not kind.startswith("$mem"))
        read = [bit for way, _, bit in pins if way == "input"]
        if AT_ONCE.match(kind):
            asked.append((name, [bit for pin in AT_ONCE_PINS for bit in cell["connections"].get(pin, [])]))
        for way, _, bit in pins:
            if way != "input" and is_cut:
                cut.setdefault(bit, f"cell {shown(name)} ({kind})")
            elif way != "input" and not CLOCKED.match(kind):
                drivers.setdefault(bit, []).extend(read)
    for name, bits in asked:
        found = next((cut[bit] for bit in cone_of(bits, drivers) if bit in cut), None)
        if found is not None:
            raise Refused(f"cell {shown(name)} (flip-flop): its set or reset comes from {found}, which is cut open: a run can't hold it off")
