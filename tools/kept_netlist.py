"""The scanned netlist in the library cells that the design came in: each flip-flop is its scan cell, and the chains join them. tools/verilog_of
writes it by --kept.

The design is Yosys's JSON that `tools/bench_from_verilog --cells` kept; which flip-flop follows which is read off the scanned .bench
netlist. Every instance, net and port stays; what is new are the scan cells' two pins more, the ports of the scan enable and of the chains,
and a net where a flip-flop's own output was joined to nothing. A file says which scan cell stands for which flip-flop, and the two pins that
it has more: scan in, and the scan enable (1 shifts). Its other pins are the flip-flop's.

    # flip-flop   scan cell   scan in   scan enable
    DFF           SDFF        SI        SE

Cells that were cut open (tools/bench_from_yosys --cut) stay too, and the inputs that stood for what they drive are none of the netlist's.

What the cells do, for a simulation without the library's own Verilog, is what Yosys read of them, a multiplexer before a scan cell's data.
"""

import copy
import json
import pathlib
import re
import subprocess
import tempfile

from cut_cells import is_cut_kind
from library_cells import Instances
from run_files import Bad
from tester_files import CLOCK, read_names
from verilog_netlist import Port, scan_cells
from yosys_design import bit_names, module_of
from yosys_gates import FLIP_FLOPS, Refused

WORD = re.compile(r"[A-Za-z_][A-Za-z0-9_$]*")


def read_scan_cells(path):
    """For each flip-flop of the library its scan cell, and that one's two pins more."""
    cells = {}
    for number, line in enumerate(path.read_text(encoding="utf-8").splitlines(), 1):
        words = line.split("#")[0].split()
        if not words:
            continue
        if len(words) != 4 or not all(WORD.fullmatch(word) for word in words):
            raise Bad(f"{path} line {number}: a line has a flip-flop, its scan cell, and the scan cell's pins for scan in and scan enable")
        if words[0] in cells:
            raise Bad(f"{path} line {number}: a second scan cell for {words[0]}")
        cells[words[0]] = words[1:]
    return cells


def scan_model(module, scan_in, scan_enable):
    """A flip-flop's module as its scan cell's: before its data stands a multiplexer."""
    module = copy.deepcopy(module)
    taken, shifts, free = (first_free(module) + k for k in range(3))
    for pin, bit in ((scan_in, taken), (scan_enable, shifts)):
        if pin in module["ports"]:
            raise Bad(f"its flip-flop has a pin {pin} already")
        module["ports"][pin] = {"direction": "input", "bits": [bit]}
    inner = next(cell for cell in module["cells"].values() if cell["type"] in FLIP_FLOPS)
    module["cells"]["SC__shifts"] = {
        "type": "$_MUX_", "port_directions": {"A": "input", "B": "input", "S": "input", "Y": "output"},
        "connections": {"A": inner["connections"]["D"], "B": [taken], "S": [shifts], "Y": [free]}}
    inner["connections"]["D"] = [free]
    return module


def first_free(module):
    """A number that no bit of a module has."""
    words = [*module["netnames"].values(), *module["ports"].values()]
    bits = [word["bits"] for word in words] + [bits for cell in module["cells"].values() for bits in cell["connections"].values()]
    return 1 + max((bit for each in bits for bit in each if isinstance(bit, int)), default=1)


class KeptChip:
    """A scanned netlist of library cells, as tools/verilog_of and its testbench take it; the testbench names no net within it."""

    knows_nets = False
    scan_cell = None

    def __init__(self, design, names, netlist, scan_cells_file, unknown):
        self.design, self.names, self.netlist, self.cells_from = design, names, netlist, netlist
        self.scan_file, self.replacements = scan_cells_file, read_scan_cells(scan_cells_file)
        self.cells = scan_cells(design)
        self.pins = [f"SC__o_{name}" if design.kinds[name] == "INPUT" else name for name in design.outputs]
        self.kept = read_names([netlist.with_suffix(".names")]).table
        self.cut_inputs = set(unknown)
        try:
            self.read_module()
            instances = Instances(self.modules)
            flip_flops = {name: instances.parts_of(name, cell)[1] for name, cell in self.top["cells"].items()
                          if cell["type"] in instances.modules and not is_cut_kind(cell, self.modules)}
            self.find_cells(instances, {name: found for name, found in flip_flops.items() if found})
        except Refused as why:
            raise Bad(f"{netlist}: {why}") from None
        self.ports = self.make_ports()
        self.stitch()

    def read_module(self):
        try:
            self.modules = json.loads(self.netlist.read_text(encoding="utf-8"))["modules"]
            self.module, self.top = module_of({"modules": self.modules}, None)
        except (ValueError, KeyError) as why:
            raise Bad(f"{self.netlist} is no netlist that Yosys wrote: {why}") from None
        if any(cell["type"] in FLIP_FLOPS for cell in self.top["cells"].values()):
            raise Bad(f"{self.netlist} isn't of library cells: tools/bench_from_verilog --cells keeps them")

    def find_cells(self, instances, flip_flops):
        """Which instance is which cell of the scanned netlist, and the bit that has the cell's value."""
        bits = {}
        for net, word in self.top["netnames"].items():
            for name, bit in zip(bit_names(net, word), word["bits"]):
                bits[name] = bit
        ours = {bits.get(theirs, theirs): name for name in self.cells for theirs in [self.kept.get(name, name)]}
        self.instances = {}
        for name, found in flip_flops.items():
            if len(found) > 1:
                raise Bad(f"instance {name} has {len(found)} flip-flops: scan cells of one alone are known")
            out = found[0][0].out
            cell = ours.get(instances.flat.get(out, out))
            if cell is None or cell in self.instances:
                raise Bad(f"instance {name} is no cell of the scanned netlist: is {self.netlist} the design's?")
            self.instances[cell] = name
        missing = [name for name in self.cells if name not in self.instances]
        if missing:
            raise Bad(f"cell {missing[0]} is no instance of {self.netlist}: is it the design's?")

    def make_ports(self):
        """The design's ports, and behind them those of the scan enable and the chains: their bits are inputs and outputs in order."""
        real, clock = self.names.of, self.clock()
        ours = {"input": [name for name in self.design.inputs if name not in self.cut_inputs], "output": list(self.pins)}
        bits = {way: [bit for port in self.top["ports"].values() if port["direction"] == way for bit in port["bits"] if (way, bit) != ("input", clock)]
                for way in ours}
        added = {way: names[len(bits[way]):] for way, names in ours.items()}
        if any(len(ours[way]) < len(bits[way]) or not all(name.startswith("SC__s") for name in added[way]) for way in ours):
            raise Bad(f"{self.netlist} has other ports than the scanned netlist: is it the design's?")
        following = {way: iter(names) for way, names in ours.items()}
        name_of = lambda way, bit: real(CLOCK) if (way, bit) == ("input", clock) else real(next(following[way])) if way in following else None
        ports = [Port(port["direction"], name, [name_of(port["direction"], bit) for bit in port["bits"]]) for name, port in self.top["ports"].items()]
        return ports + [Port(way, real(name), [real(name)]) for way, names in added.items() for name in names]

    def clock(self):
        """The clock's bit, where there are cells."""
        named = [pair for name, port in self.top["ports"].items() for pair in zip(bit_names(name, port), port["bits"])]
        return dict(named).get(self.kept.get(CLOCK)) if self.cells else None

    def own_output(self, cell):
        """The bit that has a cell's value outside of its instance; where nothing is joined to that pin, a net of its own."""
        instance = self.top["cells"][self.instances[cell]]
        module = self.modules[instance["type"]]
        inner = next(part for part in module["cells"].values() if part["type"] in FLIP_FLOPS)["connections"]["Q"]
        pins = [pin for pin, port in module["ports"].items() if port["direction"] == "output" and port["bits"] == inner]
        joined = [instance["connections"][pin] for pin in pins if instance["connections"].get(pin)]
        if not pins:
            raise Bad(f"instance {self.instances[cell]} ({instance['type']}) has no pin with its own value, which a chain needs")
        return joined[0] if joined else instance["connections"].setdefault(pins[0], self.new_net(self.names.of(cell)))

    def new_net(self, name):
        if name in self.top["netnames"]:
            raise Bad(f"the design has a net {name} already")
        self.free += 1
        self.top["netnames"][name] = {"hide_name": 0, "bits": [self.free], "attributes": {}}
        return [self.free]

    def new_port(self, name, direction, bits=None):
        name = self.names.of(name)
        bits = bits or self.new_net(name)
        if name in self.top["ports"]:
            raise Bad(f"the design has a port {name} already")
        self.top["ports"][name] = {"direction": direction, "bits": bits}
        return bits

    def stitch(self):
        """Puts in the scan cells, and joins them to each other and to the chains' ports."""
        self.free = first_free(self.top)
        if not self.cells:
            return
        bits = {name: self.new_port(name, "input") for name in self.design.inputs if name.startswith("SC__s")}
        bits |= {cell: self.own_output(cell) for cell in self.cells}
        for name, cell in self.cells.items():
            instance = self.top["cells"][self.instances[name]]
            scan, scan_in, scan_enable = self.replacement(instance["type"])
            before = cell.before.removeprefix("SC__s_") if cell.before.startswith("SC__s_") else cell.before
            instance["type"] = scan
            instance["connections"] |= {scan_in: bits[before], scan_enable: bits["SC__se"]}
            instance.setdefault("port_directions", {}).update({scan_in: "input", scan_enable: "input"})
        for name in self.pins:
            if name.startswith("SC__so"):
                self.new_port(name, "output", bits[self.design.pins[name][0].removeprefix("SC__s_")])

    def replacement(self, kind):
        if kind not in self.replacements:
            raise Bad(f"{self.scan_file} names no scan cell for {kind}")
        scan, scan_in, scan_enable = self.replacements[kind]
        if scan not in self.modules:
            self.modules[scan] = scan_model(self.modules[kind], scan_in, scan_enable)
        return scan, scan_in, scan_enable

    def library(self):
        """The cells that the netlist has."""
        return sorted({cell["type"] for cell in self.top["cells"].values() if not cell["type"].startswith("$")})

    def by_yosys(self, modules):
        """These modules as Verilog."""
        with tempfile.TemporaryDirectory() as made:
            whole, written = pathlib.Path(made) / "chip.json", pathlib.Path(made) / "chip.v"
            whole.write_text(json.dumps({"creator": "tools/verilog_of", "modules": self.modules}), encoding="utf-8")
            chosen = " ".join(f"\\{name}" for name in modules)
            done = subprocess.run(["yosys", "-q", "-p", f"read_json {whole}; select {chosen}; write_verilog -noattr -selected {written}"],
                                  capture_output=True, text=True)
            if done.returncode != 0:
                raise Bad(f"yosys ended with {done.returncode}: {(done.stdout + done.stderr).strip()}")
            return [line for line in written.read_text(encoding="utf-8").splitlines() if not line.startswith("/*")]

    def text(self):
        return self.by_yosys([self.module])

    def models(self):
        return self.by_yosys(self.library())

    def counted(self):
        return f"instances {len(self.top['cells'])}"
