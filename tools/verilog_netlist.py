"""A scanned netlist as structural Verilog: of Verilog's own gates and one flip-flop, or of a library's cells. tools/verilog_of writes it."""

import collections
import re

import cell_file
from run_files import Bad
from tester_files import CLOCK

# The words that no name of Verilog (1364-2005) or SystemVerilog (1800-2017) may be without a backslash.
KEYWORDS = set("""accept_on alias always always_comb always_ff always_latch and assert assign assume automatic before begin bind bins binsof bit
    break buf bufif0 bufif1 byte case casex casez cell chandle checker class clocking cmos config const constraint context continue cover
    covergroup coverpoint cross deassign default defparam design disable dist do edge else end endcase endchecker endclass endclocking endconfig
    endfunction endgenerate endgroup endinterface endmodule endpackage endprimitive endprogram endproperty endsequence endspecify endtable endtask
    enum event eventually expect export extends extern final first_match for force foreach forever fork forkjoin function generate genvar global
    highz0 highz1 if iff ifnone ignore_bins illegal_bins implements implies import incdir include initial inout input inside instance int integer
    interconnect interface intersect join join_any join_none large let liblist library local localparam logic longint macromodule matches medium
    modport module nand negedge nettype new nexttime nmos nor noshowcancelled not notif0 notif1 null or output package packed parameter pmos
    posedge primitive priority program property protected pull0 pull1 pulldown pullup pulsestyle_ondetect pulsestyle_onevent pure rand randc
    randcase randsequence rcmos real realtime ref reg reject_on release repeat restrict return rnmos rpmos rtran rtranif0 rtranif1 s_always
    s_eventually s_nexttime s_until s_until_with scalared sequence shortint shortreal showcancelled signed small soft solve specify specparam
    static string strong strong0 strong1 struct super supply0 supply1 sync_accept_on sync_reject_on table tagged task this throughout time
    timeprecision timeunit tran tranif0 tranif1 tri tri0 tri1 triand trior trireg type typedef union unique unique0 unsigned until until_with
    untyped use uwire var vectored virtual void wait wait_order wand weak weak0 weak1 while wildcard wire with within wor xnor xor""".split())
PLAIN = re.compile(r"[A-Za-z_][A-Za-z0-9_$]*")
BIT = re.compile(r"(.+)\[(0|[1-9][0-9]*)\]")
FLIP_FLOP = "SC__flip_flop"
GATES = {"AND": "and", "NAND": "nand", "OR": "or", "NOR": "nor", "XOR": "xor", "XNOR": "xnor", "NOT": "not", "BUFF": "buf"}
OF_ONE_PIN = {"AND": "BUFF", "OR": "BUFF", "NAND": "NOT", "NOR": "NOT"}  # gates that .bench has of one pin too
EDGES = {"rising": "posedge", "falling": "negedge"}

# A port: its name, and the bits that it has, the least one first, each by its real name. A scalar has one, named as the port.
Port = collections.namedtuple("Port", "direction name bits")

# A cell of the design with what scan insertion made of it: its own signal, what its data pin reads, and what its scan pin reads.
ScanCell = collections.namedtuple("ScanCell", "name data before")


def spelled(name):
    """A name as Verilog writes it; with a backslash before and a blank behind where it isn't plain."""
    if PLAIN.fullmatch(name) and name not in KEYWORDS:
        return name
    if not re.fullmatch(r"[!-~]+", name):
        raise Bad(f"{name!r} can't be a name in Verilog")
    return f"\\{name} "


def runs_of(names):
    """Names in order, those put together whose places in a word follow each other, up or down."""
    runs = []
    for name in names:
        match = BIT.fullmatch(name)
        key = (match[1], int(match[2])) if match else (name, None)
        last = runs[-1] if runs else None
        step = key[1] - last[-1][1] if last and match and last[-1][0] == key[0] else 0
        if step in (1, -1) and (len(last) == 1 or step == last[1][1] - last[0][1]):
            last.append(key)
        else:
            runs.append([key])
    return runs


def ports_of(direction, names, taken):
    """The ports of these pins: words where their bits follow each other and nothing else has the word's name."""
    runs = runs_of(names)
    begun = collections.Counter(run[0][0] for run in runs if run[0][1] is not None)
    ports = []
    for run in runs:
        bits = [name if place is None else f"{name}[{place}]" for name, place in run]
        if len(run) > 1 and begun[run[0][0]] == 1 and run[0][0] not in taken:
            ports.append(Port(direction, run[0][0], bits))
        else:
            ports += [Port(direction, bit, [bit]) for bit in bits]
    return ports


def declared(port):
    if len(port.bits) == 1:
        return f"{port.direction} {spelled(port.name)}"
    least, most = (BIT.fullmatch(port.bits[k])[2] for k in (0, -1))
    return f"{port.direction} [{most}:{least}] {spelled(port.name)}"


def port_bit(port, bit):
    """A bit of a port inside the module."""
    return spelled(port.name) if len(port.bits) == 1 else f"{spelled(port.name)}[{BIT.fullmatch(bit)[2]}]"


def scan_cells(design):
    """The cells as scan insertion stitched them, by their names."""
    cells = {}
    for stem, kind in design.kinds.items():
        if kind != "DFF":
            continue
        name = stem[len("SC__s_"):]
        parts = {part: design.pins.get(f"SC__{part}_{name}", []) for part in "abd"}
        shape = (design.pins.get(name), parts["a"][1:], parts["b"][1:], parts["d"], design.pins[stem])
        if shape != ([stem], ["SC__nse"], ["SC__se"], [f"SC__a_{name}", f"SC__b_{name}"], [f"SC__d_{name}"]):
            raise Bad(f"{stem} is no cell as scan insertion makes it (docs/SCAN_AND_STIL.md)")
        cells[name] = ScanCell(name, parts["a"][0], parts["b"][0])
    return cells


class Chip:
    """A scanned netlist, what its signals are called in Verilog, and how its cells are written."""

    knows_nets = True  # a testbench may name each signal

    def __init__(self, design, names, module, library=None):
        self.design, self.names, self.module, self.library = design, names, names.module or module, library
        self.cells_from = library.path if library else None
        self.cells = scan_cells(design)
        self.scan_cell = library.scan() if library else None
        self.pins = [f"SC__o_{name}" if design.kinds[name] == "INPUT" else name for name in design.outputs]
        self.check_names()
        self.references = {}
        self.ports = self.make_ports()

    def check_names(self):
        """Each real name stands for one signal or pin."""
        seen = {}
        for name in list(self.design.kinds) + [pin for pin in self.pins if pin not in self.design.kinds] + [CLOCK] * bool(self.cells):
            other = seen.setdefault(self.names.of(name), name)
            if other != name:
                raise Bad(f"{other} and {name} have one real name: {self.names.of(name)}")

    def make_ports(self):
        """The ports; an input is read where it comes in, and every other signal is a net of its own, since a testbench can force no bit of a
        word."""
        real, design = self.names.of, self.design
        taken = {real(name) for name in design.kinds}
        clock = [Port("input", real(CLOCK), [real(CLOCK)])] * bool(self.cells)
        inputs = ports_of("input", [real(name) for name in design.inputs], taken)
        outputs = ports_of("output", [real(name) for name in self.pins], taken)
        bits = {bit: port_bit(port, bit) for port in inputs for bit in port.bits}
        bits |= {bit: spelled(f"SC__n_{bit}") for port in outputs if len(port.bits) > 1 for bit in port.bits}
        self.references = {name: bits.get(real(name)) or spelled(real(name)) for name in design.kinds}
        return clock + inputs + outputs

    def net(self, name):
        """What a signal is called inside the module."""
        return self.references[name]

    def is_left_out(self, name):
        """Whether a signal is within a scan cell of the library's."""
        if self.scan_cell is None:
            return False
        return name == "SC__nse" or name[:len("SC__x_")] in ("SC__a_", "SC__b_", "SC__d_") and name[len("SC__x_"):] in self.cells

    def has_own_scan_output(self):
        return self.scan_cell is not None and len(self.scan_cell.outputs) == 2

    def instance(self, module, pins, name, nets):
        """What drives a signal, as an instance of a module whose pins are joined to these nets, the clock's where its turn comes."""
        joined = ", ".join(f".{pin}({net})" for pin, net in zip(pins, nets))
        return f"  {module} {spelled(f'SC__i_{self.names.of(name)}')} ({joined});"

    def flip_flop(self, name):
        """The flip-flop of a cell, with the multiplexer where the library's has one."""
        clock, cell, stem = spelled(self.names.of(CLOCK)), self.cells[name], f"SC__s_{name}"
        if self.scan_cell is not None:
            outputs = [self.net(name)] * self.has_own_scan_output() + [self.net(stem)]
            nets = [self.net(cell.data), self.net(cell.before), self.net("SC__se"), clock, *outputs]
            return self.instance(self.scan_cell.name, self.scan_cell.inputs + self.scan_cell.outputs, stem, nets)
        nets = [self.net(f"SC__d_{name}"), clock, self.net(stem)]
        if self.library is None:
            return self.instance(FLIP_FLOP, ["D", "CK", "Q"], stem, nets)
        plain = self.library.cell("DFF", 2, name)
        return self.instance(plain.name, plain.inputs + plain.outputs, stem, nets)

    def gate(self, name, kind, pins):
        """What drives a signal that is no cell's."""
        kind = OF_ONE_PIN.get(kind, kind) if len(pins) == 1 else kind
        nets = [self.net(pin) for pin in pins]
        cell = self.library.cell(kind, len(pins), name) if self.library is not None else None
        if cell is not None:
            return self.instance(cell.name, cell.inputs + cell.outputs, name, nets + [self.net(name)])
        if not pins:
            return f"  assign {self.net(name)} = 1'b{kind[-1]};"
        return f"  {GATES[kind]} ({', '.join([self.net(name)] + nets)});"

    def statements(self):
        """A line for each gate and cell, in the netlist's order."""
        for name, kind in self.design.kinds.items():
            if kind == "INPUT" or self.is_left_out(name) or self.has_own_scan_output() and name in self.cells:
                continue
            yield self.flip_flop(name[len("SC__s_"):]) if kind == "DFF" else self.gate(name, kind, self.design.pins[name])

    def wires(self):
        """The nets that are no port, and what joins an output's pin to its signal where that has a name of its own."""
        outputs = {port.name for port in self.ports if port.direction == "output" and len(port.bits) == 1}
        for name, kind in self.design.kinds.items():
            if kind != "INPUT" and self.names.of(name) not in outputs and not self.is_left_out(name):
                yield f"  wire {self.net(name)};"
        bits = {bit: port_bit(port, bit) for port in self.ports if port.direction == "output" for bit in port.bits}
        for pin, name in zip(self.pins, self.design.outputs):
            port = bits[self.names.of(pin)]
            if port != self.net(name):
                yield f"  assign {port} = {self.net(name)};"

    def counted(self):
        """How many gates there are, besides what scan insertion put in."""
        kinds = self.design.kinds.items()
        return f"gates {sum(kind not in ('INPUT', 'DFF') and not name.startswith('SC__') and name not in self.cells for name, kind in kinds)}"

    def models(self):
        """What a library's cells do, as its file says it."""
        return cell_file.models(self.library, EDGES[self.names.edge])

    def text(self):
        """The module, and the flip-flop where it is none of a library's."""
        lines = [f"module {spelled(self.module)} ("] + [f"  {declared(port)}," for port in self.ports]
        lines[-1] = lines[-1][:-1]
        lines += [");", *self.wires(), *self.statements(), "endmodule", ""]
        if self.cells and self.library is None:
            lines += [f"module {FLIP_FLOP} (input D, input CK, output reg Q);", f"  always @({EDGES[self.names.edge]} CK) Q <= D;", "endmodule", ""]
        return lines
