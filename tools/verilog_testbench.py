"""A testbench that plays a STIL file on a scanned netlist in Verilog, with one fault where it is asked. tools/verilog_of writes it.

A fault is put in from outside, by `force`, so that the netlist is the one that is shipped: a stem of a gate or cell is forced; at an input
the tester drives the stuck bit; at an output it sees it; and for a gate's pin the gate's output is forced to what the gate makes with the
pin stuck. The data pin of a library's scan cell has no gate before it: behind each capture the cell's outputs are forced to the stuck bit,
until the clock ticks again. All that names nets within the netlist is left out where NO_FAULTS is defined.

Inputs that the test doesn't drive are x in each cycle. So no strobe rests on them that is met.
"""

import collections

from cell_file import function_of
from tester_files import CLOCK
from verilog_netlist import spelled

# A line of the design that can be stuck, and how: the number that the testbench gives it is its place in the list.
Site = collections.namedtuple("Site", "text how where")


def original_definitions(chip):
    """The netlist before scan insertion: name, kind and pins."""
    for name, kind in chip.design.kinds.items():
        if name in chip.cells:
            yield name, "DFF", [chip.cells[name].data]
        elif kind != "INPUT" and not name.startswith("SC__"):
            yield name, kind, chip.design.pins[name]


def design_outputs(chip):
    return [name for name in chip.design.outputs if not name.startswith("SC__so")]


def driven_inputs(chip, test):
    """The inputs in the testbench's order: those that the test drives, then the others."""
    return test.inputs + [name for name in chip.design.inputs if name not in set(test.inputs)]


def sites_of(chip, inputs):
    """The lines of the design (docs/FAULTS.md): each stem, and its branches where it has two readers or more."""
    definitions, outputs = list(original_definitions(chip)), design_outputs(chip)
    readers = collections.defaultdict(list)
    for name, kind, pins in definitions:
        for place, pin in enumerate(pins):
            readers[pin].append(Site(f"pin {name} {place}", "data" if kind == "DFF" else "pin", (name, place)))
    for name in outputs:
        readers[name].append(Site(f"out {name}", "output", chip.design.outputs.index(name)))
    signals = [name for name in chip.design.inputs if not name.startswith("SC__")] + [name for name, _, _ in definitions]
    for name in signals:
        is_input = chip.design.kinds[name] == "INPUT"
        yield Site(f"stem {name}", "input" if is_input else "stem", inputs.index(name) if is_input else name)
        if len(readers[name]) > 1:
            yield from readers[name]


def stuck_pin(chip, number, name, kind, pins, place):
    """While this line is stuck, the gate's output is what the gate makes of its pins with that one stuck."""
    nets = [f"chip.{chip.net(pin)}" for pin in pins]
    with_stuck = ["stuck" if k == place else net for k, net in enumerate(nets)]
    woken = " or ".join(dict.fromkeys(["stuck", "line"] + [net for k, net in enumerate(nets) if k != place]))
    return (f"  always @({woken}) if (line == {number}) begin made = {function_of(kind, with_stuck)}; "
            f"force chip.{chip.net(name)} = made; end")


def always_lines(chip, sites):
    """What a stuck pin does all the time."""
    for number, site in enumerate(sites, 1):
        if site.how == "pin":
            name, place = site.where
            yield stuck_pin(chip, number, name, chip.design.kinds[name], chip.design.pins[name], place)
        elif site.how == "data" and chip.scan_cell is None:
            name = f"SC__a_{site.where[0]}"
            yield stuck_pin(chip, number, name, "AND", chip.design.pins[name], 0)


def case_lines(chip, sites):
    """For each text of a line its number, and what is done at once where it is stuck."""
    for number, site in enumerate(sites, 1):
        done = {"stem": lambda: f" force chip.{chip.net(site.where)} = stuck;", "input": lambda: f" driven = {site.where};",
                "output": lambda: f" seen = {site.where};"}.get(site.how, lambda: "")()
        yield f'      "{quoted(site.text)}": begin line = {number};{done} end'


def capture_lines(chip, sites):
    """What a stuck data pin of a library's scan cell does behind a tick."""
    if chip.scan_cell is None:
        return
    for number, site in enumerate(sites, 1):
        if site.how != "data":
            continue
        name = site.where[0]
        nets = [f"chip.{chip.net(f'SC__s_{name}')}"] + [f"chip.{chip.net(name)}"] * chip.has_own_scan_output()
        held, let = (" ".join(f"{word.format(net)};" for net in nets) for word in ("force {} = stuck", "release {}"))
        yield f"      {number}: if (captures) begin {held} end else begin {let} end"


def joined_ports(chip, inputs):
    """What each port is joined to: the bits of a register or a wire, the most significant one first, and the clock; nothing where it's no input or
    output alone."""
    real = chip.names.of
    nets = {"input": {real(name): f"drive[{k}]" for k, name in enumerate(inputs)},
            "output": {real(pin): f"pins[{k}]" for k, pin in enumerate(chip.pins)}}
    if chip.cells:
        nets["input"][real(CLOCK)] = "clock"
    for port in chip.ports:
        if port.direction not in nets:
            yield f"    .{spelled(port.name)}()"
            continue
        bits = [nets[port.direction][bit] for bit in reversed(port.bits)]
        yield f"    .{spelled(port.name)}({bits[0] if len(bits) == 1 else '{' + ', '.join(bits) + '}'})"


def quoted(text):
    return text.replace("\\", "\\\\")


TESTBENCH = """`timescale 1ns/1ns
module {bench};
  localparam CYCLES = {cycles}, DRIVES = {drives}, STROBES = {strobes}, LONGEST = {longest};
  reg [0:DRIVES+STROBES] vectors [0:CYCLES]; // a cycle: what is driven, whether the clock ticks, what is strobed
  reg [0:DRIVES+STROBES] vector;
  reg [0:{last}] drive;
  reg clock, stuck, made, captures, value, wanted, all, failed;
  wire [0:STROBES-1] pins;
  reg [8*LONGEST:1] fault, name;
  reg [8*4096:1] file;
  integer line, driven, seen, t, k;

  {module} chip (
{ports}
  );

`ifndef NO_FAULTS
  // A stuck pin of a gate: the gate's output is what the gate makes of it.
{always}

  task choose_fault; begin
    stuck = fault[1];
    if (fault[16:9] != "/" || fault[8:2] != 7'h18) fault = 0; // a line, a slash, and 0 or 1
    case (fault >> 16)
{cases}
      default: begin $display("no such fault"); $finish(0); end
    endcase
  end endtask

  // A stuck data pin of a scan cell: what it took at the tick is the stuck bit.
  task after_tick; begin
    captures = drive[{enable}] == 0;
    case (line)
{captures}
      default: ;
    endcase
  end endtask
`endif

  task name_pin; begin
    case (k)
{names}
    endcase
  end endtask

  task strobe_pin; begin
    wanted = vector[DRIVES+1+k];
    value = k == seen ? stuck : pins[k];
    if (wanted !== 1'bx && value !== wanted && (all || !failed)) begin
      failed = 1;
      name_pin;
      $display("%0s at cycle %0d signal %0s", value === 1'bx || value === 1'bz ? "unknown" : "fails", t, name);
    end
  end endtask

  initial begin
    line = 0; driven = -1; seen = -1; clock = 0; failed = 0; stuck = 0;
    all = $test$plusargs("all");
    if (!$value$plusargs("vectors=%s", file)) file = "{vectors}";
    $readmemb(file, vectors);
    if (vectors[CYCLES] !== {{(DRIVES+STROBES+1){{1'b0}}}}) begin
      $display("not the vectors of this testbench: %0s", file);
      $finish(0);
    end
`ifndef NO_FAULTS
    if ($value$plusargs("fault=%s", fault)) choose_fault;
`endif
    for (t = 0; t < CYCLES && (all || !failed); t = t + 1) begin
      vector = vectors[t];
      drive = {drives_of};
      if (driven >= 0) drive[driven] = stuck;
      #40;
      for (k = 0; k < STROBES; k = k + 1) strobe_pin;
      #5 clock = vector[DRIVES];
      #10 clock = 0;
`ifndef NO_FAULTS
      if (vector[DRIVES]) after_tick;
`endif
      #45;
    end
    if (!failed) $display("passes");
    $finish(0);
  end
endmodule
"""


def text_of(chip, test, vectors):
    """The testbench of a chip and a test, whose vectors stand in that file."""
    inputs = driven_inputs(chip, test)
    sites = list(sites_of(chip, inputs)) if chip.knows_nets else []
    scan_enable = inputs.index("SC__se") if chip.cells else 0
    unknown = len(inputs) - len(test.inputs)
    return TESTBENCH.format(
        bench=spelled(f"{chip.module}_tb"), module=spelled(chip.module), cycles=len(test.cycles), drives=len(test.inputs),
        strobes=len(test.outputs), longest=max((len(site.text) for site in sites), default=0) + 3, ports=",\n".join(joined_ports(chip, inputs)),
        last=f"DRIVES+{unknown - 1}" if unknown else "DRIVES-1", drives_of=f"{{vector[0:DRIVES-1], {unknown}'bx}}" if unknown else "vector[0:DRIVES-1]",
        always="\n".join(always_lines(chip, sites)), cases="\n".join(case_lines(chip, sites)),
        enable=scan_enable, captures="\n".join(capture_lines(chip, sites)), vectors=quoted(str(vectors)),
        names="\n".join(f'      {k}: name = "{quoted(name)}";' for k, name in enumerate(chip.pins)))


def vector_lines(test):
    """The test for $readmemb, a line a cycle, and a line of zeros that says that it is whole."""
    strobes = str.maketrans("HLX", "10x")
    for cycle in test.cycles:
        yield f"{cycle.drives}_{int(cycle.has_pulse)}_{cycle.strobes.translate(strobes)}"
    yield f"{'0' * len(test.inputs)}_0_{'0' * len(test.outputs)}"
