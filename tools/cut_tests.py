"""Tests of what can't be scanned and is cut open: tools/bench_from_yosys --cut, bench_from_verilog --cut, compare_bench --cut. tools/test_tools runs
them."""

import importlib.machinery
import importlib.util
import pathlib
import re
import shutil
import subprocess
import tempfile
import types

import fault_list
import make_circuits
import plain_check
import plain_design
import plain_play
from bridge_tests import ODD, ODD_NAMES, Made, plays_by_ports

ROOT = pathlib.Path(__file__).resolve().parent.parent
TOOLS = ROOT / "tools"
CHIP = [ROOT / "examples/cut/chip.v", ROOT / "examples/cut/box.v"]

loader = importlib.machinery.SourceFileLoader("bench_from_yosys_to_cut", str(TOOLS / "bench_from_yosys"))
bench_from_yosys = importlib.util.module_from_spec(importlib.util.spec_from_loader(loader.name, loader))
loader.exec_module(bench_from_yosys)


def ended(*words):
    done = subprocess.run([str(word) for word in words], capture_output=True, text=True)
    return done.returncode, done.stdout, done.stderr


def needs(*tools):
    """A test that is left out where a tool isn't there, and is handed a folder of its own."""
    def wrap(test):
        def run():
            missing = next((tool for tool in tools if shutil.which(tool) is None), None)
            if missing is not None:
                return f"left out: no {missing}"
            with tempfile.TemporaryDirectory() as folder:
                return test(pathlib.Path(folder))
        run.__doc__ = test.__doc__
        return run
    return wrap


def from_verilog(folder, text, *words, name="made"):
    """The prefix of what bench_from_verilog makes of a text with --cut, and what it says."""
    source = folder / f"{name}.v"
    source.write_text(text)
    return folder / name, ended(TOOLS / "bench_from_verilog", source, "--to", folder / name, "--cut", *words)


def lines_of(prefix):
    return prefix.with_suffix(".bench").read_text().splitlines()[1:]


def unknown_of(prefix):
    return prefix.with_suffix(".unknown").read_text().rstrip("\n").split(",")


# Netlists written here.

BOX = {"ports": {"a": {"direction": "input", "bits": [2]}, "y": {"direction": "output", "bits": [3, 4]}, "p": {"direction": "inout", "bits": [5]}},
       "netnames": {}, "cells": {}, "attributes": {"blackbox": "1"}}
WAYS = {"Q": "output", "Y": "output", "RD_DATA": "output"}


def module(ports, nets, hidden, cells):
    """A module of Yosys's JSON: ports by directions, nets that the design and that Yosys names, cells as name, type and pins."""
    named = {name: bits for words in ports.values() for name, bits in words.items()} | nets
    netnames = {name: {"hide_name": 0, "bits": bits} for name, bits in named.items()} | {name: {"hide_name": 1, "bits": bits} for name, bits in hidden.items()}
    made = {}
    for name, kind, pins in cells:
        pins = {pin: bits if isinstance(bits, list) else [bits] for pin, bits in pins.items()}
        made[name] = {"type": kind, "connections": pins} | ({"port_directions": {pin: WAYS.get(pin, "input") for pin in pins}} if kind[0] == "$" else {})
    return {"ports": {name: {"direction": way, "bits": bits} for way, words in ports.items() for name, bits in words.items()}, "netnames": netnames, "cells": made}


PORTS = {"input": {"clk": [4], "a": [2], "e": [3]}, "inout": {"pad": [5]}, "output": {"q": [6], "y": [7], "z": [8], "s": [9]}}
LATCH = ("$l", "$_DLATCH_P_", {"D": 2, "E": 3, "Q": 6})
CELLS = [LATCH, ("t1", "$_TBUF_", {"A": 14, "E": 3, "Y": 10}), ("t2", "$_TBUF_", {"A": 2, "E": 14, "Y": 10}),
         ("u", "box", {"a": 15, "y": [7, 11], "p": 5}), ("words", "$mem_v2", {"RD_CLK": 4, "RD_ADDR": 9, "RD_DATA": [12, 13]}),
         ("f", "$_DFF_P_", {"C": 4, "D": 14, "Q": 9}), ("g", "$_XOR_", {"A": 10, "B": 11, "Y": 14}), ("h", "$_AND_", {"A": 12, "B": 5, "Y": 8}),
         ("k", "$_NOT_", {"A": 9, "Y": 15})]
HIDDEN = {"$h": [11], "$r": [12, 13], "$x": [14], "$k": [15]}


def design_of(cells=CELLS, nets=None, ports=PORTS, **asked):
    return bench_from_yosys.Design(module(ports, {"bus": [10]} if nets is None else nets, HIDDEN, cells), {"box": BOX}, **asked)


def test_cut_lines():
    """Each kind of cell: what it drives are inputs, behind the design's own, with names of their own; what it reads is no output but where that is
    asked. A bus of two drivers is one input. The clock may be read."""
    design = design_of(cut=True)
    assert design.lines() == [
        "INPUT(a)", "INPUT(e)", "INPUT(bus)", "INPUT(cut_q)", "INPUT(pad)", "INPUT(u.y[0])", "INPUT(u.y[1])", "INPUT(words.RD_DATA[0])",
        "INPUT(words.RD_DATA[1])", "OUTPUT(q)", "OUTPUT(y)", "OUTPUT(z)", "OUTPUT(s)", "s = DFF(n1)", "n1 = XOR(bus, u.y[1])",
        "z = AND(words.RD_DATA[0], pad)", "n2 = NOT(s)", "q = BUFF(cut_q)", "y = BUFF(u.y[0])"], design.lines()
    assert design.table == [("cut_q", "$cut$q"), ("u.y[0]", "$cut$y"), ("u.y[1]", "$h"), ("words.RD_DATA[0]", "$r[0]"), ("words.RD_DATA[1]", "$r[1]"),
                            ("n1", "$x"), ("n2", "$k")], design.table
    assert design.counts() == {"inputs": 9, "outputs": 4, "gates": 5, "cells": 1, "renamed": 7, "cut": 5, "unknown": 7}, design.counts()
    lines = design.lines()
    assert design_of(cut=True, cut_outputs=True).lines() == lines[:13] + ["OUTPUT(n1)", "OUTPUT(n2)"] + lines[13:]


def test_cut_names():
    """The design's names go before made ones; no name has a comma."""
    design = design_of(CELLS, {"bus": [10], "cut_q": [14], "u.y[0]": [15], "w,x(1)": [12]}, cut=True)
    names = {bit: design.names[bit] for bit in (6, 7, 12, 14, 15)}
    assert names == {6: "cut_q_2", 7: "u.y[0]_2", 12: "w_x_1_", 14: "cut_q", 15: "u.y[0]"}, names
    assert ("cut_q_2", "$cut$q") in design.table and ("u.y[0]_2", "$cut$y") in design.table and ("w_x_1_", "w,x(1)") in design.table, design.table
    assert len(set(design.names.values())) == len(design.names)


def refusal(*words, **asked):
    try:
        design_of(*words, **asked)
    except bench_from_yosys.Refused as why:
        return str(why)
    raise AssertionError("not refused")


def test_cut_refusals():
    """Without --cut each kind is refused, and --cut is named; with it what can't be true of the chip."""
    no_pins = {"input": PORTS["input"], "output": PORTS["output"]}
    assert refusal() == "port pad is inout: tristate pins have no .bench; --cut makes inputs of them that the tester can't set"
    for cell, why in ((LATCH, "a latch"), (CELLS[1], "a tristate driver"), (CELLS[3], "a module of its own"), (CELLS[4], "a memory")):
        said = refusal([cell], None, no_pins)
        assert said.startswith(f"cell {cell[0]} ({cell[1]}): {why}") and said.endswith("; --cut cuts it open"), said
    box = "cell u (box), which is cut open"
    flip_flop, box_drives = CELLS[5], lambda bit: [("u", "box", {"y": [bit, 20]})]
    told = [
        ([("f", "$_DFF_P_", {"C": 10, "D": 2, "Q": 9})] + CELLS[1:3], "cell f (flip-flop): its clock bus comes from cell t1 ($_TBUF_), which is cut "
         "open: a clock is an input of the design"),
        ([("f", "$_DFF_P_", {"C": 5, "D": 2, "Q": 9})], "cell f (flip-flop): its clock pad comes from port pad: a clock is an input of the design"),
        (box_drives(2), f"{box}, drives what input a drives too"),
        ([flip_flop] + box_drives(4), f"cell f (flip-flop): its clock clk comes from {box}: a clock is an input of the design"),
        (box_drives("1"), f"{box}, drives what a constant drives too"),
        (box_drives(15) + [CELLS[8]], f"cell k drives what {box}, drives too"),
        ([("k", "$_NOT_", {"A": 2, "Y": 5})], "cell k drives what port pad drives too"),
        ([("v", "other", {"A": 2})], "cell v (other): nothing says whether its pin A is an output; give its module, without a body"),
        ([("v", "$add", {"A": 2, "Y": 8})], "cell v ($add): not mapped to gates: run `script tools/gates.ys`; between library cells nothing else may stand"),
        ([("h", "$_AND_", {"A": 2, "B": 16, "Y": 8})], "cell h reads a net that nothing drives"),
    ]
    for cells, wanted in told:
        assert refusal(cells, cut=True) == wanted, (refusal(cells, cut=True), wanted)
    with_body = {"box": BOX | {"attributes": {}, "cells": {"n": {"type": "$_NOT_", "connections": {"A": [2], "Y": [3]}}}}}
    try:
        bench_from_yosys.Design(module(PORTS, {}, {}, box_drives(8)), with_body, cut=True)
    except bench_from_yosys.Refused as why:
        assert str(why) == "cell u (box): a module of its own: run `flatten`, or give its source", why
    else:
        raise AssertionError("a module with a body was cut")


# The netlist that is cut open does what the whole one does, where its inputs have what the cells drive.

class Machine:
    """A .bench file, its cells 0 at first."""

    def __init__(self, prefix):
        inputs, self.outputs, definitions = fault_list.netlist_of(prefix.with_suffix(".bench").read_text())
        self.made = make_circuits.Netlist("made")
        self.made.inputs, self.made.outputs = inputs, self.outputs
        self.made.definitions = [(each, kind.replace("BUF", "BUFF"), pins) for each, kind, pins in definitions]
        self.cells = {each: 0 for each, kind, _ in definitions if kind == "DFF"}

    def tick(self, drives):
        """The outputs before a tick."""
        values = make_circuits.settled(self.made, self.cells | {name: drives[name] for name in self.made.inputs})
        self.cells = {each: values[pins[0]] for each, kind, pins in self.made.definitions if kind == "DFF"}
        return {name: values[name] for name in self.outputs}


MODEL = """module guess(input clk, input [3:0] a, input [3:0] b, output [3:0] y);
    reg [3:0] old;
    always @(posedge clk) old <= a;
    assign y = a + b ^ old;
endmodule
"""
BENCH = """module play;
    reg clk = 0, reset = 1, write = 1, open = 1, drive = 0, pin = 0;
    reg [3:0] d = 0;
    reg [1:0] at = 0;
    wire pad, more;
    wire [3:0] sum, seen, later;
    integer t, drawn = SEED;
    assign pad = drive ? 1'bz : pin;
    chip chip(clk, reset, d, at, write, open, drive, pad, sum, seen, more, later);
    initial for (t = 0; t < 300; t = t + 1) begin
        {at, d, pin} = $random(drawn);
        {write, open, drive} = t < 8 ? 3'b111 : $random(drawn);
        if (t < 8) at = t;
        reset = t < 8;
        #40 if (t >= 8) $display("CUT", SHOWN);
        #5 clk = 1;
        #10 clk = 0;
        #45;
    end
endmodule
"""


def played(folder, unknown):
    """What the whole chip has in each cycle, by Icarus Verilog: the bits of its inputs, outputs, and the nets that were cut."""
    real = {name: f"chip.{name}" for name in unknown} | {f"words.RD_DATA[{k}]": f"later[{k}]" for k in range(4)}
    named = {f"{word}[{k}]": f"{word}[{k}]" for word in ("d", "sum", "seen", "later") for k in range(4)} | {f"at[{k}]": f"at[{k}]" for k in range(2)}
    named |= {name: name for name in ("reset", "write", "open", "drive", "more")} | {name: real[name] for name in unknown}
    named["pad"] = "pad"
    (folder / "model.v").write_text(MODEL)
    text = BENCH.replace("SEED", "7").replace('"CUT"', f'"{"%b" * len(named)}"').replace("SHOWN", ", ".join(named.values()))
    (folder / "play.v").write_text(text)
    assert ended("iverilog", "-o", folder / "play.vvp", CHIP[0], folder / "model.v", folder / "play.v") == (0, "", "")
    rows = ended("vvp", folder / "play.vvp")[1].splitlines()
    assert len(rows) == 292 and not set("".join(rows)) - set("01"), rows[:3]
    return [dict(zip(named, map(int, row))) for row in rows]


@needs("yosys", "iverilog")
def test_cut_chip(folder):
    """A black box, latches, a bus, an inout pin, a memory: driven by what the whole chip's cells drive, each output is the whole chip's in each cycle.
    Each of those inputs is needed."""
    prefix = folder / "chip"
    status, said, errors = ended(TOOLS / "bench_from_verilog", *CHIP, "--to", prefix, "--cut-memories")
    assert status == 0 and said.startswith("inputs 31 outputs 13 gates ") and said.endswith(" cut 15 unknown 21 clock clk\n"), said + errors
    unknown = unknown_of(prefix)
    assert unknown == [f"{word}[{k}]" for word in ("bus", "kept") for k in range(4)] + ["pad"] + [
        f"{word}[{k}]" for word in ("read", "rough", "words.RD_DATA") for k in range(4)], unknown
    rows, differs = played(folder, unknown), lambda row, shown: [name for name in shown if shown[name] != row[name]]
    machine = Machine(prefix)
    for number, row in enumerate(rows):
        assert not differs(row, machine.tick(row)), (number, row)
    for name in unknown:
        machine, found = Machine(prefix), []
        for row in rows:
            found += differs(row, machine.tick(row | {name: 1 - row[name]}))
        assert found or name.startswith("read["), name  # read is seen through bus alone


SMALL = {
    "latches": ("module latches(input e, input [1:0] d, output reg [1:0] q, output y); always @* if (e) q = d; assign y = ^q; endmodule", 2),
    "bus": ("module bus(input e, input f, input d, output q, output y); wire w; assign w = e ? d : 1'bz; assign w = f ? ~d : 1'bz; "
            "assign q = w; assign y = w & d; endmodule", 1),
    "pin": ("module pin(inout [1:0] p, input e, input d, output y); assign p = e ? {d, y} : 2'bzz; assign y = ^p & d; endmodule", 2),
    "boxes": ("module box #(parameter W = 4) (input [W-1:0] a, output [W-1:0] y); endmodule\nmodule pads(inout p, output i); endmodule\n"
              "module boxes(input [7:0] a, inout p, input clk, output reg q, output [4:0] y); wire [3:0] t; wire i; box #(.W(5)) wide(a[4:0], y); "
              "box narrow(a[7:4] ^ t, t); pads pad(p, i); always @(posedge clk) q <= ^t ^ a[0] ^ i; endmodule", 11),
    "memory": ("module memory(input clk, input w, input [1:0] at, input [1:0] first, input [1:0] second, input [1:0] d, output [1:0] q, "
               "output reg [1:0] r, output y); reg [1:0] words [0:3]; assign q = words[first]; "
               "always @(posedge clk) begin if (w) words[at] <= d; r <= words[second]; end assign y = ^r; endmodule", 4),
}


@needs("yosys", "berkeley-abc")
def test_cut_compared(folder):
    """ABC finds the netlist that is cut open, by two tools, equal; another gate, and a list that lacks a name, are found. A second cut changes nothing."""
    for name, (text, unknown) in SMALL.items():
        prefix, (status, said, errors) = from_verilog(folder, text, "--cut-memories", name=name)
        assert status == 0 and len(unknown_of(prefix)) == unknown, (name, said, errors)
        words = (TOOLS / "compare_bench", "--cut", f"{prefix}.json", f"{prefix}.bench")
        status, said, errors = ended(*words)
        assert status == 0 and "equal: " in said and "its gates and names are the netlist's" in said, (name, said, errors)
        prefix.with_suffix(".unknown").write_text(",".join(unknown_of(prefix)[1:]) + "\n")
        status, said, errors = ended(*words)
        assert status == 2 and "hasn't the inputs that are cut" in errors, (name, said, errors)
    prefix, _ = from_verilog(folder, SMALL["bus"][0], "--cut-outputs", name="bus")
    assert ended(TOOLS / "compare_bench", "--cut", f"{prefix}.json", f"{prefix}.bench")[0] == 0
    bench = prefix.with_suffix(".bench")
    assert any(re.match(r"OUTPUT\(n\d+\)", line) for line in lines_of(prefix)) and "y = AND(" in bench.read_text(), lines_of(prefix)
    bench.write_text(bench.read_text().replace("y = AND(", "y = OR("))
    assert ended(TOOLS / "compare_bench", "--cut", f"{prefix}.json", bench)[0] == 1


@needs("yosys")
def test_cut_nothing(folder):
    """A netlist without such cells is the same with --cut, and the list is empty."""
    text = (ROOT / "examples/refused/reset.v").read_text()
    cut, (status, said, errors) = from_verilog(folder, text, "--async2sync")
    assert status == 0 and " cut 0 unknown 0 " in said and cut.with_suffix(".unknown").read_text() == "\n", said + errors
    lines = lines_of(cut)
    assert ended(TOOLS / "bench_from_yosys", f"{cut}.json", f"{cut}.bench")[0] == 0 and lines_of(cut) == lines


@needs("yosys")
def test_cut_undriven(folder):
    """What a black box drives, at a pin that is input and output too, isn't taken for undriven; what nothing drives is refused, where gates were
    made of it."""
    text = """module pad(inout p, input o, output i); endmodule
        module m(inout p, input a, output y, output z, output w); wire i, q, none; pad u(p, a, i); pad v(q, none, ); assign y = i ^ p; assign z = q & a;
        assign w = none; endmodule"""
    prefix, (status, _, errors) = from_verilog(folder, text)
    assert status == 1 and "Wire m.\\none is used but has no driver\n  --undriven 0" in errors, errors
    prefix, (status, _, errors) = from_verilog(folder, text, "--undriven", "1")
    assert status == 0 and unknown_of(prefix) == ["i", "p", "q"] and "w = CONST1()" in lines_of(prefix), (errors, lines_of(prefix))
    text = "module empty(output y); wire inner; endmodule\nmodule m(input a, output y); wire t; empty e(t); assign y = t & a; endmodule\n"
    _, (status, _, errors) = from_verilog(folder, text)
    assert status == 1 and "is used but has no driver" in errors, errors


RESETS = """module box(input a, output y); endmodule
module m(input clk, input rst, input e, input d, inout p, output reg q, output y); wire b; reg l; box u(d, b); always @* if (e) l = d; assign y = b & l & p;
    wire reset = %s; always @(posedge clk or posedge reset) if (reset) q <= 0; else q <= d; endmodule
"""


@needs("yosys")
def test_cut_resets(folder):
    """A set or reset that is made gates may not come from what is cut open, also not through gates."""
    for reset, driver in (("rst", None), ("~(rst & d)", None), ("b", r"cell u \(box\)"), ("rst & ~b", r"cell u \(box\)"), ("l | rst", r"cell \S+ \(\$dlatch\)"),
                          ("p ^ rst", "port p")):
        _, (status, said, errors) = from_verilog(folder, RESETS % reset, "--async2sync")
        if driver is None:
            assert status == 0 and " cut 2 unknown 3 " in said, (reset, said, errors)
            continue
        assert status == 1 and re.search(rf"its set or reset comes from {driver}, which is cut open: a run can't hold it off\n  nothing helps", errors), (
            reset, errors)
    for pin, passes in (("rst", True), ("l", False), ("b", False)):
        text = f"""module box(input a, output y); endmodule
            module m(input clk, input rst, input d, output q, output y); wire b, l; box u(.a(d), .y(b)); LATCH L (.G(rst), .D(d), .Q(l));
            DFFR F (.CK(clk), .D(d), .RN({pin}), .Q(q)); NAND2 N (.A(l), .B(b), .Y(y)); endmodule\n"""
        _, (status, said, errors) = from_verilog(folder, text, "--async2sync", "--cells", ROOT / "examples/mapped/cells.lib")
        assert status == (0 if passes else 1) and passes != ("comes from cell" in errors), (pin, said, errors)


MORE_CELLS = """  cell(TBUF) { area : 4; pin(A) { direction : input; } pin(E) { direction : input; }
               pin(Y) { direction : output; function : "A"; three_state : "!E"; } }
  cell(TPAD) { area : 4; pin(E) { direction : input; } pin(Y) { direction : output; three_state : "!E"; } }
  cell(RAM1) { area : 90; pin(CK) { direction : input; } pin(A) { direction : input; } pin(Q) { direction : output; } }
  cell(PAD) { area : 90; pin(O) { direction : input; } pin(P) { direction : inout; } pin(I) { direction : output; } }
  cell(ICG) { area : 9; latch(IQ, IQN) { enable : "!CK"; data_in : "E"; } pin(CK) { direction : input; } pin(E) { direction : input; }
              pin(G) { direction : output; function : "IQ & CK"; } }
"""
MAPPED = """module mapped(input clk, input a, input b, input e, inout io, output q, output y, output z, output w);
    wire l, t, r, k, i;
    LATCH L1 (.G(e), .D(a), .Q(l));
    TBUF T1 (.A(a), .E(e), .Y(t));
    TBUF T2 (.A(b), .E(l), .Y(t));
    RAM1 R (.CK(clk), .A(a), .Q(r));
    PAD P (.O(b), .P(io), .I(i));
    NAND2 U (.A(t), .B(l), .Y(k));
    DFF F (.CK(clk), .D(k), .Q(q));
    NAND3 V (.A(r), .B(i), .C(q), .Y(y));
    INV W (.A(io), .Y(z));
    LATCH L2 (.G(e), .D(r), .Q(w));
endmodule
"""


def library(folder):
    """The cells of the examples, and some that can't be scanned."""
    path = folder / "more.lib"
    path.write_text((ROOT / "examples/mapped/cells.lib").read_text().rstrip()[:-1] + MORE_CELLS + "}\n")
    return path


@needs("yosys", "berkeley-abc")
def test_cut_library_cells(folder):
    """Of a netlist of library cells latches, tristate cells and cells without a function are cut open; the rest is kept. A tristate cell is never
    taken for its function alone."""
    cells = library(folder)
    prefix, (status, said, errors) = from_verilog(folder, MAPPED, "--cells", cells)
    assert status == 0 and said == "inputs 9 outputs 4 gates 4 cells 1 renamed 1 cut 6 unknown 6 clock clk\n", said + errors
    lines = lines_of(prefix)
    assert lines[:9] == [f"INPUT({name})" for name in ("a", "b", "e", "L2.Q", "i", "io", "l", "r", "t")], lines
    assert lines[13:] == ["q = DFF(k)", "k = NAND(t, l)", "y = NAND(r, i, q)", "z = NOT(io)", "w = BUFF(L2.Q)"], lines
    status, said, errors = ended(TOOLS / "compare_bench", "--cut", f"{prefix}.json", f"{prefix}.bench")
    assert status == 0 and "its gates and names are the netlist's: 4 library cells" in said, said + errors
    one = "module one(input clk, input a, input e, output q); wire t; %s endmodule\n"
    for instances, why in (("TBUF T (.A(a), .E(e), .Y(q));", "cell T (TBUF): a module of its own: run `flatten`, or give its source; --cut cuts it open"),
                           ("LATCH T (.D(a), .G(e), .Q(q));", "cell T (LATCH): a latch; --cut cuts it open"),
                           ("TPAD T (.E(e), .Y(q));", "is not part of the design")):
        source = folder / "one.v"
        source.write_text(one % instances)
        status, _, errors = ended(TOOLS / "bench_from_verilog", source, "--to", folder / "one", "--cells", cells)
        assert status == 1 and why in errors and "Warning" not in errors, errors
    _, (status, _, errors) = from_verilog(folder, one % "ICG G (.CK(clk), .E(e), .G(t)); DFF F (.CK(t), .D(a), .Q(q));", "--cells", cells)
    assert status == 1 and "cell F (flip-flop): its clock t comes from cell G (ICG), which is cut open" in errors, errors
    verilog = folder / "cells.v"
    verilog.write_text("module TBUF(input A, input E, output Y); bufif1 (Y, A, E); endmodule\nmodule INV(input A, output Y); assign Y = ~A; endmodule\n")
    prefix, (status, _, errors) = from_verilog(folder, one % "TBUF T (.A(a), .E(e), .Y(t)); INV I (.A(t), .Y(q));", "--cells", verilog)
    assert status == 0 and unknown_of(prefix) == ["t"] and "q = NOT(t)" in lines_of(prefix), errors


# The test of a netlist with inputs that the tester can't set, played.

class MadeOpen(Made):
    """The files of a run of a design some of whose inputs the test doesn't drive: no strobe rests on them. Worked out by the plain player, to
    which such an input is a cell that reads itself."""

    def __init__(self, folder, text, chains, unknown, names=None):
        super().__init__(folder, text, chains, names)
        wrong = self.netlist.inputs
        whole = plain_design.canonical(self.scanned).decode()
        for name in unknown:
            assert name in wrong
            whole = whole.replace(f"INPUT({name})\n", f"{name} = DFF({name})\n")
        self.scanned = plain_design.read(whole.encode(), is_design=False)
        known = [k for k, name in enumerate(self.netlist.inputs) if name not in unknown]
        items = plain_design.items_of(self.netlist, self.chains, self.patterns())
        items = [item if item[0] == "call" else (item[0], "".join(item[1][k] for k in known), *item[2:]) for item in items]
        design = types.SimpleNamespace(**vars(self.netlist) | {"inputs": [self.netlist.inputs[k] for k in known]})
        self.cycles = list(plain_design.cycles_of(design, self.chains, items))
        lost = {(cycle, pin) for cycle, pin, _ in plain_play.unmet(self.scanned, self.cycles, None)}
        items = list(self.masked(items, lost))
        self.cycles = list(plain_design.cycles_of(design, self.chains, items))
        self.file("stil").write_bytes(plain_design.stil_text(design, self.chains, {}, items))

    def patterns(self):
        return plain_check.patterns_of(plain_design.stil_tokens(self.file("stil").read_bytes()), self.netlist, self.chains, {})

    def masked(self, items, lost):
        """The items with X at the strobes that are lost."""
        cycle, pins = 0, plain_design.pin_names(self.netlist)
        for item in items:
            if item[0] == "call":
                outs = ["".join("X" if (cycle + t, f"SC__so{c}") in lost else bit for t, bit in enumerate(word)) for c, word in enumerate(item[2])]
                yield item[0], item[1], outs
                cycle += len(item[2][0])
            else:
                yield item[0], item[1], "".join("X" if (cycle, pin) in lost else bit for pin, bit in zip(pins, item[2]))
                cycle += 1


@needs("iverilog")
def test_cut_testbench(folder):
    """Inputs that the test doesn't drive: of the good chip and with each fault every strobe that isn't met is the plain player's."""
    for text, chains, unknown, names in (((ROOT / "examples/s27.bench").read_bytes(), 1, ["G0"], None), (ODD, 2, ["w[1]", "module"], ODD_NAMES)):
        made = MadeOpen(folder, text, chains, unknown, names)
        assert f" unknown {len(unknown)} " in made.verilog_of()
        made.check_plays()
        known = next(name for name in made.netlist.inputs if name not in unknown)
        made.file("stil").write_text(made.file("stil").read_text().replace(f'"{known}"', '"nobody"'))
        assert ended(TOOLS / "verilog_of", made.prefix)[2] == "verilog_of: stil does not fit\n"
        for end in ("names", "vvp"):
            made.file(end).unlink(missing_ok=True)


REAL_CELLS = """module TBUF(input A, input E, output Y); assign Y = E ? A : 1'bz; endmodule
module RAM1(input CK, input A, output reg Q); always @(negedge CK) Q <= %s; endmodule
module PAD(input O, inout P, output I); assign P = %s; assign I = P ^ O; endmodule
"""


@needs("yosys", "iverilog")
def test_cut_kept(folder):
    """The design's own library cells with the cells that were cut in their places: the test passes, whatever these do. It sees a changed gate."""
    prefix, (status, _, errors) = from_verilog(folder, MAPPED, "--cells", library(folder), name="mapped")
    assert status == 0, errors
    made = MadeOpen(folder, prefix.with_suffix(".bench").read_bytes(), 1, unknown_of(prefix))
    shutil.copy(prefix.with_suffix(".names"), made.file("names"))
    made.file("scan_cells").write_text("DFF SDFF SI SE\n")
    said = made.verilog_of("--kept", prefix.with_suffix(".json"), "--scan-cells", made.file("scan_cells"), "--models")
    assert "module mapped instances 10 cells 1 chains 1 " in said and " unknown 6 clock clk" in said, said
    text, models = made.file("v").read_text(), made.file("cells.v").read_text()
    assert len(re.findall(r"^  (?:TBUF|RAM1|PAD|LATCH) ", text, re.M)) == 6 and "inout io" in text, text
    for cell, passes in (("NAND3", True), ("LOW", False)):
        for ram, pad in (("A", "O ? 1'b1 : 1'bz"), ("$random", "1'b0"), ("1'bx", "$random")):
            made.file("v").write_text(text.replace("NAND3 V (\n", f"{cell} V (\n"))
            made.file("cells.v").write_text(models + REAL_CELLS % (ram, pad) + "module LOW(input A, input B, input C, output Y); assign Y = C & A & B; endmodule\n")
            assert (plays_by_ports(made) == ["passes"]) == passes, (cell, ram, pad, plays_by_ports(made))
