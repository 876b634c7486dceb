"""Tests of what goes to layout and tester: tools/verilog_of, compare_verilog, try_icarus, stil_with_names and vectors_of. tools/test_tools runs
them. What has to come is worked out by the plain programs of bench/oracle."""

import json
import multiprocessing.pool
import os
import pathlib
import re
import shutil
import subprocess
import tempfile

import plain_check
import plain_design
import plain_play
import plain_stil

ROOT = pathlib.Path(__file__).resolve().parent.parent

# Names that Verilog can't have as they are, words of ports, an output that is an input, constants, gates of one pin and of many, a pin that is
# read twice by one gate, and a cell that reads an input and one that reads a cell.
ODD = b"""INPUT(w[0])
INPUT(w[1])
INPUT(w[2])
INPUT(7)
INPUT(module)
OUTPUT(7)
OUTPUT(y[1])
OUTPUT(y[0])
OUTPUT(state)
state = DFF(next)
b*c = DFF(w[1])
z = DFF(b*c)
t = CONST1()
one = AND(w[0])
none = NOR(7)
wide = NAND(w[0], one, b*c, t)
next = XOR(wide, w[2], z)
y[1] = XNOR(next, state)
y[0] = OR(none, y[1], module)
twice = NOR(y[1], y[1])
left = NOT(twice)
"""
ODD_NAMES = {"7": "in(7)", "b*c": "b.c", "SC__ck": "clk", "SC__module": "odd chip".replace(" ", "_"), "SC__se": "test_enable", "SC__si0": "scan_in"}

CELLS = """AND A1 A : Y
NOR N1 A : Y
NOT INV A : Y   # an inverter
BUFF BUF A : Y
AND AND2 A B : Y
OR OR2 A B:Y
NAND ND2 A B : Y
NOR NR2 A B : Y
NAND ND4 A B C D : Y
OR OR3 A B C : Y
XOR XOR3 A B C : Y
XNOR XN2 A B : Y
CONST1 TIEH : Y
"""
FLIP_FLOPS = {"scan": "SCAN SDFF D SI SE CK : Q", "scan_output": "SCAN SDFFS DATA SCIN SCEN CLOCK : Q SO", "plain": "DFF DFF1 D CK : Q"}


def said_by(*words):
    done = subprocess.run([str(each) for each in words], capture_output=True, text=True)
    return done.returncode, done.stdout, done.stderr


class Made:
    """The files of a run of a small design, made without the program."""

    def __init__(self, folder, text, chains, names=None, patterns=40):
        self.prefix = pathlib.Path(folder) / "made"
        self.netlist = plain_design.read(text)
        self.chains = plain_design.chains_of(self.netlist.cells, chains)
        for end, made in plain_check.make(self.netlist, self.chains, 128, {}, patterns, 1).items():
            self.file(end).write_bytes(made)
        if names is not None:
            self.file("names").write_text("".join(f"{ours}\t{real}\n" for ours, real in names.items()))
        self.scanned = plain_design.scanned(self.netlist, self.chains)
        found = plain_check.patterns_of(plain_design.stil_tokens(self.file("stil").read_bytes()), self.netlist, self.chains, {})
        self.cycles = list(plain_design.cycles_of(self.netlist, self.chains, plain_design.items_of(self.netlist, self.chains, found)))

    def file(self, end):
        return self.prefix.with_name(f"{self.prefix.name}.{end}")

    def unmet(self, fault):
        """What the testbench has to say with +all: each strobe that isn't met, by the plain player."""
        site = plain_play.site_of(self.netlist, fault) if fault else None
        return [f"{'unknown' if unknown else 'fails'} at cycle {cycle} signal {pin}"
                for cycle, pin, unknown in plain_play.unmet(self.scanned, self.cycles, site)] or ["passes"]

    def verilog_of(self, *words):
        status, said, errors = said_by(ROOT / "tools/verilog_of", self.prefix, *words)
        assert status == 0, errors
        return said

    def with_cells(self, flip_flop):
        """Written of a library's cells, with what they do."""
        self.file("cells").write_text(CELLS + FLIP_FLOPS[flip_flop] + "\n")
        return self.verilog_of("--cells", self.file("cells"), "--models")

    def compiled(self):
        models = [self.file("cells.v")] * self.file("cells.v").exists()
        status, said, errors = said_by("iverilog", "-o", self.file("vvp"), self.file("v"), *models, self.file("tb.v"))
        assert (status, said, errors) == (0, "", ""), errors

    def played(self, *words):
        return said_by("vvp", self.file("vvp"), *words)[1].splitlines()

    def check_plays(self):
        """The good chip and each fault: every strobe that isn't met is the plain player's, and the first is said without +all."""
        self.compiled()
        faults = [None] + plain_design.universe(self.netlist)
        asked = [[f"+fault={fault[0]}/{fault[1]}"] if fault else [] for fault in faults]
        with multiprocessing.pool.ThreadPool(os.cpu_count()) as pool:
            said = pool.map(lambda words: self.played("+all", *words), asked)
        for fault, found in zip(faults, said):
            assert found == self.unmet(fault), (fault, found[:3], self.unmet(fault)[:3])
        last = next(fault for fault in reversed(faults) if self.unmet(fault) != ["passes"])
        assert self.played(f"+fault={last[0]}/{last[1]}") == self.unmet(last)[:1]
        assert self.played("+fault=stem nobody/0") == self.played("+fault=stem nobody") == ["no such fault"]
        return len(faults)


def in_folder(test):
    """A test that is handed a folder of its own."""
    def run():
        with tempfile.TemporaryDirectory() as folder:
            return test(folder)
    run.__doc__ = test.__doc__
    return run


def s27():
    return (ROOT / "examples/s27.bench").read_bytes()


@in_folder
def test_testbench(folder):
    """Of Verilog's own gates: each strobe that isn't met of the good chip and with each fault is the plain player's."""
    if shutil.which("iverilog") is None:
        return "left out: no iverilog"
    for text, chains, names in ((s27(), 1, None), (ODD, 2, ODD_NAMES), ((ROOT / "examples/c17.bench").read_bytes(), 1, None)):
        made = Made(folder, text, chains, names)
        made.verilog_of()
        made.check_plays()
        for end in ("names", "vvp"):
            made.file(end).unlink(missing_ok=True)


@in_folder
def test_testbench_of_cells(folder):
    """Of a library's cells likewise, with each kind of flip-flop, on either edge."""
    if shutil.which("iverilog") is None:
        return "left out: no iverilog"
    for flip_flop in FLIP_FLOPS:
        made = Made(folder, ODD, 2, ODD_NAMES | {"SC__edge": "falling"} if flip_flop == "plain" else ODD_NAMES)
        made.with_cells(flip_flop)
        made.check_plays()


@in_folder
def test_testbench_of_other_vectors(folder):
    """A file of vectors that was cut off is seen, and so is one that isn't there."""
    if shutil.which("iverilog") is None:
        return "left out: no iverilog"
    made = Made(folder, s27(), 1)
    made.verilog_of()
    made.compiled()
    vectors = made.file("vec").read_text().splitlines(True)
    made.file("cut").write_text("".join(vectors[:-1]))
    made.file("vec").rename(made.file("moved"))
    assert made.played()[-1] == f"not the vectors of this testbench: {made.file('vec')}"
    assert made.played(f"+vectors={made.file('cut')}")[-1] == f"not the vectors of this testbench: {made.file('cut')}"
    assert made.played(f"+vectors={made.file('moved')}") == ["passes"]


@in_folder
def test_testbench_by_ports(folder):
    """Without faults the testbench plays a netlist whose nets have other names, and sees where it is another one."""
    if shutil.which("iverilog") is None:
        return "left out: no iverilog"
    made = Made(folder, s27(), 1)
    made.verilog_of()
    text = re.sub(r"\bG1[0-6]\b", "\\g<0>_new", made.file("v").read_text())
    for changed, wanted in ((text, ["passes"]), (text.replace("not (G17, ", "buf (G17, "), None)):
        made.file("v").write_text(changed)
        status, _, errors = said_by("iverilog", "-DNO_FAULTS", "-o", made.file("vvp"), made.file("v"), made.file("tb.v"))
        assert (status, errors) == (0, ""), errors
        assert made.played() == wanted if wanted else made.played()[0].endswith("signal G17"), made.played()
    assert said_by("iverilog", "-o", made.file("vvp"), made.file("v"), made.file("tb.v"))[0] != 0


# The netlist, read back.

NAME = r"(?:\\\S+ |[\w$]+)(?:\[\d+\])?"


def statements_of(text, module):
    """What drives each net of a module: Verilog's own gates as (gate, nets), cells as (cell, nets by pins); and what is assigned."""
    body = re.search(rf"module {re.escape(module)} \(.*?\);(.*?)endmodule", text, re.S)[1]
    gates, cells, assigned = {}, {}, {}
    for line in body.splitlines():
        gate = re.fullmatch(rf"  (and|nand|or|nor|xor|xnor|not|buf) \(({NAME}(?:, {NAME})*)\);", line)
        cell = re.fullmatch(rf"  (\w+) (?:\\\S+ |[\w$]+) \((.*)\);", line)
        assign = re.fullmatch(rf"  assign ({NAME}) = ({NAME}|1'b[01]);", line)
        if gate:
            out, *pins = re.findall(NAME, gate[2])
            gates[out] = (gate[1], pins)
        elif assign:
            assigned[assign[1]] = assign[2]
        elif cell:
            pins = dict(re.findall(rf"\.(\w+)\(({NAME})\)", cell[2]))
            cells[pins.get("Y") or pins["Q"]] = (cell[1], pins)
        else:
            assert line.startswith("  wire ") or not line, line
    return gates, cells, assigned


@in_folder
def test_verilog_netlist(folder):
    """Each gate of the scanned netlist stands there once, with its pins in order."""
    made = Made(folder, s27(), 2)
    assert made.verilog_of().startswith(f"{made.file('v')}: module made gates 10 cells 3 chains 2 cycles "), made.verilog_of()
    gates, cells, assigned = statements_of(made.file("v").read_text(), "made")
    wanted = {name: ("buf" if kind == "BUFF" else kind.lower(), pins) for name, kind, pins in made.scanned.definitions if kind != "DFF"}
    assert gates == wanted and assigned == {}, gates
    assert cells == {name: ("SC__flip_flop", {"D": pins[0], "CK": "SC__ck", "Q": name})
                     for name, kind, pins in made.scanned.definitions if kind == "DFF"}, cells


@in_folder
def test_verilog_scan_cells(folder):
    """A scan cell reads its data, the cell before it (the first one its chain's scan input), scan enable and clock."""
    made = Made(folder, ODD, 2, ODD_NAMES | {"wide": "$abc$7$new"})
    made.with_cells("scan_output")
    _, cells, assigned = statements_of(made.file("v").read_text(), "odd_chip")
    clocked = {name: pins for name, (cell, pins) in cells.items() if cell == "SDFFS"}
    common = {"SCEN": "test_enable", "CLOCK": "clk"}
    assert clocked == {
        "state": {"DATA": "next", "SCIN": "scan_in", "Q": "state", "SO": "SC__s_state"} | common,
        "\\b.c ": {"DATA": "w[1]", "SCIN": "SC__s_state", "Q": "\\b.c ", "SO": "\\SC__s_b.c "} | common,
        "z": {"DATA": "\\b.c ", "SCIN": "SC__si1", "Q": "z", "SO": "SC__s_z"} | common}, clocked
    assert cells["wide"] == ("ND4", {"A": "w[0]", "B": "one", "C": "\\b.c ", "D": "t", "Y": "wide"}), cells["wide"]
    assert assigned == {"y[0]": "\\SC__n_y[0] ", "y[1]": "\\SC__n_y[1] ", "\\SC__o_in(7) ": "\\in(7) "}, assigned
    head = made.file("v").read_text().split(");")[0].splitlines()[2:]
    assert [line.strip(" ,") for line in head if line] == [
        "input clk", "input [2:0] w", "input \\in(7)", "input \\module", "input test_enable", "input scan_in", "input SC__si1",
        "output \\SC__o_in(7)", "output [0:1] y", "output state", "output SC__so0", "output SC__so1"], head


# A netlist of library cells: an inverted output alone, both, none of a word's, a constant, a cell of two outputs, names that Verilog wants escaped.
MAPPED = r"""module odd(input clk, input [1:0] d, input \in(7) , output [0:1] y, output all, output s);
  wire q0, q1, n1, n2, c, m, one;
  DFF F0 (.CK(clk), .D(m), .Q(q0));
  DFFN \F[1] (.CK(clk), .D(q0), .Q(q1), .QN(n1));
  DFFN F2 (.CK(clk), .D(c), .QN(n2));
  HA H (.A(d[0]), .B(d[1]), .S(s), .C(c));
  TIE1 T (.Y(one));
  MUX2 M (.A(n1), .B(n2), .S(\in(7) ), .Y(m));
  NAND3 N (.A(one), .B(q1), .C(n2), .Y(all));
  assign y = {q0, d[1]};
endmodule
"""
SCAN_CELLS = "DFF SDFF SI SE\nDFFN SDFFN SCIN SCEN  # with an inverted output\n"


def made_of_cells(folder, text, chains):
    """A netlist of library cells, kept, and a run's files of it."""
    chip = pathlib.Path(folder) / "chip"
    chip.with_suffix(".v").write_text(text)
    words = [chip.with_suffix(".v"), "--to", chip, "--cells", ROOT / "examples/mapped/cells.lib"]
    status, _, errors = said_by(ROOT / "tools/bench_from_verilog", *words)
    assert status == 0, errors
    made = Made(folder, chip.with_suffix(".bench").read_bytes(), chains)
    shutil.copy(chip.with_suffix(".names"), made.file("names"))
    made.file("scan_cells").write_text(SCAN_CELLS)
    return made, ["--kept", chip.with_suffix(".json"), "--scan-cells", made.file("scan_cells")]


def plays_by_ports(made):
    words = ["-o", made.file("vvp"), made.file("v"), made.file("cells.v"), made.file("tb.v")]
    assert said_by("iverilog", "-DNO_FAULTS", *words) == (0, "", "")
    return made.played()


def instances_of(text):
    """The instances of a Verilog file that Yosys wrote: their cells, and their pins with nets."""
    found = re.findall(r"^  (\w+) (\\\S+|\w+) +\(\n(.*?)\n  \);", text, re.S | re.M)
    return {name: (cell, dict(re.findall(r"\.(\w+)\((.*?) ?\)", pins))) for cell, name, pins in found}


@in_folder
def test_kept_netlist(folder):
    """The design's own library cells come back with scan cells in the flip-flops' places: every other instance as it was, the chains as in the
    scanned netlist, the same function by ABC, and the test passes."""
    if any(shutil.which(each) is None for each in ("yosys", "iverilog", "berkeley-abc")):
        return "left out: it needs yosys, iverilog and berkeley-abc"
    made, kept = made_of_cells(folder, MAPPED, 2)
    assert "module odd instances 7 cells 3 chains 2 " in made.verilog_of(*kept, "--models")
    found = instances_of(made.file("v").read_text())
    assert {name: cell for name, (cell, _) in found.items()} == {"F0": "SDFF", "\\F[1]": "SDFFN", "F2": "SDFFN", "H": "HA", "T": "TIE1", "M": "MUX2",
                                                                 "N": "NAND3"}, found
    assert [pins.get("SE") or pins.get("SCEN") for cell, pins in found.values() if "SDFF" in cell] == ["SC__se"] * 3
    assert found["N"][1].keys() == {"A", "B", "C", "Y"} and found["M"][1]["B"] == found["F2"][1]["QN"] == "n2", found
    status, said, errors = said_by(ROOT / "tools/compare_verilog", made.prefix, "--kept")
    assert status == 0 and "equal: 6 outputs and 3 flip-flops as functions of 6 inputs and 3 flip-flops" in said, (said, errors)
    assert plays_by_ports(made) == ["passes"]
    # A gate that was changed is seen by both.
    made.file("v").write_text(made.file("v").read_text().replace("NAND3 N", "HA N").replace(".C(n2),\n    .Y(all)", ".S(all)"))
    assert said_by(ROOT / "tools/compare_verilog", made.prefix, "--kept")[0] == 1
    assert plays_by_ports(made) != ["passes"]


@in_folder
def test_kept_netlist_refusals(folder):
    """Another design's netlist, one that was synthesized, a flip-flop without a scan cell and a file that is none are refused with their causes."""
    if shutil.which("yosys") is None:
        return "left out: no yosys"
    made, kept = made_of_cells(folder, MAPPED, 1)
    other = pathlib.Path(folder) / "other"
    library = ["--cells", ROOT / "examples/mapped/cells.lib"]
    for words in ([ROOT / "examples/mapped/twice.v", "--to", other, *library], [ROOT / "examples/uart.v", "--to", f"{other}_rtl"]):
        assert said_by(ROOT / "tools/bench_from_verilog", *words)[0] == 0
    for text, words, why in ((SCAN_CELLS, ["--kept", f"{other}.json"], "no cell of the scanned netlist"),
                             (SCAN_CELLS, ["--kept", f"{other}_rtl.json"], "isn't of library cells"),
                             ("DFF SDFF SI SE", [], "names no scan cell for DFFN"), ("DFF SDFF SI", [], "line 1: a line has a flip-flop"),
                             (SCAN_CELLS + "DFF A B C", [], "line 3: a second scan cell for DFF"), ("DFF S D SE\nDFFN S2 SI SE", [], "has a pin D already"),
                             (SCAN_CELLS, ["--cells", made.file("scan_cells")], "go together, without --cells")):
        made.file("scan_cells").write_text(text)
        made.file("v").unlink(missing_ok=True)
        status, _, errors = said_by(ROOT / "tools/verilog_of", made.prefix, *kept, *words)
        assert status and why in errors, (why, errors)
        assert not made.file("v").exists()


@in_folder
def test_verilog_refusals(folder):
    """What can't be written is refused, with its cause, and nothing is written."""
    made = Made(folder, s27(), 1)
    cells, names = made.file("cells"), made.file("names")
    for text, why in (("AND AND2 A B Y", "parted by blanks"), ("AND AND2 A B :", "can't have 0 outputs"), ("AND AND2 A A : Y", "stands twice"),
                      ("MUX M A B : Y", "MUX is no gate"), ("NOT INV A B : Y", "NOT has 1 inputs, not 2"), ("SCAN S D SI CK : Q", "SCAN has 4"),
                      ("AND A*2 A B : Y", "A*2 is no name"), ("AND A2 A B : Y\nAND A3 A B : Y", "line 2: a second cell for AND"),
                      ("NOT INV A : Y", "names no cell for DFF of 2 inputs")):
        cells.write_text(text + "\n")
        status, _, errors = said_by(ROOT / "tools/verilog_of", made.prefix, "--cells", cells)
        assert status == 1 and errors.startswith(f"verilog_of: {cells}") and why in errors, errors
    for text, why in (("G0\tG1\n", "G0 and G1 have one real name: G1"), ("G0 G1\n", "line 1: no line"), ("G0\ta b\n", "can't be a name"),
                      ("SC__edge\tboth\n", "neither rising nor falling"), ("SC__ck\tG3\n", "have one real name: G3")):
        names.write_text(text)
        status, _, errors = said_by(ROOT / "tools/verilog_of", made.prefix)
        assert status == 1 and why in errors, errors
    names.unlink()
    stil = made.file("stil").read_text()
    for old, new, why in (('"G0" + "G1"', '"G1" + "G0"', "stil does not fit"), ("ScanCells", "Cells", "no ScanCells"), ("= P; ", "= P ", "")):
        made.file("stil").write_text(stil.replace(old, new))
        status, _, errors = said_by(ROOT / "tools/verilog_of", made.prefix)
        assert status == 1 and why in errors and len(errors.splitlines()) == 1, errors
    assert not any(made.file(end).exists() for end in ("v", "tb.v", "vec"))


@in_folder
def test_compare_verilog(folder):
    """Equal to ABC as it was written; not where a scan cell's pins are exchanged, or a gate is another."""
    if shutil.which("yosys") is None or shutil.which("berkeley-abc") is None:
        return "left out: no yosys or no berkeley-abc"
    made = Made(folder, ODD, 2, ODD_NAMES)
    for flip_flop, old, new in ((None, "xnor (", "xor ("), ("scan", ".D(next), .SI(scan_in)", ".D(scan_in), .SI(next)"),
                                ("scan_output", ".SCIN(SC__s_state)", ".SCIN(SC__si1)")):
        made.with_cells(flip_flop) if flip_flop else made.verilog_of()
        status, said, errors = said_by(ROOT / "tools/compare_verilog", made.prefix)
        assert status == 0 and "equal: 6 outputs and 3 flip-flops as functions of 8 inputs and 3 flip-flops" in said, said + errors
        text = made.file("v").read_text()
        assert old in text, text
        made.file("v").write_text(text.replace(old, new, 1))
        status, said, errors = said_by(ROOT / "tools/compare_verilog", made.prefix)
        assert status == 1 and "DIFFERENT" in said, said + errors


@in_folder
def test_try_icarus(folder):
    """Files as reported pass; a line that names another strobe, or that says redundant where it isn't, is named."""
    if shutil.which("iverilog") is None:
        return "left out: no iverilog"
    made = Made(folder, s27(), 2, patterns=200)
    words = (ROOT / "tools/try_icarus", "--files", made.prefix)
    status, said, errors = said_by(*words)
    assert (status, said) == (0, "try_icarus: made: 52 faults played (52 detected, 0 redundant, 0 aborted), 0 not as reported\n"), said + errors
    report = made.file("rep").read_text()
    line = re.search(r"stem G17/0 detected (\d+) (\d+) G17\n", report)
    for new in (f"stem G17/0 detected {line[1]} {int(line[2]) - 1} G17\n", "stem G17/0 redundant\n"):
        made.file("rep").write_text(report.replace(line[0], new))
        status, said, errors = said_by(*words)
        assert status == 1 and said.startswith("try_icarus: made: stem G17/0 ") and said.endswith(", 1 not as reported\n"), said + errors


# STIL for others, and vectors.

def wgl_cycles(text):
    """The drives, strobes and ticks of a WGL text whose one timeplate drives, strobes and ticks as the profile does."""
    directions = dict(re.findall(r'^    "([^"]+)" : (input|output);$', text, re.M))
    plates = dict(re.findall(r'^    "([^"]+)" := (.*);$', text, re.M))
    names = re.findall(r'"([^"]+)"', re.search(r"pattern group_ALL \((.*)\)", text)[1])
    assert sorted(names) == sorted(directions) == sorted(plates) and len(set(names)) == len(names), names
    clocks = [name for name in names if plates[name] == "input [0ns:D, 45ns:S, 55ns:D]"]
    assert all(plates[name] == {"input": "input [0ns:S]", "output": "output [0ns:X, 40ns:Q'edge]"}[directions[name]]
               for name in names if name not in clocks), plates
    cycles = []
    for vector in re.findall(r'^    vector\("wft"\) := \[ (.*) \];$', text, re.M):
        bits = dict(zip(names, vector.split(" "), strict=True))
        side = lambda wanted: "".join(bits[name] for name in names if directions[name] == wanted and name not in clocks)
        cycles.append((side("input"), side("output").translate(str.maketrans("10", "HL")), all(bits[name] == "1" for name in clocks) and bool(clocks)))
    return names, cycles


def plain_cycles(text):
    lines = text.splitlines()
    heads = dict(line.split(" ", 1) for line in lines if line[0].isalpha())
    rows = [line.split(" ") for line in lines if line[0].isdigit()]
    assert [int(row[0]) for row in rows] == list(range(len(rows)))
    return heads, [(drives, strobes, {"P": True, "0": False}[tick]) for _, drives, tick, strobes in rows]


@in_folder
def test_vectors(folder):
    """Plain vectors and WGL, read back, are the vectors of the patterns; with real names too."""
    for text, chains in ((s27(), 2), (ODD, 1), ((ROOT / "examples/c17.bench").read_bytes(), 1)):
        made = Made(folder, text, chains, ODD_NAMES)
        status, said, errors = said_by(ROOT / "tools/stil_with_names", made.prefix, made.file("named"))
        assert status == 0, errors
        for stil, name_of in ((made.file("stil"), {}), (made.file("named"), ODD_NAMES)):
            heads, cycles = plain_cycles(said_by(ROOT / "tools/vectors_of", stil, "--plain")[1])
            names, others = wgl_cycles(said_by(ROOT / "tools/vectors_of", stil, "--wgl")[1])
            assert cycles == others == made.cycles, stil
            real = lambda each: name_of.get(each) or (f"SC__o_{name_of.get(each[6:], each[6:])}" if each.startswith("SC__o_") else each)
            wanted = [[real(name) for name in side] for side in (made.scanned.inputs, plain_design.pin_names(made.scanned))]
            assert [heads["inputs"].split(" "), heads["outputs"].split(" ")] == wanted, heads
            clock = [real("SC__ck")] * bool(made.chains)
            assert names == wanted[0] + clock + wanted[1] and heads.get("clock", "") == "".join(clock)


@in_folder
def test_other_vectors(folder):
    """A file that isn't of patterns: a capture without a tick, and one that drives and strobes the chains, as the plain reader takes them."""
    made = Made(folder, s27(), 2)
    old = '"SC__si0" = 0; "SC__si1" = 0; "SC__ck" = P; "SC__po" = H; "SC__so0" = X; "SC__so1" = X;'
    text = made.file("stil").read_text()
    assert text.count(old) > 1
    text = text.replace(old, old.replace("P", "0", 1), 1).replace(old, old.replace('"SC__si1" = 0', '"SC__si1" = 1').replace('"SC__so0" = X', '"SC__so0" = L'), 1)
    made.file("stil").write_text(text)
    wanted = plain_stil.cycles_in(text.encode())
    assert wanted != made.cycles and len(wanted) == len(made.cycles)
    assert plain_cycles(said_by(ROOT / "tools/vectors_of", made.file("stil"), "--plain")[1])[1] == wanted
    assert wgl_cycles(said_by(ROOT / "tools/vectors_of", made.file("stil"), "--wgl")[1])[1] == wanted


@in_folder
def test_stil_with_names(folder):
    """Each name but the blocks' is the real one, and nothing else changes; a signal may be called as a block is."""
    made = Made(folder, ODD.replace(b"state", b"chain0").replace(b"wide", b"wft"), 1, ODD_NAMES | {"chain0": "burst", "w[0]": "wft"})
    words = (ROOT / "tools/stil_with_names", made.prefix, made.file("named"))
    status, said, errors = said_by(*words)
    assert status == 0 and errors == "" and "chains 1" in said, errors
    ours, named = made.file("stil").read_text(), made.file("named").read_text()
    back = named.replace('"test_enable"', '"SC__se"').replace('"scan_in"', '"SC__si0"').replace('"clk"', '"SC__ck"').replace('"in(7)"', '"7"')
    back = back.replace('"b.c"', '"b*c"').replace('"SC__o_in(7)"', '"SC__o_7"')
    changed = [(a, b) for a, b in zip(ours.splitlines(), back.splitlines(), strict=True) if a != b]
    assert [a.replace('"w[0]"', '"wft"').replace('"chain0"', '"burst"') == b for a, b in changed] == [True] * len(changed), changed
    assert [a.split()[0] for a, _ in changed] == ['"w[0]"', '"chain0"', '"SC__pi"', '"SC__po"', "ScanCells"], changed
    made.file("names").write_text('w[0]\ta"b\n')
    status, said, errors = said_by(*words)
    assert status == 0 and "so w[0] stays" in errors and made.file("named").read_text() == ours, errors
    for text, why in (("w[0]\tw[1]\n", "two pins have one real name: w[1]"), ("SC__pi\tall\n", "no pins, but groups")):
        made.file("names").write_text(text)
        status, _, errors = said_by(*words)
        assert status == 1 and why in errors, errors


# The clock's name.

def netlist_of_yosys(kind):
    return {"modules": {"top": {
        "ports": {"tick": {"direction": "input", "bits": [2]}, "d": {"direction": "input", "bits": [3]}, "q": {"direction": "output", "bits": [4]}},
        "netnames": {name: {"hide_name": 0, "bits": [bit]} for name, bit in (("tick", 2), ("d", 3), ("q", 4))},
        "cells": {"f": {"type": kind, "connections": {"C": [2], "D": [3], "Q": [4]}}}}}}


@in_folder
def test_clock_is_kept(folder):
    """The table of names has the clock, its edge where it falls, and the module; the Verilog and the vectors have them from there."""
    folder = pathlib.Path(folder)
    for kind, edge, word in (("$_DFF_P_", "", "posedge"), ("$_DFF_N_", "SC__edge\tfalling\n", "negedge")):
        (folder / "d.json").write_text(json.dumps(netlist_of_yosys(kind)))
        status, said, errors = said_by(ROOT / "tools/bench_from_yosys", folder / "d.json", folder / "made.bench")
        assert status == 0 and said.endswith("clock tick\n"), said + errors
        assert (folder / "made.names").read_text() == f"SC__ck\ttick\n{edge}SC__module\ttop\n"
        made = Made(folder, (folder / "made.bench").read_bytes(), 1)
        assert " module top " in made.verilog_of()
        text = made.file("v").read_text()
        assert "module top (\n  input tick,\n" in text and f"always @({word} CK)" in text, text
        if shutil.which("iverilog") is not None:
            made.check_plays()
