"""Tests of the ways in that docs/GUIDE.md shows: from Verilog, from a netlist of library cells, from ABC. tools/test_tools runs them."""

import pathlib
import random
import re
import shlex
import shutil
import subprocess
import sys
import tempfile

import fault_list
import make_circuits

ROOT = pathlib.Path(__file__).resolve().parent.parent
TOOLS = ROOT / "tools"
CELLS = ROOT / "examples/mapped/cells.lib"
NO_YOSYS = "left out: no yosys"
NO_ABC = "left out: no yosys or no berkeley-abc"


def ended(*words):
    """A command's status, output and errors, in the repository's folder."""
    done = subprocess.run([str(word) for word in words], capture_output=True, text=True, cwd=ROOT)
    return done.returncode, done.stdout, done.stderr


def has_yosys():
    return shutil.which("yosys") is not None


def has_abc():
    return has_yosys() and shutil.which("berkeley-abc") is not None


def made_bench(folder, name, text, *words):
    """The prefix of what bench_from_verilog makes of a text, and what it says."""
    path = pathlib.Path(folder) / f"{name}.v"
    path.write_text(text)
    prefix = path.with_suffix("")
    return prefix, ended(TOOLS / "bench_from_verilog", path, "--to", prefix, *words)


def definitions_of(prefix):
    """The lines of a .bench file but its title."""
    return prefix.with_suffix(".bench").read_text().splitlines()[1:]


def compared(prefix, *words):
    return ended(TOOLS / "compare_bench", f"{prefix}.json", f"{prefix}.bench", *words)


# The guide's tables of what is refused.

def code_of(cell):
    """What stands in backquotes in a cell of a table."""
    match = re.search(r"(`+) ?(.*?) ?\1(?!`)", cell)
    return match[2] if match else ""


def rows_of_refusals():
    """The file, the message and the words of each row; None where nothing helps."""
    text = (ROOT / "docs/GUIDE.md").read_text()
    part = text[text.index("### Refused, and what to write"):text.index("### A .bench that is refused")]
    for line in part.splitlines():
        cells = [cell.strip() for cell in line.strip().strip("|").split(" | ")]
        if line.startswith("| `"):
            yield code_of(cells[0]), code_of(cells[2]), code_of(cells[3]) if len(cells) > 3 else None


def test_refused_rows():
    """Each design is refused with its row's message and a hint of its words, and passes with these; each stands in a row."""
    rows = list(rows_of_refusals())
    assert sorted(file for file, _, _ in rows) == sorted(path.name for path in (ROOT / "examples/refused").iterdir()), rows
    if not has_yosys():
        return NO_YOSYS
    with tempfile.TemporaryDirectory() as folder:
        for file, message, words in rows:
            command = [TOOLS / "bench_from_verilog", f"examples/refused/{file}", "--to", f"{folder}/made"]
            status, said, errors = ended(*command)
            assert status == 1 and said == "" and message and message in errors, (file, message, errors)
            if words is None:
                assert "nothing helps" in errors, (file, errors)
                continue
            option = next(word for word in shlex.split(words) if word.startswith("-"))
            assert option in errors or file == "part.v" and "name the file" in errors, (file, errors)
            status, said, errors = ended(*command, *shlex.split(words))
            assert status == 0 and said.startswith("inputs "), (file, errors)


def test_examples_anew():
    """From RTL, without options, the examples are made anew byte for byte, but for the version of Yosys."""
    if not has_yosys() or "Yosys 0.23 " not in ended("yosys", "-V")[1]:
        return "left out: no Yosys 0.23"
    with tempfile.TemporaryDirectory() as folder:
        for name in ("uart", "fifo"):
            status, _, errors = ended(TOOLS / "bench_from_verilog", f"examples/{name}.v", "--to", f"{folder}/{name}")
            made = pathlib.Path(folder, f"{name}.bench")
            assert status == 0 and made.read_bytes() == (ROOT / f"examples/{name}.bench").read_bytes(), errors


def test_one_edge():
    """Flip-flops on the falling edge alone are taken."""
    if not has_yosys():
        return NO_YOSYS
    with tempfile.TemporaryDirectory() as folder:
        prefix, (status, said, errors) = made_bench(folder, "falling", "module falling(input clk, input d, output reg q); "
                                                    "always @(negedge clk) q <= d; endmodule\n")
        assert status == 0 and said == "inputs 1 outputs 1 gates 0 cells 1 renamed 0 clock clk\n", errors
        assert definitions_of(prefix) == ["INPUT(d)", "OUTPUT(q)", "q = DFF(d)"]


def run_bench(prefix, inputs, cells):
    """The values of a .bench file's signals, by bits of its inputs and cells; and its flip-flops with their pins."""
    names, outputs, definitions = fault_list.netlist_of(prefix.with_suffix(".bench").read_text())
    made = make_circuits.Netlist("made")
    made.inputs, made.outputs, made.definitions = names, outputs, [(name, kind.replace("BUF", "BUFF"), pins) for name, kind, pins in definitions]
    return make_circuits.settled(made, inputs | cells)


def test_held_reset():
    """A reset that is made gates and held off leaves the flip-flop as it is; on, it clears it."""
    if not has_yosys():
        return NO_YOSYS
    with tempfile.TemporaryDirectory() as folder:
        text = (ROOT / "examples/refused/reset.v").read_text()
        prefix, (status, _, errors) = made_bench(folder, "reset", text, "--async2sync")
        assert status == 0 and "--hold NAME=BIT" in errors, errors
        lines = definitions_of(prefix)
        cell, pin = next(re.fullmatch(r"(\S+) = DFF\((\S+)\)", line).groups() for line in lines if "DFF" in line)
        for rst, d, old in [(rst, d, old) for rst in (0, 1) for d in (0, 1) for old in (0, 1)]:
            values = run_bench(prefix, {"rst": rst, "d": d}, {cell: old})
            assert (values["q"], values[pin]) == ((old, d) if rst == 0 else (0, 0)), (rst, d, old, lines)


def test_top():
    """The module that is asked for is taken, and Yosys's choice where there is none."""
    if not has_yosys():
        return NO_YOSYS
    with tempfile.TemporaryDirectory() as folder:
        text = (ROOT / "examples/refused/tops.v").read_text()
        for top, gate in (("sum", "XOR"), ("carry", "AND")):
            prefix, (status, _, errors) = made_bench(folder, top, text, "--top", top)
            assert status == 0 and any(f"y = {gate}(" in line for line in definitions_of(prefix)), errors


def test_kept_modules():
    """Modules and instances marked keep_hierarchy are flattened too."""
    if not has_yosys():
        return NO_YOSYS
    text = """module kept(input a, input b, output y); wire t; (* keep_hierarchy *) inner I (.a(a), .b(b), .y(t)); sub S (.a(t), .y(y)); endmodule
        (* keep_hierarchy *) module sub(input a, output y); assign y = ~a; endmodule
        module inner(input a, input b, output y); assign y = a & b; endmodule\n"""
    with tempfile.TemporaryDirectory() as folder:
        prefix, (status, _, errors) = made_bench(folder, "kept", text)
        assert status == 0 and definitions_of(prefix)[3:] == ["y = NAND(b, a)"], errors


# A netlist of library cells.

TWICE = ["INPUT(a)", "INPUT(b)", "INPUT(c)", "OUTPUT(q)", "OUTPUT(y)", "q = DFF(both)", "once = NAND(a, b)", "again = NAND(a, b)",
         "both = NAND(once, again)", "U4.2 = AND(both, c)", "y = NOR(U4.2, q)"]


def test_kept():
    """Cells stay as they are, with their nets' names; taken as RTL the copy goes, and compare_bench says so."""
    if not has_yosys():
        return NO_YOSYS
    with tempfile.TemporaryDirectory() as folder:
        text = (ROOT / "examples/mapped/twice.v").read_text()
        kept, (status, said, errors) = made_bench(folder, "kept", text, "--cells", CELLS)
        assert status == 0 and said == "inputs 3 outputs 2 gates 5 cells 1 renamed 0 clock clk\n", errors
        assert definitions_of(kept) == TWICE, definitions_of(kept)
        anew, (status, said, errors) = made_bench(folder, "anew", text, CELLS)
        assert status == 0 and said.startswith("inputs 3 outputs 2 gates 3 cells 1 "), said + errors
        if not has_abc():
            return NO_ABC
        status, said, errors = compared(kept)
        assert status == 0 and "its gates and names are the netlist's: 5 library cells" in said, said + errors
        for end in (".bench", ".names"):
            shutil.copyfile(anew.with_suffix(end), kept.with_suffix(end))
        status, said, errors = compared(kept)
        assert status == 1 and "equal: " in said and "its gates or names are NOT the netlist's" in said, said + errors


ODD_CELLS = r"""module odd(input clk, input rst_n, input [1:0] d, output q, output nq, output [1:0] sum, output same, output one, output copy);
    wire lost, unread;
    DFFR F1 (.CK(clk), .RN(rst_n), .D(d[0]), .Q(q));
    DFFN \F(2) (.CK(clk), .D(q), .Q(), .QN(nq));
    half H (.clk(clk), .d({nq, d[1]}), .y(sum));
    BUF B1 (.A(sum[0]), .Y(same));
    TIE1 T (.Y(one));
    NAND3 N (.A(d[0]), .B(1'b1), .C(sum[1]), .Y(unread));
    MUX2 M (.A(d[0]), .B(d[1]), .S(q), .Y(copy));
endmodule
module half(input clk, input [1:0] d, output [1:0] y);
    wire t;
    DFFN F3 (.CK(clk), .D(d[0]), .Q(y[0]), .QN(t));
    HA A (.A(d[1]), .B(t), .S(y[1]), .C());
endmodule
"""
VERILOG_CELLS = """module NAND3(input A, input B, input C, output Y); nand (Y, A, B, C); endmodule
module BUF(input A, output Y); buf (Y, A); endmodule
module TIE1(output Y); assign Y = 1'b1; endmodule
module MUX2(input A, input B, input S, output Y); assign Y = S ? B : A; endmodule
module HA(input A, input B, output S, output C); xor (S, A, B); and (C, A, B); endmodule
module DFFN(input CK, input D, output reg Q, output QN); always @(posedge CK) Q <= D; assign QN = ~Q; endmodule
module DFFR(input CK, input RN, input D, output reg Q); always @(posedge CK or negedge RN) if (!RN) Q <= 0; else Q <= D; endmodule
"""


def test_library_cells():
    """Cells of each kind, from Liberty and from Verilog: gates, names, ABC's comparison, and what is refused."""
    if not has_abc():
        return NO_ABC
    with tempfile.TemporaryDirectory() as folder:
        models = pathlib.Path(folder) / "cells.v"
        models.write_text(VERILOG_CELLS)
        for cells in (CELLS, models):
            _, (status, _, errors) = made_bench(folder, "odd", ODD_CELLS, "--cells", cells)
            assert status == 1 and "dffs with async set or reset" in errors, errors
            prefix, (status, said, errors) = made_bench(folder, "odd", ODD_CELLS, "--cells", cells, "--async2sync")
            assert status == 0 and said == "inputs 3 outputs 7 gates 13 cells 3 renamed 2 clock clk\n", said + errors
            lines = definitions_of(prefix)
            assert any(line in lines for line in ("unread = NAND(d[0], tie1, sum[1])", "unread = NAND(sum[1], d[0], tie1)")), lines
            assert {"same = BUFF(sum[0])", "one = CONST1()", "sum[0] = DFF(d[1])", "H.t = NOT(sum[0])",
                    "sum[1] = XOR(nq, H.t)"} <= set(lines), lines
            status, said, errors = compared(prefix)
            assert status == 0 and "its gates and names are the netlist's: 8 library cells" in said and errors == "", said + errors
        for instance, why in (("LATCH U (.G(a), .D(b), .Q(y));", "a latch; --cut cuts it open"), ("NOT_THERE U (.A(a), .Y(y));", "is not part of the design"),
                              ("nand U (y, a, b);", "between library cells"), ("assign y = a & b;", "between library cells"),
                              ("INV U (.A(a), .Y(y), .VDD(b));", "does not have a port named 'VDD'"),
                              ("wire k; BUF C (.A(a), .Y(k)); DFF U (.CK(k), .D(b), .Q(y));", "its clock k is no input of the design"),
                              ("INV U (.A(), .Y(y));", "its pin A is joined to 0 bits"), ("DFF U (.CK(b & a), .D(a), .Q(y));", "between library cells")):
            _, (status, _, errors) = made_bench(folder, "bad", f"module bad(input a, input b, output y); {instance} endmodule\n", "--cells", CELLS)
            assert status == 1 and why in errors, (instance, errors)


def test_mapped_uart():
    """The UART mapped to library cells by Yosys: each wire has its name in .bench, each cell its gates, and the machine is the same."""
    if not has_abc():
        return NO_ABC
    with tempfile.TemporaryDirectory() as folder:
        mapped = pathlib.Path(folder) / "mapped.v"
        status, _, errors = ended("yosys", "-q", "-p", f"read_verilog examples/uart.v; synth -flatten -top uart; dfflibmap -liberty {CELLS}; "
                                  f"abc -liberty {CELLS}; opt_clean -purge; write_verilog -noattr {mapped}")
        assert status == 0, errors
        prefix, (status, said, errors) = made_bench(folder, "mapped", mapped.read_text(), "--cells", CELLS)
        assert status == 0 and " cells 37 renamed 0 clock clk" in said, said + errors
        signals = {re.match(r"(?:INPUT\()?([^\s)]+)", line)[1] for line in definitions_of(prefix)}
        wires = set(re.findall(r"^  wire (\S+);", mapped.read_text(), re.M)) - {"clk"}
        assert len(wires) > 100 and wires <= signals, wires - signals
        status, said, errors = compared(prefix)
        instances = len(re.findall(r"^  [A-Z]+\d* \S+ \($", mapped.read_text(), re.M))
        assert status == 0 and f"its gates and names are the netlist's: {instances} library cells" in said, said + errors


# tools/compare_bench.

CLASHING = """module clashing(input in3, input in4, input bothin2, input cell5, input clk, output out0, output out1, output reg next5);
    assign out1 = in3 & in4;
    assign out0 = in3 ^ bothin2 | cell5;
    always @(posedge clk) next5 <= in4;
endmodule
"""


def planted_in(prefix, old, new):
    """What compare_bench answers where a line of .bench is changed."""
    path = prefix.with_suffix(".bench")
    text = path.read_text()
    assert old in text, text
    path.write_text(text.replace(old, new))
    answer = compared(prefix)
    path.write_text(text)
    return answer


def test_compare_gates():
    """Ports of any name; each planted difference of gates and names is found, also where the function is the same."""
    if not has_abc():
        return NO_ABC
    with tempfile.TemporaryDirectory() as folder:
        prefix, (status, _, errors) = made_bench(folder, "clashing", CLASHING)
        assert status == 0, errors
        status, said, errors = compared(prefix)
        assert (status, errors) == (0, "") and "its gates and names are the netlist's: 4 gates and flip-flops" in said, said + errors
        gate = next(line for line in definitions_of(prefix) if line.startswith("out1 = AND("))
        for new in (gate.replace("out1", "t") + "\nout1 = BUFF(t)", gate.replace("out1 = AND", "t = NAND") + "\nout1 = NOT(t)",
                    gate + "\nspare = NOT(in3)", gate.replace(")", ", in3)")):
            status, said, errors = planted_in(prefix, gate, new)
            assert status == 0 and "equal: " in said and "its gates or names are not the netlist's" in said, (new, said, errors)
            assert planted_in(prefix, gate, new)[1] != compared(prefix, "--functions")[1]
        status, said, errors = planted_in(prefix, gate, gate.replace("AND", "NOR"))
        assert status == 1 and "DIFFERENT" in said, said + errors
        kept, (status, _, errors) = made_bench(folder, "kept", (ROOT / "examples/mapped/twice.v").read_text(), "--cells", CELLS)
        for old, new in (("once", "thrice"), ("again = NAND(a, b)", "again = NAND(b, b, a)\nmore = NOT(b)"), ("NAND(once, again)", "NAND(once, once)"),
                         ("U4.2 = AND(both, c)\ny = NOR(U4.2, q)", "U4.2 = NAND(both, c)\nU4.3 = NOT(q)\nU4.4 = NAND(U4.2, U4.3)\ny = NOT(U4.4)")):
            status, said, errors = planted_in(kept, old, new)
            assert status in (1, 2) and "are the netlist's" not in said, (new, said, errors)


def test_compare_missing():
    """A file that isn't there, or is another, is said in a line."""
    if not has_abc():
        return NO_ABC
    with tempfile.TemporaryDirectory() as name:
        folder = pathlib.Path(name)
        prefix, (status, _, errors) = made_bench(folder, "clashing", CLASHING)
        assert status == 0, errors
        (folder / "alone.bench").write_text("INPUT(a)\nOUTPUT(a)\n")
        for json, bench, why in (("none.json", "clashing.bench", "can't read {}/none.json: No such file or directory"),
                                 ("clashing.json", "none.bench", "can't read {}/none.names: No such file or directory"),
                                 ("clashing.json", "alone.bench", "can't read {}/alone.names: No such file or directory"),
                                 ("clashing.bench", "clashing.bench", "{}/clashing.bench is no netlist that Yosys wrote")):
            status, said, errors = ended(TOOLS / "compare_bench", folder / json, folder / bench)
            assert status != 0 and said == "" and errors == f"compare_bench: {why.format(folder)}\n", (json, bench, errors)


# tools/clean_bench.

OF_ABC = """# Benchmark "c" written by ABC
INPUT(a)
INPUT(b)
INPUT(c)
OUTPUT(y)
OUTPUT(z)
q           = DFFRSE( n14, gnd, gnd, gnd, gnd )
one         = vdd
zero        = gnd  # tied
n14         = LUT 0x8 ( a, b )
y           = LUT 0xe0 ( a, b, q )
z           = OR(zero, i, one)
i = INV(c); // a comment
"""
CLEANED = ["# Benchmark \"c\" written by ABC", "INPUT(a)", "INPUT(b)", "INPUT(c)", "OUTPUT(y)", "OUTPUT(z)", "q = DFF(n14)", "one = CONST1()",
           "zero = CONST0() # tied", "n14 = AND(a, b)", "y_1 = AND(b, q)", "y_2 = AND(a, q)", "y = OR(y_1, y_2)",
           "z           = OR(zero, i, one)", "i = NOT(c) # a comment"]


def cleaned(folder, text):
    """What clean_bench says of a text, and the file that it made."""
    old, new = pathlib.Path(folder) / "old.bench", pathlib.Path(folder) / "new.bench"
    new.unlink(missing_ok=True)
    old.write_text(text)
    status, said, errors = ended(TOOLS / "clean_bench", old, new)
    return status, said + errors, new.read_text() if new.exists() else None


def test_clean_bench():
    """A file of ABC line by line; what can't be rewritten is said, and nothing is written."""
    with tempfile.TemporaryDirectory() as folder:
        status, said, text = cleaned(folder, OF_ABC)
        assert status == 0 and text.splitlines() == CLEANED, (said, text)
        assert "2 LUT" in said and "1 vdd" in said and "1 gnd" in said and "1 DFFRSE" in said and "1 INV" in said, said
        for line, why in (("q = DFFRSE( d, r, gnd, gnd, gnd )", "line 3: a flip-flop with a set, a reset or an enable: q = DFFRSE"),
                          ("q = LUT 0x1ff ( a, d, b )", "line 3: a LUT of 3 pins has a number of 8 bits at most"),
                          (f"q = LUT 0x1 ( {', '.join(['a'] * 11)} )", "line 3: a LUT of 11 pins"),
                          ("q = MUX(a, d, a)", "what would be left is refused: netlist line 3: UnknownGate\n  q = MUX(a, d, a)"),
                          ("q = AND(a, u)", "netlist line 3: Undefined"), ("q = AND(a, d", "netlist line 3: BadLine")):
            status, said, text = cleaned(folder, f"INPUT(a)\nINPUT(d)\n{line}\nOUTPUT(q)\n")
            assert status == 1 and why in said and text is None, (line, said)
        same = "# good\nINPUT(a)\nOUTPUT(y)\ny = NOT(a)\n"
        assert cleaned(folder, same)[2] == same
        assert cleaned(folder, "\ufeffINPUT(a)\nOUTPUT(y)\ny = XNOR(a)\n")[2] == "INPUT(a)\nOUTPUT(y)\ny = NOT(a)\n"
        status, _, errors = ended(TOOLS / "clean_bench", f"{folder}/none.bench", f"{folder}/new.bench")
        assert status == 1 and errors == f"clean_bench: can't read or write {folder}/none.bench: No such file or directory\n", errors


def test_clean_luts():
    """Functions of tables: all of three pins, and some of more, with each case of the pins."""
    rng = random.Random(5)
    with tempfile.TemporaryDirectory() as folder:
        for pins, tables in ((1, range(4)), (2, range(16)), (3, range(256)), (6, [rng.getrandbits(64) for _ in range(8)])):
            names = [f"p{k}" for k in range(pins)]
            head = [f"INPUT({name})" for name in names] + [f"OUTPUT(f{table})" for table in tables]
            luts = [f"f{table} = LUT 0x{table:x} ( {', '.join(names)} )" for table in tables]
            status, said, text = cleaned(folder, "\n".join(head + luts + [""]))
            assert status == 0, said
            for case in range(1 << pins):
                values = run_bench(pathlib.Path(folder) / "new", {name: case >> k & 1 for k, name in enumerate(names)}, {})
                wrong = [table for table in tables if values[f"f{table}"] != table >> case & 1]
                assert not wrong, (pins, case, wrong)


def test_clean_by_abc():
    """ABC finds what it wrote and what was made of it equal."""
    if not has_abc():
        return NO_ABC
    with tempfile.TemporaryDirectory() as folder:
        wrote, clean = f"{folder}/wrote.bench", f"{folder}/clean.bench"
        assert ended("berkeley-abc", "-q", f"read_bench examples/uart.bench; strash; if -K 6; write_bench {wrote}")[0] == 0
        status, said, errors = ended(TOOLS / "clean_bench", wrote, clean)
        assert status == 0 and " LUT" in said and "37 DFFRSE" in said, said + errors
        said = ended("berkeley-abc", "-q", f"cec examples/uart.bench {clean}")[1]
        assert "Networks are equivalent" in said, said
