"""The cells of Yosys's JSON that are gates of .bench, and why others are refused: what bench_from_yosys and library_cells.py share."""

import collections
import re

GATES = {"$_BUF_": "BUFF", "$_NOT_": "NOT", "$_AND_": "AND", "$_NAND_": "NAND", "$_OR_": "OR", "$_NOR_": "NOR", "$_XOR_": "XOR",
         "$_XNOR_": "XNOR"}
FLIP_FLOPS = {"$_DFF_P_": "rising", "$_DFF_N_": "falling"}
TIES = {"0": "CONST0", "1": "CONST1"}
LATCH, TRISTATE, MEMORY = r"\$_DLATCH|\$_SR_|\$dlatch|\$adlatch|\$sr$", r"\$_TBUF_|\$tribuf", r"\$mem|\$_MEM"
CUT_OPEN = f"{LATCH}|{TRISTATE}|{MEMORY}"  # by --cut
# Why a cell is refused: the first pattern that its type matches decides.
REFUSED = [
    (LATCH, "a latch"),
    (TRISTATE, "a tristate driver"),
    (MEMORY, "a memory: run `memory`, which makes flip-flops of it"),
    (r"\$_FF_|\$ff$|\$anyinit", "a flip-flop without a clock"),
    (r"\$_(S?DFF|ALDFF)|\$(a|s|al)?dff", "a flip-flop with set, reset or enable, or not yet mapped: run `dfflegalize -cell $_DFF_P_ x`"),
    (r"\$_", "no gate of .bench: run `abc -g AND,NAND,OR,NOR,XOR,XNOR`"),
    (r"\$", "not mapped to gates: run `script tools/gates.ys`; between library cells nothing else may stand"),
    (r"", "a module of its own: run `flatten`, or give its source"),
]

Gate = collections.namedtuple("Gate", "cell kind pins out")  # pins and out are bits: numbers, or "0" or "1"


class Refused(Exception):
    """The netlist has no .bench text; the message says why, with the cell's name."""


def shown(name):
    """A name as Yosys prints it."""
    return name if re.fullmatch(r"[!-~]+", name) else repr(name)


def why_refused(kind):
    return next(why for pattern, why in REFUSED if re.match(pattern, kind))


def one_bit(name, cell, pin):
    """The bit that a pin of a cell is joined to."""
    bits = cell["connections"].get(pin, [])
    if len(bits) != 1:
        raise Refused(f"cell {shown(name)} ({cell['type']}): its pin {pin} is joined to {len(bits)} bits")
    if bits[0] in ("x", "z"):
        raise Refused(f"cell {shown(name)} ({cell['type']}): its pin {pin} is joined to an undefined bit ({bits[0]})")
    return bits[0]


def gate_of(name, cell):
    """A cell that is a gate."""
    kind = GATES[cell["type"]]
    pins = "A" if kind in ("BUFF", "NOT") else "AB"
    return Gate(name, kind, [one_bit(name, cell, pin) for pin in pins], one_bit(name, cell, "Y"))


def flip_flop_of(name, cell):
    """A cell that is a flip-flop, and its clock's bit and edge."""
    part = Gate(name, "DFF", [one_bit(name, cell, "D")], one_bit(name, cell, "Q"))
    return part, (one_bit(name, cell, "C"), FLIP_FLOPS[cell["type"]])
