"""A library's cells, named in a file: which cell stands for which gate of .bench. tools/verilog_of takes it by --cells.

A line of the file has a gate of .bench, the cell, and the cell's pins: inputs in the order of the gate's pins, a colon, outputs.

    # gate   cell     inputs : outputs
    AND      AND2X1   A B : Y
    AND      AND3X1   A B C : Y
    NOT      INVX1    A : Y
    CONST0   TIELO    : Y
    SCAN     SDFFX1   D SI SE CK : Q
    DFF      DFFX1    D CK : Q

Where the file names several cells for a gate, the number of inputs decides. SCAN is a flip-flop with a multiplexer, its pins in the order
data, scan in, scan enable (1 shifts), clock, and then its output; with a second output that is the scan output, which shows the same. DFF
is a flip-flop without one. What follows # is a comment. The file says nothing of what a cell does: that is the library's to keep.
"""

import collections
import re

from run_files import Bad

Cell = collections.namedtuple("Cell", "name inputs outputs")

SIZES = {"AND": None, "NAND": None, "OR": None, "NOR": None, "XOR": None, "XNOR": None, "NOT": 1, "BUFF": 1, "CONST0": 0, "CONST1": 0, "SCAN": 4,
         "DFF": 2}
MOST_OUTPUTS = {"SCAN": 2}
WORD = re.compile(r"[A-Za-z_][A-Za-z0-9_$]*")


def cell_of(words):
    """The gate and the cell of a line's words; refused with why."""
    gate, name, pins = words[0], words[1] if len(words) > 1 else "", words[2:]
    if gate not in SIZES:
        raise ValueError(f"{gate} is no gate: {' '.join(SIZES)}")
    if pins.count(":") != 1:
        raise ValueError("a line has a gate, a cell, its inputs, a colon and its outputs, parted by blanks")
    inputs, outputs = pins[:pins.index(":")], pins[pins.index(":") + 1:]
    for word in [name] + inputs + outputs:
        if not WORD.fullmatch(word):
            raise ValueError(f"{word} is no name of a cell or pin")
    if len(set(inputs + outputs)) < len(inputs + outputs):
        raise ValueError("a pin stands twice")
    if SIZES[gate] not in (None, len(inputs)) or SIZES[gate] is None and not inputs:
        raise ValueError(f"{gate} has {SIZES[gate] or 'one input or more'}{' inputs' * (SIZES[gate] is not None)}, not {len(inputs)}")
    if not 1 <= len(outputs) <= MOST_OUTPUTS.get(gate, 1):
        raise ValueError(f"{gate} can't have {len(outputs)} outputs")
    return gate, Cell(name, inputs, outputs)


class Library:
    """The cells of a file."""

    def __init__(self, path):
        self.path, self.cells = path, {}
        for number, line in enumerate(path.read_text(encoding="utf-8").splitlines(), 1):
            words = line.split("#")[0].replace(":", " : ").split()
            if not words:
                continue
            try:
                gate, cell = cell_of(words)
            except ValueError as why:
                raise Bad(f"{path} line {number}: {why}") from why
            if (gate, len(cell.inputs)) in self.cells:
                raise Bad(f"{path} line {number}: a second cell for {gate} of {len(cell.inputs)} inputs")
            self.cells[gate, len(cell.inputs)] = cell

    def find(self, gate, size):
        return self.cells.get((gate, size))

    def cell(self, gate, size, name):
        """The cell for a gate, which has to be there but for constants."""
        found = self.find(gate, size)
        if found is None and size:
            raise Bad(f"{self.path} names no cell for {gate} of {size} inputs, as {name} is")
        return found

    def scan(self):
        return self.find("SCAN", 4)


# What the cells do, for a simulation without the library's own Verilog.

SIGNS = {"AND": "&", "OR": "|", "XOR": "^", "NAND": "&", "NOR": "|", "XNOR": "^", "NOT": "&", "BUFF": "&"}
TURNED = ("NAND", "NOR", "XNOR", "NOT")


def function_of(gate, pins):
    if gate.startswith("CONST"):
        return f"1'b{gate[-1]}"
    together = f" {SIGNS[gate]} ".join(pins)
    return f"~({together})" if gate in TURNED else together


def model_of(gate, cell, edge):
    """The Verilog of a cell as its line says what it is."""
    head = f"module {cell.name} (" + ", ".join([f"input {pin}" for pin in cell.inputs] + [f"output {pin}" for pin in cell.outputs]) + ");"
    if gate not in ("SCAN", "DFF"):
        return [head, f"  assign {cell.outputs[0]} = {function_of(gate, cell.inputs)};", "endmodule"]
    data = f"{cell.inputs[2]} ? {cell.inputs[1]} : {cell.inputs[0]}" if gate == "SCAN" else cell.inputs[0]
    state = "SC__state"
    return [head, f"  reg {state};", f"  always @({edge} {cell.inputs[-1]}) {state} <= {data};",
            *(f"  assign {pin} = {state};" for pin in cell.outputs), "endmodule"]


def models(library, edge):
    """The Verilog of all cells of a file, each once."""
    lines, made = [], set()
    for (gate, _), cell in library.cells.items():
        if cell.name not in made:
            made.add(cell.name)
            lines += model_of(gate, cell, edge) + [""]
    return lines
