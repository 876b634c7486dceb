"""A netlist with what can't be scanned cut open, for tools/compare_bench --cut.

Each cell of Yosys's JSON goes away that is neither a gate nor a flip-flop of Yosys's, nor a library cell made of these alone whose outputs
all have a function. What it drives is an input then, and so is each pin of the design that is input and output. It shares no code with
tools/bench_from_yosys.
"""

import same_gates

INPUT, OUTPUT = "SC__cut", "SC__seen"  # ports for bits that are cut begin so
KEPT = {*same_gates.YOSYS, *same_gates.FLIP_FLOPS}


def ports(module, *ways):
    return [bit for port in module["ports"].values() if port["direction"] in ways for bit in port["bits"]]


def joined(cell, module, *ways):
    """The bits that are joined to a cell's pins of these directions."""
    known = {pin: port["direction"] for pin, port in (module or {"ports": {}})["ports"].items()} | cell.get("port_directions", {})
    return [bit for pin, bits in cell["connections"].items() if known[pin] in ways for bit in bits]


def has_function(module, pins):
    """Whether a library cell is made of gates and flip-flops that drive these pins."""
    made = {bit for part in module["cells"].values() for bit in joined(part, None, "output")} | {"0", "1", *ports(module, "input")}
    kinds = {part["type"] for part in module["cells"].values()}
    return kinds <= KEPT and not ports(module, "inout") and all(made.issuperset(module["ports"][pin]["bits"]) for pin in pins)


def is_kept(cell, modules):
    module = modules.get(cell["type"])
    if module is None or "library_cell" not in module["attributes"]:
        return cell["type"] in KEPT
    return has_function(module, [pin for pin, port in module["ports"].items() if port["direction"] == "output" and cell["connections"].get(pin)])


def cut_open(modules, top):
    """The modules without what can't be scanned, the bits that are inputs in its place, and those that are outputs where it is seen."""
    design = modules[top]
    kept = {name: cell for name, cell in design["cells"].items() if is_kept(cell, modules)}
    gone = [(cell, modules.get(cell["type"])) for name, cell in design["cells"].items() if name not in kept]
    driven = {*ports(design, "inout"), *(bit for pair in gone for bit in joined(*pair, "output", "inout"))} - {"x", "z"}
    read = {bit for pair in gone for bit in joined(*pair, "input", "inout") if isinstance(bit, int)}
    clocks = {bit for cell in kept.values() for pin, bits in cell["connections"].items() if is_clock(cell, pin, modules) for bit in bits}
    whole = {name: port for name, port in design["ports"].items() if port["direction"] != "inout"}
    used = {cell["type"] for cell in kept.values()} | {top}
    cut = {name: module | ({"cells": kept, "ports": whole} if name == top else {}) for name, module in modules.items() if name in used}
    return cut, driven, read - driven - clocks - set(ports(design, "input", "output"))


def is_clock(cell, pin, modules):
    """Whether a cell's pin clocks it."""
    module = modules.get(cell["type"])
    if module is None:
        return cell["type"] in same_gates.FLIP_FLOPS and pin == "C"
    clocked = {bit for part in module["cells"].values() if part["type"] in same_gates.FLIP_FLOPS for bit in part["connections"]["C"]}
    return module["ports"][pin]["bits"][0] in clocked


def with_ports(module, inputs, outputs):
    """A module with ports for the bits that were cut."""
    more = {f"{INPUT}{bit}": {"direction": "input", "bits": [bit]} for bit in inputs}
    return module | {"ports": module["ports"] | more | {f"{OUTPUT}{bit}": {"direction": "output", "bits": [bit]} for bit in outputs}}
