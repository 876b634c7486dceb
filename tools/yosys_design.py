"""Reading a netlist that Yosys wrote as JSON: its module, its ports and the names of its bits. bench_from_yosys and kept_netlist.py share it."""

from library_cells import is_library_cell
from yosys_gates import Refused, shown

CONSTANTS = ("0", "1", "x", "z")


def is_marked(module, attribute):
    return int(str(module.get("attributes", {}).get(attribute, "0")), 2) != 0


def module_of(design, top):
    """The module asked for, else the one that is marked as top, else the only one."""
    modules = design["modules"]
    if top is not None:
        if top not in modules:
            raise Refused(f"there is no module {shown(top)}")
        return top, modules[top]
    marked = [name for name, module in modules.items() if is_marked(module, "top")]
    names = marked or [name for name, module in modules.items() if not is_marked(module, "blackbox") and not is_library_cell(module)]
    if len(names) != 1:
        raise Refused(f"which module is meant, say by --top: {', '.join(shown(name) for name in names) or 'there is none'}")
    return names[0], modules[names[0]]


def bit_names(name, word):
    """The names of a port's or a net's bits."""
    if len(word["bits"]) == 1:
        return [name]
    places = [word.get("offset", 0) + k for k in range(len(word["bits"]))]
    return [f"{name}[{place}]" for place in (reversed(places) if word.get("upto") else places)]


def ports_of(module, direction):
    """Pairs of name and bit, for each bit of each port of a direction."""
    pairs = []
    for name, port in module["ports"].items():
        if port["direction"] == direction:
            pairs += zip(bit_names(name, port), port["bits"])
    return pairs


def all_names(module):
    """Pairs of name and bit: the worst name of a bit first, so that of a dictionary the best stays. Yosys's own names are left out."""
    nets = [(name, bit) for net, word in module["netnames"].items() if not word.get("hide_name")
            for name, bit in zip(bit_names(net, word), word["bits"])]
    nets.sort(key=lambda pair: (pair[0].count("."), len(pair[0])), reverse=True)
    pairs = nets + ports_of(module, "output")[::-1] + ports_of(module, "input")[::-1]
    return [(name, bit) for name, bit in pairs if bit not in CONSTANTS]
