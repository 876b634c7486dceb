"""Tests of tools/order_cells. tools/test_tools runs them."""

import pathlib
import random
import subprocess
import tempfile

import plain_design

ROOT = pathlib.Path(__file__).resolve().parent.parent
S27 = ROOT / "examples/s27.bench"
UART = ROOT / "examples/uart.bench"


def ordered(net, chains):
    """The status, what is said, and the file that is written, if one is."""
    with tempfile.TemporaryDirectory() as name:
        given, new = pathlib.Path(name) / "chains", pathlib.Path(name) / "new.bench"
        given.write_bytes(chains)
        done = subprocess.run([ROOT / "tools/order_cells", net, given, new], capture_output=True, text=True)
        said = (done.stdout + done.stderr).replace(f"{name}/", "")
        return done.returncode, said, new.read_bytes() if new.exists() else None


# A row for each cause, the first one of several.
REFUSED = (
    (b"G7 G5\nG6", "not chains: each line is names of cells, parted by one blank, and ends with LF"),
    (b"G7  G5\nG6\n", "not chains: each line is names of cells, parted by one blank, and ends with LF"),
    (b"G7 G5\n\nG6\n", "not chains: each line is names of cells, parted by one blank, and ends with LF"),
    (b"G5 G6 G7\r\n", "not chains: each line is names of cells, parted by one blank, and ends with LF"),
    (b"G5,G6,G7\n", "not chains: each line is names of cells, parted by one blank, and ends with LF"),
    (b"G5 G5\nG8\n", "no cell: G8"),
    (b"G5 G6\nG17\n", "no cell: G17"),
    (b"G7 G5\nG7\n", "a cell stands twice: G7"),
    (b"G7 G5\n", "a cell is left out: G6"),
    (b"", "a cell is left out: G5"),
    (b"G7\nG5 G6\n", "uneven chains: none may have two cells more than another, and the longer ones come first"),
)


def test_refused_orders():
    for text, cause in REFUSED:
        assert ordered(S27, text) == (1, f"order_cells: chains: {cause}\n", None), text
    many = b"".join(f"q{k}\n".encode() for k in range(257))
    with tempfile.NamedTemporaryFile(suffix=".bench") as net:
        net.write(b"INPUT(a)\nOUTPUT(a)\n" + b"".join(f"q{k} = DFF(a)\n".encode() for k in range(257)))
        net.flush()
        assert ordered(net.name, many) == (1, "order_cells: chains: more than 256 chains\n", None)


def test_orders():
    """Scanned by the number of lines the chains are those of the file, and all else is as it was."""
    draw = random.Random(1)
    netlist = plain_design.read(UART.read_bytes())
    for count in (1, 2, 3, 8, 36, 37):
        cells = draw.sample(netlist.cells, len(netlist.cells))
        chains = plain_design.chains_of(cells, count)
        text = "".join(" ".join(chain) + "\n" for chain in chains).encode()
        status, said, new = ordered(UART, text)
        assert (status, said) == (0, f"new.bench: cells 37 chains {count}\n")
        made = plain_design.read(new)
        assert plain_design.canonical(made) == new
        assert plain_design.chains_of(made.cells, count) == chains
        assert (made.inputs, made.outputs, made.kind, made.pins) == (netlist.inputs, netlist.outputs, netlist.kind, netlist.pins)
        assert [name for name in made.signals if made.kind.get(name) != "DFF"] == [name for name in netlist.signals if netlist.kind.get(name) != "DFF"]


def test_nothing_to_order():
    c17 = ROOT / "examples/c17.bench"
    assert ordered(c17, b"") == (0, "new.bench: cells 0 chains 0\n", plain_design.canonical(plain_design.read(c17.read_bytes())))
    assert ordered(c17, b"N1\n") == (1, "order_cells: chains: no cell: N1\n", None)
