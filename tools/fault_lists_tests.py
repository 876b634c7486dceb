"""Tests of tools/fault_lists. tools/test_tools runs them. What has to come was worked out by hand."""

import pathlib
import subprocess
import tempfile

import fault_list
from run_files import HEADER, SHARES

ROOT = pathlib.Path(__file__).resolve().parent.parent
S27 = ROOT / "examples/s27.bench"

# The lines of s27, a signal's together, as Atalanta names them.
OF_S27 = """G0  G1  G2  G3  G5  G6  G7  G14 G14->G8 G14->G10  G17  G8 G8->G15 G8->G16  G15  G16  G9  G10
G11 G11->G6 G11->G17 G11->G10  G12 G12->G15 G12->G13  G13"""
BRANCHES_OF_S27 = {"G14->G8": "pin G8 0", "G14->G10": "pin G10 0", "G8->G15": "pin G15 1", "G8->G16": "pin G16 1", "G11->G6": "pin G6 0",
                   "G11->G17": "pin G17 0", "G11->G10": "pin G10 1", "G12->G15": "pin G15 0", "G12->G13": "pin G13 1"}

# An output that is an input, a gate that reads it twice, a cell that is read by a gate and an output, and one that reads itself alone.
ODD = """INPUT(a)
INPUT(b)
OUTPUT(a)
OUTPUT(z)
OUTPUT(q)
q = DFF(x)
r = DFF(r)
x = AND(a, a, q)
z = OR(x, b)
"""
OF_ODD = {"stem a": "a", "pin x 0": "a->x", "pin x 1": "a->x", "out a": None, "stem b": "b", "stem q": "q", "pin x 2": "q->x", "out q": None,
          "stem r": "r", "stem x": "x", "pin q 0": "x->q", "pin z 0": "x->z", "stem z": "z"}
REPORT = "atpg report 1\n" + "".join(f"{word} {'0.00' if word in SHARES else 0}\n" for word in HEADER)
VERDICTS = "hold b 1\nstem a/0 detected 3 17 q\nstem b/1 redundant\npin q 0/1 aborted\nstem z/0 detected 0 4 z\npin x 2/0 redundant\n"


def with_bits(lines, mark):
    return [f"{line}{mark}{bit}" for line in lines for bit in (0, 1)]


class Asked:
    """tools/fault_lists on a netlist in a folder of its own, with lists by their names."""

    def __init__(self, folder, text):
        self.folder, self.net = pathlib.Path(folder), pathlib.Path(folder) / "odd.bench"
        self.net.write_text(text)

    def __call__(self, command, *words, given="", **lists):
        """The status, the lines printed and the errors, without the folder's name."""
        for name, text in lists.items():
            (self.folder / name).write_text(text if isinstance(text, str) else "\n".join([*text, ""]))
        done = subprocess.run([ROOT / "tools/fault_lists", command, self.net, *words], capture_output=True, text=True, input=given, cwd=self.folder)
        return done.returncode, done.stdout.splitlines(), done.stderr.replace(f"{self.folder}/", "")

    def refused(self, why, command, *words, **more):
        """It ends with 2 and this line, and prints nothing."""
        found = self(command, *words, **more)
        assert found == (2, [], f"fault_lists: {why}\n"), found


def test_fault_lists():
    """s27 whole, by hand, both ways; an example's universe comes back whole but for branches to outputs."""
    with tempfile.TemporaryDirectory() as folder:
        asked = Asked(folder, S27.read_text())
        theirs = with_bits(OF_S27.split(), " /")
        ours = with_bits([BRANCHES_OF_S27.get(name, f"stem {name}") for name in OF_S27.split()], "/")
        listed = list(fault_list.fault_list(S27.read_text()))
        assert len(ours) == 52 and asked("to-atalanta", given="\n".join(listed)) == asked("to-atalanta", "-", given="\n".join(ours)) == (0, theirs, "")
        assert asked("from-atalanta", "theirs", theirs=theirs) == (0, ours, "")
        assert asked("compare", "ours", "theirs", ours=listed) == (0, ["ours 52 theirs 52 both 52", "only ours 0", "only theirs 0"], "")
        for name in ("c17", "uart"):
            text = (ROOT / f"examples/{name}.bench").read_text()
            asked.net.write_text(text)
            faults = [line.rpartition(" class ")[0] for line in list(fault_list.fault_list(text))[1:]]
            status, theirs, errors = asked("to-atalanta", "--leave-out", given="\n".join(faults))
            assert status == 0 and errors.splitlines() == [f"fault_lists: left out: {fault}" for fault in faults if fault.startswith("out ")], errors
            assert asked("from-atalanta", given="\n".join(theirs)) == (0, [fault for fault in faults if not fault.startswith("out ")], "")


def test_fault_lists_of_odd_lines():
    """A gate that reads a signal twice, an output that is an input, cells; blanks, comments, repeated lines, and a pin that is its stem."""
    with tempfile.TemporaryDirectory() as folder:
        asked = Asked(folder, ODD)
        ours = with_bits(OF_ODD, "/")
        assert ours == [line.rpartition(" class ")[0] for line in list(fault_list.fault_list(ODD))[1:]]
        theirs = with_bits([name for name in dict.fromkeys(OF_ODD.values()) if name], " /")
        asked.refused("4 of 26 faults have no text of Atalanta's, as out a/0; --leave-out leaves them out", "to-atalanta", "ours", ours=ours)
        left = [f"fault_lists: left out: {fault}\n" for fault in ("out a/0", "out a/1", "out q/0", "out q/1")]
        assert asked("to-atalanta", "ours", "--leave-out") == (0, theirs, "".join(left))
        back = ours[:2] + ["pin x 0/0", "pin x 1/0", "pin x 0/1", "pin x 1/1"] + [fault for fault in ours[6:] if not fault.startswith("out ")]
        assert asked("from-atalanta", "theirs", theirs=theirs) == (0, back, "")
        asked.refused("1 of 2 faults have no text of Atalanta's, as pin x 1/1; --leave-out leaves them out", "to-atalanta",
                      given="pin x 1/1\nstem b/0\n")
        assert asked("to-atalanta", given="pin x 1/1\nstem b/0\npin x 0/1\nstem b/0") == (0, ["a->x /1", "b /0"], "")
        assert asked("from-atalanta", given="# theirs\n\n b->z /1 # its stem\r\nr->r/0\nx -> q / 1\nb /1\na->x /0") == (
            0, ["stem b/1", "stem r/0", "pin q 0/1", "pin x 0/0", "pin x 1/0"], "")
        assert asked("from-atalanta") == asked("to-atalanta") == (0, [], "")


def test_fault_lists_of_reports():
    """All faults of a report, and those that are asked for."""
    with tempfile.TemporaryDirectory() as folder:
        asked = Asked(folder, ODD)
        theirs = ["a /0", "b /1", "x->q /1", "z /0", "q->x /0"]
        assert asked("to-atalanta", "rep", rep=REPORT + VERDICTS) == (0, theirs, "")
        for only, places in (("detected", [0, 3]), ("redundant", [1, 4]), ("aborted", [2]), ("undetected", [1, 2, 4])):
            assert asked("to-atalanta", "--only", only, given=REPORT + VERDICTS) == (0, [theirs[place] for place in places], "")
        assert asked("compare", "rep", "theirs", "--only", "undetected", theirs=["b /1", "q->x /0", "x->q /1"])[:2] == (
            0, ["ours 3 theirs 3 both 3", "only ours 0", "only theirs 0"])
        asked.refused("--only asks for a report, which standard input isn't", "to-atalanta", "--only", "aborted", given="stem a/0\n")
        asked.refused("rep line 18: 'stem y/0' names no fault of odd.bench", "to-atalanta", "rep", rep=REPORT + "stem y/0 aborted\n")
        asked.refused("rep line 19: no fault's line: stem z/0", "to-atalanta", "rep", rep=REPORT + "stem b/0 aborted\nstem z/0\n")
        asked.refused("rep line 18: no fault's line: 'stem z/0 detected 1 x z'", "to-atalanta", "rep", rep=REPORT + "stem z/0 detected 1 x z\n")
        asked.refused("rep is a report of slow lines, and faults are stuck lines here", "to-atalanta", "rep",
                      rep=REPORT.replace("report", "transition") + "stem a rise aborted\n")


def test_fault_lists_compared():
    """Alone as faults and as classes: pin x 0/0 is equivalent to stem x/0, and stem b/1 to stem z/1."""
    with tempfile.TemporaryDirectory() as folder:
        asked = Asked(folder, ODD)
        lists = {"ours": "stem b/1\npin x 0/0\nout a/0\nstem a/0\n", "theirs": "z /1\nx /0\nstem a/1\na /0\na /0\n"}
        assert asked("compare", "ours", "theirs", **lists) == (1, [
            "ours 4 theirs 4 both 1", "only ours 3", "pin x 0/0", "out a/0", "stem b/1", "only theirs 3", "stem a/1", "stem x/0", "stem z/1"], "")
        assert asked("compare", "ours", "theirs", "--classes") == (1, [
            "ours 4 theirs 4 both 1", "classes ours 4 theirs 4 both 3", "only ours 1 classes 1", "out a/0", "only theirs 1 classes 1", "stem a/1"], "")
        assert asked("compare", "--classes", "ours", "-", given="out a/0\nx->z /1\nq->x /0\na /0\n") == (
            0, ["ours 4 theirs 4 both 2", "classes ours 4 theirs 4 both 4", "only ours 0 classes 0", "only theirs 0 classes 0"], "")
        asked.refused("one of the two lists alone can be standard input", "compare", "-", "-")


def test_fault_lists_refuse():
    """A line that names no fault, by its number; a name that may mean two lines; a netlist that is refused, and files that aren't there."""
    with tempfile.TemporaryDirectory() as folder:
        asked = Asked(folder, ODD)
        for text in ("b->x /0", "z->x /0", "y /0", "a /2", "a", "stem a/0", "a->x->z /0", "x->a /0", "A /0", "a->x\t/0 class 1 2", "\x1b/0"):
            asked.refused(f"theirs line 2: {ascii(text)} names no fault of odd.bench", "from-atalanta", "theirs", theirs=f"a /0\n{text}\n")
        for text in ("a /0", "stem b /0", "pin z 1/0", "out z/0", "pin x 3/0", "stem a", "pin x 00/1"):
            asked.refused(f"standard input line 3: {ascii(text)} names no fault of odd.bench", "to-atalanta", given=f"stem a/0\n\n{text}\n")
        numbers = ", ".join(str(number) for number in range(2, 12))
        asked.refused(f"standard input line 1: 'y' names no fault of odd.bench; also lines {numbers}, ..", "from-atalanta", given="y\n" * 12)
        asked.refused("standard input line 1: 'y' names no fault of odd.bench; also line 3", "from-atalanta", given="y\na /0\ny\n")
        asked.refused("[Errno 2] No such file or directory: 'none'", "from-atalanta", "none")
        asked.net.write_text("INPUT(a)\nINPUT(a->z)\nOUTPUT(z)\nOUTPUT(y)\nz = NOT(a)\ny = AND(a->z, a)\n")
        asked.refused("standard input line 1: 'a->z /0' may mean two lines of odd.bench", "from-atalanta", given="a->z /0\n")
        asked.refused("2 of 3 faults have no text of Atalanta's, as pin z 0/1; --leave-out leaves them out", "to-atalanta",
                      given="stem z/1\npin z 0/1\nstem a->z/1\n")
        assert asked("from-atalanta", given="a->z->y /1\na /0\na->y /1\n") == (0, ["stem a->z/1", "stem a/0", "pin y 1/1"], "")
        asked.net.write_text("INPUT(a)\nOUTPUT(y)\ny = FOO(a)\n")
        asked.refused("odd.bench: netlist line 3: UnknownGate", "from-atalanta")
