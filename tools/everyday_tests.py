"""Tests of tools/try_guide, tools/run_many and tools/explain. tools/test_tools runs them."""

import contextlib
import os
import pathlib
import pty
import re
import shutil
import subprocess
import tempfile

import plain_design
from launcher_tests import tree

ROOT = pathlib.Path(__file__).resolve().parent.parent


# tools/try_guide, on guides of its own.

GUIDE = """# A guide

```console
$ echo one; echo two >&2
one
two
$ printf '%s\\n' 'a $ b' \\
    "c d"
a $ b
c d
$ seq 1 5
1
...
5
$ true
```

```sh
$ echo not run
```

```console
$ echo 'not built yet'; echo status 2
checked 5 faults
$ yosys_that_is_not_there() { echo "error: unrecognized subcommand 'diagnose'"; }; yosys_that_is_not_there
candidates 1
$ echo five
```
"""


def tried(text, *words):
    """What try_guide says of a guide, and the guide afterwards."""
    with tempfile.TemporaryDirectory() as name:
        path = pathlib.Path(name) / "guide.md"
        path.write_text(text)
        done = subprocess.run([ROOT / "tools/try_guide", *words, path], capture_output=True, text=True)
        return done.returncode, done.stdout, path.read_text()


def test_try_guide():
    """Commands run in order; what they print is compared with what is shown, and may be put there."""
    status, said, _ = tried(GUIDE)
    assert status == 0 and said.count("the program doesn't have the command yet") == 2, said
    assert "line 27 doesn't show what this prints" in said and "$ echo five" in said, said
    assert "5 commands run, 2 left out, 1 not shown, 6 lines compared, 0 commands printed something else" in said, said
    status, said, text = tried(GUIDE, "--write")
    assert status == 0 and text == GUIDE.replace("$ echo five\n", "$ echo five\nfive\n"), text
    assert tried(text)[0] == 0
    status, said, _ = tried(GUIDE.replace("c d\n$ seq", "c e\n$ seq"))
    assert status == 1 and "    c d" in said and "    c e" in said and "1 commands printed something else" in said, said
    assert tried("```console\n$ ./atpg --version\n...\n```\n")[0] in (0, 2)


# The line that shows how far a command is.

COUNTS = {
    "run": r"(\d+) of (\d+) classes settled, (\d+)% detected, (\d+) searches, (\d+) batches, (\d+) s",
    "transition": r"(\d+) of (\d+) faults answered, (\d+) detected, (\d+) s",
    "chaintest": r"(\d+) of (\d+) faults answered, (\d+) detected, (\d+) s",
    "grade": r"(\d+) of (\d+) classes answered, (\d+) detected, (\d+) s",
    "diagnose": r"(\d+) of (\d+) classes answered, (\d+) explain the log, (\d+) s",
}


def built():
    """The program and the kind of designs that take it a moment: as `rt ci` has built it, else as ./build or ./atpg has, of these sources."""
    ours = ROOT / "crates/atpg_main/out/atpg_main"
    if ours.exists():
        return ours, "datapath"
    total = subprocess.run([ROOT / "tools/source_sum"], capture_output=True, text=True).stdout
    for program, kind in ((ROOT / "built/atpg", "datapath"), (ROOT / "built/unproved/atpg", "mixed")):
        sources = program.with_name("atpg.sources")
        if program.exists() and sources.exists() and sources.read_text() == total:
            return program, kind
    return None, None


def said_by(program, folder, *words, progress=None):
    """Standard output and error of a command, the program's own."""
    more = {} if progress is None else {"ATPG_PROGRESS": progress}
    done = subprocess.run([program, *words], cwd=folder, capture_output=True,
                          env={word: value for word, value in os.environ.items() if not word.startswith("ATPG_")} | more)
    assert done.returncode == 0, done
    return done.stdout.decode(), done.stderr.decode()  # as bytes: a text's ends of line would be made alike


def counts_in(command, shown):
    """The counts of each line. Nothing else is shown, and it goes away at the end; no count ever falls, and one of them is the same in all."""
    line = re.compile(r"\n\x1b\[\?7l" + COUNTS[command] + r"\x1b\[\?7h\x1b\[K\r\x1b\[1A")
    found = [[int(count) for count in each] for each in line.findall(shown)]
    assert found and line.sub("", shown) == "\x1b[J", shown
    for counts in zip(*found):
        assert list(counts) == sorted(counts), counts
    assert all(each[0] <= each[1] == found[0][1] for each in found), found
    return found


def on_a_terminal(program, folder):
    """What a run shows where its standard error is a terminal."""
    ours, its = pty.openpty()
    child = subprocess.Popen([program, "run", "long.bench", "long"], cwd=folder, stdout=subprocess.DEVNULL, stderr=its)
    os.close(its)
    shown = b""
    with contextlib.suppress(OSError):  # the terminal's end
        while piece := os.read(ours, 4096):
            shown += piece
    os.close(ours)
    assert child.wait() == 0
    return shown.decode().replace("\r\n", "\n")


def made(folder, kind, size):
    """A design of this size as long.bench."""
    subprocess.run([ROOT / "bench/measure/make_circuits.py", "--into", folder, f"{kind}:{size}"], capture_output=True, check=True)
    (folder / f"{kind}_{size}.bench").replace(folder / "long.bench")


def long_designs(folder, kind):
    """Makes long.bench, each time twice as large as the one before: a line is shown of the first that takes a command a moment, which other processes and workers make another one."""
    for power in range(14):
        made(folder, kind, 2**power)
        yield 2**power


def shown_of(program, folder, kind, words):
    """What is said and shown of the first design that takes the command a moment. A run shows nothing while patterns are drawn, so its design is one of
    which these leave redundant faults."""
    for _ in long_designs(folder, "mixed" if words[0] == "run" else kind):
        said_by(program, folder, "run", "long.bench", "long")
        said, shown = said_by(program, folder, *words, progress="1")
        if shown:
            return said, shown
    raise AssertionError(f"{words}: no line is shown")


def test_progress():
    """Counts go up to all that there is, the line goes away at the end, and nothing is shown where it isn't asked for."""
    program, kind = built()
    if program is None:
        return "ok, but there is no build: the line wasn't looked at"
    with tempfile.TemporaryDirectory() as name:
        folder = pathlib.Path(name)
        (folder / "long.log").write_text("atpg fail log 1\n")
        for words in (("transition", "long.bench", "slow"), ("chaintest", "long.bench", "long.stil"), ("diagnose", "long.bench", "long.stil", "long.log"),
                      ("grade", "long.bench", "long.stil", "long"),
                      ("run", "long.bench", "long")):
            command = words[0]
            said, shown = shown_of(program, folder, kind, words)
            answered, count, detected = counts_in(command, shown)[-1][:3]
            classes = int(said_by(program, folder, "faults", "long.bench")[0].split()[3])
            whole = classes if command in ("run", "diagnose", "grade") else int(said.split()[1])
            assert answered == count and (count <= whole if command == "run" else count == whole), (words, shown)  # run: what drawn patterns leave
            told = int(said.split()[1 if command == "diagnose" else 3])  # a class has several faults, and a pattern detects others too
            assert command == "run" or detected <= told and (detected == 0) == (told == 0), (words, said, shown)
            assert command != "chaintest" or detected == told, (words, said, shown)
            unasked, refused = said_by(program, folder, *words), said_by(program, folder, *words, progress="0")
            assert unasked == refused == (said, ""), (words, unasked, refused, said)
        shown = shown_of(program, folder, kind, ("run", "long.bench", "long", "--workers", "2"))[1]
        settled, count = counts_in("run", shown)[-1][:2]
        assert settled == count > 0, shown
        shown = next(filter(None, (on_a_terminal(program, folder) for _ in long_designs(folder, "mixed"))), "")
        assert re.search(COUNTS["run"], shown), shown


# tools/run_many, with stand-ins for both programs.

RUN = r"""#!/usr/bin/env bash
[ "$(basename "$2")" = bad.bench ] && echo "netlist line 1: BadLine" >&2 && exit 3
for end in net scan stil cert; do echo "$*" >"$3.$end"; done
printf 'atpg report 1\nfaults 4\ndetected 3\naborted 1\nredundant 0\ncoverage 75.00\nefficiency 75.00\npatterns 2\ncycles 9\nstem a/0 aborted\n' >"$3.rep"
echo faults 4
"""

CHECK = r"""#!/usr/bin/env bash
grep -q false "$1.net" && echo "fault stem a/0" && exit 1
echo "checked 4 faults"
"""


SBATCH = r"""#!/usr/bin/env bash
# Runs what is wrapped at once, for each task of an array where there is one, as Slurm would run it later.
echo "$*" >>"$(dirname "$0")/asked"
tasks=1
for word in "$@"; do
    case $word in
        --array=*) tasks=${word#--array=1-}; tasks=${tasks%\%*} ;;
        --output=*) output=${word#--output=} ;;
        --wrap=*) wrapped=${word#--wrap=} ;;
    esac
done
for task in $(seq "$tasks"); do
    (cd / && SLURM_ARRAY_TASK_ID=$task sh -c "$wrapped" >"${output//%a/$task}" 2>&1)
done
echo "$((16 + $(wc -l <"$(dirname "$0")/asked")));cluster"
"""


def test_run_many_by_slurm():
    """An array and a job that waits for it and joins, by a stand-in for sbatch; a task that does several designs."""
    with tree() as made:
        tool, designs, to = ROOT / "tools/run_many", made.folder / "designs", made.folder / "made"
        designs.mkdir()
        for name in ("a", "b", "c"):
            (designs / f"{name}.bench").write_text("INPUT(a)\n")
        status, _, errors = made.run(tool, "designs", "--to", "made", "--slurm")
        assert status == 1 and errors == "run_many: no sbatch on the PATH\n", errors
        made.put(made.bin / "atpg", RUN)
        made.put(made.bin / "check", CHECK)
        made.put(made.bin / "sbatch", SBATCH)
        programs = {"ATPG": str(made.bin / "atpg"), "ATPG_CHECK": str(made.bin / "check")}
        status, said, errors = made.run(tool, "designs", "--to", "made", "--slurm", "--jobs", "2", "--", "--hold", "x y=1", "--workers", "4",
                                        **programs)
        assert status == 0 and said == f"run_many: 3 designs in 3 tasks of job 17; job 18 writes {to}/table when all have ended\n", (said, errors)
        asked = (made.bin / "asked").read_text().splitlines()
        assert "--array=1-3%2 --cpus-per-task=4 " in asked[0] and "--dependency=afterany:17 " in asked[1], asked
        assert [line.split()[0] for line in (to / "table").read_text().splitlines()] == ["design", "a", "b", "c"]
        assert "--hold x y=1" in (to / "c.net").read_text()
        (to / "b.done").unlink()
        status, table, _ = made.run(tool, designs, "--join", to)
        assert status == 1 and table.splitlines()[-1] == "not run: b", table
        for task, stems in ((1, "ac"), (2, "b")):
            part = made.folder / f"part{task}"
            assert made.run(tool, designs, "--to", part, "--task", task, "--of", "2", **programs)[0] == 0
            assert sorted(path.stem for path in part.glob("*.done")) == list(stems)
        made.put(made.bin / "sbatch", "#!/bin/sh\necho 'no partition' >&2\nexit 1\n")
        assert made.run(tool, "designs", "--to", "made", "--slurm")[2] == "run_many: sbatch ended with 1: no partition\n"


def test_run_many():
    """Each design is run and checked, by parallel where it is here; the table has numbers of good files alone."""
    with tree() as made:
        made.put(made.bin / "atpg", RUN)
        made.put(made.bin / "check", CHECK)
        programs = {"ATPG": str(made.bin / "atpg"), "ATPG_CHECK": str(made.bin / "check")}
        designs, to = made.folder / "designs", made.folder / "some" / "made"
        designs.mkdir()
        for name in ("b", "a", "false", "bad"):
            (designs / f"{name}.bench").write_text("INPUT(a)\n")
        tool = ROOT / "tools/run_many"
        for task, status in ((1, 0), (2, 0), (3, 1), (4, 1)):
            assert made.run(tool, designs, "--to", to, "--task", task, "--", "--hold", "x y=1", **programs)[0] == status, task
        assert "--hold x y=1" in (to / "a.net").read_text()
        assert made.run(tool, designs, "--to", to, "--task", "5", **programs)[0] == 1
        status, table, _ = made.run(tool, "--join", to, **programs)
        rows = [re.sub(r" \d+\.\d\d (?=[cN])", " s ", re.sub(r" +", " ", line)) for line in table.splitlines()]
        assert status == 1 and rows[1:] == [
            "a 4 3 0 1 75.00 75.00 2 9 s checked 4 faults", "b 4 3 0 1 75.00 75.00 2 9 s checked 4 faults",
            "bad - - - - - - - - s NOT GOOD: netlist line 1: BadLine", "false - - - - - - - - s NOT GOOD: fault stem a/0"], table
        if shutil.which("parallel") is None:
            return "ok, but for parallel, which isn't here"
        shutil.rmtree(to)
        (designs / "bad.bench").unlink()
        (designs / "false.bench").unlink()
        status, table, errors = made.run(tool, designs, "--to", to, "--jobs", "2", "--", "--hold", "x y=1", **programs)
        assert status == 0 and len(table.splitlines()) == 3 and "--hold x y=1" in (to / "b.net").read_text(), (table, errors)


# tools/explain, on refusals that the plain reader finds.

NO_FORM = "it is none of INPUT(x), OUTPUT(x) and z = GATE(a, b, ..)"
REFUSED = (
    ("INPUT(a)\nOUTPUT(y)\ny = AND(a, Bee)\nbee = NOT(a)\n", ["  y = AND(a, Bee)", "Bee is neither an INPUT nor defined; like it are bee (line 4)"]),
    ("INPUT(a)\nOUTPUT(y)\nOUTPUT(z)\ny = NOT(a)\n", ["  OUTPUT(z)", "z is neither an INPUT nor defined"]),
    ("INPUT(a)\nOUTPUT(y)\ny = AND(a, u)\nu = OR(v, a)\nv = NOT(u)\nw = NOT(a)\n", [
        "  y = AND(a, u)", "gates read one another in a circle, without a DFF between:", "  u (line 4) reads v (line 5) reads u (line 4)",
        "  y reads from it"]),
    ("INPUT(a)\nOUTPUT(y)\ny = NOT(y)\n", ["  y = NOT(y)", "gates read one another in a circle, without a DFF between:",
                                          "  y (line 3) reads y (line 3)"]),
    ("INPUT(a)\nOUTPUT(y)\ny = NAN(a)\n", ["  y = NAN(a)", "NAN is no gate; like it are NAND, AND. Gates are AND, NAND, OR, NOR, XOR, XNOR, NOT, "
                                          "BUFF, DFF, CONST0, CONST1"]),
    ("INPUT(a)\nOUTPUT(y)\ny = NOT(a, a)\n", ["  y = NOT(a, a)", "NOT has 2 pins here, and may have 1"]),
    ("INPUT(a)\nOUTPUT(y)\ny = XOR(a)\n", ["  y = XOR(a)", "XOR has 1 pin here, and may have 2 to 1,024"]),
    ("INPUT(a)\nINPUT(a)\nOUTPUT(a)\n", ["  INPUT(a)", "a is defined on line 1 too: INPUT(a)"]),
    ("INPUT(a)\nOUTPUT(SC__a)\n", ["  OUTPUT(SC__a)", "names that begin with SC__ are for scan insertion: SC__a"]),
    ("INPUT(a)\nOUTPUT(y);\n", ["  OUTPUT(y);", NO_FORM, "no ; stands at the end of a line"]),
    ("INPUT(a)\nOUTPUT(" + "y" * 300 + ")\n", ["  OUTPUT(" + "y" * 300 + ")",
                                             "a name has 300 bytes, and may have 255 (261 where the netlist is read as scanned)"]),
    ("INPUT(a)\nOUTPUT(\"y)\n", ["  OUTPUT(\"y)", "byte 8 is 0x22, which may stand in comments alone"]),
    ("OUTPUT(y)\ny = CONST1()\n", ["no line is an INPUT"]),
    ("INPUT(a)\nOUTPUT(y)\ny = inv(a)\n", ["  y = inv(a)", "INV is no gate; NOT is what is meant, perhaps. Gates are AND, NAND, OR, NOR, XOR, "
                                          "XNOR, NOT, BUFF, DFF, CONST0, CONST1"]),
    ("INPUT(a)\nOUTPUT(y)\ny = vdd\n", ["  y = vdd", NO_FORM, "a constant is written z = CONST1() or z = CONST0()"]),
    ("INPUT(a)\nOUTPUT(y)\ny = GND()\n", ["  y = GND()", "GND is no gate; CONST0 is what is meant, perhaps. Gates are AND, NAND, OR, NOR, XOR, "
                                         "XNOR, NOT, BUFF, DFF, CONST0, CONST1"]),
    ("INPUT(a)\nOUTPUT(y)\ny = LUT 0x1 ( a )\n", ["  y = LUT 0x1 ( a )", NO_FORM, "a table of ABC: its command `write_bench -l` writes gates"]),
    ("// a design\nINPUT(a)\n", ["  // a design", NO_FORM, "a comment begins with #"]),
    ("INPUT(a) // first\n", ["  INPUT(a) // first", NO_FORM, "a comment begins with #"]),
    ("INPUT(a, b)\n", ["  INPUT(a, b)", NO_FORM, "each input and output has a line of its own"]),
    ("\ufeffINPUT(a)\n", ["  \\xef\\xbb\\xbfINPUT(a)", "the file begins with a byte order mark (EF BB BF): save it as plain ASCII, or "
                        "`sed -i '1s/^\\xef\\xbb\\xbf//' NET`"]),
    ("# x\nmodule m(input a);\n  wire b;\nendmodule\n", [
        "  module m(input a);", "this is Verilog, and a .bench netlist is wanted: docs/GUIDE.md makes one of it"]),
    ("STIL 1.0;\nHeader {\n}\n", ["  STIL 1.0;", "this is a STIL file, and a .bench netlist is wanted"]),
    (".model m\n.inputs a\n", ["  .model m", "this is BLIF, and a .bench netlist is wanted: Yosys (read_blif) reads it"]),
    ("entity m is\nend m;\n", ["  entity m is", "this is VHDL, and a .bench netlist is wanted"]),
    ("atpg report 1\ninputs 4\n", ["  atpg report 1", "this is another file of a run, and its netlist is wanted"]),
    ("INPUT(a)\nINPUT(SC__se)\nOUTPUT(a)\nSC__nse = NOT(SC__se)\n", [
        "  INPUT(SC__se)", "names that begin with SC__ are for scan insertion: SC__se",
        "the netlist has scan cells already, as PREFIX.scan does: what is wanted is the netlist before scan insertion, as PREFIX.net"]),
)


def test_explain():
    """The line and what is wrong with it, below what the program says."""
    with tree() as made:
        made.add_rt()
        for number, (text, wanted) in enumerate(REFUSED):
            path = made.folder / f"{number}.bench"
            path.write_text(text)
            try:
                plain_design.read(text.encode())
            except plain_design.Refusal as why:
                line = str(why)
            made.put(made.root / "atpg", f"#!/bin/sh\necho '{line}' >&2\nexit 3\n")
            status, out, errors = made.run(made.root / "tools/explain", path)
            assert (status, out, errors.splitlines()) == (3, "", [line, *wanted]), (text, errors)
            assert made.run(made.root / "tools/explain", "--of", line, path) == (0, "\n".join(wanted) + "\n", ""), text
        made.put(made.root / "atpg", "#!/bin/sh\necho faults 2 classes 2\n")
        assert made.run(made.root / "tools/explain", "x") == (0, "x: read as a netlist\n", "")
