"""Tests of the two programs as they are built, over real files: words, files, both outputs and the status. tools/test_tools runs them.

The gate's stored runs have one run for each program and compare standard output and status alone. What has to come is worked out by the plain
programs of bench/oracle. They run what `rt ci` has built; .ci/run fails where it has built none.
"""

import itertools
import pathlib
import re
import subprocess
import tempfile

import check_places
import fault_list
import plain_check
import plain_design
import plain_play
import plain_refutation
import plain_transition
from sample_netlist import bench_text

ROOT = pathlib.Path(__file__).resolve().parent.parent
NO_PROGRAM = "left out: rt ci has built no program"
CELL = b"INPUT(a)\nOUTPUT(q)\nq = DFF(a)\n"


def program(crate):
    """Where `rt ci` has built a program."""
    return ROOT / "crates" / crate / "out" / crate


def expect(folder, crate, words, *wanted):
    """The program has to say this in a folder: status, standard output, standard error."""
    ended = subprocess.run([program(crate), *words], cwd=folder, stdin=subprocess.DEVNULL, capture_output=True, timeout=60)
    said = ended.returncode, ended.stdout.decode(), ended.stderr.decode()
    assert said == wanted, f"{crate} {' '.join(words)}: {said}"


def put_files(folder, prefix, files):
    for end, text in files.items():
        (folder / f"{prefix}.{end}").write_bytes(text)


def good_files(text, asked=1, held=None):
    netlist = plain_design.read(text)
    return plain_check.make(netlist, plain_design.chains_of(netlist.cells, asked), 2048, held or {}, 200, 1)


def example(name):
    return (ROOT / "examples" / f"{name}.bench").read_bytes()


def line_with(text, begin):
    return next(line for line in text.splitlines(True) if line.startswith(begin))


def test_check_program_of_good_files():
    """Two designs, one of them with two chains and a held input: each has its own number of faults."""
    if not program("check_main").exists():
        return NO_PROGRAM
    with tempfile.TemporaryDirectory() as room:
        folder = pathlib.Path(room)
        put_files(folder, "c17", good_files(example("c17")))
        put_files(folder, "held", good_files(example("s27"), 2, {"G1": 1}))
        expect(folder, "check_main", ["c17"], 0, "checked 34 faults\n", "")
        expect(folder, "check_main", ["held"], 0, "checked 52 faults\n", "")


def test_check_program_of_false_files():
    """A report that is changed at its first fault, and at a later one; a scanned netlist that is changed."""
    if not program("check_main").exists():
        return NO_PROGRAM
    files = good_files(example("s27"))
    first, later = (line_with(files["rep"], begin) for begin in (b"stem G0/0 ", b"stem G8/1 "))
    with tempfile.TemporaryDirectory() as room:
        folder = pathlib.Path(room)
        for end, old, new, answer in (("rep", first, first + first, "fault stem G0/0\n"), ("rep", later, b"stem G8/1 redundant\n", "fault stem G8/1\n"),
                                      ("scan", b"SC__nse = NOT(SC__se)\n", b"", "scan differs\n")):
            assert old in files[end], old
            put_files(folder, "s27", files | {end: files[end].replace(old, new, 1)})
            expect(folder, "check_main", ["s27"], 1, answer, "")


def test_check_program_of_files_that_are_refused():
    """A file that isn't there, one that is none of its kind, no word, and one word too many."""
    if not program("check_main").exists():
        return NO_PROGRAM
    with tempfile.TemporaryDirectory() as room:
        folder = pathlib.Path(room)
        put_files(folder, "cell", good_files(CELL))
        (folder / "cell.cert").unlink()
        expect(folder, "check_main", ["cell"], 7, "", "no such file: cell.cert\n")
        (folder / "cell.cert").write_bytes(b"atpg certificate 2\n")
        expect(folder, "check_main", ["cell"], 4, "", "not a certificate\n")
        expect(folder, "check_main", [], 2, "", "usage: atpg-check PREFIX\n")
        expect(folder, "check_main", ["cell", "cell"], 2, "", "usage: atpg-check PREFIX\n")


def test_program_refuses():
    """Each refusal has its status, its line on standard error, and nothing on standard output; no file is made."""
    if not program("atpg_main").exists():
        return NO_PROGRAM
    with tempfile.TemporaryDirectory() as room:
        folder = pathlib.Path(room)
        (folder / "loop.bench").write_bytes(b"INPUT(a)\nOUTPUT(y)\ny = AND(a, y)\n")
        for words, status, line in ((["run", "none.bench", "p"], 7, "no such file: none.bench\n"), (["faults", "loop.bench"], 3, "netlist line 3: Loop\n"),
                                    (["run", "loop.bench", "p", "--hold", "a=2"], 2, "bad hold\n")):
            expect(folder, "atpg_main", words, status, "", line)
        assert sorted(path.name for path in folder.iterdir()) == ["loop.bench"]


def test_program_answers():
    """What is printed goes to standard output alone, with the status: a list of faults, a scanned netlist in its file, a test that fails."""
    if not program("atpg_main").exists():
        return NO_PROGRAM
    netlist = plain_design.read(CELL)
    chains = plain_design.chains_of(netlist.cells, 1)
    scanned = plain_design.scanned(netlist, chains)
    items = plain_design.items_of(netlist, chains, [{"a": 0, "q": 1}])
    cycle, pin, _ = next(plain_play.unmet(scanned, plain_design.cycles_of(netlist, chains, items), ("stem q", 0)))
    with tempfile.TemporaryDirectory() as room:
        folder = pathlib.Path(room)
        (folder / "cell.bench").write_bytes(CELL)
        (folder / "cell.stil").write_bytes(plain_design.stil_text(netlist, chains, {}, items))
        listed = "".join(line + "\n" for line in fault_list.fault_list(CELL.decode()))
        expect(folder, "atpg_main", ["faults", "cell.bench"], 0, listed, "")
        expect(folder, "atpg_main", ["scan", "cell.bench", "cell.scan"], 0, "cells 1 chains 1\n", "")
        assert (folder / "cell.scan").read_bytes() == plain_design.canonical(scanned)
        expect(folder, "atpg_main", ["play", "cell.scan", "cell.stil"], 0, "passes\n", "")
        words = ["play", "cell.scan", "cell.stil", "--fault", "stem q/0"]
        expect(folder, "atpg_main", words, 1, f"fails at cycle {cycle} signal {pin}\n", "")


def said_of_faults(report):
    """What a report says of each fault: detected, redundant, aborted or unasked."""
    return {found[1]: found[2] for found in re.finditer(r"^(.*/[01]) (detected|redundant|aborted|unasked)", report, re.M)}


def run_program(folder, *words):
    """What a run prints; `check` takes its files."""
    said = subprocess.run([program("atpg_main"), "run", *words], cwd=folder, check=True, capture_output=True, timeout=60).stdout.decode()
    faults = said.split(" ")[1]
    expect(folder, "atpg_main", ["check", words[1]], 0, f"checked {faults} faults\n", "")
    return said


def test_program_asks_for_the_faults_of_a_list():
    """Of s27's faults every seventh, in backward order and some twice, by each search and by several workers: of these the report says what it says where
    all are asked for, of the others that nobody asked. A list of all says the same as none."""
    if not program("atpg_main").exists():
        return NO_PROGRAM
    universe = [f"{line}/{stuck}" for line, stuck in plain_design.universe(plain_design.read(example("s27")))]
    with tempfile.TemporaryDirectory() as room:
        folder = pathlib.Path(room)
        (folder / "s27.bench").write_bytes(example("s27"))
        (folder / "all").write_text("\n".join(universe))
        run_program(folder, "s27.bench", "whole", "--limit", "128")
        run_program(folder, "s27.bench", "all", "--limit", "128", "--faults", "all")
        assert all((folder / f"whole.{end}").read_bytes() == (folder / f"all.{end}").read_bytes() for end in plain_check.ENDS)
        for begin, ways in enumerate(([], ["--workers", "3"], ["--engine", "fan"], ["--engine", "clauses"], ["--then", "clauses", "--workers", "3"])):
            asked = universe[begin::7]
            (folder / "list").write_text("".join(fault + "\n" for fault in [*reversed(asked), asked[0]]))
            run_program(folder, "s27.bench", "p", "--limit", "2048", "--faults", "list", *ways)
            assert said_of_faults((folder / "p.rep").read_text()) == {fault: "detected" if fault in asked else "unasked" for fault in universe}, ways


def test_program_stops_where_enough_is_detected():
    """An AND of 200 inputs needs a test for each of them. Where a tenth of its faults is enough, or of half of them a fifth, most are left; where all are to
    be detected, none."""
    if not program("atpg_main").exists():
        return NO_PROGRAM
    inputs = [f"i{k}" for k in range(200)]
    gate = "".join(f"INPUT({name})\n" for name in inputs) + f"OUTPUT(y)\ny = AND({', '.join(inputs)})\n"
    with tempfile.TemporaryDirectory() as room:
        folder = pathlib.Path(room)
        (folder / "and.bench").write_text(gate)
        (folder / "half").write_text("".join(f"stem {name}/1\n" for name in inputs[::2]))
        for percent, words in ((10, []), (10, ["--workers", "3"]), (20, ["--faults", "half"])):
            run_program(folder, "and.bench", "p", "--coverage", str(percent), *words)
            said = said_of_faults((folder / "p.rep").read_text())
            asked = [fault for fault in said if not words[-1:] == ["half"] or fault.endswith("/1") and fault[6:-2].isdigit() and int(fault[6:-2]) % 2 == 0]
            detected = sum(said[fault] == "detected" for fault in asked)
            assert percent * len(asked) <= 100 * detected < 100 * len(asked), (percent, words, detected)
            assert all(said[fault] in ("detected", "unasked") for fault in asked) and all(said[fault] == "unasked" for fault in said if fault not in asked)
        run_program(folder, "and.bench", "p")
        run_program(folder, "and.bench", "q", "--coverage", "100", "--workers", "3")
        assert set(said_of_faults((folder / "q.rep").read_text()).values()) == {"detected"}


def test_program_begins_with_a_test():
    """A run that begins with the test of another one says the same, by any search, limit and number of workers, where rounds by another seed don't
    make its patterns fewer. One that begins with the test of a part of the faults detects these by the same patterns or fewer, and all others too; where
    what they detect is enough, nothing else is searched."""
    if not program("atpg_main").exists():
        return NO_PROGRAM
    with tempfile.TemporaryDirectory() as room:
        folder = pathlib.Path(room)
        (folder / "s27.bench").write_bytes(example("s27"))
        (folder / "some").write_text("stem G17/0\nstem G17/1\n")
        whole = run_program(folder, "s27.bench", "p", "--limit", "128", "--chains", "2")
        for words in (["--with", "p"], ["--with", "p.stil", "--engine", "fan", "--compact", "0"], ["--with", "p", "--workers", "3", "--seed", "9", "--compact", "0"]):
            assert run_program(folder, "s27.bench", "q", "--limit", "128", "--chains", "2", *words) == whole, words
            assert all((folder / f"p.{end}").read_bytes() == (folder / f"q.{end}").read_bytes() for end in plain_check.ENDS), words
        part = run_program(folder, "s27.bench", "part", "--limit", "128", "--faults", "some")
        run_program(folder, "s27.bench", "more", "--limit", "128", "--with", "part")
        assert set(said_of_faults((folder / "more.rep").read_text()).values()) == {"detected"}
        assert run_program(folder, "s27.bench", "few", "--limit", "128", "--faults", "some", "--with", "part", "--coverage", "1") == part


def wide_and():
    """An AND of 200 inputs, which needs a test for each, in halves, and beside them gates of which half the faults are redundant: several batches of tests, and
    classes between them that have none."""
    inputs = [f"i{k}" for k in range(200)]
    text = "".join(f"INPUT({name})\n" for name in inputs) + "OUTPUT(y)\n" + "".join(f"OUTPUT(z{k})\n" for k in range(99))
    for k in range(99):
        text += f"a{k} = AND(i{k}, i{k + 1})\nz{k} = OR(i{k}, a{k})\n"
    return text + f"low = AND({', '.join(inputs[:100])})\nhigh = AND({', '.join(inputs[100:])})\ny = AND(low, high)\n"


def shared_ands():
    """Sixteen gates of 150 of 166 inputs: some 150 patterns, more than a word has, to which more than 512 faults are left, so that what these need is traced by
    several workers."""
    text = "".join(f"INPUT(i{k})\n" for k in range(166)) + "".join(f"OUTPUT(y{k})\n" for k in range(16))
    for k in range(16):
        text += f"y{k} = {('AND', 'NAND', 'OR', 'NOR')[k % 4]}({', '.join(f'i{pin}' for pin in range(k, k + 150))})\n"
    return text


def test_program_makes_the_same_files_by_any_number_of_workers():
    """Two designs, by each search that owes its answer to the fault alone, with fewer patterns and without, also until enough is detected."""
    if not program("atpg_main").exists():
        return NO_PROGRAM
    with tempfile.TemporaryDirectory() as room:
        folder = pathlib.Path(room)
        for name, text in (("and", wide_and()), ("ands", shared_ands())):
            (folder / f"{name}.bench").write_text(text)
            for ways in ([], ["--engine", "fan", "--compact", "0"], ["--coverage", "60", "--limit", "1"]):
                whole = run_program(folder, f"{name}.bench", "p", *ways)
                for workers in ("2", "4", "5", "64"):
                    assert run_program(folder, f"{name}.bench", "q", "--workers", workers, *ways) == whole, (name, workers, ways)
                    same = all((folder / f"p.{end}").read_bytes() == (folder / f"q.{end}").read_bytes() for end in plain_check.ENDS)
                    assert same, (name, workers, ways)


def test_program_detects_as_often_as_asked():
    """With --detect N each fault of two small designs is detected by N different patterns, or by all that there are: so a plain program counts, of all
    patterns and of those of the test. It takes the five files, also where an input is held, some faults aren't asked for or several workers search. With
    1 they are what they are without the option."""
    if not program("atpg_main").exists():
        return NO_PROGRAM
    with tempfile.TemporaryDirectory() as room:
        folder = pathlib.Path(room)
        for name, times in itertools.product(("c17", "s27"), (2, 3, 10)):
            (folder / f"{name}.bench").write_bytes(example(name))
            netlist = plain_design.read(example(name))
            sources = netlist.inputs + netlist.cells
            every = [dict(zip(sources, bits)) for bits in itertools.product((0, 1), repeat=len(sources))]
            run_program(folder, f"{name}.bench", "p", "--detect", str(times))
            files = plain_check.read_files(folder / "p")
            head, _, _ = plain_check.read_report(files["rep"])
            assert head["detect"] == times and head["times"] == plain_check.Situation(netlist, [], {}, every).times(times), (name, times, head["times"])
            patterns = plain_check.patterns_of(plain_design.stil_tokens(files["stil"]), netlist, plain_design.chains_of(netlist.cells, 1), {})
            assert len({tuple(pattern.values()) for pattern in patterns}) == len(patterns), (name, times)
            assert plain_check.check(files)[0] == 0, (name, times)
        (folder / "some").write_text("stem G17/0\nstem G17/1\n")
        for words in (["--hold", "G0=1"], ["--faults", "some"], ["--workers", "3", "--chains", "2", "--engine", "fan"], ["--coverage", "50"]):
            run_program(folder, "s27.bench", "p", "--detect", "3", *words)
            assert plain_check.check(plain_check.read_files(folder / "p"))[0] == 0, words
        run_program(folder, "s27.bench", "p")
        run_program(folder, "s27.bench", "q", "--detect", "1")
        assert all((folder / f"p.{end}").read_bytes() == (folder / f"q.{end}").read_bytes() for end in plain_check.ENDS)


def test_program_splits_places_of_slow_lines():
    """Trees of slow lines that FAN makes split and force only what it may on the two frames in which the line alone is slow. On the first netlist six
    trees don't where those of many lines' netlist are taken; on the other, by the limit of one closed end, 33 searches give up."""
    if not program("atpg_main").exists():
        return NO_PROGRAM
    deep = (ROOT / "bench/oracle/deep_cells.bench").read_bytes()
    with tempfile.TemporaryDirectory() as room:
        folder = pathlib.Path(room)
        for name, text, limit in (("deep", deep, 100), ("sample", bench_text(1, 60).encode(), 100), ("sample", bench_text(1, 60).encode(), 1)):
            (folder / f"{name}.bench").write_bytes(text)
            words = ["transition", f"{name}.bench", name, "--engine", "fan", "--limit", str(limit), "--workers", "3"]
            subprocess.run([program("atpg_main"), *words], cwd=folder, check=True, capture_output=True, timeout=60)
            certificate = (folder / f"{name}.cert").read_text("latin-1")
            count, wrong = check_places.wrong_trees(plain_design.read(text), certificate)
            assert count > 0 and not wrong, (name, limit, count, wrong)


def test_program_settles_slow_lines_by_clauses():
    """Of the slow lines of two small designs clauses leave none aborted at a limit of one closed end, by which next to none is shown redundant by a tree.
    A plain program tries all that the files say, each refutation on the two frames."""
    if not program("atpg_main").exists():
        return NO_PROGRAM
    designs = {"s27": example("s27"), "deep": (ROOT / "bench/oracle/deep_cells.bench").read_bytes()}
    with tempfile.TemporaryDirectory() as room:
        folder = pathlib.Path(room)
        for (name, text), way in itertools.product(designs.items(), (["--engine", "clauses", "--workers", "3"], ["--engine", "fan", "--then", "clauses"])):
            (folder / f"{name}.bench").write_bytes(text)
            words = ["transition", f"{name}.bench", name, "--limit", "1", *way]
            said = subprocess.run([program("atpg_main"), *words], cwd=folder, check=True, capture_output=True, timeout=60).stdout
            assert b" aborted 0 " in said, (words, said)
            files = plain_check.read_files(folder / name)
            assert files["cert"].startswith(b"atpg transition certificate 2\n"), words
            plain_transition.try_files(files)


def test_program_holds_inputs_of_slow_lines():
    """With held inputs as many slow lines of s27 are detected as some pattern that obeys detects. A plain program tries all that the files say, that each
    cycle drives these inputs with their bits among it, and takes them as `check` does; FAN splits and forces what it may."""
    if not program("atpg_main").exists():
        return NO_PROGRAM
    netlist = plain_design.read(example("s27"))
    ways = (["--limit", "64"], ["--limit", "64", "--chains", "2", "--workers", "3"], ["--engine", "fan", "--limit", "65536"], ["--engine", "clauses", "--limit", "1", "--workers", "3"])
    with tempfile.TemporaryDirectory() as room:
        folder = pathlib.Path(room)
        (folder / "s27.bench").write_bytes(example("s27"))
        for held, way in itertools.product(({"G0": 0}, {"G3": 1, "G1": 0}), ways):
            words = ["transition", "s27.bench", "p", "--hold", ",".join(f"{name}={bit}" for name, bit in held.items()), *way]
            said = subprocess.run([program("atpg_main"), *words], cwd=folder, check=True, capture_output=True, timeout=60).stdout.decode()
            detected = sum(map(bool, plain_transition.tests_of(netlist, held)))
            assert said.startswith(f"faults 52 detected {detected} redundant {52 - detected} aborted 0 "), (words, said)
            files = plain_check.read_files(folder / "p")
            assert plain_transition.read_report(files["rep"])[1] == sorted(held.items()), words
            assert plain_transition.try_files(files) == 52 and plain_transition.check(files) == (0, "checked 52 faults"), words
            checked = subprocess.run([program("atpg_main"), "check", "p"], cwd=folder, capture_output=True, timeout=60)
            assert (checked.returncode, checked.stdout) == (0, b"checked 52 faults\n"), words
            if "fan" in way:
                assert not check_places.wrong_trees(netlist, files["cert"].decode(), held)[1], words


def test_program_settles_by_clauses():
    """Of the example datapath, one of whose faults no tree of a hundred closed ends shows redundant, clauses leave none aborted; so do they where PODEM
    has given up. A plain checker takes each refutation, and `check` the five files."""
    if not program("atpg_main").exists():
        return NO_PROGRAM
    netlist = plain_design.read(example("datapath"))
    faults = len(plain_design.universe(netlist))
    with tempfile.TemporaryDirectory() as room:
        folder = pathlib.Path(room)
        (folder / "datapath.bench").write_bytes(example("datapath"))
        for way in (["--engine", "clauses", "--workers", "3"], ["--then", "clauses"]):
            said = subprocess.run([program("atpg_main"), "run", "datapath.bench", "p", *way], cwd=folder, check=True, capture_output=True, timeout=60).stdout
            assert said.startswith(f"faults {faults} ".encode()) and b" aborted 0 " in said, said
            refuted = [line for line in (folder / "p.cert").read_text().splitlines() if " R " in line]
            assert refuted and all(plain_refutation.cause_of(netlist, line, {}) is None for line in refuted), refuted
            expect(folder, "atpg_main", ["check", "p"], 0, f"checked {faults} faults\n", "")
