"""Tests of tools/show_report. tools/test_tools runs them."""

import collections
import html.parser
import importlib.machinery
import importlib.util
import json
import pathlib
import re
import subprocess
import tempfile
import xml.etree.ElementTree

import first_detections
import made_report
import plain_check
import plain_design
import plain_transition
import report_counts
import report_pictures
import run_files

ROOT = pathlib.Path(__file__).resolve().parent.parent
TOOL = ROOT / "tools/show_report"
show_report = importlib.util.module_from_spec(importlib.util.spec_from_loader(
    "show_report", importlib.machinery.SourceFileLoader("show_report", str(TOOL))))
show_report.__loader__.exec_module(show_report)


def counted(report):
    """Each fault line's fault and end."""
    for line in report[17:]:
        found = re.match(r"(.*?)/([01]) (detected|redundant|aborted)\b", line)
        yield found[1], found[3]


def cone_by_walking(design, point):
    """The lines that lead to a point, found by walking back from it: stems, and branches to pins of its gates."""
    signals, waiting = set(), [design.signal_at(point)]
    while waiting:
        name = waiting.pop()
        if name not in signals:
            signals.add(name)
            waiting += design.pins[name] if design.kinds[name] != "DFF" else []
    return lambda line: line == point or line.split(" ")[0] != "out" and line.split(" ")[1] in signals and not (
        line.startswith("pin") and design.kinds[line.split(" ")[1]] == "DFF")


def made_run(folder, bench, name="run", patterns=20):
    made_report.write(bench, folder / name, patterns, 3)
    return folder / name


def counted_report(prefix):
    """The netlist, what is counted of the report, and its head."""
    design = run_files.Design(run_files.beside(prefix, "net"))
    counts = report_counts.Counts(design)
    return design, counts, run_files.read_report(run_files.beside(prefix, "rep"), counts.take)


def test_show_report():
    """Sums by kind and cone are those of the lines, counted again."""
    for example in ("s27", "uart", "fifo"):
        with tempfile.TemporaryDirectory() as folder:
            prefix = made_run(pathlib.Path(folder), ROOT / "examples" / f"{example}.bench")
            design, counts, _ = counted_report(prefix)
            lines = list(counted(pathlib.Path(f"{prefix}.rep").read_text().splitlines()))
            for point, tally in report_counts.cones(design, counts.by_owner):
                leads = cone_by_walking(design, point)
                ends = collections.Counter(end for line, end in lines if leads(line))
                assert [getattr(tally, end) for end in run_files.ENDS] == [ends[end] for end in run_files.ENDS], (example, point)
            assert counts.whole().faults() == len(lines)
            assert sum(len(faults) for faults in counts.untested.values()) == sum(end != "detected" for _, end in lines)


def said_by(*words):
    done = subprocess.run([str(each) for each in words], capture_output=True, text=True)
    return done.returncode, done.stdout, done.stderr


def test_pictures():
    """The pictures are well formed, with trees and without, with patterns and without."""
    with tempfile.TemporaryDirectory() as name:
        folder = pathlib.Path(name)
        prefix = made_run(folder, ROOT / "examples/uart.bench")
        status, said, errors = said_by(TOOL, prefix, "--svg", folder / "pictures")
        assert status == 0 and "run.coverage.svg" in said, errors
        empty = made_run(folder, ROOT / "examples/c17.bench", "empty")
        report = pathlib.Path(f"{empty}.rep")
        head = [re.sub(r"^patterns .*", "patterns 0", line) for line in report.read_text().splitlines()]
        report.write_text("\n".join(re.sub(r" detected .*", " aborted", line) for line in head) + "\n")
        pathlib.Path(f"{empty}.cert").write_text("atpg certificate 1\n")
        status, _, errors = said_by(TOOL, empty, "--svg", folder / "pictures")
        assert status == 0, errors
        pictures = list((folder / "pictures").iterdir())
        assert len(pictures) == 4
        for picture in pictures:
            xml.etree.ElementTree.parse(picture)


def test_bad_reports():
    """What isn't a report is refused in a line."""
    with tempfile.TemporaryDirectory() as name:
        prefix = made_run(pathlib.Path(name), ROOT / "examples/s27.bench")
        good = {end: pathlib.Path(f"{prefix}.{end}").read_text() for end in ("net", "rep", "cert")}
        for end, old, new, why in (("rep", "atpg report 1", "atpg report 5", "no report"), ("rep", "atpg report 1", "atpg report 4", "no line `detect`"),
                                   ("rep", "atpg report 1", "atpg report 3", "no line `unasked`"), ("rep", "classes ", "class ", "no line `classes`"),
                                   ("rep", "stem G0/0 ", "stem G99/0 ", "has no line stem G99"), ("net", "INPUT(G0)", "INPUT G0", "line 1"),
                                   ("cert", "certificate", "report", "no certificate")):
            pathlib.Path(f"{prefix}.{end}").write_text(good[end].replace(old, new, 1))
            status, _, errors = said_by(TOOL, prefix)
            assert status == 1 and why in errors and errors.count("\n") == 1, errors
            pathlib.Path(f"{prefix}.{end}").write_text(good[end])


# The first detections, and what is made of them, on files of the plain program.

def plain_run(folder, bench, chains, held=None, patterns=60, refutes=False):
    """Good files of a small design, an example or a text, and what they are of."""
    netlist = plain_design.read((ROOT / "examples" / bench).read_bytes() if bench.endswith(".bench") else bench.encode())
    dealt = plain_design.chains_of(netlist.cells, chains)
    files = plain_check.make(netlist, dealt, 128, held or {}, patterns, 1, refutes)
    for end, text in files.items():
        (folder / f"run.{end}").write_bytes(text)
    tests = plain_check.patterns_of(plain_design.stil_tokens(files["stil"]), netlist, dealt, held or {})
    return folder / "run", plain_check.Situation(netlist, dealt, held or {}, tests)


def first_by_walking(situation):
    """How many faults each pattern is the first to detect, one pattern at a time."""
    counts = collections.Counter()
    for fault, last in zip(situation.faults, situation.last):
        for k, pattern in enumerate(situation.patterns if last else []):
            sources = {name: pattern[name] for name in situation.netlist.inputs + situation.netlist.cells}
            if plain_design.settled(situation.netlist, sources, 1)[1] != plain_design.settled(situation.netlist, sources, 1, fault)[1]:
                counts[k] += 1
                break
    return counts


def slow_run(folder, bench, held={}):
    """Files of a small design's slow lines, each of which some drawn pattern detects or none at all, and what they are of."""
    netlist = plain_design.read((ROOT / "examples" / bench).read_bytes() if bench.endswith(".bench") else bench.encode())
    chains = plain_design.chains_of(netlist.cells, 1)
    situation = plain_transition.kept(netlist, chains, held, plain_transition.batch_of(netlist, held, 1))
    trees = ["atpg transition certificate 1"]
    for fault, last in zip(situation.faults, situation.last):
        if last is None:
            frames, stuck = plain_transition.frames(netlist, fault)
            trees.append(f"{plain_transition.fault_text(fault)} {' '.join(plain_check.tree_of(frames, stuck, 100_000, held))}")
    (folder / "slow.net").write_bytes(plain_design.canonical(netlist))
    (folder / "slow.stil").write_bytes(plain_transition.stil_of(netlist, chains, held, situation.patterns))
    (folder / "slow.rep").write_text(plain_transition.report_of(situation, 100_000))
    (folder / "slow.cert").write_text("\n".join(trees) + "\n")
    return folder / "slow", situation


def first_slow_by_walking(situation):
    """How many slow lines each pattern is the first to detect, one pattern at a time."""
    counts = collections.Counter()
    for fault in situation.faults:
        detects = (any(plain_transition.packed(situation.netlist, [pattern]).detections(fault)) for pattern in situation.patterns)
        counts.update([k for k, does in enumerate(detects) if does][:1])
    return counts


def check_firsts(prefix, by_walking):
    """Found all at a time as one pattern after the other; and what the report says of the last is looked at."""
    design, counts, head = counted_report(prefix)
    found = first_detections.firsts(prefix, design, head, counts.verdicts)
    assert found == (by_walking, None), prefix
    assert first_detections.firsts(prefix, design, head, counts.verdicts, most=3) is None
    curves = report_counts.curves_of(counts.lasts, found, int(head.numbers["patterns"]))
    assert curves.is_exact and curves.first[-1] == curves.last[-1] == int(head.numbers["detected"])
    report = run_files.beside(prefix, "rep")
    report.write_text(re.sub(r"(stem \S+(?:/0| rise) detected) \d+", r"\1 0", report.read_text(), count=1))
    design, counts, head = counted_report(prefix)
    assert first_detections.firsts(prefix, design, head, counts.verdicts)[1] is not None
    status, said, _ = said_by(TOOL, prefix)
    assert status == 0 and "isn't that of the report" in said


# A shift register that inputs load: most patterns in which a stuck line is seen don't launch it.
LAUNCHED = """INPUT(a)
INPUT(b)
OUTPUT(y)
p = DFF(a)
q = DFF(d)
d = AND(p, b)
y = NAND(q, p)
"""


def test_first_detections():
    for bench, chains, held in (("s27.bench", 1, None), ("s27.bench", 2, {"G0": 1}), ("c17.bench", 1, None)):
        with tempfile.TemporaryDirectory() as name:
            prefix, situation = plain_run(pathlib.Path(name), bench, chains, held)
            check_firsts(prefix, first_by_walking(situation))
    for bench, held in (("s27.bench", {}), ("s27.bench", {"G0": 0}), (LAUNCHED, {}), (LAUNCHED, {"b": 1})):
        with tempfile.TemporaryDirectory() as name:
            prefix, situation = slow_run(pathlib.Path(name), bench, held)
            check_firsts(prefix, first_slow_by_walking(situation))


# Why faults are redundant: worked out by hand for each fault of four small netlists.

TIES = """INPUT(a)
INPUT(b)
OUTPUT(y)
OUTPUT(z)
t = CONST0()
x = AND(a, t)
y = OR(b, x)
u = NOT(a)
n = NOT(a)
z = AND(a, n)
"""
WHY_BY_TIES = {
    "unused": ["pin u 0/0", "pin u 0/1", "stem u/0", "stem u/1"],
    "tied": ["pin x 0/0", "pin x 0/1", "stem t/0", "stem x/0"],
    "redundant in itself": ["stem a/0", "stem a/1", "pin n 0/1", "pin z 0/0", "stem n/0", "stem z/0"],
}

# g is 0, since z is, and since b is held at 0. Where the tree ends at b, nothing tells that z would do.
HELD = """INPUT(a)
INPUT(b)
OUTPUT(g)
n = NOT(a)
z = AND(a, n)
g = AND(z, b)
"""
WHY_AS_HELD = {
    "untestable as held": ["pin n 0/0", "pin z 0/1", "stem n/1", "stem z/1"],
    "redundant in itself": ["stem b/1"],
    "redundant in itself or as held": ["stem a/0", "stem a/1", "pin n 0/1", "pin z 0/0", "stem b/0", "stem n/0", "stem z/0", "stem g/0"],
}

SLOW = """INPUT(a)
OUTPUT(q)
OUTPUT(z)
t = CONST1()
q = DFF(w)
w = AND(a, t)
n = NOT(q)
z = AND(q, n)
u = NOT(q)
"""
WHY_SLOW = {
    "unused": ["pin u 0 rise", "pin u 0 fall", "stem u rise", "stem u fall"],
    "tied": ["stem t rise", "stem t fall"],
    "still": ["stem a rise", "stem a fall", "stem w rise", "stem w fall"],
    "redundant in itself": ["pin n 0 fall", "pin z 0 rise", "stem n rise", "stem z rise", "stem z fall"],
}

# q rises with a, which is held at 1. z is 0, since q and n aren't 1 together; where the tree ends at a, nothing tells that they aren't.
SLOW_HELD = """INPUT(a)
INPUT(b)
OUTPUT(y)
OUTPUT(z)
q = DFF(a)
y = AND(q, b)
n = NOT(q)
z = AND(q, n)
"""
WHY_SLOW_AS_HELD = {
    "still": ["stem a rise", "stem a fall", "stem b rise", "stem b fall"],
    "untestable as held": ["stem q fall", "pin y 0 fall", "pin z 0 fall", "stem y fall"],
    "redundant in itself": ["stem z fall"],
    "redundant in itself or as held": ["pin n 0 fall", "pin z 0 rise", "stem n rise", "stem z rise"],
}


def why_by_json(prefix):
    status, said, errors = said_by(TOOL, prefix, "--json")
    assert status == 0, errors
    found = collections.defaultdict(set)
    for each in json.loads(said)["faults"]:
        assert ("why" in each) == (each["end"] == "redundant"), each
        if "why" in each:
            found[each["why"]].add(each["fault"])
    return dict(found)


def test_reasons():
    """Why each fault is redundant, in JSON, in the text and on the page."""
    for make, text, held, why in ((plain_run, TIES, None, WHY_BY_TIES), (plain_run, HELD, {"b": 0}, WHY_AS_HELD), (slow_run, SLOW, {}, WHY_SLOW),
                                  (slow_run, SLOW_HELD, {"a": 1}, WHY_SLOW_AS_HELD)):
        with tempfile.TemporaryDirectory() as name:
            folder = pathlib.Path(name)
            prefix, _ = make(folder, text, 1, held) if make is plain_run else make(folder, text, held)
            assert why_by_json(prefix) == {reason: set(faults) for reason, faults in why.items()}
            status, said, errors = said_by(TOOL, prefix, "--rows", 0, "--html", folder)
            assert status == 0, errors
            page = (folder / f"{prefix.name}.html").read_text()
            for reason, faults in why.items():
                assert re.search(rf"^  {reason} +{len(faults)}  ", said, re.M), said
                for fault in faults:
                    assert re.search(rf"^    {reason}: (.*, )?{fault}(,|$)", said, re.M), fault
                    assert f"<code>{fault}</code></td><td>{reason}</td>" in page, fault


def test_test_coverage():
    """Of 24 faults of TIES 14 are redundant; where one of the other 10 is aborted, 9 of 10 testable ones are detected."""
    with tempfile.TemporaryDirectory() as name:
        folder = pathlib.Path(name)
        prefix, _ = plain_run(folder, TIES, 1)
        report = run_files.beside(prefix, "rep")
        assert "faults 24\n" in report.read_text() and "redundant 14\n" in report.read_text()
        report.write_text(re.sub(r"(stem y/1) detected .*", r"\1 aborted", report.read_text()))
        status, said, errors = said_by(TOOL, prefix, "--html", folder, "--svg", folder)
        assert status == 0, errors
        assert "test coverage 90.00 (of the 10 that aren't redundant)" in said
        # of y's own stem one of two
        assert re.search(r"^  stem of OR +2 +1 +0 +1 +50.00 +50.00$", said, re.M), said
        # of the branches to u and n one fault can be detected, and is
        assert re.search(r"^  branch to NOT +4 +1 +3 +0 +25.00 +100.00$", said, re.M), said
        assert '<td>test coverage</td><td class="number">90.00</td>' in (folder / "run.html").read_text()
        assert "test coverage 90.00" in (folder / "run.coverage.svg").read_text()
        assert json.loads(said_by(TOOL, prefix, "--json")[1])["test_coverage"] == 90.0


def test_unasked():
    """Where one of the 10 wasn't asked for, there is a column of such faults, and it counts as testable."""
    with tempfile.TemporaryDirectory() as name:
        prefix, _ = plain_run(pathlib.Path(name), TIES, 1)
        report = run_files.beside(prefix, "rep")
        text = re.sub(r"(stem y/1) detected .*", r"\1 unasked", report.read_text())
        report.write_text(re.sub(r"(untested \d+\n)", r"\1unasked 1\n", text.replace("atpg report 1", "atpg report 3")))
        status, said, errors = said_by(TOOL, prefix)
        assert status == 0, errors
        assert "test coverage 90.00 (of the 10 that aren't redundant)" in said and ", 1 unasked\n" in said
        assert re.search(r"^  kind +faults +detected +redundant +aborted +unasked ", said, re.M), said
        assert re.search(r"^  stem of OR +2 +1 +0 +0 +1 +50.00 +50.00$", said, re.M), said
        made = json.loads(said_by(TOOL, prefix, "--json")[1])
        assert made["numbers"]["unasked"] == 1 and {"fault": "stem y/1", "end": "unasked"} in made["faults"]
        listed = said_by(ROOT / "tools/fault_lists", "to-atalanta", f"{prefix}.net", report, "--only", "unasked")
        assert listed == (0, "y /1\n", ""), listed


def test_times():
    """Where detections are counted there is a table of them, and each fault has its number."""
    with tempfile.TemporaryDirectory() as name:
        prefix, situation = plain_run(pathlib.Path(name), TIES, 1)
        report, times = run_files.beside(prefix, "rep"), situation.times(3)
        lines = "".join(f"times {count}\n" for count in times)
        text = re.sub(r"(efficiency .*\n)", rf"\1detect 3\n{lines}", report.read_text().replace("atpg report 1", "atpg report 4"))
        for unasked in (False, True):
            report.write_text(re.sub(r"(untested \d+\n)", r"\1unasked 1\n", re.sub(r"(stem y/1) detected .*", r"\1 unasked", text)) if unasked else text)
            status, said, errors = said_by(TOOL, prefix)
            assert status == 0, errors
            rows = [[f"{count}{' or more' * (count == 3)}", str(times.count(count))] for count in sorted({*times, 3})]
            shown = said.split("Faults by how many patterns detect them\n")[1].split("\n\n")[0].splitlines()[1:]
            assert [re.split(" {2,}", row.strip()) for row in shown] == rows, (shown, rows)
            made = json.loads(said_by(TOOL, prefix, "--json")[1])
            assert made["numbers"]["detect"] == 3 and [fault["times"] for fault in made["faults"]] == times
            assert ("unasked" in made["numbers"]) == unasked
            listed = said_by(ROOT / "tools/fault_lists", "to-atalanta", f"{prefix}.net", report, "--only", "unasked")
            assert listed == (0, "y /1\n" * unasked, ""), listed


# Modules.

MODULES = """INPUT(a)
INPUT(b)
OUTPUT(u1.y)
OUTPUT(n2)
u1.x = AND(a, b)
n1 = NOT(a)
u1.y = OR(u1.x, n1)
n2 = NOT(b)
"""
NAMES = "n1\t$flatten\\u1.\\u2.$procmux$5_Y\nn2\t$abc$12$new_n7\n"


def test_modules():
    """A name's modules; and of ten lines two are of the top, four of u1, two of u1's u2, and two of a gate that Yosys alone has named."""
    for name, path in (("count[3]", ()), ("u1.count[3]", ("u1",)), ("\\u1.\\u2.x", ("u1", "u2")), ("core/alu/x", ("core", "alu")),
                       ("$flatten\\u1.\\u2.$procmux$5_Y", ("u1", "u2")), ("$abc$12$new_n7", None), ("$add$src/uart.v:34$7_Y", None)):
        assert report_counts.module_of(name) == path, name
    with tempfile.TemporaryDirectory() as name:
        folder = pathlib.Path(name)
        prefix, _ = plain_run(folder, MODULES, 1)
        (folder / "other.names").write_text(NAMES)
        for words in (["--names", folder / "other.names"], []):
            status, said, errors = said_by(TOOL, prefix, "--json", *words)
            assert status == 0, errors
            modules = json.loads(said)["modules"]
            sums = {module: sum(ends.values()) for module, ends in modules.items()}
            assert sums == {"(top)": 20, "u1": 12, "u1.u2": 4, "(no module in the name)": 4}, sums
            run_files.beside(prefix, "names").write_text(NAMES)
        status, said, errors = said_by(TOOL, prefix, "--html", folder)
        assert status == 0 and re.search(r"^  u1\.u2 +4 ", said, re.M) and "<td>u1.u2</td>" in (folder / "run.html").read_text(), errors
        assert said_by(TOOL, prefix, "--names", folder / "none")[0] == 1
        assert "By module" not in said_by(TOOL, plain_run(folder, "c17.bench", 1)[0], "--names", folder / "other.names")[1]


REDUNDANT = """INPUT(a)
INPUT(b)
OUTPUT(y)
x = AND(a, b)
y = OR(a, x)
"""


def test_refutations():
    """A certificate with refutations: good files, their sizes, and each line on the page."""
    with tempfile.TemporaryDirectory() as name:
        folder = pathlib.Path(name)
        prefix, situation = plain_run(folder, REDUNDANT, 1, refutes=True)
        assert plain_check.check(plain_check.read_files(prefix)) == (0, f"checked {len(situation.faults)} faults")
        lines = run_files.beside(prefix, "cert").read_text().splitlines()
        assert lines[0] == "atpg certificate 2" and all(" R ( " in line for line in lines[1:]), lines
        status, said, errors = said_by(TOOL, prefix, "--html", folder)
        assert status == 0 and "Refutations of the certificate" in said and re.search(r"the longest: 3 steps, stem b/1$", said, re.M), errors
        assert all(html.escape(line) in (folder / "run.html").read_text() for line in lines[1:])


# What is seen in pictures, and how numbers and points are written.

def test_last_percent():
    """Where a curve meets the last five percent, and how few patterns come so near to its end."""
    curve = [0, 50, 90, 99, 100]
    assert report_pictures.above(curve, 95) == [(2 + 5 / 9, 95), (3, 99), (4, 100)]
    assert report_pictures.above(curve, 90) == [(2, 90), (3, 99), (4, 100)]
    assert [report_counts.reached(curve, 100, below) for below in (10_000, 500, 100, 50, 0)] == [0, 3, 3, 4, 4]
    # at a coverage of 50 of 100 the last five percent begin at 45
    assert report_counts.reached([0, 44, 45, 50], 100, 500) == 2
    curves = report_counts.Curves(curve, curve, True)
    drawn = report_pictures.draw_patterns("x", curves, report_counts.Tally(100, 0, 0))
    assert drawn.count("<polyline") == 4 and "the last five percent" in drawn


def test_logarithmic_bars():
    """From 1 tree to 10 a bar grows as much as from 10 to 100, and one tree is seen."""
    sizes = report_counts.Sizes(collections.Counter({0: 1, 1: 10, 2: 100, 3: 10_000}), collections.Counter(), (15, "stem a/0"), collections.Counter(), (0, ""))
    drawn = report_pictures.draw_trees("x", sizes)
    one, ten, hundred, many = (float(high) for high in re.findall(r'<rect x="[^"]*" y="[^"]*" width="[^"]*" height="([^"]*)" fill="#1f5fa8"', drawn))
    assert one > 5 and abs((hundred - ten) - (ten - one)) < 0.3 and abs((many - hundred) - 2 * (ten - one)) < 0.4, (one, ten, hundred, many)


def test_numbers_and_points():
    """Thousands are parted, and an observed point says what it is, in the text and on the page."""
    with tempfile.TemporaryDirectory() as name:
        folder = pathlib.Path(name)
        prefix = made_run(folder, ROOT / "examples/datapath.bench", patterns=1_200)
        numbers = dict(line.split(" ") for line in pathlib.Path(f"{prefix}.rep").read_text().splitlines()[1:17])
        status, said, errors = said_by(TOOL, prefix, "--rows", 0, "--html", folder)
        assert status == 0, errors
        page = (folder / "run.html").read_text()
        assert int(numbers["faults"]) > 1_000
        for word in ("faults", "detected", "patterns", "cycles"):
            parted = f"{int(numbers[word]):,}"
            assert re.search(rf"\b{parted} (in|{word.rstrip('s')}|slow)", said), (word, parted)
            assert f'<td>{word}</td><td class="number">{parted}</td>' in page, (word, parted)
            assert not re.search(rf"\b{numbers[word]}\b", said + page), word
        design = run_files.Design(f"{prefix}.net")
        cell = next(name for name, kind in design.kinds.items() if kind == "DFF")
        for shown, before in ((said, "  "), (page, "<td>")):
            assert f"{before}pin of cell {cell}" in shown and f"{before}output {design.outputs[0]}" in shown
            assert f"{before}pin {cell} 0" not in shown and f"{before}out {design.outputs[0]}" not in shown


class Links(html.parser.HTMLParser):
    """The places of a page and the links to them; each element is closed."""

    def __init__(self, text):
        super().__init__()
        self.places, self.links, self.open, self.texts = set(), set(), [], []
        self.feed(text)
        assert self.open == [], self.open

    def handle_starttag(self, tag, attributes):
        attributes = dict(attributes)
        if tag not in ("meta", "rect", "line", "polyline"):
            self.open.append(tag)
        self.places.add(attributes.get("id"))
        self.links.add(attributes.get("href", "#")[1:])

    def handle_endtag(self, tag):
        assert tag in ("rect", "line", "polyline") or self.open.pop() == tag, tag

    def handle_data(self, text):
        self.texts.append(text)


def test_page():
    """Each redundant and aborted fault stands there with its cone, and its link leads to the line of its class."""
    with tempfile.TemporaryDirectory() as name:
        folder = pathlib.Path(name)
        prefix, situation = plain_run(folder, "s27.bench", 1, {"G0": 1})
        status, _, errors = said_by(TOOL, prefix, "--html", folder / "pages")
        assert status == 0, errors
        text = (folder / "pages/run.html").read_text()
        links = Links(text)
        assert links.links - {""} <= links.places and links.links - {""}
        left = [(k, fault) for k, (fault, last) in enumerate(zip(situation.faults, situation.last)) if last is None]
        lines = pathlib.Path(f"{prefix}.cert").read_text().splitlines()
        assert left
        for k, fault in left:
            row = re.search(rf"<tr><td><code>{re.escape(fault[0])}/{fault[1]}</code></td>(.*)</tr>", text)[1]
            representative = situation.faults[situation.first[k]]
            number = int(re.search(r"#line-(\d+)", row)[1])
            assert lines[number - 1].startswith(f"{representative[0]}/{representative[1]} "), (fault, number)
            for point, _ in situation.netlist.points():
                leads = cone_by_walking(run_files.Design(f"{prefix}.net"), point)
                assert (run_files.point_name(point) in row) == leads(fault[0]), (fault, point)


def is_of(value, schema):
    """Whether a value is of a schema, by the words that the schema of reports has."""
    kinds = {"object": dict, "array": list, "string": str, "integer": int, "number": (int, float)}
    if "const" in schema and value != schema["const"] or "enum" in schema and value not in schema["enum"]:
        return False
    if "type" in schema and (not isinstance(value, kinds[schema["type"]]) or isinstance(value, bool)):
        return False
    if "minimum" in schema and value < schema["minimum"]:
        return False
    if isinstance(value, list):
        return all(is_of(each, schema["items"]) for each in value)
    if not isinstance(value, dict):
        return True
    more, known = schema.get("additionalProperties", True), schema.get("properties", {})
    return (all(word in value for word in schema.get("required", []))
            and all(each in value for word, others in schema.get("dependentRequired", {}).items() if word in value for each in others)
            and all(is_of(each, known[word]) if word in known else more is True or more is not False and is_of(each, more)
                    for word, each in value.items()))


def test_json():
    """The report as JSON is of the schema in the document, and has the report's lines."""
    schema = json.loads(re.search(r"```json\n(.*?)```", (ROOT / "docs/CERTIFICATE_AND_REPORT.md").read_text(), re.S)[1])
    assert not is_of({}, schema) and not is_of({"version": 2, "lines": "stuck", "numbers": {}, "held": {}, "faults": []}, schema)
    with tempfile.TemporaryDirectory() as name:
        folder = pathlib.Path(name)
        for make in (lambda: plain_run(folder, "s27.bench", 2, {"G0": 1, "G3": 0})[0], lambda: made_run(folder, ROOT / "examples/uart.bench", "made"),
                     lambda: slow_run(folder, "s27.bench")[0], lambda: slow_run(folder, "s27.bench", {"G0": 0, "G3": 1})[0],
                     lambda: plain_run(folder, MODULES, 1)[0]):
            prefix = make()
            status, said, errors = said_by(TOOL, prefix, "--json")
            assert status == 0, errors
            found = json.loads(said)
            assert is_of(found, schema) and not is_of(found | {"version": 1}, schema)
            assert (found["lines"] == "slow") == (prefix.name == "slow")
            lines = pathlib.Path(f"{prefix}.rep").read_text().splitlines()
            words = [f"{word} {value:.2f}" if word in ("coverage", "efficiency") else f"{word} {value}" for word, value in found["numbers"].items()]
            words += [f"hold {word} {bit}" for word, bit in found["held"].items()]
            words += [" ".join(str(each) for word, each in fault.items() if word != "why") for fault in found["faults"]]
            assert words == lines[1:]
