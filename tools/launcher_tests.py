"""Tests of ./build, ./atpg, ./atpg-check, what --to puts in place, and tools/source_sum, in a small tree of their own with a stand-in for
`rt`. tools/test_tools runs them."""

import contextlib
import os
import pathlib
import pty
import re
import shutil
import signal
import subprocess
import tempfile
import time

ROOT = pathlib.Path(__file__).resolve().parent.parent

# What the tests need of `rt`: it "proves" each crate whose source hasn't the word broken, and "builds" a program that says its words. A trial
# "compiles" it in a folder that goes away.
RT = r"""#!/usr/bin/env bash
case "$1 $2" in
"all check")
    status=0
    summary=()
    while read -r name rest; do
        name=${name%:}
        [ "$name" = "#" ] && continue
        mkdir -p "crates/$name/out"
        echo "== $name"
        if grep -q broken "crates/$name/src/"*.rt; then
            echo "fn $name::f: not proved"
            summary+=("$name: failed (1)")
            status=1
        else
            echo "logic=proved"
            summary+=("$name: ok")
        fi
    done <crates.txt
    printf '%s\n' "== summary" "${summary[@]}"
    exit $status
    ;;
"run --")
    mkdir -p out
    cp "$(dirname "$0")/program" "out/$(basename "$PWD")"
    ;;
"try --")
    echo compiled >>"$(dirname "$0")/trials"
    grep -q broken src/*.rt && echo "error: no such name" >&2 && exit 1
    folder=$(mktemp -d)
    grep -q slow src/*.rt && sleep 60
    sed 's/said=ran/said=tried/' "$(dirname "$0")/program" >"$folder/program"
    chmod +x "$folder/program"
    "$folder/program" "${@:3}"
    rm -r "$folder"
    ;;
esac
"""

PROGRAM = r"""#!/usr/bin/env bash
said=ran
[ -p "$2" ] && cat "$2" && exit 3
[ -p "$1.net" ] && cat "$1.net" && exit 3
for word in "$@"; do
    case $word in
    --bad) printf 'error: unexpected argument\n' >&2; exit 2 ;;
    -h | --help) printf 'Usage: atpg\n' >&2; exit 2 ;;
    -V | --version) printf 'atpg 0.1\n' >&2; exit 2 ;;
    esac
done
[ -n "$ENDS" ] && { printf '%s\n' "${ENDS#* }" >&2; exit "${ENDS%% *}"; }
if [ "$2" = large ]; then
    head -c 5000 /dev/zero >"$3.net" 2>/dev/null
    [ $? -eq 1 ] && echo "write failed: $3.net" >&2 && exit 6
fi
if [ "$2" = telling ]; then
    tell() { for ((k = 0; k < 200; k++)); do printf '\n\033[?7l%s of 9 classes settled\033[?7h\033[K\r\033[1A' $k >&2; done; }
    trap 'tell; exit 143' TERM
    tell; echo $$ >"$3.pid"; while :; do sleep 0.05 & wait $!; done
fi
[ "$2" = slow ] && { echo $$ >"$3.pid"; printf '\n1 classes claimed\033[K\r\033[1A' >&2; exec sleep 60; }
echo "$said $*"
[ "$1" != play ]
"""

CRATES = "# NAME: the crates below\nnetlist: smallvec\nbelow may_wait=1: netlist\natpg_main: below\nother: netlist\n"


PARTS = ("below", "source_sum", "launch", "causes", "explain")


class Tree:
    """A tree of three crates below the program and one beside, with the scripts of this repository."""

    def __init__(self, folder):
        self.folder = folder
        self.root, self.bin, self.temporary = folder / "tree", folder / "bin", folder / "tmp"
        for each in (self.root / "tools", self.bin, self.temporary):
            each.mkdir(parents=True)
        (self.root / "bench/oracle").mkdir(parents=True)
        for name in ("build", "atpg", "atpg-check", "bench/oracle/plain_design.py", *(f"tools/{each}" for each in PARTS)):
            shutil.copy2(ROOT / name, self.root / name)
        (self.root / "HANDLES").write_text("Handles allowed: none.\n")
        (self.root / "crates.txt").write_text(CRATES)
        for name in ("netlist", "below", "atpg_main", "other"):
            (self.root / "crates" / name / "src").mkdir(parents=True)
            self.source(name).write_text(f"//! {name}\n")
        self.put(self.bin / "program", PROGRAM)

    def put(self, path, text):
        path.write_text(text)
        path.chmod(0o755)

    def add_rt(self):
        self.put(self.bin / "rt", RT)

    def add_check(self):
        """The second program's crate."""
        (self.root / "crates.txt").write_text(CRATES + "check_main: below\n")
        (self.root / "crates" / "check_main" / "src").mkdir(parents=True)
        self.source("check_main").write_text("//! check\n")

    def source(self, name):
        return self.root / "crates" / name / "src" / "lib.rt"

    def words(self, *words):
        return {"args": [str(word) for word in words], "cwd": self.folder, "stdin": subprocess.DEVNULL, "text": True,
                "env": os.environ | {"PATH": f"{self.bin}:{self.system_path()}", "TMPDIR": str(self.temporary)}}

    def system_path(self):
        """The PATH without the folders that have an rt."""
        return os.pathsep.join(each for each in os.environ["PATH"].split(os.pathsep) if not os.path.exists(os.path.join(each, "rt")))

    def path_without(self, name):
        """A PATH of one folder that has all commands of the system but one."""
        folder = self.folder / f"without_{name}"
        folder.mkdir()
        for each in self.system_path().split(os.pathsep):
            for path in pathlib.Path(each).glob("*") if os.path.isdir(each) else ():
                if path.name != name and not (folder / path.name).exists():
                    (folder / path.name).symlink_to(path)
        return str(folder)

    def run(self, *words, **more):
        """The status, standard output and standard error, with more of the environment."""
        asked = self.words(*words)
        done = subprocess.run(**asked | {"env": asked["env"] | more}, capture_output=True)
        return done.returncode, done.stdout, done.stderr

    def atpg(self, *words):
        return self.run(self.root / "atpg", *words)

    def build(self, *words):
        return self.run(self.root / "build", *words)

    def left(self):
        return sorted(each.name for each in self.temporary.iterdir())

    def sum(self, *words):
        return self.run(self.root / "tools/source_sum", *words)[1].strip()

    def trials(self):
        """How often the sources were compiled without proof."""
        path = self.bin / "trials"
        return len(path.read_text().splitlines()) if path.exists() else 0

    def pid_in(self, name):
        """The number of a process that writes it there, and is going to wait."""
        path = self.folder / name
        wait_for(lambda: path.exists() and path.read_text().endswith("\n"))
        pid = int(path.read_text())
        path.unlink()
        return pid


@contextlib.contextmanager
def tree():
    with tempfile.TemporaryDirectory() as name:
        yield Tree(pathlib.Path(name).resolve())


@contextlib.contextmanager
def built_tree(*words):
    with tree() as made:
        made.add_rt()
        status, _, errors = made.build(*words)
        assert status == 0, errors
        yield made


def test_launcher_without_rt():
    with tree() as made:
        assert made.atpg("faults", "x") == (2, "", "atpg: no proved build of these sources, and no rt on the PATH to run or build them with: "
                                            "see README.md\n")
        status, out, errors = made.build()
        assert (status, out) == (2, "") and errors.startswith("build: no rt on the PATH"), errors


def test_launcher_runs_sources():
    """Without a proved build the sources are compiled, once until they change, and what comes of it runs on one's files."""
    with tree() as made:
        made.add_rt()
        for count, words in enumerate((("run", "a.bench", "b", "--limit", "10", "--hold=x=1"), ("faults", "x"), ("play", "x", "y"))):
            status, out, errors = made.atpg(*words)
            assert (status, out.splitlines()[-1]) == (words[0] == "play", f"tried {' '.join(words)}"), (status, out, errors)
            assert "this run is without proof" in errors and ("are compiled" in errors) == (count == 0), errors
            assert made.left() == [] and made.trials() == 1, made.left()
        made.add_check()
        assert made.run(made.root / "atpg-check", "x")[:2] == (0, "tried x\n") and made.trials() == 2
        assert {(made.root / "built/unproved" / name).stat().st_mode & 0o777 for name in ("atpg", "atpg-check")} == {0o755}
        made.source("below").write_text("//! else\n")
        assert made.atpg("faults", "x")[1].endswith("tried faults x\n") and made.trials() == 3
        made.source("atpg_main").write_text("broken\n")
        status, out, errors = made.atpg("faults", "x")
        assert (status, out) == (2, "") and errors.endswith("error: no such name\natpg: the sources can't be run\n"), errors
        assert made.left() == [], made.left()


def test_launcher_compiles_once():
    """Of calls side by side one compiles, and the others wait for it."""
    with tree() as made:
        made.add_rt()
        children = [subprocess.Popen(**made.words(made.root / "atpg", "scan", "x", "y"), stderr=subprocess.DEVNULL, stdout=subprocess.PIPE) for _ in range(6)]
        assert [child.communicate()[0] for child in children] == ["tried scan x y\n"] * 6
        assert made.trials() == 1 and made.left() == [], made.left()


def test_launcher_keeps_nothing_where_it_may_not():
    """A repository that can't be written serves each call by a compilation of its own."""
    with tree() as made:
        made.add_rt()
        (made.root / "built").write_text("")
        for count in (1, 2):
            assert made.atpg("scan", "x", "y")[:2] == (0, "tried scan x y\n") and made.trials() == count


def ended_by(child, number):
    """The status of a child that a signal ends soon."""
    began = time.monotonic()
    child.send_signal(number)
    status = child.wait()
    assert time.monotonic() - began < 120
    return status


def wait_for(met):
    began = time.monotonic()
    while not met():
        time.sleep(0.02)
        assert time.monotonic() - began < 120


def is_at_work(pid):
    path = pathlib.Path(f"/proc/{pid}/stat")
    return path.exists() and path.read_text().rpartition(")")[2].split()[0] != "Z"


def test_launcher_interrupted():
    """Interrupted while it compiles it ends, its child ends, and nothing is left."""
    with tree() as made:
        made.add_rt()
        made.source("atpg_main").write_text("slow\n")
        child = subprocess.Popen(**made.words(made.root / "atpg", "faults", "x"), stderr=subprocess.DEVNULL, stdout=subprocess.DEVNULL)
        wait_for(lambda: made.trials() == 1)
        assert ended_by(child, signal.SIGTERM) == 143
        assert made.left() == [], made.left()


def test_launcher_interrupted_at_work():
    """Interrupted while the program runs both end, nothing is left, and on a terminal no line stays below the cursor."""
    with built_tree() as made:
        for number, status in ((signal.SIGINT, 130), (signal.SIGTERM, 143), (signal.SIGHUP, 143)):
            ours, its = pty.openpty()
            child = subprocess.Popen(**made.words(made.root / "atpg", "scan", "slow", "b"), stderr=its, stdout=subprocess.DEVNULL)
            os.close(its)
            pid = made.pid_in("b.pid")
            shown = b""
            while b"\033[1A" not in shown:
                shown += os.read(ours, 4096)
            assert ended_by(child, number) == status
            with contextlib.suppress(OSError):  # the terminal's end
                while piece := os.read(ours, 4096):
                    shown += piece
            os.close(ours)
            assert shown.endswith(b"\033[J") and not is_at_work(pid) and made.left() == [], (shown, made.left())


def rows_of(shown):
    """What stands on the rows of a terminal that was told this, where the rows are wide enough and many enough."""
    rows, row, column = {}, 0, 0
    for piece in re.findall(r"\x1b\[[?0-9]*[A-Za-z]|[\r\n]|[^\x1b\r\n]+", shown):
        if piece == "\n":
            row += 1
        elif piece == "\r":
            column = 0
        elif piece == "\x1b[1A":
            row -= 1
        elif piece in ("\x1b[K", "\x1b[J"):
            rows = {place: text for place, text in rows.items() if piece == "\x1b[K" or place <= row}
            rows[row] = rows.get(row, "")[:column]
        elif piece not in ("\x1b[?7l", "\x1b[?7h"):
            rows[row] = rows.get(row, "").ljust(column)[:column] + piece + rows.get(row, "")[column + len(piece):]
            column += len(piece)
    return [rows[place].rstrip() for place in sorted(rows) if rows[place].strip()]


def test_launcher_interrupted_as_it_tells():
    """Interrupted by the keyboard, nothing of the line stays on the terminal, though the program writes it to its last moment."""
    assert rows_of("a\r\n12 of 9\x1b[K\r\x1b[1A") == ["a", "12 of 9"] and rows_of("a\r\n12 of 9\r\x1b[1A\x1b[J") == []
    with built_tree() as made:
        words = made.words(made.root / "atpg", "scan", "telling", "b")
        for _ in range(5):
            child, ours = pty.fork()
            if child == 0:
                os.chdir(words["cwd"])
                os.execvpe(words["args"][0], words["args"], words["env"])
            shown = b""
            while shown.count(b"\033[1A") < 200:
                shown += os.read(ours, 4096)
            pid = made.pid_in("b.pid")
            os.write(ours, b"\x03")
            with contextlib.suppress(OSError):  # the terminal's end
                while piece := os.read(ours, 4096):
                    shown += piece
            os.close(ours)
            assert os.waitstatus_to_exitcode(os.waitpid(child, 0)[1]) == 130
            assert rows_of(shown.decode()) in ([], ["^C"]), rows_of(shown.decode())
            assert not is_at_work(pid) and made.left() == [], made.left()


def test_launcher_killed():
    """Where it is ended by a signal that nobody can catch, the program ends too."""
    if shutil.which("setpriv") is None:
        return "left out: no setpriv"
    with built_tree() as made:
        child = subprocess.Popen(**made.words(made.root / "atpg", "scan", "slow", "b"), stderr=subprocess.DEVNULL, stdout=subprocess.DEVNULL)
        pid = made.pid_in("b.pid")
        assert ended_by(child, signal.SIGKILL) == -signal.SIGKILL
        wait_for(lambda: not is_at_work(pid))


def test_launcher_staleness():
    """The build is current by what the files hold, not by their times; each crate below and its line in crates.txt count, no other."""
    with tree() as made:
        made.add_rt()
        status, out, errors = made.build()
        assert status == 0, errors
        assert [line.rpartition(" (")[0] for line in out.splitlines()[2:5]] == [
            "build: 1 of 3: netlist", "build: 2 of 3: below", "build: 3 of 3: atpg_main"], out
        assert made.left() == [], made.left()
        ran = (0, "ran faults x\n", "")
        assert made.atpg("faults", "x") == ran
        assert made.atpg("play", "x", "y") == (1, "ran play x y\n", "")
        for name in ("netlist", "below", "atpg_main"):
            text = made.source(name).read_text()
            made.source(name).write_text(text + "// more\n")
            assert made.atpg("faults", "x")[1].endswith("tried faults x\n"), name
            made.source(name).write_text(text)
            assert made.atpg("faults", "x") == ran, name
        made.source("other").write_text("//! else\n")
        assert made.atpg("faults", "x") == ran
        for changed in (CRATES.replace("may_wait=1", "may_wait=2"), CRATES.replace("smallvec", "smallvec itoa")):
            (made.root / "crates.txt").write_text(changed)
            assert made.atpg("faults", "x")[1].endswith("tried faults x\n"), changed
        (made.root / "crates.txt").write_text(CRATES.replace("other: netlist", "other: below"))
        assert made.atpg("faults", "x") == ran
        (made.root / "crates" / "below" / "proofs").mkdir()
        (made.root / "crates" / "below" / "proofs" / "Lib.antt").write_text("pub mod F\n")
        assert made.atpg("faults", "x")[1].endswith("tried faults x\n")


def test_launcher_by_a_link():
    with tree() as made:
        made.add_rt()
        assert made.build()[0] == 0
        (made.folder / "link").symlink_to(made.root / "atpg")
        (made.folder / "second").symlink_to("link")
        assert made.run(made.folder / "second", "faults", "x") == (0, "ran faults x\n", "")
        (made.folder / "made").symlink_to(made.root / "build")
        assert made.run(made.folder / "made") == (0, "build: nothing changed since the last build\n", "")


def test_launcher_help():
    """Help and version are an answer; what is wrong with the words isn't."""
    with built_tree() as made:
        help_of = (0, "Usage: atpg\n", "")
        for words in (("--help",), ("-h",), ("run", "--help"), ("run", "a", "-h"), ("help",), ("help", "run")):
            assert made.atpg(*words) == help_of, words
        for words in (("--version",), ("-V",)):
            assert made.atpg(*words) == (0, f"atpg 0.1\nsources {made.sum()}\n", ""), words
        assert made.atpg("run", "--bad", "--help") == (2, "", "error: unexpected argument\n")
        assert made.atpg("play", "a", "b", "--fault", "-h")[2] == "Usage: atpg\n"  # a value: the program's to say
        assert made.atpg("scan", "--", "-h", "b")[2] == "Usage: atpg\n"


def test_launcher_looks_first():
    """No search whose files couldn't be written."""
    with built_tree() as made:
        (made.folder / "a.bench").write_text("INPUT(a)\n")
        (made.folder / "full").mkdir()
        (made.folder / "full" / "b.stil").mkdir()
        missing = (6, "", "write failed: none/b.net\natpg: there is no folder none\n")
        for words in (("run", "a.bench", "none/b"), ("run", "--limit", "10", "a.bench", "--", "none/b"), ("transition", "a.bench", "none/b")):
            assert made.atpg(*words) == missing, words
        assert made.atpg("run", "a.bench", "full/b") == (6, "", "write failed: full/b.stil\natpg: full/b.stil is a folder\n")
        assert made.atpg("run", "a.bench", "full/c")[0] == 0
        assert made.atpg("run", "a.bench", "c")[0] == 0
        assert made.atpg("run", "none.bench", "none/b")[0] == 0  # that the netlist isn't there is the program's to say


def test_launcher_keeps_the_netlist():
    """No command writes over its netlist, under another name or by a link; the file that would be is named."""
    with built_tree() as made:
        (made.folder / "a.bench").write_text("INPUT(a)\n")
        (made.folder / "b.bench").symlink_to("a.bench")
        os.link(made.folder / "a.bench", made.folder / "hard")

        def refused(command, out):
            return 2, "", f"would write over: a.bench\natpg: {command} reads a.bench and would write {out}, which is the same file\n"

        for out in ("a.bench", "./a.bench", "b.bench", "hard"):
            assert made.atpg("scan", "a.bench", out, "--chains", "2") == refused("scan", out), out
        for end in ("net", "scan", "stil", "cert", "rep"):
            link = made.folder / f"p q.{end}"
            link.symlink_to("a.bench")
            for command in ("run", "transition"):
                assert made.atpg(command, "a.bench", "./p q") == refused(command, f"./p q.{end}"), end
            link.unlink()
        (made.folder / "p.grade").symlink_to("a.bench")
        for read in (("a.bench", "none.stil"), ("none.bench", "a.bench")):
            assert made.atpg("grade", *read, "./p", "--chains", "2") == refused("grade", "./p.grade"), read
        assert made.atpg("grade", "a.bench", "a.bench", "q")[0] == 0
        os.link(made.folder / "hard", made.folder / "q.stil")
        for words in (("--faults", "hard"), ("--with", "q"), ("--with=q.stil",)):
            assert made.atpg("run", "b.bench", "none/q", *words)[0] == 6
            name = "hard" if words[0] == "--faults" else "q.stil"
            said = f"would write over: {name}\natpg: run reads {name} and would write ./q.stil, which is the same file\n"
            assert made.atpg("run", "c.bench", "./q", *words) == (2, "", said), words
        (made.folder / "own.net").write_text("INPUT(a)\n")
        assert made.run(made.root / "atpg", "run", "own.net", "own", ATPG_EXPLAIN="0") == (2, "", "would write over: own.net\n")
        for words in (("scan", "a.bench", "c"), ("run", "a.bench", "a"), ("faults", "a.bench"), ("chaintest", "a.bench", "a.bench")):
            assert made.atpg(*words)[0] == 0, words


def test_launcher_hidden_files():
    """A prefix that names no file is refused, also where its folder isn't there."""
    with built_tree() as made:
        (made.folder / "a.bench").write_text("INPUT(a)\n")
        (made.folder / "out").mkdir()
        for prefix in ("", "out/", "none/", "/"):
            for command in ("run", "transition"):
                assert made.atpg(command, "a.bench", prefix) == (
                    2, "", f"prefix names no file: {prefix}\natpg: the files would be {prefix}.net, {prefix}.scan and so on: '{prefix}NAME' is wanted\n")
            assert made.atpg("grade", "a.bench", "a.stil", prefix) == (
                2, "", f"prefix names no file: {prefix}\natpg: the file would be {prefix}.grade: '{prefix}NAME' is wanted\n")
        assert made.atpg("run", "a.bench", "out/x")[0] == 0


def test_launcher_limits_files():
    """A write that meets a limit to the size of files fails; it doesn't end the program by a signal."""
    with tree() as made:
        made.add_rt()
        assert made.build()[0] == 0
        assert made.run("bash", "-c", 'ulimit -f 1; exec "$@"', "limited", made.root / "atpg", "run", "large", "b")[0] == 6
        assert (made.folder / "b.net").stat().st_size == 1024


def test_launcher_says_why():
    """Below the program's line stands a cause, where one can be seen."""
    with built_tree() as made:
        for name in ("folder", "full"):
            (made.folder / name).mkdir()
        (made.folder / "a.bench").write_text("INPUT(a)\n")
        (made.folder / "a.stil").write_text('  ScanChain "c0" {\n  ScanChain "c1" {\n')
        (made.folder / "cells.bench").write_text("INPUT(a)\np = DFF(a) # q = DFF(a)\n q=dff (p)\n")
        (made.folder / "order").write_text("p r\nq\n")
        for words, ends, causes in CAUSES:
            status, out, errors = made.run(made.root / "atpg", *words, ENDS=ends)
            assert (status, out, errors.splitlines()) == (int(ends.split()[0]), "", [ends.partition(" ")[2], *causes]), (words, errors)
            assert made.run(made.root / "atpg", *words, ENDS=ends, ATPG_EXPLAIN="0")[2] == ends.partition(" ")[2] + "\n"
        assert made.left() == [], made.left()


LISTED = "atpg: `atpg faults NET` lists the faults of a netlist before scan insertion, `atpg chaintest NET STIL` those of the scan hardware"
NO_FORM = ["atpg: a fault is written 'stem NAME/0', 'out NAME/1' or 'pin GATE K/1', K being the pin's number from 0", LISTED]


A_LINE = "atpg: a line is one fault's, 'stem NAME/0', 'out NAME/1' or 'pin GATE K/1', as `atpg faults NET` and reports write it"


def no_line(fault):
    return [f"atpg: a.bench has no line for '{fault}' (a pin or an output is a line where its signal has several readers, else their stem is)", LISTED]


CAUSES = (
    (("scan", "a.bench", "none/b"), "6 write failed: none/b", ["atpg: there is no folder none"]),
    (("scan", "a.bench", "a.stil/b"), "6 write failed: a.stil/b", ["atpg: a.stil is no folder"]),
    (("scan", "a.bench", "folder"), "6 write failed: folder", ["atpg: folder is a folder"]),
    (("scan", "a.bench", "b"), "6 write failed: b", []),
    (("faults", "a.bench"), "6 write failed: -", ["atpg: standard output takes no more: it is closed, or where it goes is full"]),
    (("faults", "."), "5 read failed: .", ["atpg: . is a folder, and a file is wanted"]),
    (("faults", "a.bench"), "5 read failed: a.bench", []),
    (("faults", "a"), "7 no such file: a", ["atpg: there is a.bench"]),
    (("faults", "b"), "7 no such file: b", []),
    (("faults", "none/b"), "7 no such file: none/b", ["atpg: there is no folder none"]),
    (("check", "a.rep"), "7 no such file: a.rep.net", ["atpg: what is checked is named by what its five names begin with: a"]),
    (("check", "x/a.b.scan"), "7 no such file: x/a.b.scan.net", ["atpg: what is checked is named by what its five names begin with: x/a.b"]),
    (("faults", "a.bench"), "8 too long: a.bench", ["atpg: a.bench has 9 bytes, and 67108864 are read at most"]),
    (("play", "a.bench", "a.stil", "--fault", "x"), "2 no such fault", NO_FORM),
    (("play", "a.bench", "--fault=", "a.stil"), "2 no such fault", NO_FORM),
    (("play", "a.bench", "--fault", "stem x/2", "a.stil"), "2 no such fault", NO_FORM),
    (("play", "a.bench", "a.stil", "--fault=stem x=y[3]/1"), "2 no such fault", no_line("stem x=y[3]/1")),
    (("play", "a.bench", "--fault", "pin z 1/0", "a.stil"), "2 no such fault", no_line("pin z 1/0")),
    (("play", "a.bench", "--fault", "out y/0", "a.stil"), "2 no such fault", no_line("out y/0")),
    (("play", "a.bench", "a.stil"), "4 stil does not fit",
     ["atpg: a.stil is no test of the netlist in a.bench: play wants the scanned netlist of the same run, PREFIX.scan with PREFIX.stil"]),
    (("diagnose", "--chains", "1", "a.bench", "a.stil", "l"), "4 stil does not fit",
     ["atpg: a.stil is no test of the netlist in a.bench with so many chains: diagnose wants the netlist of the run, and its --chains (the test has 2)"]),
    (("run", "a.bench", "b", "--with", "a"), "4 stil does not fit",
     ["atpg: a.stil is no test of the netlist in a.bench: with its 2 chains the inputs and the outputs are others"]),
    (("run", "--with=a.stil", "a.bench", "b"), "4 stil does not fit",
     ["atpg: a.stil is no test of the netlist in a.bench: with its 2 chains the inputs and the outputs are others"]),
    (("run", "--faults", "a.stil", "a.bench", "b"), "4 fault list line 2: no such fault", ['atpg: a.stil line 2: no fault of a.bench:   ScanChain "c1" {', A_LINE]),
    (("run", "a.bench", "b", "--faults", "none", "--coverage", "90", "--compact", "0", "--detect", "2"), "4 fault list line 1: no such fault", [A_LINE]),
    (("chaintest", "a.bench", "a.stil"), "4 not a stil file", []),
    (("scan", "cells.bench", "b", "--order", "order"), "4 order name 2: no such cell", ["atpg: order: r"]),
    (("scan", "cells.bench", "b", "--order=order"), "4 order name 3: the cell stands twice", ["atpg: order: q"]),
    (("run", "cells.bench", "b", "--order", "order"), "4 order leaves out cell 2 of the netlist", ["atpg: order: q"]),
    (("run", "cells.bench", "b", "--order", "order"), "4 order leaves out cell 1 of the netlist", ["atpg: order: p"]),
    (("run", "cells.bench", "b", "--order", "order"), "4 not an order",
     ["atpg: order: a line is a chain's, names of cells parted by one blank, and each ends with LF"]),
    (("run", "cells.bench", "b", "--order", "order"), "4 order has too many chains", ["atpg: order: a line is a chain's, and 256 chains are the most"]),
    (("run", "cells.bench", "b", "--order", "order"), "4 order has uneven chains",
     ["atpg: order: no line may have two names more than another, and the longer ones come first"]),
    (("run", "a.bench", "b", "--hold", "x=1,,y=0"), "2 bad hold", ["atpg: --hold, item 2, '': it is empty"]),
    (("run", "a.bench", "b", "--hold", ""), "2 bad hold", ["atpg: --hold, item 1, '': it is empty"]),
    (("run", "a.bench", "b", "--hold", "x=1,"), "2 bad hold", ["atpg: --hold, item 2, '': it is empty"]),
    (("run", "--hold=x", "a.bench", "b"), "2 bad hold", ["atpg: --hold, item 1, 'x': it has no bit: 'x=0' or 'x=1'"]),
    (("run", "--hold=x[3]=1,x=2", "a.bench", "b"), "2 bad hold", ["atpg: --hold, item 2, 'x=2': an input is held at 0 or 1"]),
    (("run", "--hold=x=1=0", "a.bench", "b"), "2 bad hold", ["atpg: --hold, item 1, 'x=1=0': an input is held at 0 or 1"]),
    (("run", "--hold==0", "a.bench", "b"), "2 bad hold", ["atpg: --hold, item 1, '=0': it names no input"]),
    (("run", "--hold=x=0, y=1", "a.bench", "b"), "2 bad hold", ["atpg: --hold, item 2, ' y=1': no name of .bench has such a byte"]),
    (("run", "--hold=x=0,*=1,x=0", "a.bench", "b"), "2 bad hold", ["atpg: --hold, item 3, 'x=0': x stands twice"]),
    (("run", "--hold=x=0", "a.bench", "b"), "2 no such input: x", []),
    (("transition", "a.bench", "b", "--hold", "x=2"), "2 bad hold", ["atpg: --hold, item 1, 'x=2': an input is held at 0 or 1"]),
)


def test_launcher_says_whose_rights():
    """A file or a folder that may not be read or written is named with its rights, to one whom they bind."""
    bound = ["setpriv", "--reuid=65534", "--regid=65534", "--clear-groups"] if os.geteuid() == 0 else []
    if bound and shutil.which("setpriv") is None:
        return "left out: root may do all, and there is no setpriv"
    with built_tree() as made:
        for path, rights in (("", 0o755), ("tmp", 0o777)):
            (made.folder / path).chmod(rights)
        for name, rights in (("a.bench", 0o444), ("none.bench", 0), ("b.net", 0o444)):
            (made.folder / name).write_text("INPUT(a)\n")
            (made.folder / name).chmod(rights)
        (made.folder / "shut").mkdir(0o555)
        for words, ends, said in (
                (("faults", "none.bench"), "5 read failed: none.bench", "none.bench may not be read: ---------- "),
                (("run", "a.bench", "b"), "", "b.net may not be written: -r--r--r-- "),
                (("scan", "a.bench", "b.net"), "6 write failed: b.net", "b.net may not be written: -r--r--r-- "),
                (("run", "a.bench", "shut/b"), "", "no file may be made in shut: dr-xr-xr-x ")):
            errors = made.run(*bound, made.root / "atpg", *words, ENDS=ends)[2]
            assert errors.splitlines()[1].startswith(f"atpg: {said}"), errors


def test_launcher_says_what_is_wrong_with_a_netlist():
    """On status 3 the netlist's line stands below the program's, where there is a python, for each command's netlist."""
    with built_tree() as made:
        (made.folder / "a.net").write_text("INPUT(a)\nOUTPUT(y)\ny = INV(a)\n")
        line = "netlist line 3: UnknownGate"
        for name, words in (("atpg", ("run", "a.net", "b")), ("atpg", ("play", "a.net", "s")), ("atpg", ("check", "a")), ("atpg-check", ("a",))):
            if name == "atpg-check":
                made.add_check()
                assert made.build()[0] == 0
            status, out, errors = made.run(made.root / name, *words, ENDS=f"3 {line}")
            assert (status, out, errors.splitlines()[:2]) == (3, "", [line, "  y = INV(a)"]) and "NOT is what is meant" in errors, errors
        assert made.run(made.root / "atpg", "run", "a.net", "b", ENDS=f"3 {line}", PATH=made.path_without("python3")) == (3, "", f"{line}\n")
        (made.folder / "long.net").write_text("INPUT(a)\nOUTPUT(y)\ny = INV(a)\n#" + "x" * 4_000_000)
        said = made.run(made.root / "atpg", "run", "long.net", "b", ENDS=f"3 {line}")[2].splitlines()
        assert said == [line, f"atpg: to see why: python3 '{made.root}/tools/explain' --of '{line}' 'long.net'"], said
        asked = made.run("bash", "-c", said[1].partition(": to see why: ")[2])
        assert asked[0] == 0 and asked[1].startswith("  y = INV(a)\nINV is no gate; NOT is what is meant"), asked


def test_launcher_says_where_it_was():
    """The program's own line is found behind the one that shows how far a run is."""
    with built_tree() as made:
        ends = "6 \n12 classes claimed\033[K\r\033[1Awrite failed: none/b\n\033[J"
        status, _, errors = made.run(made.root / "atpg", "scan", "a", "none/b", ENDS=ends)
        assert status == 6 and errors.endswith("\natpg: there is no folder none\n"), errors


def test_launcher_full_disk():
    """A file that didn't take all of its text says so of the disk, or of the limit to its size."""
    with built_tree() as made:
        said = made.run("bash", "-c", 'ulimit -f 1; exec "$@"', "limited", made.root / "atpg", "run", "large", "b")[2]
        assert said == "write failed: b.net\natpg: a file may have 1024 bytes here (ulimit -f)\n", said
        made.put(made.bin / "df", "#!/bin/sh\nprintf ' Avail\\n  512\\n'\n")
        said = made.run(made.root / "atpg", "scan", "a", "b", ENDS="6 write failed: b")[2]
        assert said == "write failed: b\natpg: the disk of . is full: 512 bytes are free\n", said


def test_launcher_without_errors():
    """With its standard error closed, or no folder for what it keeps, it answers as ever."""
    with built_tree() as made:
        closed = ("bash", "-c", '"$@" 2>&-', "closed", made.root / "atpg", "scan", "x", "none/y")
        line = "write failed: none/y"
        assert made.run(*closed)[:2] == (0, "ran scan x none/y\n")
        assert made.run(*closed, ENDS=f"6 {line}") == (6, "", "")
        assert made.run(*closed[4:], TMPDIR=str(made.folder / "none")) == (0, "ran scan x none/y\n", "")
        assert made.run(*closed[4:], TMPDIR=str(made.folder / "none"), ENDS=f"6 {line}") == (6, "", f"{line}\n")


def test_installed():
    """What --to puts into a folder runs from anywhere, by any link, without the repository, rt or python, and does what ./atpg does."""
    with tree() as made:
        made.add_rt()
        made.add_check()
        to = made.folder / "some" / "bin"
        assert made.build("--to", to)[0] == 0
        sums, path = (made.sum(), made.sum("check_main")), made.path_without("python3")
        shutil.rmtree(made.root)
        (made.bin / "rt").unlink()
        for name in ("atpg", "atpg-check"):
            (made.folder / name).symlink_to(to / name)
        other = made.folder / "lib" / "atpg"
        shutil.copytree(to / "atpg-lib", other)
        shutil.copytree(to, made.folder / "usr_bin", ignore=lambda *_: ["atpg-lib"])
        for atpg in (to / "atpg", made.folder / "atpg", made.folder / "usr_bin" / "atpg"):
            check = atpg.with_name("atpg-check")
            assert made.run(atpg, "scan", "x", "y") == (0, "ran scan x y\n", "")
            assert made.run(atpg, "--help") == made.run(atpg, "help") == (0, "Usage: atpg\n", "")
            assert made.run(atpg, "--version") == (0, f"atpg 0.1\nsources {sums[0]}\n", "")
            assert made.run(check, "x") == (0, "ran x\n", "")
            assert made.run(check, "--version") == (0, f"atpg-check 0.1\nsources {sums[1]}\n", "")
            status, out, errors = made.run(check, "--help")
            assert (status, errors) == (0, "") and "\nUsage: atpg-check PREFIX\n" in out, out
            assert made.run(atpg, "scan", "x", "none/b", ENDS="6 write failed: none/b")[2].endswith("\natpg: there is no folder none\n")
            (made.folder / "a.bench").write_text("INPUT(a)\n")
            assert made.run(atpg, "run", "a.bench", "none/b") == (6, "", "write failed: none/b.net\natpg: there is no folder none\n")
            assert made.run(atpg, "run", "a.bench", "out/")[0] == made.run(atpg, "scan", "a.bench", "./a.bench")[0] == 2
            assert made.run(atpg, "run", "a.bench", "b", ENDS="3 netlist line 1: BadLine")[2].startswith("netlist line 1: BadLine\n  INPUT(a)\n")
            assert made.run(atpg, "run", "a.bench", "b", ENDS="3 netlist line 1: BadLine", PATH=path)[2] == "netlist line 1: BadLine\n"
            assert made.run("bash", "-c", 'ulimit -f 1; exec "$@"', "limited", atpg, "run", "large", "b")[0] == 6
        (made.folder / "usr_bin" / "atpg").rename(made.folder / "alone")
        shutil.rmtree(other)
        assert made.run(made.folder / "alone", "scan", "x", "y")[0] == 2


def test_check_takes_words():
    """A word that asks for help is a prefix where another stands beside it, or it has a folder."""
    with tree() as made:
        made.add_rt()
        made.add_check()
        assert made.build()[0] == 0
        for words in (("./--help",), ("help",), ()):
            assert made.run(made.root / "atpg-check", *words) == (0, f"ran {' '.join(words)}\n", ""), words
        for words in (("--help", "x"), ("x", "-h")):
            assert made.run(made.root / "atpg-check", *words) == (2, "", "Usage: atpg\n"), words  # the program's to say
        assert made.run(made.root / "atpg-check", "a.rep", ENDS="7 no such file: a.rep.net")[2] == (
            "no such file: a.rep.net\natpg-check: what is checked is named by what its five names begin with: a\n")


def test_versions():
    """The check's version is the program's."""
    texts = "".join(path.read_text() for path in (ROOT / "crates/command_line/src").glob("*.rt"))
    version = re.search(r"^version=(\S+)", (ROOT / "tools/launch").read_text(), re.MULTILINE)[1]
    assert f'.version("{version}")' in texts, version


def test_build_refuses():
    """What isn't proved is named, no program is put in place, and the next build goes on from there."""
    with tree() as made:
        made.add_rt()
        made.source("below").write_text("broken\n")
        status, out, errors = made.build()
        assert status == 1 and "build: below: failed (1)\n" in errors and "fn below::f: not proved" in errors, (status, out, errors)
        assert len(made.left()) == 1 and f"rm -rf {made.temporary / made.left()[0]}" in errors, errors
        assert not (made.root / "crates/atpg_main/out").exists()
        made.source("below").write_text("mended\n")
        assert made.build()[0] == 0 and made.left() == []
        for words, why in ((("--to",), "--to needs a folder"), (("--jobs", "0"), "--jobs needs a number"), (("--all",), "unknown word --all")):
            status, _, errors = made.build(*words)
            assert status == 2 and errors.startswith(f"build: {why}"), errors


def test_build_interrupted():
    """It ends with all that it began."""
    with tree() as made:
        made.put(made.bin / "rt", "#!/bin/sh\necho $$ >$TMPDIR/pid\nsleep 60\n")
        child = subprocess.Popen(**made.words(made.root / "build"), stderr=subprocess.PIPE, stdout=subprocess.DEVNULL)
        while not (made.temporary / "pid").exists() or not (made.temporary / "pid").read_text():
            time.sleep(0.05)
        began = time.monotonic()
        child.send_signal(signal.SIGTERM)
        assert child.wait() == 143 and time.monotonic() - began < 20
        assert "build: what was done is kept: ./build goes on from there, and rm -rf " in child.stderr.read()
        pid = int((made.temporary / "pid").read_text())
        assert not pathlib.Path(f"/proc/{pid}").exists() or "Z" in pathlib.Path(f"/proc/{pid}/stat").read_text().split()[2]
        assert len(made.left()) == 2, made.left()  # the copy, and the stand-in's number


def test_build_to_a_folder():
    """--to puts the program there, and --keep keeps the copy for the next build."""
    with tree() as made:
        made.add_rt()
        to = made.folder / "some" / "bin"
        status, out, errors = made.build("--to", to, "--keep")
        assert status == 0, errors
        assert made.run(to / "atpg", "faults", "x") == (0, "ran faults x\n", "")
        assert not (to / "atpg-check").exists()
        assert len(made.left()) == 1, made.left()
        assert not any((made.temporary / made.left()[0] / "crates").glob("other"))
        made.source("below").write_text("//! new\n")
        made.add_check()
        (to / "atpg").unlink()
        status, out, errors = made.build("--to", to)
        assert status == 0 and "build: 4 of 4:" in out, (out, errors)
        assert (to / "atpg").exists() and (to / "atpg-check").exists()
        assert made.left() == [], made.left()
        (to / "atpg").unlink()
        status, out, errors = made.build("--to", to)
        assert status == 0 and out.startswith("build: nothing changed") and (to / "atpg").exists(), (out, errors)
