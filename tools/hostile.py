"""What the tools that try the program under hostile use share: small designs, their files, and what a command leaves."""
import collections
import os
import pathlib
import subprocess
import sys

ROOT = pathlib.Path(__file__).resolve().parent.parent
sys.path.insert(0, str(ROOT / "bench/measure"))
from measure import proved_build  # noqa: E402

ENDS = ("net", "scan", "stil", "cert", "rep")
# A redundant netlist of two gates, and one with a single cell.
TWO_GATES = "INPUT(a)\nINPUT(b)\nOUTPUT(y)\nx = AND(a, b)\ny = OR(a, x)\n"
ONE_CELL = "INPUT(a)\nOUTPUT(q)\nq = DFF(a)\n"
SECONDS = 60

Left = collections.namedtuple("Left", "status out err files")


def contents(folder):
    """The files of a folder, by name."""
    return {path.name: path.read_bytes() for path in sorted(pathlib.Path(folder).iterdir()) if path.is_file()}


def put(folder, files):
    """Makes the folder hold these files and no others."""
    folder = pathlib.Path(folder)
    folder.mkdir(parents=True, exist_ok=True)
    for path in folder.iterdir():
        path.unlink()
    for name, data in files.items():
        (folder / name).write_bytes(data)


def left_by(folder, words, environment=None, program=None):
    """Runs the program in the folder, and tells its status, its outputs and what the folder then holds."""
    done = subprocess.run([program or os.path.abspath(proved_build()), *words], cwd=folder, capture_output=True, timeout=SECONDS,
                          env={**os.environ, **(environment or {})}, stdin=subprocess.DEVNULL)
    return Left(done.returncode, done.stdout, done.stderr, contents(folder))


def made_run(folder, text, options=(), program=None, command="run"):
    """The netlist's text as n.bench and the five files of its run, or of its test for slow lines, by name."""
    put(folder, {"n.bench": text.encode()})
    done = left_by(folder, [command, "n.bench", "P", *options], program=program)
    if done.status != 0:
        sys.exit(f"{command} ended with {done.status}: {done.err.decode(errors='replace')}")
    return done.files


def first_part_whole(before, after, due, names):
    """Whether of the names a first part holds what is due, each whole, and all else stands as before."""
    made = [name for name in names if after.get(name) != before.get(name)]
    others = all(after.get(name) == before.get(name) for name in {*before, *after} - {*names})
    return others and made == list(names[:len(made)]) and all(after[name] == due[name] for name in made)
