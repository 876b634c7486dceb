#!/usr/bin/env python3
"""Makes the program of bench/measure/timings, which times single layers, a crate, and proves and builds it.

    bench/measure/timings_program.py          proves and builds it, and prints where it stands
    bench/measure/timings_program.py --try    runs it unproved

Both look that it counts on c17 what has to come. The gate doesn't prove it: nothing stands on it, and its proof takes four minutes of processor.
`rt ci` refuses .rt and .antt files outside of crates, so those of bench/measure/timings have .txt behind their names. A copy of the tree has them
as a crate, with those that it stands on (TMPDIR says where; it is kept, with what was proved there).
"""
import os
import pathlib
import shutil
import subprocess
import sys
import tempfile
import zlib

HERE = pathlib.Path(__file__).resolve().parent
ROOT = HERE.parents[1]
SOURCES = HERE / "timings"
LINE = "timings: statement case_nets netlist fault_universe fault_collapse redundancy_cert evidence podem fan cubes events word_sim rand_core rand_pcg\n"
TREE = pathlib.Path(tempfile.gettempdir()) / f"atpg-timings-{os.getuid()}-{zlib.crc32(str(ROOT).encode()):08x}"
CRATE = TREE / "crates" / "timings"
PROGRAM = CRATE / "out" / "timings"
COUNT = ["search", "counts", str(ROOT / "examples" / "c17.bench"), "100", "podem"]
COUNTED = "classes 22 tests 22 closed 0 aborted 0\ndecisions of trees 0 of tests 57\n"


def put(path, data):
    """Writes a file, where it has other bytes: a kept proof is one of the files as they stood."""
    if not path.exists() or path.read_bytes() != data:
        path.parent.mkdir(parents=True, exist_ok=True)
        path.write_bytes(data)


def put_crate(name, files):
    """Makes a crate have these files, by their paths, and no others but what rt made."""
    folder = TREE / "crates" / name
    for old in folder.rglob("*"):
        path = old.relative_to(folder)
        if old.is_file() and path.parts[0] != "out" and path not in files:
            old.unlink()
    for path, data in files.items():
        put(folder / path, data)


def files_of(folder):
    paths = [path for path in folder.rglob("*") if path.is_file() and path.relative_to(folder).parts[0] != "out"]
    return {path.relative_to(folder): path.read_bytes() for path in paths}


def make_tree():
    """The copy in which the program is a crate. What is proved in this tree is taken."""
    TREE.mkdir(parents=True, exist_ok=True)
    put(TREE / "HANDLES", (ROOT / "HANDLES").read_bytes())
    lines = [line for line in (ROOT / "crates.txt").read_text(encoding="utf-8").splitlines(keepends=True) if ":" in line and line[0] != "#"]
    below = {line.split()[0].rstrip(":"): line for line in lines}
    needed, todo = {}, LINE.partition(":")[2].split()
    while todo:
        name = todo.pop()
        if name in below and name not in needed:
            needed[name] = below[name]
            todo += below[name].partition(":")[2].split()
    put(TREE / "crates.txt", "".join([*needed.values(), LINE]).encode())
    for name in needed:
        put_crate(name, files_of(ROOT / "crates" / name))
        proved, kept = ROOT / "crates" / name / "out", TREE / "crates" / name / "out"
        if proved.exists() and not kept.exists():
            shutil.copytree(proved, kept)
    put_crate("timings", {path.with_suffix(""): data for path, data in files_of(SOURCES).items() if path.suffix == ".txt"})


def counted(command):
    """Ends where the program doesn't count what has to come."""
    make_tree()
    done = subprocess.run(["rt", command, "--", *COUNT], cwd=CRATE, stdin=subprocess.DEVNULL, stdout=subprocess.PIPE, text=True)
    if done.returncode or not done.stdout.endswith(COUNTED):
        sys.exit(f"timings: rt {command} ended with {done.returncode} and printed {done.stdout[-500:]!r}")


def proved_timings():
    """The program as it was proved and built."""
    counted("run")
    return str(PROGRAM)


if __name__ == "__main__":
    if sys.argv[1:] == ["--try"]:
        counted("try")
        print("timings: counts on c17 what has to come")
    elif sys.argv[1:]:
        sys.exit(__doc__)
    else:
        print(proved_timings())
