"""Tests of tools/man_page, tools/completion and tools/make_deb. tools/test_tools runs them."""

import os
import pathlib
import re
import shutil
import subprocess
import tempfile

ROOT = pathlib.Path(__file__).resolve().parent.parent


def done(*words, **more):
    made = subprocess.run([str(each) for each in words], capture_output=True, text=True, **more)
    return made.returncode, made.stdout, made.stderr


def words_of(text):
    """The words of a page as one reads it, without its marks."""
    text = re.sub(r"\[([^\]]+)\]\([^)]*\)", r"\1", text)
    return re.findall(r"[A-Za-z0-9_]+", re.sub(r"[`*|]", " ", text))


def test_man_page():
    """Each word of docs/PROGRAM.md below its title stands in the page as man shows it, in order, and groff has no complaint."""
    if shutil.which("groff") is None:
        return "left out: no groff"
    page = done(ROOT / "tools/man_page", "--version", "atpg 9.9")[1]
    status, shown, errors = done("groff", "-man", "-Tascii", "-P-cbou", "-ww", "-rLL=300n", input=page)
    assert (status, errors) == (0, ""), errors
    assert "atpg 9.9" in shown and "ATPG(1)" in shown
    for section in ("NAME", "SYNOPSIS", "DESCRIPTION", "COMMANDS", "STATUSES"):
        assert re.search(rf"^{section}$", shown, re.M), section
    source = (ROOT / "docs/PROGRAM.md").read_text().split("\n", 2)[2]
    source = re.sub(r"^\|.*\|\n\|[-|]+\|$", "", source, flags=re.M)  # heads of tables
    wanted = [word.lower() for word in words_of(source)]
    got, place = iter(word.lower() for word in words_of(shown[shown.index("DESCRIPTION"):])), 0
    for place, word in enumerate(wanted):
        assert any(word == each for each in got), f"missing behind `{' '.join(wanted[max(0, place - 8):place])}`: {word}"


COMPLETED = """
source "$1"
shift
COMP_WORDS=("$@")
COMP_CWORD=$(($# - 1))
_atpg
printf '%s\\n' "${COMPREPLY[@]}"
"""


def test_completion():
    """Commands, options, engines and files, by what docs/PROGRAM.md's table has."""
    with tempfile.TemporaryDirectory() as name:
        folder = pathlib.Path(name)
        script = folder / "script"
        script.write_text(done(ROOT / "tools/completion")[1])
        for each in ("a.bench", "a.stil", "a b.rep", "a b.net"):
            (folder / each).touch()
        (folder / "made").mkdir()

        def completed(*words):
            status, said, errors = done("bash", "-c", COMPLETED, "bash", script, "atpg", *words, cwd=folder)
            assert errors == "", errors
            return sorted(said.split("\n")[:-1])

        assert completed("") == ["chaintest", "check", "diagnose", "faults", "grade", "play", "run", "scan", "sweep", "transition"]
        assert completed("c") == ["chaintest", "check"]
        assert completed("scan", "--") == ["--chains", "--order"]
        assert completed("transition", "a.bench", "b", "--") == ["--chains", "--engine", "--hold", "--limit", "--seed", "--then", "--workers"]
        assert completed("run", "a.bench", "b", "--") == ["--chains", "--compact", "--coverage", "--detect", "--engine", "--faults", "--hold", "--limit", "--order", "--seed",
                                                          "--then", "--with", "--workers"]
        assert completed("scan", "--order", "a.b") == ["a.bench"]
        assert completed("run", "--with", "a") == ["a.stil"]
        assert completed("run", "--faults", "a.b") == ["a.bench"]
        assert completed("run", "--engine", "") == ["clauses", "fan", "podem"]
        assert completed("transition", "--engine", "") == ["clauses", "fan", "podem"]
        assert completed("run", "--then", "") == completed("transition", "--then", "") == ["clauses"]
        assert completed("run", "--chains", "2", "a.b") == ["a.bench"]
        assert completed("play", "--fault", "stem q/0", "a.scan", "") == ["a.stil", "made"]
        assert completed("run", "--limit", "") == [""]
        assert completed("check", "a") == ["a b"]
        assert completed("sweep", "") == [""]


STAND_IN = """#!/bin/bash
here=$(dirname "$(readlink -f "$0")")
for lib in "$here/atpg-lib" "$here/../lib/atpg"; do
    [ "$1" = --version ] && [ -f "$lib/said" ] && exec cat "$lib/said"
    [ -x "$lib/NAME" ] && exec "$lib/NAME" "$@"
done
"""


def stand_in(folder, said):
    """A folder as `./build --to` fills it, with programs that say their words, and this for a version."""
    (folder / "atpg-lib").mkdir(parents=True)
    (folder / "atpg-lib/said").write_text(said)
    for name in ("atpg", "atpg-check"):
        (folder / name).write_text(STAND_IN.replace("NAME", name))
        (folder / "atpg-lib" / name).write_text('#!/bin/bash\n# GLIBC_2.9 GLIBC_2.17\necho "ran $*"\n')
        for path in (folder / name, folder / "atpg-lib" / name):
            path.chmod(0o755)


def test_make_deb():
    """The package installs into a root of its own, runs there, and goes away whole; a folder that build didn't fill is refused."""
    if shutil.which("dpkg-deb") is None or not hasattr(os, "geteuid"):
        return "left out: no dpkg-deb"
    with tempfile.TemporaryDirectory() as name:
        folder = pathlib.Path(name)
        words = (ROOT / "tools/make_deb", "--from", folder / "from", "--to", folder)
        status, said, errors = done(*words)
        assert (status, said) == (2, "") and errors.endswith("from has no atpg: ./build --to fills it\n"), errors
        stand_in(folder / "from", "atpg 0.1\n")
        status, said, errors = done(*words)
        assert status == 2 and "names no version and sources" in errors, errors
        shutil.rmtree(folder / "from")
        stand_in(folder / "from", "atpg 0.1\nsources 1a2b3c4d5e6f\n")
        status, said, errors = done(*words)
        assert status == 0 and re.fullmatch(r"corghvisa_0\.1\+20\d{6}\.1a2b3c4d_\w+\.deb\n", pathlib.Path(said).name), said + errors
        package = said.strip()
        fields = done("dpkg-deb", "--field", package)[1]
        assert "Depends: libc6 (>= 2.17), bash\n" in fields and "Package: corghvisa\n" in fields, fields
        root = folder / "root"
        assert done("dpkg-deb", "--extract", package, root)[0] == 0
        assert done(root / "usr/bin/atpg", "faults", "x") == (0, "ran faults x\n", "")
        assert done(root / "usr/bin/atpg-check", "x") == (0, "ran x\n", "")
        files = {str(path.relative_to(root)) for path in root.rglob("*") if path.is_file()}
        assert {"usr/share/man/man1/atpg.1.gz", "usr/share/man/man1/atpg-check.1.gz", "usr/share/bash-completion/completions/atpg",
                "usr/share/doc/corghvisa/PROGRAM.md", "usr/share/corghvisa/tools/gates.ys"} <= files, files
        assert not any("__pycache__" in each for each in files)
        tool = root / "usr/share/corghvisa/tools/verilog_of"
        assert done(tool, folder / "none")[2].startswith("verilog_of: ") and done(root / "usr/share/corghvisa/tools/explain", "--help")[0] == 0
