"""What the timings beside C++ peers share: the peers, compiled, and the netlists of bench/measure/fault_sim and bench/measure/events."""
import glob
import os
import subprocess
import sys

from measure import HERE, MADE, ORACLE, made_netlist

ROUNDS = 5  # in which both run, one after the other


def compiled(name, *libraries):
    """The peer of this name, compiled if it is older than the sources here."""
    program, source = os.path.join(MADE, name), os.path.join(HERE, name + ".cpp")
    newest = max(map(os.path.getmtime, [*glob.glob(os.path.join(HERE, "*.cpp")), *glob.glob(os.path.join(HERE, "*.hpp"))]))
    os.makedirs(MADE, exist_ok=True)
    if not os.path.exists(program) or os.path.getmtime(program) < newest:
        command = ["c++", "-std=c++20", "-O2", "-Wall", "-Wextra", "-o", program, source]
        subprocess.run([*command, *(f"-l{library}" for library in libraries)], check=True)
    return program


def made_by(path, command):
    """The netlist at this path, which the command makes."""
    if not os.path.exists(path):
        os.makedirs(MADE, exist_ok=True)
        with open(path + ".part", "w", encoding="ascii") as out:
            subprocess.run([sys.executable, *command], check=True, stdout=out)
        os.replace(path + ".part", path)
    return path


def multiplier(bits):
    path = os.path.join(MADE, f"multiplier_{bits}.bench")
    if not os.path.exists(path):
        subprocess.run([sys.executable, os.path.join(HERE, "make_circuits.py"), f"multiplier:{bits}"], check=True, stdout=subprocess.DEVNULL)
    return path


def netlists():
    """What is measured: a name and the path of each."""
    sample = os.path.join(MADE, "sample_20000.bench")
    yield from ((f"multiplier, {bits} bits", multiplier(bits)) for bits in (16, 32, 48))
    yield "generate(1, 20000)", made_by(sample, [os.path.join(ORACLE, "sample_netlist.py"), "1", "20000"])
    yield from ((f"made, {signals:,} signals", made_netlist(signals)) for signals in (20_000, 100_000))


def printed(command):
    """The lines that a command prints, each as pairs of a word and a number."""
    lines = subprocess.run(command, check=True, capture_output=True, text=True).stdout.splitlines()
    return [dict(zip(words[::2], map(float, words[1::2]))) for words in map(str.split, lines)]
