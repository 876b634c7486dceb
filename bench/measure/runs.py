"""What the benches of whole runs share: circuits, a command's seconds and memory, and the files of a run."""
import math
import os
import re
import subprocess
import sys

from measure import HERE, MADE, ORACLE, ROOT, made_netlist, proved_build, run

EXAMPLES = os.path.join(ROOT, "examples")
# names as this file takes them: an example, a circuit of make_circuits.py, a sample netlist of a seed and gates, or near:N, a netlist of N signals
# by make_netlists.py, whose wires are near as in designs
SMALL = ["c17", "s27", "uart", "fifo", "datapath"]
COMBINATIONAL = ["multiplier:8", "multiplier:16", "multiplier:32", "multiplier:48", "skip_adder:16", "skip_adder:64"]
SEQUENTIAL = ["datapath:8", "datapath:16", "datapath:24"]
SAMPLES = ["sample:7:4000", "sample:1:20000"]
GROWTH = ["sample:1:1000", "sample:1:2000", "sample:1:5000", "sample:1:10000", "sample:1:20000"]
LINE = re.compile(r"faults (\d+) detected (\d+) redundant (\d+) aborted (\d+) patterns (\d+) cycles (\d+)")


def netlist_of(name):
    """The .bench file of a circuit, made where it isn't there."""
    if ":" not in name:
        return os.path.join(EXAMPLES, f"{name}.bench")
    path = os.path.join(MADE, name.replace(":", "_") + ".bench")
    if not os.path.exists(path):
        os.makedirs(MADE, exist_ok=True)
        kind, *sizes = name.split(":")
        if kind == "near":
            return made_netlist(int(sizes[0]))
        if kind == "sample":
            with open(path, "w", encoding="ascii") as out:
                subprocess.run([sys.executable, os.path.join(ORACLE, "sample_netlist.py"), *sizes], stdout=out, check=True)
        else:
            subprocess.run([sys.executable, os.path.join(HERE, "make_circuits.py"), name], stdout=subprocess.DEVNULL, check=True)
    return path


def gates_of(netlist):
    """The gates of a netlist, without its cells, and the cells."""
    with open(netlist, encoding="ascii") as lines:
        kinds = [line.split("=")[1].split("(")[0].strip() for line in lines if "=" in line.split("#")[0]]
    return sum(kind != "DFF" for kind in kinds), kinds.count("DFF")


class Measured:
    """One run of a command: what it printed, its status, seconds by the clock and of processor, peak MB, waits."""

    def __init__(self, command, limit=None):
        self.printed, usage = run(command, limit)
        self.status, self.clock, self.processor = usage.status, usage.clock, usage.processor
        self.memory, self.waits = usage.memory, usage.waits


def best(command, times):
    """The run that took least of the processor, of so many; all have to end well."""
    runs = [Measured(command) for _ in range(times)]
    for each in runs:
        if each.status != 0:
            sys.exit(f"{' '.join(command)} ended with {each.status}: {each.printed[:500]}")
    return min(runs, key=lambda each: each.processor)


def prefix_of(name, command="run"):
    return os.path.join(MADE, f"{command}_" + name.replace(":", "_"))


def run_command(name, workers=1, options=(), command="run"):
    return [proved_build(), command, netlist_of(name), prefix_of(name, command), "--workers", str(workers), *options]


def files_of(name, options=()):
    """The prefix of a circuit's five files, run with one worker where they aren't there or are older than the program."""
    prefix, program = prefix_of(name), proved_build()
    if not os.path.exists(prefix + ".rep") or os.path.getmtime(prefix + ".rep") < os.path.getmtime(program):
        best(run_command(name, 1, options), 1)
    return prefix


def numbers_of(printed):
    """Faults, detected, redundant, aborted, patterns and cycles of a run's line."""
    match = LINE.search(printed)
    if match is None:
        sys.exit(f"no line of a run: {printed[:300]}")
    return [int(each) for each in match.groups()]


def power_from(other, gates, seconds):
    """The power of the gates by which the time grows from another netlist's, which is its gates and seconds; nothing without one."""
    return "" if other is None else f"{math.log(seconds / other[1]) / math.log(gates / other[0]):.2f}"
