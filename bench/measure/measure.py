"""What the benches share: the proved build, the made netlists, and the time, growth and peak memory of commands."""
import os
import statistics
import subprocess
import sys
import tempfile
from typing import NamedTuple

HERE = os.path.dirname(os.path.abspath(__file__))
ROOT = os.path.dirname(os.path.dirname(HERE))
ORACLE = os.path.join(ROOT, "bench", "oracle")
MADE = os.path.join(ROOT, "bench", "made")
PROGRAM = os.path.join(ROOT, "built", "atpg")
sys.path.append(ORACLE)  # for those that import this and then a plain program

ROUNDS = 21  # of our own commands; those beside a slow peer have fewer


def proved_build():
    """The program as it was proved and built."""
    if not os.path.exists(PROGRAM):
        sys.exit("no proved build: ./build makes it")
    return PROGRAM


def made_netlist(signals, scattered=False):
    """The made netlist of so many signals, from bench/make_netlists.py."""
    netlist = os.path.join(MADE, f"{'scattered' if scattered else 'signals'}_{signals}.bench")
    if not os.path.exists(netlist):
        make = [sys.executable, os.path.join(HERE, "make_netlists.py"), str(signals)]
        subprocess.run(make + ["--scattered"] * scattered, check=True, stdout=subprocess.DEVNULL)
    return netlist


class Usage(NamedTuple):
    """What a command took: seconds by the clock and of processor, peak resident MB, how often it gave the processor up by itself, its status."""

    clock: float
    processor: float
    memory: float
    waits: int
    status: int


def usage_program():
    """bench/measure/child_usage.c, built where it isn't or has changed."""
    source, made = os.path.join(HERE, "child_usage.c"), os.path.join(MADE, "child_usage")
    if not os.path.exists(made) or os.path.getmtime(made) < os.path.getmtime(source):
        os.makedirs(MADE, exist_ok=True)
        subprocess.run(["cc", "-O2", "-Wall", "-Wextra", "-o", made, source], check=True)
    return made


def run(command, limit=None, quiet=False):
    """What a command printed on both outputs (quiet: on standard error alone) and what it took; at a limit of seconds of processor it ends."""
    limited = command if limit is None else ["bash", "-c", f'ulimit -t {limit}; exec "$@"', "limited", *command]
    with tempfile.NamedTemporaryFile("r") as told:
        done = subprocess.run([usage_program(), told.name, *limited], stdout=subprocess.DEVNULL if quiet else subprocess.PIPE,
                              stderr=subprocess.PIPE if quiet else subprocess.STDOUT)
        clock, processor, peak, waits, status = told.read().split()
    return (done.stderr if quiet else done.stdout).decode(errors="replace"), Usage(float(clock), float(processor), int(peak) / 1024, int(waits), int(status))


def measure(command):
    """Seconds of processor (of one thread: stable where the machine has other work), peak resident MB."""
    printed, usage = run(command, quiet=True)
    if usage.status != 0:
        raise SystemExit(f"{command} ended with {usage.status}: {printed[-500:]}")
    return usage.processor, usage.memory


def best_of(command, runs=3):
    """The least time of some runs, with its peak memory."""
    return min(measure(command) for _ in range(runs))


class Timed:
    """The times of one command: for each round the mean of its runs in that round."""

    def __init__(self, command):
        self.command = command
        self.means = []
        self.memory = 0.0

    def run(self, times):
        runs = [measure(self.command) for _ in range(times)]
        self.means.append(statistics.fmean(seconds for seconds, _ in runs))
        self.memory = max(self.memory, *(memory for _, memory in runs))

    def seconds(self):
        return statistics.median(self.means)

    def ratios_to(self, other):
        """How often as long as the other it took, round by round: the least, the median and the greatest."""
        ratios = sorted(mine / its for mine, its in zip(self.means, other.means))
        return ratios[0], statistics.median(ratios), ratios[-1]


def in_rounds(commands_and_times, rounds=ROUNDS):
    """Runs each command so many times in each round.

    A virtual machine is faster and slower for seconds at a time. A command of 2 s that is run once and one of 0.2 s that is run ten times
    meet the same of it in a round; the least of many short runs beside the least of a few long ones favours the short ones.
    """
    timed = [Timed(command) for command, _ in commands_and_times]
    for _ in range(rounds):
        for each, (_, times) in zip(timed, commands_and_times):
            each.run(times)
    return timed
