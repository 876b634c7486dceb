#!/usr/bin/env python3
"""Follows a running `rt ci` and prints the processor seconds that each crate took: its proof, its wrong bodies, and the rest; and the most memory
that a process of the crate's had.

    rt ci & bench/measure/gate_minutes.py $!

It looks at the processes below the given one every half second, so each figure is right to about that for every process.
"""
import os
import sys
import time

TICK = os.sysconf("SC_CLK_TCK")
KINDS = ("proof", "wrong bodies", "tests", "rest")


def processes():
    """For each process its parent, its start (numbers of processes come again), its processor seconds, its words and its folder."""
    found = {}
    for name in os.listdir("/proc"):
        if not name.isdigit():
            continue
        try:
            with open(f"/proc/{name}/stat", encoding="latin-1") as file:
                fields = file.read().rsplit(")", 1)[1].split()
            with open(f"/proc/{name}/cmdline", encoding="latin-1") as file:
                words = file.read().split("\0")
            folder = os.readlink(f"/proc/{name}/cwd")
        except OSError:
            continue
        found[int(name)] = int(fields[1]), fields[19], (int(fields[11]) + int(fields[12])) / TICK, words, folder
    return found


def below(found, top):
    """The process and all below it."""
    inside, grown = {top}, True
    while grown:
        more = {pid for pid, process in found.items() if process[0] in inside} - inside
        inside |= more
        grown = bool(more)
    return inside


def peak_of(pid):
    """The most memory that a process has had so far, in GB."""
    try:
        with open(f"/proc/{pid}/status", encoding="latin-1") as file:
            kilobytes = [int(line.split()[1]) for line in file if line.startswith("VmHWM:")]
    except OSError:
        return 0
    return max(kilobytes, default=0) / 1048576


def place_of(words, folder):
    """The crate that a process works for, and what it does."""
    if "--crate-name" not in words:
        return "rest", "rest"
    crate = words[words.index("--crate-name") + 1]
    if "rt-edit" in folder:
        return crate, "wrong bodies"
    return crate, "tests" if "--test" in words else "proof"


def follow(top):
    """For each crate and kind of work its seconds, and for each crate its peak. What a process takes counts for what it does at that time."""
    table, most, before = {}, {}, {}
    while True:
        found = processes()
        if top not in found:
            return table, most
        for pid in below(found, top):
            if pid in found:
                _, start, spent, words, folder = found[pid]
                crate, kind = place_of(words, folder)
                row = table.setdefault(crate, dict.fromkeys(KINDS, 0))
                row[kind] += spent - before.get((pid, start), 0)
                before[pid, start] = spent
                most[crate] = max(most.get(crate, 0), peak_of(pid))
        time.sleep(0.5)


def main():
    began = time.monotonic()
    table, most = follow(int(sys.argv[1]))
    print("| crate | " + " | ".join(KINDS) + " | GB |\n" + "|---" * (len(KINDS) + 2) + "|")
    for crate, row in sorted(table.items(), key=lambda item: -sum(item[1].values())):
        print(f"| `{crate}` | " + " | ".join(f"{row[kind]:.0f}" if row[kind] else "" for kind in KINDS) + f" | {most[crate]:.1f} |")
    total = sum(sum(row.values()) for row in table.values())
    print(f"\n{total / 60:.0f} minutes of processor in all, {(time.monotonic() - began) / 60:.0f} by the clock")


if __name__ == "__main__":
    main()
