"""What the benches of 128 machines side by side share: the plain player in C++, tests of drawn patterns, and faults as it reads them."""
import os
import random
import subprocess

from measure import HERE, MADE
from runs import netlist_of

import plain_design as plain


def peer():
    """The player in C++, built from its source."""
    source, made = os.path.join(HERE, "lanes_peer.cpp"), os.path.join(MADE, "lanes_peer")
    if not os.path.exists(made) or os.path.getmtime(made) < os.path.getmtime(source):
        os.makedirs(MADE, exist_ok=True)
        subprocess.run(["g++", "-O2", "-std=c++17", "-o", made, source], check=True)
    return made


def drawn(name, count):
    """The netlist, its one chain, and what its test of so many drawn patterns does."""
    with open(netlist_of(name), "rb") as text:
        netlist = plain.read(text.read())
    rng = random.Random(count)
    patterns = [{each: rng.getrandbits(1) for each in netlist.inputs + netlist.cells} for _ in range(count)]
    chains = plain.chains_of(netlist.cells, 1)
    return netlist, chains, plain.items_of(netlist, chains, patterns)


def made_test(name, count):
    """The netlist, the scanned netlist and the STIL file of a test of so many drawn patterns, and its cycles."""
    prefix = os.path.join(MADE, f"lanes_{name.replace(':', '_')}_{count}")
    scan, stil = prefix + ".scan", prefix + ".stil"
    netlist, chains, items = drawn(name, count)
    if not os.path.exists(stil):
        with open(scan, "wb") as out:
            out.write(plain.canonical(plain.scanned(netlist, chains)))
        with open(stil, "wb") as out:
            out.write(plain.stil_text(netlist, chains, {}, items))
    return netlist_of(name), scan, stil, (count + 4) * len(chains[0]) + count


def fault_line(text):
    """A fault's text, as `pin z 0/1`, as the plain player reads it."""
    line, bit = text.rsplit("/", 1)
    return f"{line} {bit}"
