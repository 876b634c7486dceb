#!/usr/bin/env python3
"""Works out a sample netlist from the rule of docs/SAMPLE_NETLISTS.md, with PCG's reference generator (pcg32 of pcg-c-basic).

Prints the netlist as .bench text, or with --rust the table of the test of crates/net_gen.

    bench/oracle/sample_netlist.py SEED GATES [--rust]
"""
import sys

MASK = 2**64 - 1


class Pcg32:
    def __init__(self, state, stream):
        self.state = 0
        self.increment = (stream << 1 | 1) & MASK
        self.next_u32()
        self.state = (self.state + state) & MASK
        self.next_u32()

    def next_u32(self):
        old = self.state
        self.state = (old * 6364136223846793005 + self.increment) & MASK
        shifted = ((old >> 18) ^ old) >> 27 & 0xFFFFFFFF
        rotation = old >> 59
        return (shifted >> rotation | shifted << (-rotation & 31)) & 0xFFFFFFFF


def sample(seed, gates):
    words = Pcg32(seed, 54)
    cells = gates // 8
    names = [f"i{k}" for k in range(8)] + [f"q{k}" for k in range(cells)]
    drawn = []
    for j in range(gates):
        kind = ["AND", "NAND", "OR", "NOR", "XOR", "XNOR", "NOT"][words.next_u32() % 7]
        pins = [names[words.next_u32() % (8 + cells + j)] for _ in range(1 if kind == "NOT" else 2)]
        drawn.append((f"g{j}", kind, pins))
        names.append(f"g{j}")
    flip_flops = [(f"q{k}", "DFF", [f"g{words.next_u32() % gates}"]) for k in range(cells)]
    return names, flip_flops + drawn


def bench_text(seed, gates):
    """The netlist as .bench, with the last eight gates for outputs."""
    lines = [f"INPUT(i{k})" for k in range(8)] + [f"OUTPUT(g{k})" for k in range(gates - 8, gates)]
    lines += [f"{name} = {kind}({', '.join(pins)})" for name, kind, pins in sample(seed, gates)[1]]
    return "".join(line + "\n" for line in lines)


def main():
    first = Pcg32(42, 54)
    published = [0xA15C02B7, 0x7B47F409, 0xBA1D3330, 0x83D2F293, 0xBFA4784B, 0xCBED606E]
    assert [first.next_u32() for _ in published] == published
    seed, gates = int(sys.argv[1]), int(sys.argv[2])
    if "--rust" in sys.argv:
        names, definitions = sample(seed, gates)
        for name, kind, pins in definitions:
            ids = ", ".join(str(names.index(pin)) for pin in pins)
            print(f"    ({names.index(name)}, Kind::{kind.capitalize()}, &[{ids}]),")
        return
    print(bench_text(seed, gates), end="")


if __name__ == "__main__":
    main()
