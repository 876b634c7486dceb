"""Trees of decisions, checked by their rules alone: labels worked out anew at each node, by enumerating what Xs allow.

A label has the value that a signal's pins tell, its value without the fault and with it, and whether the two may differ.
"""
import itertools


def gate_of_values(gate, kind, values):
    """What every choice of bits for the Xs gives; X where choices differ."""
    choices = itertools.product(*["01" if v == "X" else v for v in values])
    given = {gate(kind, [c == "1" for c in choice]) for choice in choices}
    return "X" if len(given) == 2 else str(int(given.pop()))


def labels(netlist, gate, fault, path, held):
    """Each signal's label and what stands on each line, under a path of decisions."""
    line, stuck = fault.rsplit("/", 1)
    found = {}

    def on_line(name, label):
        if name != line:
            return label
        own, good, _, _ = label
        return own, good, stuck, good != stuck

    def made(name, own, faulty, differs):
        good = path.get(name, own)
        return own, good, faulty if differs else good, differs and not (good == faulty != "X")

    def stem(name):
        if name not in found:
            kind, pins = netlist.defined.get(name, ("DFF", []))
            if kind == "DFF":
                label = made(name, held.get(name, "X"), "X", False)
            else:
                read = [on_line(f"pin {name} {k}", stem(pin)) for k, pin in enumerate(pins)]
                own, faulty = (gate_of_values(gate, kind, [r[i] for r in read]) for i in (1, 2))
                label = made(name, own, faulty, any(r[3] for r in read))
            found[name] = on_line(f"stem {name}", label)
        return found[name]

    for name in netlist.signals:
        stem(name)
    points = [on_line(f"out {name}", found[name]) for name in netlist.outputs]
    points += [on_line(f"pin {name} 0", found[netlist.defined[name][1][0]]) for name in netlist.cells]
    return found, points


def is_closed(netlist, gate, fault, path, held):
    found, points = labels(netlist, gate, fault, path, held)
    contradicted = any(found[x][0] != "X" and found[x][0] != b for x, b in path.items())
    return contradicted or not any(label[3] for label in points)


def answer(netlist, gate, fault, words, held):
    """What the check of a tree answers, by the words of its nodes."""
    nodes, words = [], words.split(" ") if words else []
    while words:
        width = {"!": 1, "?": 1, "S": 2, "F": 3}[words[0]]
        nodes.append(words[:width])
        words = words[width:]
    places, waiting = [], [{}]
    for node in nodes:
        if not waiting:
            return "not one tree"
        path = waiting.pop()
        places.append(path)
        if node[0] == "S":
            waiting += [path | {node[1]: "1"}, path | {node[1]: "0"}]
        elif node[0] == "F":
            waiting.append(path | {node[1]: node[2]})
    if waiting:
        return "not one tree"
    for i, (node, path) in enumerate(zip(nodes, places)):
        closed = is_closed(netlist, gate, fault, path, held)
        fits = closed == (node[0] == "!")
        if node[0] in "SF":
            fits = fits and labels(netlist, gate, fault, path, held)[0][node[1]][1] == "X"
        if node[0] == "F":
            other = path | {node[1]: "10"[int(node[2])]}
            fits = fits and is_closed(netlist, gate, fault, other, held)
        if not fits:
            return f"bad tree {i}"
    return f"closed {sum(n == ['!'] for n in nodes)} open {sum(n == ['?'] for n in nodes)}"


def is_detected(netlist, fault, held):
    """Whether some pattern that obeys the held inputs detects the fault, by all patterns."""
    for bits in itertools.product((False, True), repeat=len(netlist.inputs) + len(netlist.cells)):
        inputs, state = bits[:len(netlist.inputs)], bits[len(netlist.inputs):]
        if any(x in held and held[x] != str(int(b)) for x, b in zip(netlist.inputs, inputs)):
            continue
        if netlist.settled(inputs, state)[1:] != netlist.settled(inputs, state, fault)[1:]:
            return True
    return False
