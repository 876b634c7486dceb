"""Why a fault is redundant, as far as it can be told cheaply. What is told is so; where neither of the last two is found, it says that one of
them is.

- unused: no way over gates leads from the line to an output or a cell's pin.
- tied: the constants of the netlist (CONST0, CONST1) keep it from showing, by 0, 1 and X from the line on: the line always has the bit at
  which it is stuck, or each way to an observed point ends at a gate that they decide. A slow line is tied as well where it never changes.
- still (slow lines): no cell leads to the line, and inputs don't change between the two captures.
- untestable as held: of patterns that are drawn with no input held, one detects it.
- redundant in itself: no input is held; or its class's tree of the certificate fits with no input held too. (A refutation of the class isn't
  looked at.)
"""

import heapq
import pathlib
import random
import sys

sys.path.insert(0, str(pathlib.Path(__file__).resolve().parent.parent / "bench/oracle"))
import plain_check  # noqa: E402
import plain_design as plain  # noqa: E402
import plain_transition  # noqa: E402

from first_detections import Launches, Simulation  # noqa: E402
from run_files import evaluation_order, fault_of  # noqa: E402

UNUSED, TIED, STILL = "unused", "tied", "still"
AS_HELD, IN_ITSELF, EITHER = "untestable as held", "redundant in itself", "redundant in itself or as held"
MEANS = {
    UNUSED: "nothing observed reads the line",
    TIED: "the netlist's constants alone keep it from showing",
    STILL: "only inputs lead to it, which don't change between the captures",
    AS_HELD: "a pattern that doesn't obey the held inputs detects it",
    IN_ITSELF: "no pattern detects it, with held inputs or without",
    EITHER: "told by no drawn pattern, nor by a tree",
}
DRAWN = 512  # patterns with no input held
MOST_STEPS = 4_000_000  # gates evaluated, for drawn patterns and for trees each: some fifteen seconds
X = plain_check.X


class Structure:
    """What leads where in a netlist, what its constants decide, and which signals can change between two captures."""

    def __init__(self, design):
        self.design, self.order = design, list(evaluation_order(design))
        self.place = {name: k for k, name in enumerate(self.order)}
        self.points = {design.signal_at(point) for point in design.points()}
        self.readers = {name: [] for name in design.kinds}
        for name in self.order:
            for pin in design.pins[name]:
                self.readers[pin].append(name)
        self.seen = self.leading_to_points()
        self.tied = self.decided_by_ties()
        self.has_ties = any(value is not X for value in self.tied.values())
        self.changing = self.behind_cells()

    def leading_to_points(self):
        seen, waiting = set(), list(self.points)
        while waiting:
            name = waiting.pop()
            if name not in seen:
                seen.add(name)
                waiting += [] if self.design.is_source(name) else self.design.pins[name]
        return seen

    def decided_by_ties(self):
        values = {name: X for name in self.design.kinds if self.design.is_source(name)}
        for name in self.order:
            values[name] = plain_check.tri_gate(self.design.kinds[name], [values[pin] for pin in self.design.pins[name]])
        return values

    def behind_cells(self):
        changing = {name for name, kind in self.design.kinds.items() if kind == "DFF"}
        for name in self.order:
            if any(pin in changing for pin in self.design.pins[name]):
                changing.add(name)
        return changing

    def is_unused(self, line):
        return not self.design.is_point(line) and line.split(" ")[1] not in self.seen

    def is_tied(self, line, bit, is_slow):
        """Whether the line always has this bit (a slow one: any bit), or its stuck bit shows nowhere."""
        good = self.tied[self.design.signal_of(line)]
        if good == bit or is_slow and good is not X:
            return True
        return self.has_ties and not self.design.is_point(line) and not self.may_show(line, bit)

    def may_show(self, line, bit):
        """Whether the stuck bit may differ at an observed point, where all but the constants is X: from the line on, gate by gate."""
        name = line.split(" ")[1]
        faulty = {name: bit} if line.startswith("stem ") else {}
        if faulty and name in self.points:
            return True
        ahead = [(self.place[each], each) for each in (self.readers[name] if faulty else [name])]
        heapq.heapify(ahead)
        while ahead:
            _, gate = heapq.heappop(ahead)
            if gate in faulty:
                continue
            pins = [bit if line == f"pin {gate} {k}" else faulty.get(pin, self.tied[pin]) for k, pin in enumerate(self.design.pins[gate])]
            value = plain_check.tri_gate(self.design.kinds[gate], pins)
            if value is not X and value == self.tied[gate]:
                continue
            if gate in self.points:
                return True
            faulty[gate] = value
            for reader in self.readers[gate]:
                heapq.heappush(ahead, (self.place[reader], reader))
        return False

    def reason(self, verdict, is_slow):
        """Why it is redundant by structure alone; None where that doesn't tell."""
        if self.is_unused(verdict.line):
            return UNUSED
        if self.is_tied(verdict.line, int(verdict.bit), is_slow):
            return TIED
        if is_slow and self.design.signal_of(verdict.line) not in self.changing:
            return STILL
        return None


def representatives(design, head, verdicts):
    """For each fault's text that of its class's representative, as the certificate names it; slow lines are classes of their own."""
    if head.is_slow:
        return {verdict.fault: verdict.fault for verdict in verdicts}
    try:
        firsts = plain.classes(design.as_plain(), [(verdict.line, int(verdict.bit)) for verdict in verdicts])
    except KeyError:  # not all faults of the netlist stand in the report
        return {}
    return {verdict.fault: verdicts[first].fault for verdict, first in zip(verdicts, firsts)}


def detected_unheld(design, faults, is_slow):
    """Those of the faults that a drawn pattern detects where no input is held; it stops where that takes long."""
    rng, found = random.Random(1), set()
    sources = {name: rng.getrandbits(DRAWN) for name in design.kinds if design.is_source(name)}
    simulation = (Launches if is_slow else Simulation)(design, sources, (1 << DRAWN) - 1)
    for verdict in faults:
        if simulation.steps > MOST_STEPS:
            break
        if simulation.told(verdict.line, verdict.bit):
            found.add(verdict.fault)
    return found


class Trees:
    """Which trees of the certificate fit with no input held too."""

    def __init__(self, design, evidence, is_slow):
        self.netlist, self.is_slow, self.left = design.as_plain(), is_slow, MOST_STEPS
        self.by_fault, self.found = {each.fault: each for each in evidence if each.nodes}, {}

    def fits(self, fault):
        """Whether the tree of this representative does; where it would take long, it isn't said to."""
        tree = self.by_fault.get(fault)
        if tree is None or tree.is_open:
            return False
        if fault not in self.found:
            steps = tree.nodes * len(self.netlist.signals) * (2 if self.is_slow else 1)
            self.found[fault] = steps <= self.left and self.is_fit(tree)
            self.left -= steps if steps <= self.left else 0
        return self.found[fault]

    def is_fit(self, tree):
        line, bit = fault_of(tree.fault.split(" "), self.is_slow)
        fault = line, int(bit)
        netlist, stuck = plain_transition.frames(self.netlist, fault) if self.is_slow else (self.netlist, fault)
        words = tree.text[len(tree.fault):].split()
        return plain_check.counts_of(netlist, stuck, plain_check.nodes_of(words, set(netlist.signals)), {}) is not None


def reasons_of(design, head, verdicts, evidence, representatives):
    """For each redundant fault's text why it is so. `representatives` has the text of each fault's class, as the certificate names it."""
    structure, redundant = Structure(design), [verdict for verdict in verdicts if verdict.end == "redundant"]
    reasons = {verdict.fault: structure.reason(verdict, head.is_slow) for verdict in redundant}
    left = [verdict for verdict in redundant if reasons[verdict.fault] is None]
    if not head.held:
        return reasons | {verdict.fault: IN_ITSELF for verdict in left}
    detected, certified = detected_unheld(design, left, head.is_slow), Trees(design, evidence, head.is_slow)
    for verdict in left:
        if verdict.fault in detected:
            reasons[verdict.fault] = AS_HELD
        else:
            reasons[verdict.fault] = IN_ITSELF if certified.fits(representatives.get(verdict.fault)) else EITHER
    return reasons
