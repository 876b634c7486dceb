"""A page of HTML that shows a run: the numbers, the pictures, each redundant and aborted fault with its cone, and the evidence for it."""

import collections
import html
import itertools

from run_files import point_name

MOST_FAULTS = 2_000  # of each kind
MOST_NAMES = 8
MOST_BYTES = 4_000  # of a certificate's line

STYLE = """
body { font: 15px/1.45 "DejaVu Sans", Helvetica, Arial, sans-serif; color: #222; margin: 2em auto; max-width: 62em; padding: 0 1em }
h1 { font-size: 1.5em } h2 { font-size: 1.15em; margin-top: 2em }
table { border-collapse: collapse; margin: 0.5em 0 }
th, td { text-align: left; padding: 0.15em 0.9em 0.15em 0; border-bottom: 1px solid #ddd; vertical-align: top }
td.number, th.number { text-align: right; font-variant-numeric: tabular-nums }
code, pre { font-family: "DejaVu Sans Mono", Menlo, monospace; font-size: 0.88em }
pre { white-space: pre-wrap; overflow-wrap: anywhere; margin: 0.2em 0 }
td:first-child code { white-space: nowrap }
pre:target { background: #fff3c4 }
svg { max-width: 100%; height: auto }
"""


class Cones:
    """What a line leads to, and what leads to it."""

    def __init__(self, design):
        self.design, self.readers, self.points = design, collections.defaultdict(list), collections.defaultdict(list)
        for name, pins in design.pins.items():
            for pin in pins if design.kinds[name] != "DFF" else []:
                self.readers[pin].append(name)
        self.places = {point: place for place, point in enumerate(design.points())}
        for point in self.places:
            self.points[design.signal_at(point)].append(point)

    def ahead(self, line):
        """The outputs and cells' pins that a line leads to, in order."""
        if self.design.is_point(line):
            return [line]
        reached = self.walk(line.split(" ")[1], lambda name: self.readers[name])
        return sorted((point for name in reached for point in self.points[name]), key=self.places.get)

    def behind(self, line):
        """How many signals lead to a line, from inputs and cells on, with the one that it is of."""
        return len(self.walk(self.design.signal_of(line), lambda each: [] if self.design.is_source(each) else self.design.pins[each]))

    @staticmethod
    def walk(name, following):
        reached, waiting = {name: None}, [name]
        while waiting:
            for other in following(waiting.pop()):
                if other not in reached:
                    reached[other] = None
                    waiting.append(other)
        return list(reached)


def table(head, rows):
    """A table; what is a number stands to the right."""
    line = lambda tag, cells: "<tr>" + "".join(
        f'<{tag}{cls(cell)}>{cell if isinstance(cell, Markup) else html.escape(str(cell))}</{tag}>' for cell in cells) + "</tr>"
    cls = lambda cell: ' class="number"' if str(cell).replace(".", "").replace(",", "").isdigit() else ""
    return "\n".join(["<table>", line("th", head)] + [line("td", row) for row in rows] + ["</table>"])


class Markup(str):
    """Text that is HTML already."""


def code(text):
    return Markup(f"<code>{html.escape(text)}</code>")


def driver(design, line):
    name = line.split(" ")[1]
    kind = design.kinds[name]
    return f"INPUT({name})" if kind == "INPUT" else f"{name} = {kind}({', '.join(design.pins[name])})"


def fault_rows(run, end):
    """A row for each fault that ended so: the fault, if it is redundant why, its gate, its cone, and a link to the certificate's line."""
    cones, numbers = Cones(run.design), {each.fault: each.number for each in run.evidence}
    for verdict in run.counts.verdicts:
        if verdict.end != end:
            continue
        points = [point_name(point) for point in cones.ahead(verdict.line)]
        shown = ", ".join(points[:MOST_NAMES]) + (f" and {len(points) - MOST_NAMES:,} more" if len(points) > MOST_NAMES else "")
        number = numbers.get(run.named.get(verdict.fault))
        link = Markup(f'<a href="#line-{number}">line {number}</a>') if number else "none"
        why = [run.reasons[verdict.fault]] if end == "redundant" else []
        yield [code(verdict.fault), *why, code(driver(run.design, verdict.line)), f"{cones.behind(verdict.line):,}", shown or "no point", link]


def fault_part(run, end, reasons):
    count = getattr(run.counts.whole(), end)
    parts = [f"<h2>{end.capitalize()} faults: {count:,}</h2>"]
    is_redundant = end == "redundant"
    if count and is_redundant:
        parts.append(table(["why", "faults", "what that says"], reasons))
    if count:
        rows = list(itertools.islice(fault_rows(run, end), MOST_FAULTS))
        parts.append(table(["fault", *["why"] * is_redundant, "at", "signals before it", "it leads to", "certificate"], rows))
    if count > MOST_FAULTS:
        parts.append(f"<p>And {count - MOST_FAULTS:,} more.</p>")
    return parts


def size_of(each):
    return f"{each.nodes:,} nodes" if each.nodes else f"{each.steps:,} steps"


def certificate_part(prefix, evidence):
    parts = [f"<h2>Certificate</h2>\n<p>Lines of <code>{html.escape(prefix.name)}.cert</code>, one for each class without a detecting "
             "pattern. <code>!</code> is a closed end, <code>?</code> an open one, <code>S</code> a split, <code>F</code> a forced bit; "
             "behind <code>R</code> are the steps of a refutation.</p>"]
    for each in evidence:
        text = each.text if len(each.text) <= MOST_BYTES else f"{each.text[:MOST_BYTES]} .. ({size_of(each)} in all)"
        parts.append(f'<pre id="line-{each.number}">{each.number}: {html.escape(text)}</pre>')
    return parts


def numbers_part(run):
    """The head's numbers and test coverage, in two columns; thousands are parted."""
    words = {"limit": "backtrack limit", "coverage": "fault coverage"}
    named = [(words.get(word, word), value if "." in value else f"{int(value):,}") for word, value in run.head.numbers.items()]
    whole = run.counts.whole()
    named[-1:-1] = [("test coverage", whole.test_coverage()), ("testable (all but redundant)", f"{whole.testable():,}")]
    half = len(named) // 2
    return table(["", "", "", ""], [[*left, *right] for left, right in zip(named[:half], named[half:])])


def page(run, reasons, tables, pictures):
    """The whole page; `reasons` are rows on redundant faults, `tables` those of the printed report, each a title, a head and rows."""
    name = html.escape(run.prefix.name)
    checked = f"<code>atpg check {name}</code> says whether they are true" if not run.head.is_slow else "<code>play</code> plays the test"
    parts = ["<!DOCTYPE html>", f'<html lang="en"><head><meta charset="utf-8"><title>Test of {name}</title><style>{STYLE}</style></head><body>',
             f"<h1>Test of {name}{' for slow lines' * run.head.is_slow}</h1>",
             f"<p>This page believes the files of the run: {checked}.</p>",
             numbers_part(run)]
    if run.head.held:
        parts.append(f"<p>Held: {html.escape(', '.join(f'{each}={bit}' for each, bit in run.head.held))}</p>")
    parts += pictures
    for end in ("redundant", "aborted"):
        parts += fault_part(run, end, reasons)
    for title, columns, rows in tables:
        parts += [f"<h2>{html.escape(title)}</h2>", table(columns, rows)]
    return "\n".join(parts + certificate_part(run.prefix, run.evidence) + ["</body></html>"]) + "\n"
