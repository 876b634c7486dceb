"""The pictures of a run's report, as SVG: coverage by patterns, whole and its last five percent, and the sizes of the certificate's trees."""

import math

WIDE, HIGH = 720, 400
ZOOMED = 260  # so much higher is a picture with a second panel below the first
LAST = 5  # percent of all faults that the second panel shows
LONGEST_TITLE = 64
LEFT, RIGHT, TOP, BOTTOM = 80, 24, 84, 52
KEY = 64  # where the legend stands: above the curves
INK, FAINT, GRID = "#222222", "#666666", "#dddddd"
BLUE, ORANGE = "#1f5fa8", "#d07010"


def text_at(x, y, text, anchor="middle", colour=INK, size=13, more=""):
    text = text.replace("&", "&amp;").replace("<", "&lt;").replace(">", "&gt;")
    return f'<text x="{x:.1f}" y="{y:.1f}" text-anchor="{anchor}" fill="{colour}" font-size="{size}"{more}>{text}</text>'


def line_at(x1, y1, x2, y2, colour):
    return f'<line x1="{x1:.1f}" y1="{y1:.1f}" x2="{x2:.1f}" y2="{y2:.1f}" stroke="{colour}"/>'


def picture(title, under, parts, high=HIGH):
    """A whole SVG file."""
    head = (f'<svg xmlns="http://www.w3.org/2000/svg" width="{WIDE}" height="{high}" viewBox="0 0 {WIDE} {high}" '
            f'font-family="DejaVu Sans, Helvetica, Arial, sans-serif">')
    title = title if len(title) <= LONGEST_TITLE else title[:LONGEST_TITLE] + ".."
    above = [f'<rect width="{WIDE}" height="{high}" fill="white"/>', text_at(LEFT, 22, title, "start", size=16), text_at(LEFT, 41, under, "start", FAINT, 12)]
    parts = above + parts
    return "\n".join([head] + parts + ["</svg>"]) + "\n"


def round_step(most, parts):
    """The least of 1, 2, 5, 10, 20, .. that parts the range into at most so many."""
    step, factors = 1, (2, 2.5, 2)
    k = 0
    while most / step > parts:
        step = int(step * factors[k % 3])
        k += 1
    return step


def marks_to(most, parts=5):
    """The marks of an axis from 0, each with its text."""
    return [(value, f"{value:,}") for value in range(0, most + 1, round_step(most, parts))]


def tenfold_marks(most):
    """The marks of a logarithmic axis, each with its text; few of them where it is long."""
    marks = [10 ** k for k in range(len(str(most)))]
    if len(marks) == 1:
        marks = [each for each in (1, 2, 5) if each <= most]
    step = (len(marks) + 3) // 4
    return [(value, f"{value:,}") for value in marks[::step]]


def axes(x_of, y_of, x_marks, y_marks, x_text, y_text, top, foot):
    parts = []
    for value, text in y_marks:
        parts += [line_at(LEFT, y_of(value), WIDE - RIGHT, y_of(value), GRID), text_at(LEFT - 8, y_of(value) + 4, text, "end", FAINT, 12)]
    for value, text in x_marks:
        parts.append(text_at(x_of(value), foot + 18, text, "middle", FAINT, 12))
    parts += [line_at(LEFT, foot, WIDE - RIGHT, foot, FAINT), text_at((LEFT + WIDE - RIGHT) / 2, foot + 40, x_text, size=12)]
    middle = (top + foot) / 2
    parts.append(text_at(16, middle, y_text, size=12, more=f' transform="rotate(-90 16 {middle:.1f})"'))
    return parts


def path_of(points, x_of, y_of, colour, more=""):
    """A line through points, each a place and a value; of many it takes those that a pixel can show."""
    step = max(1, len(points) // 1_000)
    kept = [point for k, point in enumerate(points) if k % step == 0 or k == len(points) - 1]
    steps = " ".join(f"{x_of(k):.1f},{y_of(value):.1f}" for k, value in kept)
    return f'<polyline fill="none" stroke="{colour}" stroke-width="2"{more} points="{steps}"/>'


def above(curve, least):
    """The part of a rising curve that isn't below a value; where it comes from below, it begins at the value, between two places."""
    inside = [(k, value) for k, value in enumerate(curve) if value >= least]
    k, value = inside[0] if inside else (0, 0)
    if k and value > least:
        part = (least - curve[k - 1]) / (value - curve[k - 1])
        inside.insert(0, (k - 1 + part, least))
    return inside


def key_at(x, y, colour, text, more=""):
    return [f'<line x1="{x}" y1="{y}" x2="{x + 22}" y2="{y}" stroke="{colour}" stroke-width="3"{more}/>', text_at(x + 28, y + 4, text, "start", size=12)]


DASHED = ' stroke-dasharray="6 4"'


def curves_in(curves, least, most, y_marks, y_text, top, foot):
    """Both curves between two numbers of faults."""
    count = len(curves.last) - 1
    x_of = lambda k: LEFT + (WIDE - RIGHT - LEFT) * k / max(1, count)
    y_of = lambda n: foot - (foot - top) * (n - least) / max(1, most - least)
    parts = axes(x_of, y_of, marks_to(count), y_marks, "number of patterns", y_text, top, foot)
    return parts + [path_of(above(curves.last, least), x_of, y_of, ORANGE, DASHED), path_of(above(curves.first, least), x_of, y_of, BLUE)]


def draw_patterns(name, curves, tally):
    """The coverage of the first and of the last patterns, and its last five percent; of the first it may be known from below alone."""
    count, detected, faults = len(curves.last) - 1, curves.last[-1], tally.faults()
    parts = key_at(LEFT, KEY, BLUE, "by the first patterns" if curves.is_exact else "by the first patterns, at least (a bound)")
    parts += key_at(LEFT + 300, KEY, ORANGE, "by the last patterns", DASHED)
    whole = [(faults * part / 100, f"{part} %") for part in (0, 20, 40, 60, 80, 100)]
    parts += curves_in(curves, 0, faults, whole, "faults detected, of all", TOP, HIGH - BOTTOM)
    end = 100 * detected / max(1, faults)
    marks = [(faults * (end - below) / 100, f"{end - below:.1f} %") for below in range(LAST, -1, -1) if end >= below]
    parts += curves_in(curves, max(0, detected - faults * LAST / 100), detected, marks, "the last five percent", HIGH + 16, HIGH + ZOOMED - BOTTOM)
    under = (f"{count:,} pattern{'s' * (count != 1)} detect {detected:,} of {faults:,} faults; test coverage {tally.test_coverage()}, "
             f"of {tally.testable():,} testable")
    return picture(f"Coverage by patterns: {name}", under, parts, HIGH + ZOOMED)


def bin_text(place):
    """The sizes of a bin: they go by powers of two."""
    low, high = 1 << place, (2 << place) - 1
    return f"{low:,}" if low == high else f"{low:,} to {high:,}"


def size_text(place, few):
    """The sizes of a bin, below its bar."""
    if few:
        return bin_text(place).replace(" to ", "–")
    return f"{1 << place}" if place < 10 else f"{1 << place - 10}k"


def panel(counter, what, colour, places, top, foot, most, few):
    """The bars of one kind of tree, above their own axis; both kinds have one scale."""
    width = (WIDE - RIGHT - LEFT) / len(places)
    bar = min(64, width * 0.7)
    # a logarithmic axis from a half, so that a single tree can be seen beside thousands
    y_of = lambda n: foot - (foot - top - 34) * math.log(2 * n) / math.log(2 * most)
    parts = [text_at(LEFT, top + 8, what if counter else f"{what}: none", "start", colour), line_at(LEFT, foot, WIDE - RIGHT, foot, FAINT)]
    for value, text in tenfold_marks(most):
        parts += [line_at(LEFT, y_of(value), WIDE - RIGHT, y_of(value), GRID), text_at(LEFT - 8, y_of(value) + 4, text, "end", FAINT, 11)]
    for number, place in enumerate(places):
        if counter[place]:
            x, y = LEFT + (number + 0.5) * width - bar / 2, y_of(counter[place])
            parts.append(f'<rect x="{x:.1f}" y="{y:.1f}" width="{bar:.1f}" height="{max(foot - y, 1):.1f}" fill="{colour}"/>')
            parts.append(text_at(x + bar / 2, y - 4, f"{counter[place]:,}", colour=FAINT, size=11 if few else 10))
    return parts


def draw_trees(name, sizes):
    bins = sorted(set(sizes.redundant) | set(sizes.aborted)) or [0]
    places = range(bins[0], bins[-1] + 1)
    few, width = len(places) <= 10, (WIDE - RIGHT - LEFT) / len(places)
    top, foot = TOP - 24, HIGH - BOTTOM
    middle, most = (top + foot) / 2, max([1, *sizes.redundant.values(), *sizes.aborted.values()])
    parts = panel(sizes.redundant, "redundant", BLUE, places, top, middle - 8, most, few)
    parts += panel(sizes.aborted, "aborted", ORANGE, places, middle + 8, foot, most, few)
    for number, place in enumerate(places):
        parts.append(text_at(LEFT + (number + 0.5) * width, foot + 18, size_text(place, few), colour=FAINT, size=12 if few else 11))
    parts.append(text_at((LEFT + WIDE - RIGHT) / 2, HIGH - 12, "nodes of a tree" if few else "nodes of a tree, from (1k is 1,024)", size=12))
    parts.append(text_at(16, middle, "number of trees (logarithmic)", size=12, more=f' transform="rotate(-90 16 {middle:.1f})"'))
    trees = sum(sizes.redundant.values()) + sum(sizes.aborted.values())
    most_nodes = sizes.greatest[0]
    under = f"{trees:,} tree{'s' * (trees != 1)}; the greatest has {most_nodes:,} node{'s' * (most_nodes != 1)}" if trees else "no trees"
    return picture(f"Sizes of trees: {name}", under, parts)
