"""The program over files in memory, by plain programs apart from the crates: in which order a command reads, works, writes and shows, how it
ends, and what then stands (docs/PROGRAM.md).

What a search finds isn't said here: a run is told its five texts by who asks, or how many faults are detected and redundant is said by all patterns.
Where nobody can say what comes, the answer is Unknown.
"""
import functools
import re
from typing import NamedTuple

import plain_check
import plain_design as plain
import plain_transition
from fault_list import fault_list
from plain_chains import chain_test
from plain_check import ENDS
from plain_grades import grades
from plain_play import site_of, unmet
from plain_stil import Walk, cycles_in, is_stil, signals

MOST_BYTES = 67_108_864
MOST_CHAINS = 256
MOST_LINES = 100_000  # of a netlist that the plain reader is given
READ = {"scan": 1, "faults": 1, "run": 1, "transition": 1, "play": 2, "chaintest": 2, "grade": 2, "diagnose": 3, "sweep": 0}
BY_PREFIX = ("run", "transition")  # what writes five files
NAME = r"[!$-&*+\--<>-~]+"  # bytes of .bench's names
HELD = re.compile(f"{NAME}=[01](,{NAME}=[01])*")
ORDER = re.compile(f"(?:{NAME}(?: {NAME})*\n)*")
NUMBER = r"(?:0|[1-9]\d*)"
LOG = re.compile(rf"atpg fail log 1\n((?:{NUMBER} {NAME}\n)*)(?:end ({NUMBER})\n)?")


class Unknown(Exception):
    """A run of which this program can't say what comes."""


class Refused(Exception):
    """A command that ends without writing: the status, and the pieces of its line."""


class Begun(str):
    """A text of which only the beginning is known."""

    def __getitem__(self, part):
        if part.stop > len(self):
            raise Unknown
        return str(self)[part]


class OfRun(Begun):
    """A text of the five that a run writes: whatever a search found, `check` passes them together. `run` tells which run it is."""

    def __new__(cls, text, run):
        made = super().__new__(cls, text)
        made.run = run
        return made


class KnownOfRun(str):
    """A whole text of such five."""

    def __new__(cls, text, run):
        made = super().__new__(cls, text)
        made.run = run
        return made


class Told(NamedTuple):
    """What is told of searches: the five texts of some runs, by netlist and options; and whether the run that is asked about leaves no fault aborted.
    Which faults are aborted, a search's guide decides; where none is, all patterns say the rest."""

    texts: dict = {}
    none_aborted: bool = False


class Due(NamedTuple):
    """What a command writes, what it shows, and its status where nothing fails."""

    texts: list
    shown: str
    status: int = 0


class Fails(NamedTuple):
    """Of the shelf, the output and the error output the calls that fail, and how many bytes each keeps."""

    shelf: dict
    out: dict
    err: dict


class Ended(NamedTuple):
    status: int
    out: str
    err: str
    files: dict


class Calls:
    """Calls, of which some fail."""

    def __init__(self, fails):
        self.made, self.fails = 0, fails

    def next(self):
        """How many bytes the next call keeps, where it fails."""
        self.made += 1
        return self.fails.get(self.made)


def parts_of(words):
    """The command with what it is given by place, and its options."""
    places, options, rest = [], {}, iter(words[1:])
    for word in rest:
        name, has_value, value = word.partition("=")
        if word.startswith("--"):
            options[name] = value if has_value else next(rest)
        else:
            places.append(word)
    return places[0], places[1:], options


def netlist_of(text, is_design=True):
    if text.count("\n") > MOST_LINES:
        raise Unknown
    try:
        return plain.read(text.encode("latin-1"), is_design)
    except plain.Refusal as refusal:
        raise Refused(3, "netlist line ", str(refusal.args[0]), ": ", refusal.args[1], "\n") from None


def asked_chains(options):
    return int(options.get("--chains", "1"))


def scanned_of(netlist, options):
    return plain.scanned(netlist, plain.chains_of(netlist.cells, asked_chains(options)))


def cycles_that_fit(stil, scanned):
    """The cycles of a STIL file that fits the netlist."""
    tokens = plain.stil_tokens(stil.encode("latin-1"))
    walk = Walk(tokens[tokens.index(b"Signals"):])
    inputs, chains, outputs = signals(walk)
    inputs += [f"SC__si{c}" for c in range(chains)]
    outputs += [f"SC__so{c}" for c in range(chains)]
    if inputs != scanned.inputs or outputs != plain.pin_names(scanned) or bool(chains) != bool(scanned.cells):
        raise Refused(4, "stil does not fit\n")
    return cycles_in(stil.encode("latin-1"))


def asked_of(netlist, texts, options):
    """The faults that are asked for: those that the list of a run names, or all."""
    universe = {f"{line}/{stuck}": (line, stuck) for line, stuck in plain.universe(netlist)}
    if "--faults" not in options:
        return list(universe.values())
    lines = texts[1].split("\n")
    for number, line in enumerate(lines if lines[-1] else lines[:-1], 1):
        if line not in universe:
            raise Refused(4, "fault list line ", str(number), ": no such fault\n")
    return [fault for text, fault in universe.items() if text in lines]


def need_first(netlist, texts, options):
    """The STIL file of a run is one, and fits the netlist scanned into as many chains as it has."""
    if "--with" in options:
        need_stil(texts[-1])
        tokens = plain.stil_tokens(texts[-1].encode("latin-1"))
        _, chains, _ = signals(Walk(tokens[tokens.index(b"Signals"):]))
        cycles_that_fit(texts[-1], plain.scanned(netlist, plain.chains_of(netlist.cells, max(chains, 1))))


def need_stil(text):
    if not is_stil(text.encode("latin-1")):
        raise Refused(4, "not a stil file\n")


def log_of(text):
    """What a log says failed, each a cycle and a pin, and its end, or None. None where the text is no log."""
    parts = LOG.fullmatch(text)
    if parts is None:
        return None
    failures = [(int(cycle), pin) for cycle, pin in (line.split(" ") for line in parts[1].split("\n")[:-1])]
    end = None if parts[2] is None else int(parts[2])
    if end is not None and end >= 2**64 or any(cycle >= (2**64 if end is None else end) for cycle, _ in failures):
        return None
    return failures, end


def chains_in(netlist, text):
    """The chains that an order says."""
    if ORDER.fullmatch(text) is None:
        raise Refused(4, "not an order\n")
    chains = [line.split(" ") for line in text.split("\n")[:-1]]
    names = [name for chain in chains for name in chain]
    for number, name in enumerate(names, 1):
        if name not in netlist.cells:
            raise Refused(4, "order name ", str(number), ": no such cell\n")
    for number, name in enumerate(names, 1):
        if name in names[:number - 1]:
            raise Refused(4, "order name ", str(number), ": the cell stands twice\n")
    for number, cell in enumerate(netlist.cells, 1):
        if cell not in names:
            raise Refused(4, "order leaves out cell ", str(number), " of the netlist\n")
    if len(chains) > MOST_CHAINS:
        raise Refused(4, "order has too many chains\n")
    if [len(chain) for chain in chains] != [len(chain) for chain in plain.chains_of(names, max(1, len(chains)))]:
        raise Refused(4, "order has uneven chains\n")
    return chains


def in_order(texts, options):
    """The texts and the options of the same command without an order: the netlist has its cells in it, and is asked for in as many chains."""
    if "--order" not in options:
        return texts, options
    netlist = netlist_of(texts[0])
    chains = chains_in(netlist, texts[1])
    cells = iter([name for chain in chains for name in chain])
    places = [next(cells) if kind == "DFF" else name for name, kind, _ in netlist.definitions]
    ordered = plain.Netlist(netlist.inputs, netlist.outputs, [(name, netlist.kind[name], netlist.pins[name]) for name in places])
    others = {name: value for name, value in options.items() if name != "--order"}
    return [plain.canonical(ordered).decode()] + texts[2:], {**others, "--chains": str(max(1, len(chains)))}


def scan(texts, options):
    netlist = netlist_of(texts[0])
    chains = plain.chains_of(netlist.cells, asked_chains(options))
    return Due([plain.canonical(plain.scanned(netlist, chains)).decode()], f"cells {len(netlist.cells)} chains {len(chains)}\n")


def faults(texts, _):
    netlist_of(texts[0])
    return Due([], "".join(line + "\n" for line in fault_list(texts[0])))


def play(texts, options):
    scanned = netlist_of(texts[0], is_design=False)
    fault = None
    if "--fault" in options:
        line, _, stuck = options["--fault"].rpartition("/")
        if stuck not in ("0", "1") or (line, int(stuck)) not in plain.universe(scanned):
            raise Refused(2, "no such fault\n")
        fault = line, int(stuck)
    need_stil(texts[1])
    for cycle, pin, unknown in unmet(scanned, cycles_that_fit(texts[1], scanned), fault):
        return Due([], f"{'unknown' if unknown else 'fails'} at cycle {cycle} signal {pin}\n", 1)
    return Due([], "passes\n")


def chaintest(texts, options):
    netlist = netlist_of(texts[0])
    need_stil(texts[1])
    return Due([], chain_test(netlist, asked_chains(options), cycles_that_fit(texts[1], scanned_of(netlist, options))))


def grade(texts, options):
    netlist = netlist_of(texts[0])
    if isinstance(texts[1], Begun):
        raise Unknown
    need_stil(texts[1])
    text, counts = grades(netlist, asked_chains(options), cycles_that_fit(texts[1], scanned_of(netlist, options)))
    return Due([text], counts)


@functools.lru_cache
def failures_of(text, stil, chains):
    """For each fault of a netlist what isn't met with it, by a plain player."""
    netlist = netlist_of(text)
    scanned = plain.scanned(netlist, plain.chains_of(netlist.cells, chains))
    cycles = list(cycles_that_fit(stil, scanned))
    return {f"{line}/{stuck}": set(unmet(scanned, cycles, site_of(netlist, (line, stuck)))) for line, stuck in plain.universe(netlist)}


def ranked(logged, end, failures, count):
    """The first faults by how far each is from the log: how many strobes of the log aren't known to fail, and how many others aren't known to be met."""
    told = [each for fails in failures.values() for each in [{(cycle, pin): unknown for cycle, pin, unknown in fails if end is None or cycle < end}]]
    missing = [sum(place not in fails or fails[place] for place in logged) for fails in told]
    extra = [sum(place not in logged for place in fails) for fails in told]
    places = sorted(range(len(told)), key=lambda place: (missing[place] + extra[place], place))[:count]
    names = list(failures)
    return [f"nearest {len(places)}"] + [f"{names[place]} missing {missing[place]} extra {extra[place]}" for place in places]


def diagnose(texts, options):
    """The faults with which exactly what the log says fails, before its end, or those that come nearest to that."""
    netlist = netlist_of(texts[0])
    need_stil(texts[1])
    log = log_of(texts[2])
    if log is None:
        raise Refused(4, "not a fail log\n")
    cycles_that_fit(texts[1], scanned_of(netlist, options))
    said, end = log
    if "--rank" in options:
        lines = ranked(set(said), end, failures_of(texts[0], texts[1], asked_chains(options)), int(options["--rank"]))
        return Due([], "".join(line + "\n" for line in lines))
    failures = {(cycle, pin, False) for cycle, pin in said}
    before = lambda fails: fails if end is None else {each for each in fails if each[0] < end}
    found = [fault for fault, fails in failures_of(texts[0], texts[1], asked_chains(options)).items() if before(fails) == failures]
    return Due([], "".join(line + "\n" for line in [f"candidates {len(found)}"] + found))


def check(texts, _):
    netlist = netlist_of(texts[0])
    runs = {getattr(text, "run", None) for text in texts[2:]}
    if len(runs) == 1 and None not in runs:
        return Due([], f"checked {len(plain.universe(netlist))} faults\n")
    if any(isinstance(text, Begun) for text in texts):
        raise Unknown
    files = {end: text.encode("latin-1") for end, text in zip(ENDS, texts)}
    judge = plain_transition if plain_transition.is_slow(files["rep"]) else plain_check
    status, line = judge.check(files)
    if status > 1:
        raise Refused(status, line + "\n")
    return Due([], line + "\n", status)


def held_of(netlist, options):
    """The held inputs with their bits."""
    held = {item[:-2]: int(item[-1]) for item in options["--hold"].split(",")} if "--hold" in options else {}
    for name in held:
        if name not in netlist.inputs:
            raise Refused(2, "no such input: ", name, "\n")
    return held


@functools.lru_cache
def detected_faults(text, held):
    """The faults that some pattern detects that obeys the held inputs, by all such patterns."""
    netlist = netlist_of(text)
    free = [name for name in netlist.inputs + netlist.cells if name not in dict(held)]
    columns, ones = plain_transition.all_patterns(free)
    sources = columns | {name: ones if bit else 0 for name, bit in held}
    _, good = plain.settled(netlist, sources, ones)
    return {fault for fault in plain.universe(netlist) if plain.settled(netlist, sources, ones, fault)[1] != good}


def totals_of(faults, detected, unasked=0):
    totals = f"faults {faults} detected {detected} redundant {faults - detected - unasked} aborted 0"
    return totals + f" unasked {unasked}" if unasked else totals


def told_options(texts, options):
    """The options of a run, by what its list holds in place of its name, but for what makes no difference to what is told: how many workers there are,
    first patterns, rounds that find none to leave out, and that all are to be detected."""
    left_out = ("--workers", "--with", "--compact", "--coverage")
    return {name: texts[1] if name == "--faults" else value for name, value in options.items() if name not in left_out}


def run(texts, options, told):
    """The texts of a run, of those that are told: by its netlist and its options. Where the first patterns are those of a run that is told, it says the
    same. Of the others their totals, where no fault is aborted: PODEM aborts none where the backtrack limit is that of all bits of inputs and cells."""
    netlist = netlist_of(texts[0])
    held = held_of(netlist, options)
    asked = asked_of(netlist, texts, options)
    need_first(netlist, texts, options)
    if asked and int(options.get("--coverage", "100")) < 100:
        raise Unknown
    made = told.texts.get((texts[0], *sorted(told_options(texts, options).items())))
    if made is not None and ("--with" not in options or texts[-1] == made[2]):
        number = dict(line.split(" ") for line in made[4].split("\n")[1:16])
        words = [word for word in ("faults", "detected", "redundant", "aborted", "unasked", "patterns", "cycles") if word in number]
        return Due(made, " ".join(f"{word} {number[word]}" for word in words) + "\n")
    sources = len(netlist.inputs + netlist.cells) - len(held)
    is_owed = options.get("--engine", "podem") == "podem" and int(options.get("--limit", "100")) >= 2**sources
    if sources > plain_transition.MOST_SOURCES or not (is_owed or told.none_aborted):
        raise Unknown
    this = texts[0], *sorted(options.items())
    unasked = len(plain.universe(netlist)) - len(asked)
    trees_alone = options.get("--engine") != "clauses" and "--then" not in options
    certificate = "atpg certificate 1\n" if trees_alone else "atpg certificate "
    version = 4 if int(options.get("--detect", "1")) > 1 else 3 if unasked else 2 if held else 1
    begun = [OfRun(begin, this) for begin in ("STIL 1.0;\n", certificate, f"atpg report {version}\n")]
    detected = detected_faults(texts[0], tuple(held.items())).intersection(asked)
    totals = totals_of(len(plain.universe(netlist)), len(detected), unasked)
    return Due([plain.canonical(netlist).decode(), plain.canonical(scanned_of(netlist, options)).decode(), *begun], Begun(totals))


def transition(texts, options, told):
    """The texts of a test for slow lines. Every search comes to an end where the backtrack limit is that of all bits of the signals on which it
    splits, or so it is told. A batch of drawn patterns comes first, and two rounds of searches behind it. The patterns are known where the tests of each fault that is searched
    are those of one cube, which is what a search that decides no more than it needs finds. The searches choose the trees."""
    netlist = netlist_of(texts[0])
    held = held_of(netlist, options)
    limit, sources = int(options.get("--limit", "100")), len(plain_transition.free_of(netlist, held))
    if sources > plain_transition.MOST_SOURCES:
        raise Unknown
    if not told.none_aborted and limit < 2 ** (plain_transition.most_places(netlist, held) if options.get("--engine") == "fan" else sources):
        raise Unknown
    chains = plain.chains_of(netlist.cells, asked_chains(options))
    tests = plain_transition.tests_of(netlist, held)
    totals = totals_of(len(tests), sum(bool(each) for each in tests))
    seed = int(options.get("--seed", "1"))
    patterns = plain_transition.with_tests(netlist, chains, held, tests, seed)
    trees_alone = options.get("--engine") != "clauses" and "--then" not in options
    this = "transition", texts[0], *sorted(options.items())
    if trees_alone and patterns is not None:
        situation = plain_transition.kept(netlist, chains, held, patterns)
        stil = KnownOfRun(plain_transition.stil_of(netlist, chains, held, situation.patterns).decode(), this)
        report = KnownOfRun(plain_transition.report_of(situation, limit), this)
        shown = f"{totals} patterns {len(situation.patterns)} cycles {situation.cycles()}\n"
    else:
        stil, report, shown = OfRun("STIL 1.0;\n", this), OfRun(plain_transition.REPORT[bool(held)] + "\n", this), Begun(totals)
    certificate = OfRun("atpg transition certificate " + "1\n" * trees_alone, this)
    return Due([plain.canonical(netlist).decode(), plain.canonical(plain.scanned(netlist, chains)).decode(), stil, certificate, report], shown)


WORK = {"scan": scan, "faults": faults, "play": play, "chaintest": chaintest, "grade": grade, "diagnose": diagnose, "check": check}
SEARCHES = {"run": run, "transition": transition}


def is_hold_list(told):
    names = [item[:-2] for item in told.split(",")]
    return HELD.fullmatch(told) is not None and len(set(names)) == len(names)


def names_read(command, given, options):
    """The files that the command reads, in order: each a word and an ending."""
    if command == "check":
        return [(given[0], f".{end}") for end in ENDS]
    first = options.get("--with", "own")
    beside = [(options.get("--order", ""), "")] * ("--order" in options)
    beside += [(options.get("--faults", ""), "")] * ("--faults" in options) + [(first, "" if first.endswith(".stil") else ".stil")] * ("--with" in options)
    return [(name, "") for name in given[:READ[command]]] + beside


def names_written(command, given):
    """The files that it writes, in order, likewise."""
    if command in BY_PREFIX:
        return [(given[1], f".{end}") for end in ENDS]
    if command == "grade":
        return [(given[2], ".grade")]
    return [(name, "") for name in given[1:]] if command == "scan" else []


def need_names(command, given, options):
    """No file written is named by an ending alone, and none that is read is written over."""
    prefix = given[1] if command in BY_PREFIX else given[2] if command == "grade" else "own"
    if not prefix or prefix.endswith("/"):
        raise Refused(2, "prefix names no file: ", prefix, "\n")
    written = {"".join(name) for name in names_written(command, given)}
    for name in map("".join, names_read(command, given, options)):
        if name in written:
            raise Refused(2, "would write over: ", name, "\n")


def read_in_order(command, given, options, files, shelf):
    """The texts that the command reads, up to the first that can't be had."""
    for name, end in names_read(command, given, options):
        if shelf.next() is not None:
            raise Refused(5, "read failed: ", name, end, "\n")
        if name + end not in files:
            raise Refused(7, "no such file: ", name, end, "\n")
        if files[name + end] is None:
            raise Unknown
        if len(files[name + end]) > MOST_BYTES:
            raise Refused(8, "too long: ", name, end, "\n")
        yield files[name + end]


def written(command, given, due, files, shelf):
    """Writes in order, up to the first that fails."""
    for (name, end), text in zip(names_written(command, given), due.texts):
        kept = shelf.next()
        files[name + end] = text if kept is None else text[:kept]
        if kept is not None:
            raise Refused(6, "write failed: ", name, end, "\n")


def ending(words, files, fails, told):
    """How a run of the words ends; a file of None is one of which nobody knows what it holds."""
    command, given, options = parts_of(words)
    shelf, files, shown = Calls(fails.shelf), dict(files), ""
    try:
        if "--order" in options and "--chains" in options:
            raise Unknown
        if "--hold" in options and not is_hold_list(options["--hold"]):
            raise Refused(2, "bad hold\n")
        need_names(command, given, options)
        texts, options = in_order(list(read_in_order(command, given, options, files, shelf)), options)
        due = SEARCHES[command](texts, options, told) if command in SEARCHES else WORK[command](texts, options)
        written(command, given, due, files, shelf)
        kept = fails.out.get(1)
        shown = due.shown if kept is None else due.shown[:kept]
        if kept is not None:
            raise Refused(6, "write failed: -\n")
        return Ended(due.status, shown, "", files)
    except Refused as refused:
        status, *pieces = refused.args
    said, err = "", Calls(fails.err)
    for piece in pieces:
        kept = err.next()
        said += piece[:kept]
        if kept is not None:
            break
    return Ended(status, shown, said, files)
