"""Makes a crate of specs and pure proofs alone, which `rt check` checks in seconds: no crate below has to be proved first.

The types of the code stand in it as plain data. What is checked so is the logic of the proofs that are named and of all that they import; that the
code has these contracts is the gate's to prove.
"""

import pathlib
import re

import spec_words

ROOT = spec_words.ROOT
NUMBERS = {"u8", "u16", "u32", "u64", "usize", "SignalId"}
# Types that stand for a value of the specs, each as this value and its import.
VIEWS = {
    "bool": ("Bool", None),
    "Texts": ("List (List ℕ)", None),
    "Definition": ("Definition", "Rattle.statement.specs.Netlists.{Definition}"),
    "Report": ("Report", "Rattle.report.specs.Reports.{Report}"),
    "Tree": ("List Node", "Rattle.redundancy_cert.specs.declared.nodes.Node.{Node}"),
}
ITEMS = "use Rattle.std.specs.Prelude.{List}\n\npub record Items (A : Type 0) : Type 0 where\n  pub items : List A\n"


def file_of(module):
    """The file of a module of the repository's specs or proofs; None for another's."""
    parts = module.split(".")
    if parts[0] != "Rattle" or "declared" in parts or not (ROOT / "crates" / parts[1]).is_dir():
        return None
    return ROOT / "crates" / parts[1] / ("/".join(parts[2:]) + ".antt")


def name_apart(module):
    """What a module is called in the crate apart."""
    parts = module.split(".")
    if parts[0] != "Rattle" or parts[1] == "std":
        return module
    if "declared" in parts:
        kind = [part for part in parts[parts.index("declared") + 1 :] if part != "TheVariants"]
        return f"Rattle.apart.specs.T_{parts[1]}_{'_'.join(kind)}"
    return f"Rattle.apart.{parts[2]}.{parts[1]}_{'_'.join(parts[3:])}"


def imports(text):
    return [(match[1], match[2] or "") for match in re.finditer(r"^use (\S+?)(\.\{.*\}|\s+as\s+\S+)?$", text, re.MULTILINE)]


def rewritten(text):
    """A file's text with the modules' names in the crate apart."""
    for module, tail in imports(text):
        named = name_apart(module)
        if named != module:
            tail_apart = tail or " as " + module.rsplit(".", 1)[1]
            text = re.sub(rf"^use {re.escape(module + tail)}$", lambda _, to=f"use {named}{tail_apart}": to, text, count=1, flags=re.MULTILINE)
    return text


def below(modules):
    """The modules and all that they import: files by module, and the modules of types."""
    files, types, waiting = {}, {}, list(modules)
    while waiting:
        module = waiting.pop()
        path = file_of(module)
        if ".declared." in module:
            parts = module.split(".")
            at = parts.index("declared")
            types[name_apart(module).rsplit(".", 1)[1]] = (parts[1], parts[at + 1], parts[at + 2])
        elif path is not None and module not in files:
            files[module] = path.read_text(encoding="utf-8")
            waiting += [named for named, _ in imports(files[module])]
    return files, types


def value_of(kind, crate, uses):
    """A type of the code as one of the specs; the imports that it needs are added."""
    vector = re.fullmatch(r"Vec<(.*)>", kind)
    if vector:
        uses.add("Rattle.apart.specs.T_Items.{Items}")
        return f"Items {value_of(vector[1], crate, uses)}"
    if kind in NUMBERS:
        return "ℕ"
    if kind in VIEWS:
        said, module = VIEWS[kind]
        uses |= {name_apart(module.rsplit(".", 1)[0]) + "." + module.rsplit(".", 1)[1]} if module else set()
        return f"({said})" if " " in said else said
    uses.add(f"?{crate}.{kind}")
    return kind


def types_text(crate, file, kind, known):
    """A type of the code as plain data."""
    source, lines = spec_words.type_text(crate, file, kind)
    lines = [line.strip().rstrip(",") for line in lines if not line.strip().startswith("//")]
    uses, body = set(), []
    is_record = lines[0].startswith("pub struct")
    for line in lines[1:-1]:
        if is_record:
            name, _, of = line.removeprefix("pub ").partition(": ")
            body.append(f"  pub {name} : {value_of(of, crate, uses)}")
        else:
            name, _, of = line.rstrip(")").partition("(")
            parts = [value_of(part.strip(), crate, uses) for part in of.split(",")] if of else []
            body.append(f"  {name} : {' → '.join([*parts, kind])}")
    named = {use.split(".", 1)[1] for use in uses if use.startswith("?")}
    found = [f"use Rattle.apart.specs.{module}.{{{known[module][2]}}}" for module in known if known[module][2] in named]
    head = ["use Rattle.std.specs.Prelude.{ℕ, Bool, List}", *(f"use {use}" for use in sorted(uses) if not use.startswith("?")), *found, ""]
    return "\n".join([*head, f"pub {'record' if is_record else 'data'} {kind} : Type 0 where", *body]) + "\n"


def make(folder, modules):
    """Writes the crate of some modules into a folder; answers the folder to check in."""
    files, types = below(modules)
    crate = pathlib.Path(folder) / "crates" / "apart"
    for part in ("src", "specs", "proofs"):
        (crate / part).mkdir(parents=True, exist_ok=True)
    (pathlib.Path(folder) / "crates.txt").write_text("apart:\n", encoding="utf-8")
    (crate / "src" / "lib.rt").write_text("#![tactic(auto)]\n\n/// One.\npub fn one() -> u32 {\n    1\n}\n", encoding="utf-8")
    listed = {"specs": ["T_Items", *types], "proofs": []}
    (crate / "specs" / "T_Items.antt").write_text(ITEMS, encoding="utf-8")
    for name, (of, file, kind) in types.items():
        (crate / "specs" / f"{name}.antt").write_text(types_text(of, file, kind, types), encoding="utf-8")
    for module, text in files.items():
        _, _, part, name = name_apart(module).split(".")
        (crate / part / f"{name}.antt").write_text(rewritten(text), encoding="utf-8")
        listed[part].append(name)
    for part, names in listed.items():
        (crate / part / "Lib.antt").write_text("".join(f"pub mod {name}\n" for name in names), encoding="utf-8")
    return crate
