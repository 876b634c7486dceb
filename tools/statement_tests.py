"""Tests of tools/trust and of what tools/weaken stands on: a part of tools/test_tools. Nothing is proved here."""

import importlib.machinery
import importlib.util
import pathlib
import sys
import tempfile

ROOT = pathlib.Path(__file__).resolve().parent.parent
sys.path.insert(0, str(ROOT / "tools"))
import spec_words  # noqa: E402
import specs_apart  # noqa: E402


def tool_at(path):
    loader = importlib.machinery.SourceFileLoader(path.name, str(path))
    module = importlib.util.module_from_spec(importlib.util.spec_from_loader(path.name, loader))
    loader.exec_module(module)
    return module


trust = tool_at(ROOT / "tools/trust")
weaken = tool_at(ROOT / "tools/weaken")
SPECS = """use Rattle.std.specs.Prelude.{ℕ, ◌≡◌}

-- a number
abbrev pub one : ℕ
one = 1

-- both are one
pub record Statement (n : ℕ) : Type 0 where
  pub first : n ≡ one
  -- said again
  pub second : n ≡ one

abbrev pub idle : ℕ
idle = 2
"""


def tree_of(text):
    """The specs of one file, as a tree."""
    with tempfile.TemporaryDirectory() as folder:
        path = pathlib.Path(folder) / "crates/statement/specs/Words.antt"
        path.parent.mkdir(parents=True)
        path.write_text(text, encoding="utf-8")
        root, spec_words.ROOT = spec_words.ROOT, pathlib.Path(folder)
        try:
            return spec_words.Tree()
        finally:
            spec_words.ROOT = root


def statement_is_printed_whole():
    """A definition is printed with its comment and the comments in it, and what nothing reaches isn't, but is a fault."""
    tree = tree_of(SPECS)
    root = ("Rattle.statement.specs.Words", "Statement")
    reached = trust.Reached(tree, [root])
    assert reached.text(root[0]) == SPECS.split("\n\n", 1)[1].split("\n\nabbrev pub idle")[0].splitlines()
    assert reached.count() == 8
    assert trust.faults(tree, root, "")[0] == "Statement doesn't reach idle of Words, which stands in its crate"


def statement_is_found_by_contracts():
    """The statement is reached from both contracts, and each page behind it from others."""
    tree = spec_words.Tree()
    root = trust.statement_root(tree)
    assert root[1] == "Statement"
    assert ("Rattle.good_files.specs.Checks", "PassesWhereTrue") in spec_words.ensured(*trust.CHECK)
    made = trust.page(tree, root)
    assert made == trust.page(spec_words.Tree(), root)
    named = {name for contract in (trust.CHECK, *trust.TOPS) for name in tree.reach_all(spec_words.ensured(*contract))}
    assert all(f"`{word}`" in made or word in made for _, word in named)


def limits_are_kept():
    """A statement with more lines than the limit is a fault."""
    tree = spec_words.Tree()
    limit, trust.LIMIT = trust.LIMIT, 100
    try:
        assert any("more than 100" in fault for fault in trust.faults(tree, trust.statement_root(tree), ""))
    finally:
        trust.LIMIT = limit


def types_stand_as_data():
    """The types of the code as plain data: numbers, records, variants, and what they name."""
    known = {"T_statement_lines_Line": ("statement", "lines", "Line")}
    fault = specs_apart.types_text("statement", "lines", "Fault", known)
    assert fault.endswith("pub record Fault : Type 0 where\n  pub line : Line\n  pub value : Bool\n")
    assert "use Rattle.apart.specs.T_statement_lines_Line.{Line}" in fault
    assert "  Pin : ℕ → ℕ → Line\n" in specs_apart.types_text("statement", "lines", "Line", {})


def conjuncts_fit():
    """Each conjunct that tools/weaken takes away stands once where it says, in the crate apart."""
    for _, changes in [weaken.field_case(name) for name in weaken.FIELDS] + weaken.CASES:
        with tempfile.TemporaryDirectory() as folder:
            weaken.change(specs_apart.make(folder, weaken.MODULES), changes)


def test_statement():
    statement_is_printed_whole()
    statement_is_found_by_contracts()
    limits_are_kept()
    types_stand_as_data()
    conjuncts_fit()
