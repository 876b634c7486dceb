"""Reads the specs of the crates: their definitions, what each names, and what words rest on. tools/trust and tools/weaken stand on it."""

import collections
import pathlib
import re

ROOT = pathlib.Path(__file__).resolve().parent.parent

USE = re.compile(r"^use (\S+?)(?:\.\{(.*)\}|\s+as\s+(\S+))?$")
GROUP = r"(?: *[({](?:[^(){}]|\([^()]*\)|\{[^{}]*\})*[)}])*"
DEFINED = re.compile(rf"^( *)(?:(?:abbrev|unfoldable) )?(?:pub )?(?:(?:record|data) )?([^\s:(){{}}=.,]+){GROUP} *: *(.*)")
COMMENT = re.compile(r"(?:^| ) *-- .*$")
WORD = re.compile(r"[^\s(){}\[\],;=]+")

# A definition: where it stands, the module around it, the comment above it and its text, each as lines, and the words that it names.
Definition = collections.namedtuple("Definition", "crate file word around comment text names")


class Specs:
    """A file of specs: its imports, and its definitions by their words."""

    def __init__(self, crate, path):
        self.imports, self.aliases, self.definitions, self.constructors = {}, {}, {}, {}
        self.crate, self.file = crate, path.relative_to(ROOT / "crates" / crate / "specs").with_suffix("").as_posix()
        comment, inside, around, self.shared = [], None, [], []
        for line in path.read_text(encoding="utf-8").splitlines():
            text = line.strip()
            if text.startswith("use "):
                self.use(text)
            elif text.startswith("--") and inside is not None and len(line) - len(line.lstrip()) > inside[1]:
                self.definitions[inside[0]][2].append(line)
            elif text.startswith("--"):
                comment, inside = [*comment, line], None
            elif not text:
                comment, inside, self.shared = [], None, []
            elif text.startswith("module "):
                around, comment, inside = [line], [], None
            else:
                inside = self.line(line, comment, inside, around)
                comment = []

    def line(self, line, comment, inside, around):
        """Takes a line of a definition; answers the definition's word and its indentation."""
        match = DEFINED.match(line)
        if match is not None and (inside is None or len(match[1]) <= inside[1]):
            name = match[2]
            inside = (name, len(match[1]))
            self.shared = comment or self.shared
            if name not in self.definitions:
                self.definitions[name] = (around, self.shared, [])
            self.definitions[name][2].append(line)
        elif inside is not None:
            text = self.definitions[inside[0]][2]
            text.append(line)
            if re.match(r" *(pub )?data ", text[0]):
                self.constructors[WORD.findall(line.replace("|", " "))[0]] = inside[0]
        return inside

    def use(self, text):
        module, words, alias = USE.match(text).groups()
        if words is None:
            self.aliases[alias or module.rsplit(".", 1)[1]] = module
            return
        for word in words.split(","):
            name, _, as_name = word.strip().partition(" as ")
            self.imports[as_name or name] = (module, name)

    def modules(self):
        """The modules that the file imports from, in its order."""
        return list(dict.fromkeys([*(module for module, _ in self.imports.values()), *self.aliases.values()]))

    def whole(self, word):
        around, comment, text = self.definitions[word]
        named = (COMMENT.sub("", line) for line in around + text)
        return Definition(self.crate, self.file, word, around, comment, text, [name for line in named for name in WORD.findall(line)])


class Tree:
    """All specs of the repository, and what is reached from some words."""

    def __init__(self):
        self.specs, self.reached, self.types, self.of_kit = {}, {}, {}, set()
        for path in sorted((ROOT / "crates").glob("*/specs/**/*.antt")):
            crate = path.relative_to(ROOT / "crates").parts[0]
            specs = Specs(crate, path)
            self.specs[f"Rattle.{crate}.specs.{specs.file.replace('/', '.')}"] = specs

    def below(self, module, word):
        """The words that a definition names, each as its module and its word there."""
        specs = self.specs[module]
        for name in dict.fromkeys(specs.whole(word).names):
            first, _, rest = name.partition(".")
            if name in specs.imports:
                yield self.defined(*specs.imports[name])
            elif name in specs.definitions and name != word:
                yield module, name
            elif first in specs.aliases and rest:
                yield self.defined(specs.aliases[first], rest)
            elif name.startswith("◌") or f"◌{name}◌" in specs.imports:
                yield specs.imports[f"◌{name}◌"]

    def defined(self, module, word):
        """Where a word is defined: a constructor is by its type."""
        return (module, self.specs[module].constructors.get(word, word)) if module in self.specs else (module, word)

    def reach(self, module, word):
        """Reaches a word after all that it rests on."""
        waiting = [((module, word), None)]
        entered = set()
        while waiting:
            (module, word), below = waiting[-1]
            if below is None:
                if (module, word) in entered or not self.enter(module, word):
                    waiting.pop()
                    continue
                entered.add((module, word))
                below = self.below(module, word)
                waiting[-1] = ((module, word), below)
            following = next(below, None)
            if following is None:
                self.reached.setdefault((module, word), self.specs[module].whole(word))
                waiting.pop()
            else:
                waiting.append((following, None))

    def reach_all(self, roots):
        """What some words reach, by module and word, and the types among it."""
        self.reached, self.types, self.of_kit = {}, {}, set()
        for module, word in roots:
            self.reach(module, word)
        return self.reached

    def enter(self, module, word):
        """Whether a word is a definition of the specs that wasn't reached yet; others are types of the code or words of the kit."""
        if ".specs.declared." in module:
            parts = module.split(".")
            kind = parts[-2] if parts[-1] == "TheVariants" or parts[-1] == "TheViews" else parts[-1]
            self.types[parts[1], parts[parts.index("declared") + 1], kind] = None
            return False
        if module not in self.specs or word not in self.specs[module].definitions:
            self.of_kit.add(f"{module}.{word}")
            return False
        return (module, word) not in self.reached


def type_text(crate, file, kind):
    """Where a type of the code stands, and its lines with the comments above them, without attributes; nothing where the code has no such type."""
    sources = sorted((ROOT / "crates" / crate / "src").rglob(f"{file}.rt"))
    for source in sources or sorted((ROOT / "crates" / crate / "src").rglob("*.rt")):
        match = re.search(rf"((?:^ *(?:///|#\[)[^\n]*\n)*)^pub (?:enum|struct) {kind}\b(?:[^;{{]*;|[^{{;]*\{{.*?^\}})", source.read_text(encoding="utf-8"), re.M | re.S)
        if match is not None:
            return source.relative_to(ROOT).as_posix(), [line for line in match[0].splitlines() if line.strip() and not line.strip().startswith("#[")]
    return None, []


def ensured(source, function):
    """The words of specs that a function's answer is said by, each as its module and its word."""
    text = (ROOT / source).read_text(encoding="utf-8")
    imports = {}
    for module, words in re.findall(r"^ghost use (\S+?)\.\{(.*)\};", text, re.MULTILINE):
        imports.update({word.strip().split(" as ")[-1]: (module, word.strip().split(" as ")[0]) for word in words.split(",")})
    head = text[text.index(f"pub fn {function}") :].split("\n{\n")[0]
    said = WORD.findall(" ".join(head.split("ensures")[1:]))
    return [imports[word] for word in dict.fromkeys(said) if word in imports and ".std." not in imports[word][0]]
