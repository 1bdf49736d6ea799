"""What the repository has: its crates in their order, with their calls and definitions, and the words for them."""
import glob
import os
import re

from making import words
from making.definitions import Definitions
from making.sources import Crate

# Crates of tests, benchmarks and examples: nobody stands on their calls.
BESIDE = re.compile(r"geo_\w+_checks|geo_bench|geo_worked|geo_fixtures|geo_plain|geo_scenes|geo_refusals\w*")
CALLS = "docs/words/calls"
ROWS = "docs/words/reading_order.md"
# What a caller sees of a type's values; the rest of what it looks like is for whoever names the type.
SEEN = ("Value", "view")


class Part:
    """A part of the sources that words speak of: what it is called, where it stands, and its text."""

    def __init__(self, name, path, line, text, clauses=()):
        # the clauses are the names of those that a call ensures, or of a type's ghost items
        self.name, self.path, self.line, self.text, self.clauses = name, path, line, text, clauses

    def place(self):
        return f"{self.path}:{self.line}"

    def cited(self):
        """The words of its text, without its own name."""
        return set(re.findall(r"[\w']+", re.sub(r"\bfn \w+", "", self.text)))


class Repository:
    def __init__(self, root):
        self.root = root
        self.texts = {}
        names = [line.partition(":")[0].strip() for line in self.text_of("crates.txt").splitlines()]
        self.names = [name for name in names if name and not BESIDE.fullmatch(name)]
        self.crates = {name: Crate(name, self.files(f"crates/{name}/src/**/*.rt"), self.text_of) for name in self.names}
        self.definitions = Definitions(self.files("crates/*/specs/**/*.antt"), self.text_of)
        self.calls = {path: words.entries_of(path, self.text_of(path)) for path in self.files(f"{CALLS}/*.md")}
        self.rows = words.entries_of(ROWS, self.text_of(ROWS))
        self.cite()

    def text_of(self, path):
        if path not in self.texts:
            with open(f"{self.root}/{path}", encoding="utf-8") as file:
                self.texts[path] = file.read()
        return self.texts[path]

    def files(self, pattern):
        return sorted(os.path.relpath(path, self.root) for path in glob.glob(f"{self.root}/{pattern}", recursive=True))

    def entries(self, crate):
        """The entries for a crate's calls."""
        return self.calls.get(f"{CALLS}/{crate}.md", [])

    def is_owed(self, call):
        """Whether words owe a call something: others can call it, and it promises more than to be safe."""
        return call.is_public and any(kind == "ensures" for kind, _ in call.clauses)

    def parts_of_name(self, crate, name):
        """The part that a heading names: a call, with what the values of its type look like, or a type or a trait; or None."""
        if call := self.crates[crate].calls.get(name):
            look = self.crates[crate].looks.get(name.partition("::")[0])
            seen = "".join(text for ghost, text, _ in look.ghosts if ghost in SEEN) if look and "::" in name else ""
            promised = list(dict.fromkeys(given for kind, given in call.clauses if kind == "ensures" and given))
            return Part(name, call.path, call.line, call.text + seen, promised)
        if look := self.crates[crate].looks.get(name):
            ghosts = list(dict.fromkeys(ghost for ghost, _, _ in look.ghosts if ghost not in ("", "invariant", *SEEN)))
            return Part(name, look.path, look.line, "".join(text for _, text, _ in look.ghosts), ghosts)
        return None

    def parts_of_call_entry(self, crate, entry):
        """The parts that an entry for calls speaks of; those that aren't there are left out."""
        return [part for name in entry.names if (part := self.parts_of_name(crate, name))]

    def files_of(self, row):
        """The files of a row of definitions."""
        return [f"crates/{name}" for name in words.spans_in(row.facts.get("in", ""))]

    def parts_of_row(self, row):
        """The definitions that a row names, and for each of its files those that no row names."""
        parts = []
        files = [self.definitions.files[path] for path in self.files_of(row) if path in self.definitions.files]
        for name in row.names:
            for file in files:
                if name in file.names:
                    parts.append(Part(name, file.path, *file.names[name]))
        for file in files:
            rest = [it for name, it in file.names.items() if name not in self.named_in(file.path)]
            if rest:
                parts.append(Part(f"what no row names of {file.path}", file.path, rest[0][0], "".join(text for _, text in rest)))
        return parts

    def named_in(self, path):
        """The names that rows with this file have."""
        return {name for row in self.rows if path in self.files_of(row) for name in row.names}

    def cite(self):
        """Has the definitions know what the contracts cite that others see, or of which words speak."""
        laws = self.laws()
        for name, crate in self.crates.items():
            spoken = {one for entry in self.entries(name) for one in entry.names}
            contracts = {}
            for call in crate.calls.values():
                if call.is_public or call.name in spoken:
                    contracts.setdefault(call.path, []).append((f"{call.path}:{call.line}", call.text))
            for look in crate.looks.values():
                for ghost, text, path in look.ghosts if look.name in crate.shown else []:
                    if ghost not in laws and ghost != "invariant":
                        contracts.setdefault(path, []).append((f"{look.path}:{look.line}", text))
            for path, seen in contracts.items():
                self.definitions.cite(self.text_of(path), seen)
        self.definitions.follow()

    def laws(self):
        """The ghost items of traits that are laws: what an impl has for one is a proof, which needs no reader."""
        looks = [look for crate in self.crates.values() for look in crate.looks.values()]
        return {ghost for look in looks for ghost, text, _ in look.ghosts if re.match(r"\s*ghost \w+:", text) and "≡" in text}
