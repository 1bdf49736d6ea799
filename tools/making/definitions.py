"""The definitions of the crates' `specs/`, as tools/pages reads them: which file rests on which, and which of them contracts cite."""
import collections
import re

# Names are the file's definitions, each with its line and its text without comments; rests are the files that it rests on.
File = collections.namedtuple("File", "path names rests lines")

IMPORT = re.compile(r"use Rattle\.(geo_\w+)\.specs\.(\w+)[\w.]*?(?:\.\{([^}]*)\}| as (\w+))")
WORD = re.compile(r"(?<![\w'.])[\w'◌]+")
# Definitions below a `section` are indented, as fields of records are.
HEAD = re.compile(r"^(?: *(?:abbrev|unfoldable) pub|(?:  )?pub (?:record|data)|pub(?! (?:use|mod|record|data)\b)) (\S+)", re.M)


def imported(text):
    """Each name that a text imports from a crate's definitions, with the file that has it."""
    for crate, file, names, alias in IMPORT.findall(text):
        if file != "declared":
            for name in (names or alias).split(","):
                yield name.split(" as ")[-1].strip(), f"crates/{crate}/specs/{file}.antt"


def read_file(path, text, there):
    said = re.sub(r"--[^\n]*", "", text)
    heads = list(HEAD.finditer(said))
    names = {}
    for head, end in zip(heads, [it.start() for it in heads[1:]] + [len(said)]):
        names[head[1]] = (said.count("\n", 0, head.start()) + 1, said[head.start() : end])
    rests = [below for below in dict.fromkeys(below for _, below in imported(text)) if below in there and below != path]
    return File(path, names, rests, text.count("\n"))


class Definitions:
    """All files of definitions, and those that public contracts cite."""

    def __init__(self, paths, text_of):
        self.files = {path: read_file(path, text_of(path), paths) for path in paths if not path.endswith("/Lib.antt")}
        # each file that is cited, with the place and the word that lead to it
        self.cited = {}

    def cite(self, text, contracts):
        """Notes which files are cited by contracts, pairs of a place and a text, that stand in a file of sources."""
        words = {}
        for place, contract in contracts:
            for word in WORD.findall(contract):
                words.setdefault(word, place)
        for name, file in imported(text):
            if file in self.files and name in words:
                self.cited.setdefault(file, (words[name], name))

    def follow(self):
        """Notes the files on which the cited ones rest."""
        rest = list(self.cited)
        while rest:
            file = rest.pop()
            for below in self.files[file].rests:
                if below not in self.cited:
                    self.cited[below] = (file, below.rsplit("/", 1)[1].removesuffix(".antt"))
                    rest.append(below)


def in_order(items, needs):
    """The items in their order, but each behind those that it needs, as far as these don't need it themselves."""
    done, begun = [], set()

    def visit(item):
        if item not in begun:
            begun.add(item)
            for other in needs(item):
                visit(other)
            done.append(item)

    for item in items:
        visit(item)
    return done
