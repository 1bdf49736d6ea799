"""The public calls, traits and types of the crates, with their contracts, as tools/pages reads them from `src/`."""
import collections
import re

# Text is the head of a call with its clauses, without comments; clauses are pairs of a kind and a name, which may be empty.
Call = collections.namedtuple("Call", "name path line text clauses is_public")
# What a type or a trait looks like to contracts: its ghost items, each with a name, a text and the file where it stands.
Look = collections.namedtuple("Look", "name path line ghosts")

# Comments, and what stands in quotes: strings, bytes and letters. A name may end with a quote, and a lifetime begins with one.
QUIET = re.compile(
    r"//[^\n]*|/\*.*?\*/|r(#*)\"[^\n]*?\"\1|\"(?:\\.|[^\"\\])*\"|"
    r"\bb'(?:\\.|[^'\\])'|(?<![\w'])'(?:\\[^']+|[^'\\])'",
    re.S,
)
COMMENT = re.compile(r"/[/*]")
HEAD = re.compile(
    r"^(?P<public>pub )?(?:pub\([a-z]+\) )?(?:unsafe )?(?:(?P<kind>trait|struct|enum) (?P<name>\w+)|(?P<impl>impl)\b|"
    r"(?:const )?fn (?P<fn>\w+))",
    re.M,
)
INNER = re.compile(
    r"^    (?P<public>pub )?(?:pub\([a-z]+\) )?(?:unsafe |const )*(?:fn (?P<fn>\w+)|ghost (?P<ghost>\w+)\s*[=:])",
    re.M,
)
CLAUSE = re.compile(r"\b(requires|ensures)(?: ([\w']+))? *$")
EXPORT = re.compile(r"^pub use ([\w:]+?)(?:::\{([^}]*)\})?;", re.M)
MODULE = re.compile(r"^(pub )?mod (\w+);", re.M)


class Unread(Exception):
    """A source that is written in a way that isn't known here."""


def blanked(text):
    """The text twice, with each place where it was: with spaces for comments and what stands in quotes, and for comments alone."""
    bare, said, at = [], [], 0
    for found in QUIET.finditer(text):
        spaces = re.sub(r"[^\n]", " ", found[0])
        bare += [text[at : found.start()], spaces]
        said += [text[at : found.start()], spaces if COMMENT.match(found[0]) else found[0]]
        at = found.end()
    return "".join(bare) + text[at:], "".join(said) + text[at:]


def end_of(bare, start):
    """The place behind the brace that closes the one at a place."""
    depth = 0
    for found in re.compile(r"[{}]").finditer(bare, start):
        depth += 1 if found[0] == "{" else -1
        if depth == 0:
            return found.end()
    raise Unread(f"a brace is not closed behind {bare[start : start + 40]!r}")


def head_end(bare, start):
    """Where a function's head ends, with its clauses: at its body, or at the semicolon in place of one."""
    clauses, depth, at = [], 0, start
    while True:
        found = re.compile(r"[(\[{;)\]]").search(bare, at)
        at = found.end()
        if found[0] in "([":
            depth += 1
        elif found[0] in ")]":
            depth -= 1
        elif depth == 0:
            clause = CLAUSE.search(bare[start : found.start()])
            if not clause or found[0] == ";":
                return found.start(), clauses
            clauses.append((clause[1], clause[2] or ""))
            at = end_of(bare, found.start())


def exported(folder, text_of, module="lib"):
    """The names that a module's file shows to others: what it uses again, what it has, and what its public modules show."""
    path = f"{folder}/{module}.rt"
    text, _ = blanked(text_of(path))
    names = set(re.findall(r"^pub (?:unsafe )?(?:fn|trait|struct|enum|type) (\w+)", text, re.M))
    for used, several in EXPORT.findall(text):
        if not used.startswith("geo_"):
            names |= {name.strip() for name in several.split(",")} if several else {used.split("::")[-1]}
    for public, name in MODULE.findall(text):
        if public:
            names |= exported(folder, text_of, name if module == "lib" else f"{module}/{name}")
    return names


class Crate:
    """The calls of a crate by their full names, and what its types and traits look like."""

    def __init__(self, name, paths, text_of):
        self.name, self.calls, self.looks, self.clauses = name, {}, {}, 0
        folder = f"crates/{name}/src"
        root = f"{folder}/lib.rt" if f"{folder}/lib.rt" in paths else f"{folder}/main.rt"
        self.shown = exported(folder, text_of) if root.endswith("lib.rt") else {"main"}
        for path in paths:
            self.read(path, text_of(path))

    def read(self, path, text):
        """Takes the calls and types of a file. A clause that it would pass over is a fault of its own."""
        bare, said = blanked(text)
        at, before = 0, self.clauses
        while head := HEAD.search(bare, at):
            if head["fn"]:
                at = self.add_call(head["fn"], path, bare, said, head, head["fn"] in self.shown and bool(head["public"]))
                continue
            opens = re.compile(r"[{;]" if head["kind"] else r"{").search(bare, head.end())
            at = end_of(bare, opens.start()) if opens[0] == "{" else opens.end()
            self.read_body(head, path, bare[:at], said, opens.end())
        there = len(re.findall(r"\bensures\b", bare))
        if there != self.clauses - before:
            raise Unread(f"{path}: {there} clauses begin with `ensures`, and {self.clauses - before} of them can be read")

    def read_body(self, head, path, bare, said, start):
        """What stands in an impl, a trait or a type."""
        heading = " ".join(bare[head.start() : start - 1].split())
        owner, trait = (head["name"], None) if head["kind"] else owner_of(heading)
        ghosts = [("", heading, path)] if trait else []
        for inner in INNER.finditer(bare, start):
            if inner["ghost"]:
                end = re.compile(r"\}\s*[;,]").search(bare, end_of(bare, bare.index("{", inner.end())) - 1)
                ghosts.append((inner["ghost"], said[inner.start() : end.start() + 1], path))
            elif head["kind"] or not trait:
                is_public = owner in self.shown and (head["kind"] == "trait" or bool(inner["public"]))
                self.add_call(f"{owner}::{inner['fn']}", path, bare, said, inner, is_public)
            else:
                end, clauses = self.head_of(bare, inner)
                ghosts += [("", said[inner.start() : end], path)] if clauses else []
        if head["kind"] or len(ghosts) > bool(trait):
            self.add_look(owner, path, bare.count("\n", 0, head.start()) + 1, ghosts, bool(head["kind"]))

    def head_of(self, bare, head):
        """Where a function's head ends, and its clauses, which are counted."""
        end, clauses = head_end(bare, head.end())
        self.clauses += sum(1 for kind, _ in clauses if kind == "ensures")
        return end, clauses

    def add_call(self, name, path, bare, said, head, is_public):
        end, clauses = self.head_of(bare, head)
        call = Call(name, path, bare.count("\n", 0, head.start()) + 1, said[head.start() : end], clauses, is_public)
        before = self.calls.get(name)
        if before and before.is_public == is_public:
            # a generic type may have a method for each of its kinds
            call = before._replace(text=before.text + call.text, clauses=before.clauses + clauses)
        if not before or is_public or not before.is_public:
            self.calls[name] = call
        return end

    def add_look(self, name, path, line, ghosts, is_home):
        """More of what a type looks like. It stands where it is declared."""
        before = self.looks.get(name, Look(name, path, line, []))
        place = (path, line) if is_home else (before.path, before.line)
        self.looks[name] = Look(name, *place, before.ghosts + ghosts)


def owner_of(heading):
    """The type that an impl is for, and the trait, if it is one of a trait."""
    plain, depth = "", 0
    for letter in heading.removeprefix("unsafe ").removeprefix("impl").replace("->", ""):
        depth += {"<": 1, ">": -1}.get(letter, 0)
        plain += letter if depth == 0 and letter != ">" else ""
    plain = plain.split(" where ")[0].strip()
    trait, _, owner = plain.rpartition(" for ")
    return re.split(r"\W", owner.strip(" &'"))[0], trait.strip() or None
