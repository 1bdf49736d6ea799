"""The words that docs/words has for calls and definitions, one entry for each row of a page.

An entry is a heading with names between backticks, a paragraph of words, and a list: `- in FILE`, `- from SOURCE` (both for
definitions alone), `- read` with a fingerprint for each part of the sources that the words speak of, as it was when they were read.
"""
import collections
import hashlib
import re

Entry = collections.namedtuple("Entry", "page line title names words facts")

NAME = r"[A-Za-z_][\w']*"
FACT = re.compile(r"- (in|from|read)\b ?(.*)$")


class Malformed(Exception):
    """Words that don't have the form of an entry."""


def spans_in(text):
    return re.findall(r"`([^`]+)`", text)


def names_of(title):
    """The names of a heading, those in braces each by its full name."""
    names = []
    for span in spans_in(title):
        group = re.fullmatch(rf"({NAME})::\{{([^}}]*)\}}", span)
        names += [f"{group[1]}::{one.strip()}" for one in group[2].split(",")] if group else [span]
    return names


def entry_of(page, line, title, lines):
    """The entry below a heading."""
    facts, words = {}, []
    for at, text in enumerate(lines, line + 1):
        if fact := FACT.match(text):
            if fact[1] in facts:
                raise Malformed(f"{page}:{at}: a second `- {fact[1]}`")
            facts[fact[1]] = fact[2].strip()
        elif text.strip():
            if facts:
                raise Malformed(f"{page}:{at}: words behind the list of an entry")
            words.append(text.strip())
    if not words or not names_of(title):
        raise Malformed(f"{page}:{line}: an entry has names between backticks, and words")
    return Entry(page, line, title, names_of(title), " ".join(words), facts)


def entries_of(page, text):
    """All entries of a file."""
    lines = text.split("\n")
    heads = [at for at, line in enumerate(lines) if line.startswith("## ")]
    ends = heads[1:] + [len(lines)]
    return [entry_of(page, at + 1, lines[at][3:].strip(), lines[at + 1 : end]) for at, end in zip(heads, ends)]


def fingerprint(text):
    """A short one of a text, whatever its white space."""
    return hashlib.sha256("".join(text.split()).encode()).hexdigest()[:8]


def with_read(text, entry, parts):
    """The text of a file in which an entry has the fingerprints of these parts."""
    lines = text.split("\n")
    told = "- read " + " ".join(fingerprint(part) for part in parts)
    end = entry.line
    while end < len(lines) and not lines[end].startswith("## "):
        if lines[end].startswith("- read"):
            lines[end] = told
            return "\n".join(lines)
        end += 1
    while not lines[end - 1].strip():
        end -= 1
    lines[end:end] = [told] if entry.facts else ["", told]
    return "\n".join(lines)
