"""The lines of a script and the replies to them, as docs/script.md has them."""
import collections
import re

Line = collections.namedtuple("Line", "number word site other key text")
Setup = collections.namedtuple("Setup", "sites")
LONGEST_KEY = 250
LAST_MOMENT = 2**40
SITES = re.compile(rb"sites (\d+)(?: pages (\d+))?(?: max (\d+))?(?: reap (\d+))?")
RANGES = [(1, 16), (15, 65536), (1, 1_000_000), (0, 2**31 - 1)]
# What a line has behind its first word: a site, a site or a parcel, a key, a text.
SHAPES = {
    "at": rb"at (?P<other>\d+)",
    "client": rb"client (?P<site>\d+) (?P<text>.*)",
    "send": rb"send (?P<site>\d+) (?P<other>\d+)",
    "take": rb"take (?P<site>\d+) (?P<other>\d+)",
    "tick": rb"tick (?P<site>\d+)",
    "reap": rb"reap (?P<site>\d+) (?P<key>[^ ]+)",
    "remove": rb"remove (?P<site>\d+)",
    "evict": rb"evict (?P<site>\d+) (?P<key>[^ ]+)",
    "fill": rb"fill (?P<site>\d+) (?P<key>[^ ]+) (?P<text>.*)",
    "retire": rb"retire (?P<site>\d+) (?P<other>\d+)",
    "versions": rb"versions (?P<site>\d+)",
}
ESCAPE = re.compile(rb"\\(r|n|\\|x[0-9a-fA-F]{2}|)")
SPELLED = {b"r": b"\r", b"n": b"\n", b"\\": b"\\"}
SHOWN = {0x0D: "\\r", 0x0A: "\\n", 0x5C: "\\\\"}


class Fault(Exception):
    """A script that can't be drawn, and why."""


def bad_line(number):
    return Fault(f"bad line {number}")


def unescaped(text):
    """The bytes that a text spells, or None for a bad escape."""
    if any(not found[1] for found in ESCAPE.finditer(text)):
        return None
    return ESCAPE.sub(lambda found: SPELLED.get(found[1]) or bytes([int(found[1][1:], 16)]), text)


def escaped(data):
    """Bytes in printable ASCII."""
    return "".join(SHOWN.get(byte) or (chr(byte) if 0x20 <= byte < 0x7F else f"\\x{byte:02x}") for byte in data)


def is_key(data):
    return 1 <= len(data) <= LONGEST_KEY and not re.search(rb"[\x00-\x20\x7f]", data)


def setup_of(number, text):
    """What the first line says."""
    found = SITES.fullmatch(text)
    numbers = [one and int(one) for one in found.groups()] if found else [0]
    if any(one is not None and not low <= one <= high for one, (low, high) in zip(numbers, RANGES)):
        raise bad_line(number)
    return Setup(numbers[0])


def line_of(number, text, sites):
    """What a later line says. Whether there is such a parcel, only the lines before it tell."""
    word = text.partition(b" ")[0].decode("ascii", "replace")
    found = re.fullmatch(SHAPES.get(word, rb"(?!)"), text, re.DOTALL)
    if not found:
        raise bad_line(number)
    named = found.groupdict()
    site, other = (int(named[it]) if it in named else 0 for it in ("site", "other"))
    key, said = (unescaped(named[it]) if it in named else b"" for it in ("key", "text"))
    is_good = said is not None and key is not None and ("key" not in named or is_key(key)) and ("site" not in named or 1 <= site <= sites)
    if word in ("send", "retire"):
        is_good = is_good and 1 <= other <= sites and other != site
    if word == "at":
        is_good = 1 <= other <= LAST_MOMENT
    if not is_good:
        raise bad_line(number)
    return Line(number, word, site, other, key, said)


def lines_of(script):
    """The lines that aren't skipped, one by one: first the setup, so that a fault comes at its place."""
    setup = None
    for number, text in enumerate(script.split(b"\n"), 1):
        if not text or text.startswith(b"#"):
            continue
        if setup:
            yield line_of(number, text, setup.sites)
        else:
            setup = setup_of(number, text)
            yield setup


def standing_replies(script):
    """The replies that stand in a worked script, or None where none does."""
    lines = script.split(b"\n")
    found = [text[3:] for text in lines if text.startswith(b"#> ")]
    return found if found or any(text.startswith(b"#! ") for text in lines) else None


def first_words(script):
    """What the first comment says, to which a picture owes its title."""
    text = next((text for text in script.split(b"\n") if text), b"")
    return escaped(text[1:].strip()) if text.startswith(b"#") and not text.startswith((b"#>", b"#!")) else ""
