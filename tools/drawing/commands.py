"""What a client's bytes ask for, and how answers are taken apart, as docs/protocol.md has it."""
import collections
import re

from .script import is_key

# A request by its words, without `noreply`; data for those that bring some. A fault has no words.
Request = collections.namedtuple("Request", "words data is_silent")
FAULT = Request((), b"", False)
LONGEST_LINE = 65536
LONGEST_VALUE = 2**20
FEW, MANY, SIGNED = 2**32 - 1, 2**64 - 1, 2**63
# The places of a request's words behind its name: a key, or a number up to so much; `-` for one with a sign.
PLACES = {
    "set": ("key", FEW, "-", 2**31 - 1),
    "cas": ("key", FEW, "-", 2**31 - 1, MANY),
    "touch": ("key", "-"),
    "incr": ("key", MANY),
    "decr": ("key", MANY),
    "verbosity": (FEW,),
    "version": (),
    "stats": (),
    "quit": (),
}
PLACES.update({name: PLACES["set"] for name in ("add", "replace", "append", "prepend")})
STORES = ("set", "add", "replace", "append", "prepend", "cas")
FETCHES = ("get", "gets", "gat", "gats")
LOUD = (*FETCHES, "version", "stats", "quit")


def fits(word, place):
    """Whether a word can stand at a place."""
    if place == "key":
        return is_key(word)
    if place == "-":
        return bool(re.fullmatch(rb"-?\d+", word)) and -SIGNED <= int(word) < SIGNED
    return word.isdigit() and int(word) <= place


def places_of(name, words):
    """The places of a request's words, which some requests have more or fewer of."""
    if name in FETCHES:
        return ("-",) * name.startswith("gat") + ("key",) * max(1, len(words) - name.startswith("gat"))
    if name == "delete":
        return ("key", 0)[: max(1, len(words))]
    if name == "flush_all":
        return ("-",)[: len(words)]
    return PLACES.get(name)


def request_in(line):
    """The request that a line has, without its data."""
    words = [word for word in line.split(b" ") if word]
    name, words = words[0].decode("latin-1") if words else "", words[1:]
    for is_silent in (False, name not in LOUD and words[-1:] == [b"noreply"]):
        said = words[:-1] if is_silent else words
        places = places_of(name, said)
        if places is not None and len(places) == len(said) and all(map(fits, said, places)):
            return Request((name, *said), b"", is_silent)
    return FAULT


class Connection:
    """What a client has sent and no request has taken yet."""

    def __init__(self):
        self.rest = b""

    def feed(self, data):
        """The requests that more bytes complete."""
        self.rest += data
        found = []
        while item := self.next_item():
            found.append(item)
            if item.words == ("quit",):
                self.rest = b""
        return found

    def next_item(self):
        line, feed, behind = self.rest.partition(b"\n")
        if len(line) > LONGEST_LINE:
            self.rest = b""
            return FAULT
        if not feed:
            return None
        request = request_in(line.removesuffix(b"\r"))
        if request.words[:1] and request.words[0] in STORES:
            return self.with_data(request, behind)
        self.rest = behind
        return request

    def with_data(self, request, behind):
        """A request that stores, once its data have come; a fault behind the next line feed where they are bad."""
        length = int(request.words[4])
        data, end = behind[:length], behind[length : length + 2]
        if length <= LONGEST_VALUE and end == b"\r\n":
            self.rest = behind[length + 2 :]
            return request._replace(data=data)
        at = behind.find(b"\n", length)
        if at < 0:
            return None
        self.rest = behind[at + 1 :]
        return FAULT


Shown = collections.namedtuple("Shown", "key flags number value")


class Answers:
    """The bytes that a client line is answered by."""

    def __init__(self, data):
        self.rest = data

    def line(self):
        """The next line, or None where there is none."""
        line, end, behind = self.rest.partition(b"\r\n")
        if not end:
            return None
        self.rest = behind
        return line.decode("latin-1")

    def values(self):
        """The values up to `END`, or the line that stands in their place, or None."""
        found = []
        while (line := self.line()) and line.startswith("VALUE "):
            words = line.split(" ")
            length = int(words[3])
            found.append(Shown(words[1].encode("latin-1"), int(words[2]), int(words[4]) if words[4:] else None, self.rest[:length]))
            self.rest = self.rest[length + 2 :]
        return found if line == "END" else line

    def stats(self):
        """Names and numbers up to `END`, or None."""
        found = []
        while (line := self.line()) and line.startswith("STAT "):
            found.append(line[5:])
        return found if line == "END" else None
