"""What each site knows along a script: which operation each event issues, with its stamp, and which of them win in the end.

A reply decides what its line did; `noreply` is answered by nothing, and there the rules of docs/protocol.md decide, as if the map of
versions had room. Each value, number and list that a reply shows is compared with what the site knows here.
"""
import collections
import hashlib

from .commands import FAULT, Answers, Connection, STORES
from .script import Fault, Setup, bad_line, escaped, lines_of, unescaped

Operation = collections.namedtuple("Operation", "stamp kind key value flags ends")
Parcel = collections.namedtuple("Parcel", "number sender to known gone")
# What one request or line did: the operations, what was asked, and the answers, each with the operation that wrote what it shows.
Deed = collections.namedtuple("Deed", "asked issued answers")
# An event: its line, its deeds, a parcel that it sent or took, which news of retired sites it brought, how a take stands to others.
Event = collections.namedtuple("Event", "line deeds parcel gone manner")
THIRTY_DAYS = 2_592_000
LONGEST_DATA = 12
REFUSALS = {1: "not for it", 4: "addressee gone", 5: "sender gone"}


def moment_of(number, now):
    """The moment that an exptime names: 0 for never, 1 for one that has passed."""
    return 1 if number < 0 else now + number if 0 < number <= THIRTY_DAYS else number


def greatest(found):
    return max(found, key=lambda one: one.stamp, default=None)


class Site:
    """What a site knows, holds and keeps waiting."""

    def __init__(self, number):
        self.number, self.known, self.held, self.gone = number, {}, {}, set()
        self.waits, self.connection, self.has_taken = None, Connection(), {}

    def floor(self):
        return greatest(one for one in self.known.values() if one.kind == "flush")

    def above_floor(self, key, kinds):
        floor = self.floor()
        return (one for one in self.known.values() if one.key == key and one.kind in kinds and not (floor and one.stamp < floor.stamp))

    def version(self, key):
        """The write that the site's version of a key names, or None."""
        found = greatest(self.above_floor(key, ("write", "delete")))
        return found if found and found.kind == "write" else None

    def expiry(self, key):
        """What set the moment at which a key's value ends."""
        return greatest(self.above_floor(key, ("write", "delete", "touch")))

    def found(self, key, now):
        """The version of a key of which the site has bytes to show, or None."""
        version = self.version(key)
        is_shown = version and self.held.get(key) == version.value and not 0 < self.expiry(key).ends <= now
        return version if is_shown else None

    def issue(self, kind, key=b"", value=b"", flags=0, ends=0):
        """An operation of the site's own, with the next stamp."""
        time = 1 + max((stamp[0] for stamp in self.known), default=0)
        made = Operation((time, self.number), kind, key, value, flags, ends)
        self.known[made.stamp] = made
        if kind == "write":
            self.held[key] = value
        self.settle()
        return made

    def settle(self):
        """Lets go of the bytes that no version names."""
        named = {key: self.version(key) for key in self.held}
        self.held = {key: value for key, value in self.held.items() if named[key] and named[key].value == value}

    def flush_due(self, now):
        """Carries out the flush that waits, if it is due."""
        if self.waits is None or now < self.waits:
            return []
        self.waits = None
        return [self.issue("flush")]


def shortened(data):
    """Bytes in few letters. No bytes are two quotes."""
    text = escaped(data) or "''"
    return text if len(text) <= LONGEST_DATA else text[: LONGEST_DATA - 2] + ".."


def asked_by(request):
    """A request in few words: data in the place of their length, flags and exptime where they are not 0."""
    name, *words = request.words or ("",)
    shown = [escaped(word) for word in words]
    if name in STORES:
        places = (("flags", 1), ("exptime", 2), ("cas", 4))
        more = [f"{word} {shown[place]}" for word, place in places if shown[place:] and int(words[place])]
        shown = [shortened(words[0]), shortened(request.data), *more]
    return " ".join([name, *shown, *["noreply"] * request.is_silent])


class Client:
    """Takes one client line's requests and answers together."""

    def __init__(self, site, now, answers, misfit):
        self.site, self.now, self.answers, self.misfit = site, now, answers, misfit

    def line(self):
        line = self.answers.line()
        if line is None:
            raise self.misfit
        return line

    def deeds(self, data):
        """What the requests do that more bytes complete."""
        found = []
        for request in self.site.connection.feed(data):
            if request is FAULT:
                found.append(Deed("(no request)", [], [(self.line(), None)]))
                continue
            if request.words != ("quit",) and (due := self.site.flush_due(self.now)):
                found.append(Deed("(flush due)", due, []))
            found.append(self.deed(request))
        if self.answers.rest:
            raise self.misfit
        return found or [Deed(shortened(data), [], [])]

    def deed(self, request):
        name = request.words[0]
        if name in ("get", "gets", "gat", "gats"):
            return self.fetch(request)
        if name == "stats":
            stats = self.answers.stats()
            if stats is None:
                raise self.misfit
            return Deed("stats", [], [(line, None) for line in stats if not line.startswith("site ")])
        if name == "quit":
            return Deed("quit", [], [])
        answer = self.guess(request) if request.is_silent else self.line()
        shown = self.site.found(request.words[1], self.now) if answer == "TOUCHED" else None
        issued = self.issued(request, answer)
        return Deed(asked_by(request), issued, [] if request.is_silent else [(answer, shown)])

    def fetch(self, request):
        """Values that are shown are those of the site's versions; `gat` touches what it shows."""
        values, issued, answers = self.answers.values(), [], []
        if values is None:
            raise self.misfit
        if isinstance(values, str):
            return Deed(asked_by(request), [], [(values, None)])
        is_touch = request.words[0].startswith("gat")
        for shown in values:
            version = self.site.found(shown.key, self.now)
            number = version and version.stamp[0] * 256 + version.stamp[1]
            if not version or (version.value, version.flags) != (shown.value, shown.flags) or shown.number not in (None, number):
                raise self.misfit
            number = f" {number}" if shown.number else ""
            answers.append((f"VALUE {shortened(shown.key)} {shortened(shown.value)}{number}", version))
            if is_touch:
                issued.append(self.site.issue("touch", shown.key, ends=moment_of(int(request.words[1]), self.now)))
        for key in request.words[1 + is_touch :]:
            if self.site.found(key, self.now) and all(shown.key != key for shown in values):
                # it was evicted for room, which no line tells
                del self.site.held[key]
        return Deed(asked_by(request), issued, answers or [("END", None)])

    def guess(self, request):
        """The answer that a request with `noreply` would have got."""
        name, *words = request.words
        there = self.site.found(words[0], self.now) if words else None
        if name == "add":
            return "NOT_STORED" if there else "STORED"
        if name == "cas":
            return "STORED" if there and int(words[4]) == there.stamp[0] * 256 + there.stamp[1] else "EXISTS"
        if name in ("incr", "decr"):
            return self.counted(name, there, int(words[1]))
        if name == "touch":
            return "TOUCHED" if there else "NOT_FOUND"
        if name in ("delete", "flush_all", "verbosity"):
            return "OK"
        return "STORED" if there or name == "set" else "NOT_STORED"

    @staticmethod
    def counted(name, there, number):
        if not there or not there.value.isdigit() or len(there.value) > 20 or int(there.value) >= 2**64:
            return "NOT_FOUND"
        value = int(there.value)
        return str((value + number) % 2**64 if name == "incr" else max(0, value - number))

    def issued(self, request, answer):
        """The operations that a request issues which has got this answer."""
        site, (name, *words) = self.site, request.words
        if name == "flush_all" and answer == "OK":
            moment = moment_of(int(words[0]), self.now) if words else 0
            site.waits = moment if moment > self.now else None
            return [] if site.waits else [site.issue("flush")]
        if name == "delete" and not answer.startswith("SERVER_ERROR"):
            return [site.issue("delete", words[0])]
        if name == "touch" and answer == "TOUCHED":
            return [site.issue("touch", words[0], ends=moment_of(int(words[1]), self.now))]
        is_kept = name in ("append", "prepend", "incr", "decr")
        if not (answer == "STORED" if name in STORES else name in ("incr", "decr") and answer.isdigit()):
            return []
        there = site.found(words[0], self.now)
        if is_kept and not there:
            raise self.misfit
        old, new = there.value if is_kept else b"", request.data if name in STORES else answer.encode()
        value = {"append": old + new, "prepend": new + old}.get(name, new)
        flags, ends = (there.flags, site.expiry(words[0]).ends) if is_kept else (int(words[1]), moment_of(int(words[2]), self.now))
        return [site.issue("write", words[0], value, flags, ends)]


class History:
    """The events of a script with their replies, and what the sites came to know by them."""

    def __init__(self, script, replies):
        self.sites, self.parcels, self.events, self.moments, self.now = {}, [], [], [], 1
        self.replies, self.line = list(replies), None
        for line in lines_of(script):
            if isinstance(line, Setup):
                self.sites = {number: Site(number) for number in range(1, line.sites + 1)}
            elif line.word == "at":
                self.now = line.other
                self.moments.append((len(self.events), self.now))
            else:
                self.line = line
                self.events.append(self.event())
        if self.replies:
            raise Fault("there are more replies than lines that print one")

    def misfit(self):
        return Fault(f"line {self.line.number}: its reply is not what the lines before lead to")

    def reply(self):
        if not self.replies:
            raise Fault(f"line {self.line.number}: its reply is missing")
        return self.replies.pop(0)

    def expect(self, *owed):
        """The reply, which has to be one of these."""
        reply = self.reply().decode("latin-1")
        if reply not in owed:
            raise self.misfit()
        return reply

    def event(self):
        """What the line does, by its reply."""
        line = self.line
        site = self.sites[line.site]
        if line.word in ("send", "take"):
            return self.send(line, site) if line.word == "send" else self.take(line, site)
        gone = []
        if line.word == "retire":
            reply = self.expect("nothing" if line.other in site.gone else "retired")
            gone = sorted({line.other} - site.gone)
            site.gone.add(line.other)
            deeds = [Deed(f"retire {line.other}", [], [(reply, None)])]
        else:
            deeds = getattr(self, line.word)(line, site)
        return Event(line, deeds, None, gone, "")

    def send(self, line, site):
        if line.other in site.gone:
            self.expect("refused 4")
            return Event(line, [Deed(f"send {line.other}", [], refusal(4))], None, [], "refused")
        reply = self.expect(f"parcel {len(self.parcels)}")
        parcel = Parcel(len(self.parcels), site.number, line.other, dict(site.known), frozenset(site.gone))
        self.parcels.append(parcel)
        return Event(line, [Deed("send", [], [(reply, None)])], parcel, [], "")

    def take(self, line, site):
        if line.other >= len(self.parcels):
            raise bad_line(line.number)
        parcel = self.parcels[line.other]
        reason = 1 if parcel.to != site.number else 5 if parcel.sender in site.gone else 0
        if self.expect(f"refused {reason}" if reason else "taken") != "taken":
            return Event(line, [Deed(f"take {parcel.number}", [], refusal(reason))], parcel, [], "refused")
        before = site.has_taken.setdefault(parcel.sender, [])
        manner = "again" if parcel.number in before else "late" if any(one > parcel.number for one in before) else ""
        before.append(parcel.number)
        gone = sorted(parcel.gone - site.gone)
        site.gone |= parcel.gone
        site.known.update(parcel.known)
        site.settle()
        answers = [("taken", None), *[(f"{one} is gone", None) for one in gone], *[(manner, None)] * bool(manner)]
        return Event(line, [Deed(f"take {parcel.number}", [], answers)], parcel, gone, manner)

    def client(self, line, site):
        reply, name = self.reply(), f"{site.number}> ".encode()
        said = unescaped(reply.removeprefix(name))
        if not reply.startswith(name) or said is None:
            raise self.misfit()
        return Client(site, self.now, Answers(said), self.misfit()).deeds(line.text)

    def tick(self, _, site):
        issued = site.flush_due(self.now)
        return [Deed("tick", issued, [(self.expect("flushed" if issued else "nothing"), None)])]

    def reap(self, line, site):
        issued, reply = site.flush_due(self.now), self.expect("reaped", "nothing")
        deeds = [Deed("(flush due)", issued, [])] if issued else []
        issued = [site.issue("delete", line.key)] if reply == "reaped" else []
        return [*deeds, Deed(f"reap {shortened(line.key)}", issued, [(reply, None)])]

    def remove(self, _, site):
        reply = self.reply().decode("latin-1")
        if not reply.startswith("removed "):
            raise self.misfit()
        return [Deed("remove", [], [(reply, None)])]

    def evict(self, line, site):
        reply = self.expect("evicted", "nothing")
        site.held.pop(line.key, None)
        return [Deed(f"evict {shortened(line.key)}", [], [(reply, None)])]

    def fill(self, line, site):
        version = site.version(line.key)
        is_named = version is not None and version.value == line.text
        reply = self.expect(*(("held", "full", "filled") if is_named else ("unnamed",)))
        if reply == "filled":
            site.held[line.key] = line.text
        shown = version if reply in ("held", "filled") else None
        return [Deed(f"fill {shortened(line.key)} {shortened(line.text)}", [], [(reply, shown)])]

    def versions(self, _, site):
        """The list, which has to be the one that the site's knowledge gives."""
        floor = site.floor()
        self.expect("floor none" if not floor else f"floor {floor.stamp[0]} {floor.stamp[1]}")
        answers = [(f"floor {stamp_text(floor)}", floor)] if floor else []
        for key in sorted({one.key for one in site.known.values()}):
            if not (version := site.version(key)):
                continue
            expiry = site.expiry(key)
            words = [escaped(key), *version.stamp, version.flags, len(version.value), hashlib.sha256(version.value).hexdigest()]
            self.expect(" ".join(map(str, [*words, *expiry.stamp, expiry.ends])))
            ends = f" ends {expiry.ends}" if expiry.ends else ""
            answers.append((f"{shortened(key)} {stamp_text(version)}{ends}", version))
        self.expect("end")
        return [Deed("versions", [], answers or [("none", None)])]


def refusal(reason):
    return [(f"refused {reason}:", None), (REFUSALS[reason], None)]


def stamp_text(one):
    return f"({one.stamp[0]},{one.stamp[1]})"


def outcome(history):
    """Of each key, in the order of their first operations, the operation that wins when all is known: a write, a delete or a flush."""
    whole = Site(0)
    for event in history.events:
        for deed in event.deeds:
            whole.known.update({one.stamp: one for one in deed.issued})
    keys = {one.key: None for one in whole.known.values() if one.kind in ("write", "delete")}
    return {key: greatest(whole.above_floor(key, ("write", "delete"))) or whole.floor() for key in keys}, whole.floor()
