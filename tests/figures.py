"""Figures of the pages that are constants of the program. tests/docs looks them up.

A row names a page, words of it with the figure as #, and the constant with its file. A figure may have a unit behind it, or be 2^n.
"""
import re

import pages

UNITS = {"": 1, "KiB": 1 << 10, "MiB": 1 << 20, "seconds": 1000, "milliseconds": 1}
FIGURES = [
    ("docs/DECISIONS.md", "newest # changes", "geo_delta/src/buffer.rt", "MOST_CHANGES"),
    ("docs/DECISIONS.md", "keeps # calls", "geo_station/src/calls.rt", "MOST_KEPT"),
    ("docs/DECISIONS.md", "chunks of #,", "geo_chunks/src/chunks.rt", "CHUNK"),
    ("docs/DECISIONS.md", "one read of # at most", "geo_crowd/src/roster.rt", "PIECE"),
    ("docs/DECISIONS.md", "owed more than # no more", "geo_dialogue/src/session.rt", "MOST_RENDERED"),
    ("docs/DECISIONS.md", "from 1 to # seconds", "geo_site/src/setup.rt", "LAST_MOMENT"),
    ("docs/DECISIONS.md", "key of up to # bytes", "geo_records/src/key.rt", "INLINE_BYTES"),
    ("docs/DECISIONS.md", "value below # bytes is copied", "geo_site/src/repeats.rt", "LONG"),
    ("docs/DECISIONS.md", "data of # or more", "geo_requests/src/value.rt", "LONG"),
    ("docs/architecture.md", "one read, of # at first", "geo_dialogue/src/serving.rt", "FIRST_PIECE"),
    ("docs/architecture.md", "of up to # while reads are full", "geo_dialogue/src/serving.rt", "LONGEST_PIECE"),
    ("docs/architecture.md", "# who have brought nothing", "geo_wires/src/porter.rt", "STRANGERS"),
    ("docs/configuration.md", "at most # calls", "geo_station/src/calls.rt", "MOST_KEPT"),
    ("docs/configuration.md", "no more than # and one call", "geo_station/src/calls.rt", "MOST_KEPT_BYTES"),
    ("docs/configuration.md", "for the first # keys", "geo_gossip/src/fetching.rt", "MOST_ASKED"),
    ("docs/configuration.md", "is # bytes a step", "geo_history/src/sizes.rt", "STEP_SIZE"),
    ("docs/configuration.md", "# for a list of keys", "geo_history/src/sizes.rt", "LIST_SIZE"),
    ("docs/configuration.md", "# for each of them, 256", "geo_history/src/sizes.rt", "KEY_SIZE"),
    ("docs/configuration.md", "# for a value that is shown", "geo_history/src/sizes.rt", "FOUND_SIZE"),
    ("docs/configuration.md", "# for a parcel and", "geo_history/src/sizes.rt", "PARCEL_SIZE"),
    ("docs/configuration.md", "# for each of its records", "geo_history/src/sizes.rt", "RECORD_SIZE"),
    ("docs/configuration.md", "doubles from # to 5 seconds", "geo_wires/src/outbound.rt", "FIRST_PAUSE"),
    ("docs/configuration.md", "milliseconds to # with each connection", "geo_wires/src/outbound.rt", "LONGEST_PAUSE"),
    ("docs/configuration.md", "let in, # at most", "geo_server/src/attended.rt", "LAST_TURNS"),
    ("docs/configuration.md", "There are # at most, of whom", "geo_wires/src/porter.rt", "STRANGERS"),
    ("docs/configuration.md", "of one read of # at most", "geo_crowd/src/roster.rt", "PIECE"),
    ("docs/protocol.md", "A key has 1 to # bytes", "geo_grammar/src/limits.rt", "LONGEST_KEY"),
    ("docs/protocol.md", "BYTES 0 to #,", "geo_grammar/src/limits.rt", "MOST_BYTES"),
    ("docs/protocol.md", r"1 to # \(thirty days\)", "geo_memcache/src/expiry.rt", "THIRTY_DAYS"),
    ("docs/protocol.md", "has 1 to # digits", "geo_memcache/src/arith.rt", "MOST_DIGITS"),
    ("docs/replication.md", "ring of # changes", "geo_delta/src/buffer.rt", "MOST_CHANGES"),
    ("docs/replication.md", "finds the first # keys", "geo_gossip/src/fetching.rt", "MOST_ASKED"),
    ("docs/replication.md", r"below #, in version 1", "geo_frame/src/limits.rt", "SHORTEST_FRAME"),
    ("docs/replication.md", r"in version 1 below #,", "geo_frame/src/limits.rt", "SHORTEST_OLD_FRAME"),
    ("docs/replication.md", r"or above # \(4, Field\)", "geo_frame/src/limits.rt", "LONGEST_FRAME"),
    ("docs/replication.md", r"frame has # \+ 16n bytes", "geo_frame/src/limits.rt", "BESIDE_RECORDS"),
    ("docs/replication.md", "an ask's has # and the key's", "geo_frame/src/limits.rt", "BESIDE_KEY"),
    ("docs/script.md", "1 to # seconds. Before", "geo_site/src/setup.rt", "LAST_MOMENT"),
    ("docs/script.md", "within # reads", "geo_cluster/src/script/run.rt", "MOST_READS"),
    ("docs/storage.md", "up to # in each class", "geo_station/src/maintain.rt", "MOST_MOVES"),
]


def constant(path, name):
    """The value of a constant: digits, or a shifted one."""
    found = re.findall(rf"\bconst {name}: \w+ = ([\w ]+?(?: << \d+)?);", pages.text_of(f"crates/{path}"))
    assert len(found) == 1, f"crates/{path} has {len(found)} constants {name}"
    number, _, shift = found[0].replace("_", "").partition(" << ")
    return int(number, 0) << int(shift or 0)


def value_of(figure, unit):
    base, _, power = figure.replace(",", "").partition("^")
    return (int(base) ** int(power) if power else int(base)) * UNITS[unit or ""]


def read_figures():
    """Figures that are constants of the program."""
    for page, words, path, name in FIGURES:
        pattern = words.replace("#", r"(\d[\d,]*(?:\^\d+)?)(?: (KiB|MiB|milliseconds|seconds)\b)?")
        found = re.findall(pattern, pages.text_of(page))
        assert found, f"{page} does not say {words!r}"
        for figure in found:
            said, owed = value_of(*figure), constant(path, name)
            assert said == owed, f"{page}: {words!r} is {said}, and {name} of {path} is {owed}"
