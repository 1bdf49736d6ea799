"""Slips in the sources and in the words of docs/words, each of which tools/pages has to find. tests/docs plants them in a copy."""
import os
import re
import shutil
import subprocess
import tempfile

import pages

# The file, what stands there once, what is planted in its place, and the one fault that is owed for it, as a pattern. Where nothing is
# planted, the entry with that heading is dropped.
SLIPS = [
    # a clause has another name
    (
        "crates/geo_slabs/src/slabs.rt", "ensures put {", "ensures placed {",
        r"docs/words/calls/geo_slabs\.md:\d+: nothing of `Slabs::put` has or cites `put`",
    ),
    # a call promises something else
    (
        "crates/geo_tally/src/tally.rt", "ensures own { count_of", "ensures own { 1 + count_of",
        r"crates/geo_tally/src/tally\.rt:\d+: `Tally::read` .* tools/pages --read 'geo_tally/Tally::add'",
    ),
    # it may be called elsewhere
    (
        "crates/geo_lru/src/segments.rt", "requires { places item self.old ≡ 0 }", "requires { places item self.old ≡ 1 }",
        r"crates/geo_lru/src/segments\.rt:\d+: `Segments::enter` promises or means something else",
    ),
    # a type looks otherwise
    (
        "crates/geo_history/src/kept.rt", "{ ∥ IsKept (story_of parts) ∥₁ }", "{ IsKept (story_of parts) }",
        r"crates/geo_history/src/kept\.rt:\d+: `Kept` promises or means something else",
    ),
    # a call is new (by another name than that of the worked change of CONTRIBUTING.md)
    (
        "crates/geo_chunks/src/chunks.rt", "impl<T: Drop> Chunks<T> {\n",
        "impl<T: Drop> Chunks<T> {\n    pub fn has_none(&self) -> bool\n        ensures { result ≡ true }\n    {\n        true\n    }\n\n",
        r"crates/geo_chunks/src/chunks\.rt:\d+: no entry of docs/words/calls/geo_chunks\.md speaks of `Chunks::has_none`",
    ),
    # a definition means something else, that a row names and that none does
    (
        "crates/geo_stamp/specs/Vectors.antt", "abbrev pub entry_of : ", "abbrev pub entry_of : ℕ → ",
        r"crates/geo_stamp/specs/Vectors\.antt:\d+: `entry_of` promises or means something else",
    ),
    (
        "crates/geo_delta/specs/Changes.antt", "abbrev pub nothing_pending : ", "abbrev pub nothing_pending : ℕ → ",
        r"crates/geo_delta/specs/Changes\.antt:\d+: `what no row names of .*` promises or means something else",
    ),
    # an entry is dropped, a row speaks of another file, a row of clauses is dropped
    (
        "docs/words/calls/geo_slabs.md", "## `Slabs::is_full`\n", None,
        r"crates/geo_slabs/src/slabs\.rt:\d+: no entry of docs/words/calls/geo_slabs\.md speaks of `Slabs::is_full`",
    ),
    (
        "docs/words/reading_order.md", "## `CountsFrame`, `CountsError`\n", None,
        r"geo_link/specs/Tallies\.antt: no row of docs/words/reading_order\.md has it, and crates/geo_link/src/tallied\.rt:\d+ cites",
    ),
    (
        "docs/words/contracts.md", "| `survivors` |", "| survivors |",
        r"docs/words/contracts\.md:\d+: the table has the clauses .* and it owes .* survivors",
    ),
    # words name what is not there, or what no reader has to believe
    (
        "docs/words/calls/geo_memcache.md", "(`decided`)", "(`resolved`)",
        r"docs/words/calls/geo_memcache\.md:\d+: nothing of `decide` has or cites `resolved`",
    ),
    (
        "docs/words/calls/geo_frame.md", "## `wanted`", "## `wanted`, `unwanted`",
        r"docs/words/calls/geo_frame\.md:\d+: geo_frame has no call, type or trait `unwanted` with a contract",
    ),
    (
        "docs/words/reading_order.md", "## `IsLackedBy`", "## `IsLackedBy`, `IsMissedBy`",
        r"docs/words/reading_order\.md:\d+: none of the files of `IsLackedBy`, `IsMissedBy` defines `IsMissedBy`",
    ),
    (
        "docs/words/reading_order.md", "- in `geo_chunks/specs/Chunking.antt`",
        "- in `geo_chunks/specs/Chunking.antt`, `geo_link/specs/Channels.antt`",
        r"docs/words/reading_order\.md:\d+: no public contract cites crates/geo_link/specs/Channels\.antt",
    ),
    # nobody has read them
    (
        "docs/words/calls/geo_equal.md", "- read ", "- read 00000000 ",
        r"crates/geo_equal/src/lib\.rt:\d+: it is not told that the words for `Equal::equals`, `is_same` were read",
    ),
]
# What comes of these slips beside.
BESIDE = [r"crates/geo_slabs/src/slabs\.rt:\d+: `Slabs::put` promises or means something else"]


def copy_to(folder):
    """What tools/pages reads, in another folder."""
    for part in ("docs", "tools", "crates.txt"):
        copy = shutil.copytree if os.path.isdir(f"{pages.ROOT}/{part}") else shutil.copy
        copy(f"{pages.ROOT}/{part}", f"{folder}/{part}")
    for crate in os.listdir(f"{pages.ROOT}/crates"):
        for part in ("src", "specs"):
            if os.path.isdir(f"{pages.ROOT}/crates/{crate}/{part}"):
                shutil.copytree(f"{pages.ROOT}/crates/{crate}/{part}", f"{folder}/crates/{crate}/{part}")


def plant(folder, path, old, new):
    with open(f"{folder}/{path}", encoding="utf-8") as file:
        text = file.read()
    assert text.count(old) == 1, f"{path} has {old!r} {text.count(old)} times"
    if new is None:
        old, new = re.search(re.escape(old) + r".*?(?=^## |\Z)", text, re.M | re.S)[0], ""
    with open(f"{folder}/{path}", "w", encoding="utf-8") as file:
        file.write(text.replace(old, new))


def told(folder, *words):
    """What tools/pages of a folder tells, by lines, and its status."""
    done = subprocess.run([f"{folder}/tools/pages", *words], capture_output=True, text=True, check=False)
    return done.returncode, done.stderr.splitlines()


def faults_with_slips(folder):
    """Each slip is found, and nothing else; and where there are faults no page is made."""
    for path, old, new, _ in SLIPS:
        plant(folder, path, old, new)
    for words in ((), ("--check",)):
        status, lines = told(folder, *words)
        lines = [line for line in lines if "stands where tools/pages makes" not in line]
        owed = [fault for _, _, _, fault in SLIPS] + BESIDE
        for fault in owed:
            found = [line for line in lines if re.search(fault, line)]
            assert len(found) == 1, f"{len(found)} lines tell {fault!r}: {lines}"
        assert status == 1 and len(lines) == len(owed), (status, lines)


def read_slips():
    """tools/pages finds slips in sources, words and pages, and lets words be read again."""
    with tempfile.TemporaryDirectory() as folder:
        copy_to(folder)
        assert told(folder, "--check") == (0, [])
        plant(folder, "docs/definitions.md", "| Lamport 1978 |\n| 2 |", "|\n| 2 |")
        page = f"{folder}/docs/contracts.md"
        with open(page, encoding="utf-8") as file:
            lines = file.read().split("\n")
        at = next(at for at, line in enumerate(lines) if line.startswith("| [`class_of`]"))
        with open(page, "w", encoding="utf-8") as file:
            file.write("\n".join(lines[:at] + lines[at + 1 :]))
        status, differing = told(folder, "--check")
        assert status == 1 and len(differing) == 2, differing
        assert differing[0].startswith(f"docs/contracts.md:{at + 1}: ") and "class_of" in differing[0], differing
        assert differing[1].startswith("docs/definitions.md:") and "Lamport 1978" in differing[1], differing
        assert told(folder) == (0, []) and told(folder, "--check") == (0, [])
        plant(folder, *SLIPS[1][:3])
        assert told(folder, "--read", "Tally::add") == (0, []) and told(folder, "--check") == (0, [])
        plant(folder, SLIPS[1][0], SLIPS[1][2], SLIPS[1][1])
        assert told(folder, "--read", "geo_tally/Tally::read") == (0, []) and told(folder, "--check") == (0, [])
        faults_with_slips(folder)


def read_made_pages():
    """docs/contracts.md and docs/definitions.md are what tools/pages makes, and its words are those of the sources."""
    status, lines = told(pages.ROOT, "--check")
    assert status == 0, "\n".join(lines)
