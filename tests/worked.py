"""The worked change of CONTRIBUTING.md, made in a copy as far as that wants no proof: each place that it tells of is there, and the words
that it adds are all that tools/pages asks for. tests/docs runs it."""
import os
import re
import tempfile

import pages
import slips

CALLS = "crates/geo_chunks/src/chunks.rt"
BEHIND = "    /// The element at a place, from 0."


def sections():
    """The sections of the page: their text, and their blocks without what they are indented by."""
    found = []
    for text in re.split(r"^## ", pages.text_of("CONTRIBUTING.md"), flags=re.M)[1:]:
        blocks = re.findall(r"(?:^    .*\n(?:\n(?=    ))?)+", text, re.M)
        found.append((text, [re.sub(r"^    ", "", block, flags=re.M) for block in blocks]))
    return found


def indented(block):
    return re.sub(r"^(?=.)", "    ", block, flags=re.M)


def line_of(folder, path, text):
    """The line at which a text stands first."""
    with open(f"{folder}/{path}", encoding="utf-8") as file:
        return file.read().split(text)[0].count("\n") + 1


def tests_named(word):
    """How many tests of the lower crates have a word in their names, the modules' included."""
    count = 0
    for path in pages.files():
        module = re.match(r"crates/geo_base_checks/src/(.*)\.rt$", path)
        if module:
            names = re.findall(r"#\[test\]\nfn (\w+)", pages.text_of(path))
            count += sum(word in f"{module[1]}/{name}" for name in names)
    return count


def read_change(tests):
    """The worked change as far as it wants no proof, where `tests/docs -k read` runs so many tests."""
    said, wrong, right, kept, tested, _, written, _ = sections()
    with tempfile.TemporaryDirectory() as folder:
        slips.copy_to(folder)
        call, body = said[1][0], right[1][0].strip()
        planted = re.search(r"\{\n( *.*)\n\}$", call.strip())[1].strip()
        slips.plant(folder, CALLS, "Prelude.{◌≡◌, ", "Prelude.{◌≡◌, ◌==◌, ")
        slips.plant(folder, CALLS, BEHIND, f"{indented(call)}\n{BEHIND}")
        at = line_of(folder, CALLS, "pub fn is_empty")
        assert f"src/chunks.rt:{at}:5: " in wrong[1][1], f"the call stands at line {at}"
        slips.plant(folder, CALLS, planted, body)
        assert kept[1][0] == f"file: {CALLS.split('/', 2)[2]}\nold: {body}\nnew: {planted}\n", kept[1][0]
        attacks = os.listdir(f"{pages.ROOT}/crates/geo_chunks/attacks")
        assert f"`{len(attacks) + 1} refused`" in kept[0], "as many attacks are there, and one"
        word = tested[1][1].split()[-1]
        assert f"`{tests_named(word) + tested[1][0].count('#[test]')} passed`" in tested[0], "as many tests are named so, and one"
        status, lines = slips.told(folder)
        assert (status, lines) == (1, written[1][1].splitlines()), lines
        heading, new = slips_heading(folder, written[1][2].strip())
        slips.plant(folder, "docs/words/calls/geo_chunks.md", heading, new)
        entry = re.search(r"--read '([^']+)'", written[1][3])[1]
        assert slips.told(folder, "--read", entry) == (0, []) and slips.told(folder) == (0, [])
    assert f"`{tests} passed, 0 failed`" in written[0], f"{tests} tests read"


def slips_heading(folder, new):
    """The heading that a new one takes the place of."""
    with open(f"{folder}/docs/words/calls/geo_chunks.md", encoding="utf-8") as file:
        return re.search(r"^## `Chunks::.*$", file.read(), re.M)[0], new
