"""README.md and docs/*.md as tests/docs reads them: blocks, tables, links, and what stands between backticks."""
import ast
import collections
import fnmatch
import glob
import os
import re

ROOT = os.path.dirname(os.path.dirname(os.path.realpath(__file__)))
Block = collections.namedtuple("Block", "page line language lines")
Table = collections.namedtuple("Table", "page section header rows")
Link = collections.namedtuple("Link", "page line text target section")
Span = collections.namedtuple("Span", "page line text paragraph")
ENDINGS = "antt|diff|edit|md|py|rs|rt|script|table|toml|txt|yml"
# Paths that are no files of the repository.
ELSEWHERE = {"protocol.txt": "memcached's", "out/rlib": "a build makes it", "crates/geocache/out": "a build makes it"}


def text_of(path):
    with open(f"{ROOT}/{path}", encoding="utf-8") as file:
        return file.read()


def pages():
    return ["README.md"] + sorted(os.path.relpath(path, ROOT) for path in glob.glob(f"{ROOT}/docs/*.md"))


def is_indented(lines, at):
    return lines[at].startswith("    ") and (at == 0 or not lines[at - 1].strip())


def end_of_indented(lines, at):
    """The first line behind a block, within which empty lines may stand."""
    end = at
    while at < len(lines) and (lines[at].startswith("    ") or not lines[at].strip()):
        at += 1
        end = at if lines[at - 1].strip() else end
    return end


def cut(page):
    """The blocks of a page, and its lines with those of blocks left empty."""
    lines, blocks, at = text_of(page).split("\n"), [], 0
    rest = list(lines)
    while at < len(lines):
        if fence := re.match(r"```(\w*)$", lines[at]):
            end = lines.index("```", at + 1)
            blocks.append(Block(page, at + 1, fence[1] or "text", lines[at + 1 : end]))
            end += 1
        elif is_indented(lines, at):
            end = end_of_indented(lines, at)
            blocks.append(Block(page, at + 1, "", [line[4:] for line in lines[at:end]]))
        else:
            at += 1
            continue
        rest[at:end] = [""] * (end - at)
        at = end
    return blocks, rest


def all_blocks():
    return [block for page in pages() for block in cut(page)[0]]


def cells_of(line):
    return [cell.strip().replace("\\|", "|") for cell in re.split(r"(?<!\\)\|", line.strip())[1:-1]]


def tables_of(page):
    """The tables of a page, each with the heading above it."""
    tables, section, rows = [], "", []
    for line in cut(page)[1] + [""]:
        if line.startswith("#"):
            section = line.lstrip("# ")
        if line.startswith("|"):
            rows.append(cells_of(line))
        elif rows:
            tables.append(Table(page, section, rows[0], rows[2:]))
            rows = []
    return tables


def table_of(page, section, first):
    """The one table below a heading whose first column is named so."""
    found = [it for it in tables_of(page) if it.section == section and it.header[0] == first]
    assert len(found) == 1, f"{page} has {len(found)} tables of {first!r} below {section!r}"
    return found[0]


def spans_in(text):
    return re.findall(r"(?<!`)`([^`\n]+)`(?!`)", text.replace("\\|", "|"))


def all_spans():
    for page in pages():
        for number, line in enumerate(cut(page)[1], 1):
            for text in spans_in(line):
                yield Span(page, number, text, line)


def all_links():
    """Each link, with the heading that stands in quotes behind it, if one does."""
    for page in pages():
        for number, line in enumerate(cut(page)[1], 1):
            for text, target, section in re.findall(r'\[((?:[^\[\]]|`[^`]*`)*)\]\(([^)\s]+)\)(?:, "([^"]+)")?', line):
                yield Link(page, number, text, target, section)


def headings(page):
    return [line.lstrip("#").strip() for line in cut(page)[1] if re.match(r"#{1,6} ", line)]


def anchors(page):
    """The names by which a page's headings are reached, as a forge makes them."""
    found = []
    for heading in headings(page):
        plain = re.sub(r"\[([^\]]*)\]\([^)]*\)", r"\1", heading)
        name = re.sub(r"[^\w\- ]", "", plain.lower()).replace(" ", "-")
        count = sum(1 for one in found if re.fullmatch(re.escape(name) + r"(-\d+)?", one))
        found.append(f"{name}-{count}" if name in found else name)
    return found


def files():
    """Each file and folder of the repository."""
    for at, folders, names in os.walk(ROOT):
        folders[:] = [name for name in folders if name not in (".git", "out", "__pycache__")]
        for name in folders + names:
            yield os.path.relpath(os.path.join(at, name), ROOT)


def looks_like_a_path(text):
    return bool(re.fullmatch(r"[\w./@*-]+", text)) and text[0] != "/" and bool("/" in text or re.search(rf"\.({ENDINGS})$", text))


def is_there(text, page, known):
    """Whether some file is so named: from the root, the page, crates/ or within a crate; NAME and NOUN stand for any name."""
    path = re.sub(r"NAME|NOUN", "*", re.sub(r"^\./|/$", "", text))
    if "/" not in path and any(fnmatch.fnmatch(os.path.basename(one), path) for one in known):
        return True
    begins = ["", os.path.dirname(page) + "/", "crates/", "crates/*/"]
    return any(fnmatch.filter(known, begin + path + ending) for begin in begins for ending in ("", ".antt"))


def head_of(path):
    """What a tool says of itself: its docstring, or the comments that it begins with."""
    text = text_of(path)
    if text.split("\n")[0].endswith("python3"):
        return ast.get_docstring(ast.parse(text)) or ""
    lines = text.split("\n")[1:]
    return "\n".join(lines[: next(at for at, line in enumerate(lines) if not line.startswith("#"))])


def tool_of(command):
    """The tool of the repository that a command line calls, and its words; or None."""
    words = re.sub(r"^(machine \d+)?\$ |(^| )[A-Z_]+=(\"[^\"]*\"|\S+)(?= )", "", re.sub(r" *<.*", "", command)).split()
    words = words[1:] if words[:1] == ["bash"] else words
    if words and re.match(r"(\./geocache|(\.ci|bench|contrib|tests|tools)/\S+)$", words[0]):
        return words[0].removeprefix("./"), words[1:]
    return None


def template(text, names):
    """A pattern for a line in which these words stand for others; those in lower case among the names are their patterns."""
    parts = re.split(rf"\b({'|'.join(names)})\b", text)
    return re.compile("".join(names[part] if at % 2 else re.escape(part) for at, part in enumerate(parts)), re.S)
