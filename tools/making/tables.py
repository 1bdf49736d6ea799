"""The pages as tools/pages makes them: the words of docs/words, with tables of what the sources have."""
import re

from making import words
from making.definitions import in_order
from making.repository import CALLS, ROWS

PAGES = ("docs/contracts.md", "docs/definitions.md")
MADE = "<!-- Made by tools/pages from {sources}. To change it, edit these and call tools/pages. -->"


def made(repository, page):
    """A page as it has to be."""
    name = page.removeprefix("docs/")
    own = CALLS + "/" if name == "contracts.md" else ROWS
    head = MADE.format(sources=f"docs/words/{name}, {own}, and the crates' {'src/' if own != ROWS else 'specs/'}")
    fills = calls_page(repository) if name == "contracts.md" else definitions_page(repository)
    text = repository.text_of(f"docs/words/{name}")
    return head + "\n\n" + re.sub(r"\{([A-Z ]+)\}", lambda found: fills.get(found[1], found[0]), text)


def link(text, path):
    return f"[{text}](../{path})"


def row(*cells):
    return "| " + " | ".join(cells) + " |"


def calls_page(repository):
    crates = [name for name in repository.names if repository.entries(name)]
    calls = {(name, call) for name in crates for entry in repository.entries(name) for call in entry.names
             if call in repository.crates[name].calls}
    return {
        "CRATES": "\n\n".join(crate_section(repository, name) for name in crates),
        "CALL COUNT": str(len(calls)),
        "CRATE COUNT": str(len(crates)),
    }


def crate_section(repository, crate):
    """A crate's heading, what it says of itself, and its table."""
    lines = [f"### {crate}", "", crate_words(repository, crate), "", row("Call", "What its contract says", "Clauses"), "|---|---|---|"]
    for entry in repository.entries(crate):
        parts = repository.parts_of_call_entry(crate, entry)
        lines.append(row(linked(parts), escaped(entry.words), clauses_of(parts)))
    return "\n".join(lines)


def crate_words(repository, crate):
    """The first paragraph of what the crate's first file says of it."""
    root = next(path for path in (f"crates/{crate}/src/lib.rt", f"crates/{crate}/src/main.rt") if repository.files(path))
    said = []
    for line in repository.text_of(root).splitlines():
        if not line.startswith("//! "):
            break
        said.append(line[4:])
    return re.sub(r"\[(`[^`]+`)\]", r"\1", " ".join(said))


def escaped(text):
    return re.sub(r"(?<!\\)\|", r"\\|", text)


def linked(parts):
    """The names of parts, those of one type and one file together, each with a link to its file."""
    groups = {}
    for part in parts:
        owner, _, name = part.name.rpartition("::")
        groups.setdefault((owner, part.path if owner else part.name, part.path), []).append(name)
    shown = []
    for (owner, _, path), names in groups.items():
        text = f"{owner}::{{{', '.join(names)}}}" if len(names) > 1 else f"{owner}::{names[0]}" if owner else names[0]
        shown.append(link(f"`{text}`", path))
    return ", ".join(shown)


def clauses_of(parts):
    """The clauses that have names, by call where there are several."""
    named = [(part.name.rpartition("::")[2], ", ".join(f"`{clause}`" for clause in part.clauses)) for part in parts if part.clauses]
    if len(parts) == 1:
        return named[0][1] if named else ""
    return "; ".join(f"`{name}`: {clauses}" for name, clauses in named)


def definitions_page(repository):
    rows = rows_in_order(repository)
    files = files_in_order(repository, rows)
    lines = sum(repository.definitions.files[path].lines for path in files)
    return {
        "ROWS": "\n".join(rows_table(repository, rows)),
        "FILES": "\n".join(files_table(repository, files)),
        "FILE COUNT": str(len(files)),
        "LINE COUNT": f"{lines:,}",
        "DEFINITION COUNT": f"{sum(len(repository.definitions.files[path].names) for path in files):,}",
    }


def rows_in_order(repository):
    """The rows, each behind those whose files its own rest on."""
    rows = {row.line: row for row in repository.rows}
    first = {}
    for line, one in rows.items():
        for path in repository.files_of(one):
            first.setdefault(path, line)

    def needs(line):
        own = [path for path in repository.files_of(rows[line]) if path in repository.definitions.files]
        below = [path for file in own for path in repository.definitions.files[file].rests if path not in own]
        return sorted({first[path] for path in below if path in first})

    return [rows[line] for line in in_order(list(rows), needs)]


def files_in_order(repository, rows):
    """The files of the rows, each behind those that it rests on."""
    there = [path for one in rows for path in repository.files_of(one) if path in repository.definitions.files]
    listed = list(dict.fromkeys(there))
    return in_order(listed, lambda path: [below for below in repository.definitions.files[path].rests if below in listed])


def rows_table(repository, rows):
    yield row("#", "Definition", "File", "In plain words", "Public source")
    yield "|---|---|---|---|---|"
    for number, one in enumerate(rows, 1):
        yield row(str(number), one.title, linked_files(repository.files_of(one)), escaped(one.words), one.facts.get("from", ""))


def linked_files(paths):
    """Files of definitions by their crates, each with a link."""
    links = {}
    for path in paths:
        name = path.rsplit("/", 1)[1].removesuffix(".antt")
        links.setdefault(path.split("/")[1], []).append(link(f"`{name}`", path))
    return "; ".join(f"`{crate}`: {', '.join(names)}" for crate, names in links.items())


def files_table(repository, files):
    yield row("File", "Lines", "Defines", "Rests on")
    yield "|---|---|---|---|"
    for path in files:
        file = repository.definitions.files[path]
        names = ", ".join(f"`{name}`" for name in file.names)
        yield row(linked_files([path]), str(file.lines), escaped(names), linked_files(file.rests))
