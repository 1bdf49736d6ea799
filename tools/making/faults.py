"""What of the words does not agree with the sources, a line for each fault."""
import os
import re

from making import words
from making.repository import CALLS, ROWS

# Brackets that begin with names: clauses, or what these cite.
BRACKET = re.compile(r"\(((?:`[^`]+`)(?:, `[^`]+`)*)")
CLAUSE_TABLE = "| Clause | In plain words |"


def all_faults(repository):
    faults = []
    for crate in repository.names:
        faults += faults_of_crate(repository, crate)
    for path in repository.calls:
        if os.path.basename(path).removesuffix(".md") not in repository.names:
            faults.append(f"{path}: crates.txt has no such crate, or it is one whose calls have no words")
    for row in repository.rows:
        faults += faults_of_row(repository, row)
    faults += faults_of_files(repository)
    faults += faults_of_clause_tables(repository, "docs/words/contracts.md")
    return faults


def faults_of_crate(repository, crate):
    faults = []
    for entry in repository.entries(crate):
        where = f"{entry.page}:{entry.line}"
        missing = [name for name in entry.names if not repository.parts_of_name(crate, name)]
        faults += [f"{where}: {crate} has no call, type or trait `{name}` with a contract" for name in missing]
        parts = repository.parts_of_call_entry(crate, entry)
        faults += faults_of_brackets(entry, parts)
        if not missing:
            faults += faults_of_reading(entry, parts, crate)
    spoken = {name for entry in repository.entries(crate) for name in entry.names}
    for call in repository.crates[crate].calls.values():
        if repository.is_owed(call) and call.name not in spoken:
            faults.append(f"{call.path}:{call.line}: no entry of {CALLS}/{crate}.md speaks of `{call.name}`")
    return faults


def faults_of_brackets(entry, parts):
    """Names that the words have in brackets are clauses or definitions of which they speak, or what these cite."""
    known = {word for part in parts for word in part.cited().union(part.clauses)}
    named = [name for bracket in BRACKET.findall(entry.words) for name in words.spans_in(bracket)]
    return [f"{entry.page}:{entry.line}: nothing of {entry.title} has or cites `{name}`" for name in named if name not in known]


def faults_of_reading(entry, parts, folder):
    """Parts whose text is another than when the words were read."""
    read = entry.facts.get("read", "").split()
    label = f"{folder}/{entry.names[0]}"
    again = f"read the words of {entry.page}:{entry.line} again, then tools/pages --read '{label}'"
    if len(read) != len(parts):
        return [f"{parts[0].place() if parts else entry.page}: it is not told that the words for {entry.title} were read: {again}"]
    changed = [part for part, told in zip(parts, read) if words.fingerprint(part.text) != told]
    return [f"{part.place()}: `{part.name}` promises or means something else than when its words were read: {again}" for part in changed]


def folder_of(row):
    """The crate and the file that a row's names are looked up in, without its ending."""
    first = (words.spans_in(row.facts.get("in", "")) or [""])[0]
    return first.replace("/specs/", "/").removesuffix(".antt")


def faults_of_row(repository, row):
    where = f"{row.page}:{row.line}"
    files = repository.files_of(row)
    gone = [f"{where}: {path} is not there" for path in files if path not in repository.definitions.files]
    if gone or not files or not row.facts.get("from"):
        return gone or [f"{where}: a row has `- in` with files and `- from` with a source"]
    defined = {name for path in files for name in repository.definitions.files[path].names}
    missing = [name for name in row.names if name not in defined]
    faults = [f"{where}: none of the files of {row.title} defines `{name}`" for name in missing]
    faults += [f"{where}: no public contract cites {path}, and no reader has to believe it" for path in files
               if path not in repository.definitions.cited]
    parts = repository.parts_of_row(row)
    return faults + faults_of_brackets(row, parts) or faults_of_reading(row, parts, folder_of(row))


def faults_of_files(repository):
    """Files that contracts cite, and that no row has."""
    listed = {path for row in repository.rows for path in repository.files_of(row)}
    cited = sorted(repository.definitions.cited.items())
    return [f"{path}: no row of {ROWS} has it, and {place} cites {word}" for path, (place, word) in cited if path not in listed]


def faults_of_clause_tables(repository, page):
    """A table of clauses has a row for each that the call promises whose link stands above it, in their order."""
    faults, call, clauses, begun = [], None, [], 0
    for number, line in enumerate(repository.text_of(page).split("\n") + [""], 1):
        if link := re.match(r"\[`(\w+)`\]\(\.\./crates/(\w+)/", line):
            call = repository.parts_of_name(link[2], link[1]) if link[2] in repository.crates else None
        if line == CLAUSE_TABLE:
            begun, clauses = number, []
        elif begun and (row := re.match(r"\| `(\w+)` \|", line)):
            clauses.append(row[1])
        elif begun and not line.startswith("|"):
            if not call or clauses != list(call.clauses):
                owed = ", ".join(call.clauses) if call else "those of a call that is linked above"
                faults.append(f"{page}:{begun}: the table has the clauses {', '.join(clauses)}, and it owes {owed}")
            begun = 0
    return faults
