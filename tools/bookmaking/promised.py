"""docs/PROMISED.md and docs/PROMISES.md: the promises with their theorems, and the sentences that definitions carry."""

import re
from dataclasses import dataclass, field

CITED = re.compile(r"`([^`]+)`(?=\s+(?:proofs|specs|src)/)|((?:proofs|specs|src)/(?:[A-Za-z0-9_/.]*[A-Za-z0-9_])?)|`([^`]+)`|(\bits parts?\b)|(;)")
STATED = re.compile(r"Demands 1 to 3 reach ([0-9,]+) definitions in ([0-9,]+) lines, all promises ([0-9,]+) in ([0-9,]+)")


@dataclass
class Promise:
    number: str
    text: str
    statements: list = field(default_factory=list)
    parts: list = field(default_factory=list)

    def title_and_rest(self):
        """The words in bold in front, and what comes after them."""
        found = re.match(r"\*\*(.*?)\*\*\s*(.*)", self.text)
        return found.groups() if found else (self.text, "")


def rows(text):
    """Each row of a paper's tables: the first word of the table's head, and the row's cells."""
    head = ""
    lines = [line.strip() for line in text.splitlines()]
    for line, following in zip(lines, lines[1:] + [""]):
        if not line.startswith("|") or re.match(r"^\|[-|]+$", line):
            continue
        cells = [cell.strip() for cell in re.split(r"(?<!\\)\|", line)[1:-1]]
        if re.match(r"^\|[-|]+$", following):
            head = cells[0]
        else:
            yield head, cells


def citations(cell, crate=""):
    """What a cell cites: (crate, file, name), with no name where a file is cited whole, and parts as (None, None, name)."""
    file, parts, used = "", False, True
    for owner, path, name, part, stop in CITED.findall(cell):
        if owner:
            if not used:
                yield crate, file, ""
            crate, file, used = owner, "", True
        elif path:
            if not used:
                yield crate, file, ""
            file, parts, used = path, False, False
        elif part:
            parts = True
        elif stop:
            parts = False
        elif parts:
            yield None, None, name
        elif file and "/" not in name:
            used = True
            yield crate, file, name
    if not used:
        yield crate, file, ""


def promised_section(text):
    """The table of promises: the first table of the paper."""
    return text[text.index("|"):].split("\n\n")[0]


def statements_of(sources, crate, path, name):
    """The theorems, or the contracts of a file's public functions, that a citation names."""
    base = f"crates/{crate}/{path}"
    if path.startswith("src/"):
        return [item for item in sources.file(base).items.values() if item.kind == "contract"] if sources.file(base) else []
    if name:
        file = sources.file(base + ".antt")
        return [file.items[name]] if file and name in file.items else []
    folder = sources.root / base
    files = [sources.file(str(f.relative_to(sources.root))) for f in sorted(folder.glob("*.antt"))] if folder.is_dir() else [sources.file(base + ".antt")]
    return [item for file in files if file for item in file.items.values() if item.statement[0].startswith("pub ")]


def promises(sources, text):
    found = []
    for _, cells in rows(promised_section(text)):
        number, said, carried, words = (cells + ["", "", "", ""])[:4]
        promise = Promise(number or (found[-1].number if found else ""), said)
        for crate, path, name in [*citations(carried), *[c for c in citations(words) if c[1] and c[1].startswith("proofs/")]]:
            if path is None:
                promise.parts.append(name)
            elif path.startswith(("proofs/", "src/")):
                cited = statements_of(sources, crate, path, "" if path.startswith("src/") else name)
                if not cited:
                    sources.problems.append(f"docs/PROMISED.md: {number or promise.text[:30]}: no `{name}` in crates/{crate}/{path}")
                promise.statements += [item for item in cited if item not in promise.statements]
        if "none with a `requires`" in carried:
            for item in promise.statements:
                if item.kind == "contract" and any(line.strip().startswith("requires") for line in item.statement):
                    sources.problems.append(f"{item.path}:{item.line}: `{item.name}` has a requires")
        if not promise.statements:
            sources.problems.append(f"docs/PROMISED.md: no theorem is found for: {promise.text[:60]}")
        found.append(promise)
    return found


def stated_counts(text):
    """The four numbers of the sentence in docs/PROMISED.md, or None."""
    found = STATED.search(" ".join(text.split()))
    return [int(n.replace(",", "")) for n in found.groups()] if found else None


def sentences(text, keys):
    """For each (path, name) the sentences that a table of sentences in PROMISES.md says it carries. A citation with no crate is taken only where one definition fits, and one with no file
    only where its section names the definition's file."""
    carried = {}
    for section in re.split(r"^## ", text, flags=re.M)[1:]:
        crate = ""
        for sentence, cell in (cells[:2] for head, cells in rows(section) if head == "sentence"):
            for owner, path, name in names_in_row(cell):
                crate = owner or crate
                fits = [key for key in keys if is_cited(key, path, name, section)]
                mine = [key for key in fits if key[0].startswith(f"crates/{owner or crate}/")]
                key = mine[0] if len(mine) == 1 and (owner or path) else fits[0] if len(fits) == 1 and not owner else None
                if key and sentence not in carried.setdefault(key, []):
                    carried[key].append(sentence)
    return carried


def is_cited(key, path, name, section):
    where, called = key
    if "::" in name:
        crate, function = name.split("::", 1)
        return where == f"crates/{crate}/src/lib.rt" and called == f"fn {function}"
    file = "/".join(where.split("/")[2:]).removesuffix(".antt")
    return called == name.split(".")[0] and (file == path if path else file in section)


def names_in_row(cell):
    """(crate, file, name) of each name in a cell, the first two empty where none stands in front."""
    owner, file = "", ""
    for named, path, name, _, _ in CITED.findall(cell):
        if named:
            owner, file = named, ""
        elif path:
            file = path
        elif "::" in name:
            yield "", "", name
        elif name:
            yield owner, file, name
