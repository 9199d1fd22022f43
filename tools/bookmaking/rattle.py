"""What a .rt file declares that specs and promises speak of: its types, and the contracts of its public functions."""

import re

from antt import File, Item, dedented, indent, is_comment, names_in

TYPE = re.compile(r"^(?:pub )?(struct|enum) ([A-Za-z0-9_]+)")
FUNCTION = re.compile(r"^(?:pub )(?:extern \"C\" )?fn ([A-Za-z0-9_]+)")
GHOST = re.compile(r"^ghost use ([^\s{}]+?)\.\{(.*)\};$")
USE = re.compile(r"^use ([a-z0-9_]+)::(?:[a-z0-9_]+::)?(?:([A-Za-z0-9_]+)|\{(.*)\})(?: as ([A-Za-z0-9_]+))?;$")


def closed(lines, at):
    """The line after the declaration that begins at a line."""
    depth = 0
    for end in range(at, len(lines)):
        depth += sum(lines[end].count(c) for c in "{(") - sum(lines[end].count(c) for c in "})")
        if depth == 0 and lines[end].rstrip().endswith(("}", ";")):
            return end + 1
    return len(lines)


def variants(lines):
    inner = [line.strip() for line in lines[1:-1] if line.strip() and not is_comment(line) and indent(line) == indent(lines[0]) + 4]
    return [found.group(0) for found in (re.match(r"[A-Z][A-Za-z0-9_]*", line) for line in inner) if found]


def contract(lines, at):
    """The lines of a function's head and its clauses: up to the brace that opens its code."""
    end = at + 1
    while end < len(lines) and lines[end].strip() != "{" and not lines[end - 1].rstrip().endswith(" {"):
        end += 1
    return lines[at:end]


def read_rattle(crate, path, text):
    """The file's types as items, and its public functions' contracts, by `fn NAME`."""
    file = File(crate, path)
    lines = text.splitlines()
    comment = []
    at = 0
    while at < len(lines):
        text = lines[at].strip()
        ghost, use = GHOST.match(text), USE.match(text)
        if ghost:
            file.imports.update({here: (ghost.group(1), there) for here, there in names_in(ghost.group(2))})
        elif use:
            owner = crate if use.group(1) == "crate" else use.group(1)
            for here, there in names_in(f"{use.group(2)} as {use.group(4) or use.group(2)}" if use.group(2) else use.group(3)):
                file.imports[here] = (f"Rattle.{owner}.specs.declared.{there}", there)
        if text.startswith("//"):
            comment.append(text.lstrip("/").strip())
            if not file.items and at == len(comment) - 1:
                file.about = list(comment)
        elif TYPE.match(text) and indent(lines[at]) == 0:
            end = closed(lines, at)
            kind, name = TYPE.match(text).groups()
            body = lines[at:end]
            file.items[name] = Item("type", crate, path, at + 1, name, comment, body, members=variants(body) if kind == "enum" else [])
            at, comment = end, []
            continue
        elif FUNCTION.match(text):
            name = "fn " + FUNCTION.match(text).group(1)
            if name not in file.items:
                file.items[name] = Item("contract", crate, path, at + 1, name, comment, dedented(contract(lines, at), indent(lines[at])))
            comment = []
        elif text and not text.startswith("#["):
            comment = []
        at += 1
    return file
