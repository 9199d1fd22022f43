"""The items of an .antt file: its imports, definitions and theorems, each with its comment, its statement and its body."""

import re
from dataclasses import dataclass, field

SIGNATURE = re.compile(r"^(?:unfoldable |abbrev )?(?:pub )?([^\s(){};,]+) :(?: |$)")
GROUP = re.compile(r"^(?:pub )?(data|record) (\S+)")
IMPORT = re.compile(r"^(?:unfoldable )?(pub )?use ([^\s{}]+?)(?:\.\{(.*)\}| as (\S+))?$")
STARTS = ("--", "use ", "pub use ", "unfoldable pub use ", "pub mod ", "module ", "infix", "pub ruleset")


@dataclass
class Item:
    """A definition, a theorem, a declared type or a contract, as it stands in its file."""

    kind: str
    crate: str
    path: str
    line: int
    name: str
    comment: list
    statement: list
    body: list = field(default_factory=list)
    modules: list = field(default_factory=list)
    members: list = field(default_factory=list)

    @property
    def place(self):
        return self.path.split("/")[2]

    def lines(self):
        """What is counted: the lines that are neither empty nor a comment."""
        return [line for line in self.modules + self.statement + self.body if line.strip() and not is_comment(line)]


@dataclass
class File:
    crate: str
    path: str
    about: list = field(default_factory=list)
    imports: dict = field(default_factory=dict)
    aliases: dict = field(default_factory=dict)
    exports: dict = field(default_factory=dict)
    items: dict = field(default_factory=dict)


def is_comment(line):
    return line.strip().startswith(("--", "//"))


def indent(line):
    return len(line) - len(line.lstrip(" "))


def names_in(listed):
    """The names of an import's braces, as (name here, name there)."""
    for part in filter(None, (p.strip() for p in listed.split(","))):
        there, _, here = part.partition(" as ")
        yield (here or there).strip(), there.strip()


def take_import(file, line):
    found = IMPORT.match(line)
    if not found:
        return
    exported, module, listed, alias = found.groups()
    if listed is None:
        file.aliases[alias or module.split(".")[-1]] = module
        return
    for here, there in names_in(listed):
        file.imports[here] = (module, there)
        if exported:
            file.exports[here] = (module, there)


def starts_item(text):
    return text.startswith(STARTS) or SIGNATURE.match(text) or GROUP.match(text)


def dedented(lines, depth):
    return [line[depth:] if line.strip() else "" for line in lines]


def item_end(lines, at, depth):
    """The line after the item that begins at a line."""
    end = at + 1
    while end < len(lines):
        line = lines[end]
        if line.strip() and (indent(line) < depth or (indent(line) == depth and starts_item(line.strip()))):
            break
        end += 1
    return end


def members_of(lines):
    """The constructors or fields of a data or record definition: the names at the first depth within."""
    inner = [line for line in lines[1:] if line.strip() and not is_comment(line)]
    if not inner:
        return []
    depth = min(indent(line) for line in inner)
    found = (SIGNATURE.match(line.strip()) for line in inner if indent(line) == depth)
    return [m.group(1) for m in found if m]


def read_item(file, lines, at, depth, comment, modules):
    end = item_end(lines, at, depth)
    text = dedented(lines[at:end], depth)
    while text and not text[-1].strip():
        text.pop()
    group = GROUP.match(text[0])
    if group:
        item = Item(group.group(1), file.crate, file.path, at + 1, group.group(2), comment, text, modules=modules, members=members_of(text))
    else:
        cut = 1
        while cut < len(text) and (not text[cut].strip() or indent(text[cut]) > 0):
            cut += 1
        kind = "definition" if text[0].startswith(("unfoldable ", "abbrev ")) else "theorem"
        item = Item(kind, file.crate, file.path, at + 1, SIGNATURE.match(text[0]).group(1), comment, text[:cut], text[cut:], modules)
    file.items.setdefault(item.name, item)
    return end


def read_block(file, lines, at, depth, modules):
    """The items of one depth, from a line on; gives the line where the depth ends."""
    comment = []
    while at < len(lines):
        line = lines[at]
        text = line.strip()
        if text and indent(line) < depth:
            return at
        if not text:
            comment = []
        elif text.startswith("--"):
            comment = [] if text.startswith("-- ---") else comment + [text.lstrip("-").strip()]
        elif text.startswith("module "):
            end = at + 1
            while not lines[end - 1].rstrip().endswith("where"):
                end += 1
            header = dedented(lines[at:end], depth)
            inner = next((indent(l) for l in lines[end:] if l.strip()), depth + 2)
            at = read_block(file, lines, end, inner, modules + header) if inner > depth else end
            comment = []
            continue
        elif IMPORT.match(text):
            take_import(file, text)
            comment = []
        elif SIGNATURE.match(text) or GROUP.match(text):
            at = read_item(file, lines, at, depth, comment, modules)
            comment = []
            continue
        elif not text.startswith("infix"):
            comment = []
        at += 1
    return at


def read_antt(crate, path, text):
    file = File(crate, path)
    lines = text.splitlines()
    for line in lines:
        if not line.startswith("--"):
            break
        file.about.append(line.lstrip("-").strip())
    read_block(file, lines, 0, 0, [])
    return file
