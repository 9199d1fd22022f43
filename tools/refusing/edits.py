"""The wrong versions below crates/: their edits, and the functions in whose bodies they lie."""

import re
from dataclasses import dataclass, field
from pathlib import Path

ROOT = Path(__file__).resolve().parents[2]
CRATES = ROOT / "crates"
OPEN = r'(?:pub(?:\([a-z]+\))? )?(?:extern "C" )?'
HEAD = re.compile(rf"^( *){OPEN}fn (\w+)", re.M)


class BadEdit(Exception):
    pass


@dataclass
class Edit:
    path: Path
    pairs: list = field(default_factory=list)
    function: str = ""

    @property
    def crate(self):
        return self.path.parent.parent.name

    @property
    def label(self):
        return self.path.stem

    @property
    def name(self):
        return f"{self.crate}/{self.label}"

    @property
    def is_rts(self):
        """True if rt tries it too."""
        return self.path.parent.name == "must-fail"


def read_edit(path):
    """An edit's replacements, as rt's own must-fail edits are written: a 'file:' line holds for the 'old:' and 'new:' pairs after it. Each old text
    stands once in its file; in a must-fail edit, in what the pairs before it made of the file."""
    edit, file, old, texts, bodies = Edit(path), "", "", {}, set()
    for line in path.read_text().splitlines():
        if line.startswith("file: "):
            file = line[6:].strip()
        elif line.startswith("old: "):
            old = line[5:]
        elif line.startswith("new:"):
            whole = CRATES / edit.crate / file
            if file not in texts:
                texts[file] = whole.read_text() if whole.is_file() else ""
            found = texts[file].count(old) if old else 0
            if found != 1 or not file.startswith(("src/", "specs/")):
                raise BadEdit(f"{edit.name}: an 'old:' text is {found} times in {file}")
            edit.pairs.append((file, old, line[4:].removeprefix(" ")))
            bodies.add(body_of(edit.crate, file, texts[file], old))
            if edit.is_rts:
                texts[file] = texts[file].replace(old, edit.pairs[-1][2])
            old = ""
    if not edit.pairs:
        raise BadEdit(f"{edit.name}: it has no 'old:' and 'new:' pair")
    edit.function = bodies.pop() if len(bodies) == 1 else ""
    return edit


def apply(edit, texts):
    """Makes an edit's replacements in the texts of files: all at once where each old text stands there once, else each in what the ones before it made."""
    for file in {file for file, _, _ in edit.pairs}:
        text, pairs = texts[file], [(old, new) for name, old, new in edit.pairs if name == file]
        if all(text.count(old) == 1 for old, _ in pairs):
            for at, old, new in sorted(((text.index(old), old, new) for old, new in pairs), reverse=True):
                text = text[:at] + new + text[at + len(old) :]
        else:
            for old, new in pairs:
                text = text.replace(old, new, 1)
        texts[file] = text


def words_of(text, own):
    """The words of a type as the check joins them, as in `ArrayU64ROW`, without an impl's own parameters."""
    text = re.sub(r"\[([^\[\];]*);", r"array \1 ", text).replace("&", " ref ")
    return "".join(word[0].upper() + word[1:] for word in re.findall(r"(?<!')\b[A-Za-z_]\w*(?!\w|::)|\d+", text) if word not in own)


def impl_of(head):
    """The type of an impl, by what stands between its first word and its brace, and of a trait's impl the name that the check gives it."""
    own, rest = re.match(r"(?:<((?:[^<>]|<[^<>]*>)*)>)?\s*(.*)", head, re.S).groups()
    trait, of, type_ = re.split(r"\bwhere\b", rest)[0].partition(" for ")
    if not of:
        return re.match(r"\w+", rest)[0], ""
    named, given = re.match(r"(?:\w+::)*(\w+)(.*)", trait, re.S).groups()
    parameters = set(re.findall(r"(?:^|,)\s*(?:const )?(\w+)", own or ""))
    return "", words_of(type_, parameters) + named + words_of(given, parameters)


def name_of(crate, file, text, head):
    """A function as the check names it, by the place of its head in its file."""
    place = [crate] + ([] if file in ("src/lib.rt", "src/main.rt") else [Path(file).stem])
    if head[1]:
        # an impl of a trait goes by its type and the trait, as in `LettersDigits`, with what the trait is given, as in `EventFromEvent16`
        type_, impl = impl_of(re.findall(r"^impl\b([^{]*)\{", text[: head.start()], re.M)[-1])
        # and one of a type alone that another file declares, by the crate alone
        if type_ and not re.search(rf"\b(?:struct|enum) {type_}\b", text):
            place = [crate]
        place.append(type_ or impl)
    return "::".join(place + [head[2]])


def body_of(crate, file, text, old):
    """The function in whose body a text stands, as the check names it; '' if it stands anywhere else."""
    if not file.endswith(".rt"):
        return ""
    at = text.index(old)
    heads = list(HEAD.finditer(text[: at + len(old)]))
    if not heads:
        return ""
    head = heads[-1]
    opened = re.compile(rf"^{head[1]}\{{$|^{head[1]}\)[^\n]*\{{$|^{head[1]}{OPEN}fn [^\n]*\{{$", re.M).search(text, head.start())
    closed = re.compile(rf"^{head[1]}\}}$", re.M).search(text, head.start())
    if not opened or not closed or not opened.end() <= at or at + len(old) > closed.start():
        return ""
    return name_of(crate, file, text, head)


def function_at(crate, file, text, line):
    """The function whose attributes, head or body have a line of a file, as the check names it; '' if there is none."""
    heads = [head for head in HEAD.finditer(text) if first_line(text, head) <= line]
    return name_of(crate, file, text, heads[-1]) if heads else ""


def first_line(text, head):
    """The line of a function's first attribute, or of its head where it has none: what stands right above it and ends in a bracket."""
    above = text[: head.start()].split("\n")[:-1]
    at = len(above)
    while at and above[at - 1].strip() and not above[at - 1].strip().startswith("//") and not above[at - 1].rstrip().endswith(("{", "}", ";")):
        at -= 1
    return at + 1


def named(path):
    """The names by which an edit is asked for: its crate's, and its own below it."""
    crate = path.relative_to(CRATES).parts[0]
    return {crate, f"{crate}/{path.stem}"}


def edit_files(names):
    """Every file below crates/ that is an edit, or those that are asked for by name; what a build has made is none."""
    found = [path for path in sorted(CRATES.rglob("*.edit")) if path.relative_to(CRATES).parts[1] != "out"]
    return [path for path in found if not names or named(path) & set(names)]


def read_edits(paths):
    """The edits of files that stand where wrong versions do, and the files that cannot be read as one."""
    edits, unread = [], []
    for path in paths:
        if path.parent.name not in ("wrong", "must-fail") or path.parent.parent.parent != CRATES:
            continue
        try:
            edits.append(read_edit(path))
        except BadEdit as fault:
            print(f"wrong {fault}")
            unread.append(path)
    return edits, unread
