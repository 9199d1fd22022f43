"""The names in the papers, each kind by a function that yields the places looked at and what is wrong with them."""

import re

from sources import Sources

HISTORY = {"LANDINGS.md", "CHANGELOG.md", "PORT.md", "DESIGN-PASS.md"}
FOLDERS = r"crates|docs|tools|native|desk|rust|python|second|c|include|packaging|sample-data|\.ci"
PATH = re.compile(rf"(?<![\w/.:<-])((?:{FOLDERS})/[\w.*/-]*)")
# a word that stands for any name, as in crates/CRATE/specs/X.antt
ANY = re.compile(r"\b(CRATE|FILE|FUNCTION|NAME|FOLDER|X)\b|(?<=crates/)crate(?=/)")
CITE = re.compile(r"(?:`([a-z]+)`\s+)?((?:specs|proofs)/(?:Inner/)?(?!CRATE|FILE|FUNCTION|X\b)[A-Z][A-Za-z0-9]+)((?:,?\s+`[^`]+`(?!\s+(?:specs|proofs|src)/))*)")
IN_CODE = re.compile(r"`([a-z]+)`\s+src/([a-z_]+)(?:\.rt)?((?:,?\s+`[^`]+`(?!\s+(?:specs|proofs|src)/))*)")
# a crate's name with the name of a function, or of a wrong version, beside it
BESIDE = re.compile(r"`([a-z]+)`\s+`(\w+)`(?!\s+(?:specs|proofs|src)/)")
QUALIFIED = re.compile(r"\b(?:[A-Za-z]\w*::)+\w+")
# what looks like a name: words joined by _ or -, or a capital inside
NAME = re.compile(r"`((?:[A-Za-z_]\w*[._-]|[A-Za-z]*[a-z0-9][A-Z])[\w.-]*)`")
# names of the kit, which no source of ours has to have
OUTSIDE = {"rattle-kit-5b", "rattle-kit-13f", "libos_c.a", "rattle_open_to_read", "rattle_set_errno"}
WRONG = re.compile(r"^- `([a-z]+)`: (`[a-z0-9_]+`(?:, `[a-z0-9_]+`)*)\.?$")
WRONG_LIST = re.compile(r"^Wrong versions[^\n]*:\n\n((?:[- ] .*\n)+)", re.M)
# an example, which tools/test-papers runs
EXAMPLE = re.compile(r"^```.*?^```$", re.M | re.S)
ASKING = "## Functions with a `requires`"


def in_letters(text):
    return re.findall(r"`([^`]+)`", text)


def paths(paper, text, sources):
    for match in PATH.finditer(text):
        path = match[1].rstrip(".-")
        there = any(sources.root.glob(ANY.sub("*", path).rstrip("/")))
        yield None if there else f"{paper} names {path}, and there is no such file"


def cites(paper, text, sources):
    for crate, place, names in CITE.findall(text):
        files = [path for path in sources.root.glob(f"crates/{crate or '*'}/{place}.antt")]
        if not files:
            yield f"{paper} cites {crate} {place}, and there is no such file"
            continue
        defined = sources.defined(files)
        for name in in_letters(names):
            missing = [part for part in re.split(r"[. ]", name) if part not in defined]
            yield f"{paper} cites {name} in {crate} {place}, and it is not there" if missing and " " not in name else None


def in_code(paper, text, sources):
    for crate, module, names in IN_CODE.findall(text):
        file = sources.root / "crates" / crate / "src" / f"{module}.rt"
        if not file.is_file():
            yield f"{paper} names {crate} src/{module}, and there is no such file"
            continue
        words = set(re.findall(r"\w+", file.read_text()))
        for name in in_letters(names):
            if " " not in name:
                yield None if set(name.split("::")) <= words else f"{paper} names {name} in {crate} src/{module}, and it is not there"


def is_declared(crate, rest, sources):
    """True if a crate declares what stands behind its name: a method with its own type, a function with its own module if one is named."""
    *behind, last = rest
    if last.islower() or "_" in last and not last.isupper():
        owners = {part for function in sources.functions if (function.crate, function.name) == (crate, last) for part in (function.module, function.type)}
        return bool(owners) and set(behind) <= owners
    return set(rest) <= sources.declared(crate)


def qualified(paper, text, sources):
    types = {function.type: function.crate for function in sources.functions if function.type and function.public}
    for path in [path for letters in in_letters(text) for path in QUALIFIED.findall(letters)]:
        first, *rest = path.split("::")
        if first in sources.crates:
            there = is_declared(first, rest, sources)
        elif first in types:
            there = is_declared(types[first], [first, *rest], sources)
        else:
            there = {first, *rest} <= sources.words
        yield None if there else f"{paper} names {path}, and there is none"


def beside(paper, text, sources):
    """The names that stand beside their crate's."""
    for crate, name in BESIDE.findall(text):
        if crate in sources.crates:
            there = name in sources.declared(crate) or (crate, name) in sources.edits
            yield None if there else f"{paper} names {name} of {crate}, and it is not there"


def bare(paper, text, sources):
    """The names that stand by themselves."""
    for other in (WRONG_LIST, CITE, IN_CODE):
        text = other.sub("", text)
    for name in NAME.findall(text):
        if name in OUTSIDE or ".." in name or (sources.root / name).exists():
            continue
        there = name in sources.words or all(part in sources.words for part in name.split("."))
        yield None if there else f"{paper} names {name}, and no source has it"


def lists_of_wrong(paper, text, sources):
    """Each bullet after a line that begins a list of wrong versions is a crate and its files."""
    for block in WRONG_LIST.findall(text):
        for item in re.sub(r"\n +", " ", block).splitlines():
            match = WRONG.match(item)
            if not match:
                yield f"{paper}: a list of wrong versions has '{item[:60]}', which is not a crate and its files"
                continue
            for name in in_letters(match[2]):
                there = (match[1], name) in sources.edits
                yield None if there else f"{paper} lists the wrong version {name} of {match[1]}, and there is none"


def unlisted(root, sources):
    """The promises list every wrong version by its crate and its name."""
    items = [item for block in WRONG_LIST.findall((root / "docs" / "PROMISES.md").read_text()) for item in re.sub(r"\n +", " ", block).splitlines()]
    listed = {(match[1], name) for match in map(WRONG.match, items) if match for name in in_letters(match[2])}
    for crate, name in sorted(sources.edits):
        yield None if (crate, name) in listed else f"docs/PROMISES.md does not list the wrong version {name} of {crate}"


def untold_tries(paper, text, sources):
    """A list in a sentence names no file, so nothing holds it."""
    for line in re.findall(r"^Wrong .*\btried: \w.*", text, re.M):
        yield f"{paper}: '{line[:60]}' names no files"


def asking(root, sources):
    """The table of the functions with a `requires`: the public ones that have it, and no other."""
    paper = root / "docs" / "DECISIONS.md"
    section = paper.read_text().split(ASKING, 1)[1].split("\n## ", 1)[0]
    listed = {name for row in re.findall(r"^\| (`.*?) \|", section, re.M) for name in in_letters(row)}
    there = {sources.path_of(function) for function in sources.functions if function.public and function.asks}
    for name in sorted(there - listed):
        yield f"docs/DECISIONS.md does not list {name}, which has a `requires`"
    for name in sorted(listed - there):
        yield f"docs/DECISIONS.md lists {name}, and there is no such public function with a `requires`"
    for _ in listed & there:
        yield None


def lines_of_code(root):
    for file in sorted(root.glob("crates/*/proofs/**/*.antt")):
        for number, line in enumerate(file.read_text().splitlines(), 1):
            if re.search(r"\bsrc/[a-z_]+\.rt:\d+", line):
                yield f"{file.relative_to(root)}:{number} names a line of the code, which moves"


def faults(root):
    """All that is wrong, and how many names were looked at."""
    sources = Sources(root)
    told = []
    for file in [*sorted(root.glob("*.md")), *sorted(root.glob("docs/*.md"))]:
        if file.name in HISTORY:
            continue
        paper, text = file.relative_to(root), file.read_text()
        told += paths(paper, text, sources)
        for kind in (cites, in_code, qualified, beside, bare, lists_of_wrong, untold_tries):
            told += kind(paper, EXAMPLE.sub("", text), sources)
    told += unlisted(root, sources)
    told += asking(root, sources)
    told += lines_of_code(root)
    found = [fault for fault in told if fault]
    return found, len(told) - len(found)
