"""What the sources have: Rattle's functions and types, the definitions and theorems of specs/ and proofs/, and every word of the code."""

import re
from dataclasses import dataclass
from functools import cached_property
from pathlib import Path

WORD = re.compile(r"[A-Za-z_][A-Za-z0-9_]*")
# a name of specs/ and proofs/ may have hyphens and ends where blanks, brackets or a dot stand
PROVED_WORD = re.compile(r"[A-Za-z_][\w-]*")
CODE = {".rt", ".antt", ".rs", ".c", ".h", ".hpp", ".cpp", ".py", ".js", ".html", ".css", ".toml", ".edit", ".in", ".cmake", ".1", ""}
UNREAD = {"target", "out", ".git", "__pycache__"}


@dataclass(frozen=True)
class Function:
    crate: str
    module: str
    type: str
    name: str
    public: bool
    asks: bool

    @property
    def path(self):
        """As a paper names it: a method behind its type, a function behind its crate alone."""
        return "::".join(part for part in (self.crate, self.type, self.name) if part)


def functions_of(file):
    """The functions of a source file, each with whether its contract has a `requires`."""
    crate, module, type_, found, open_ = file.parts[-3], file.stem, "", [], None
    for line in file.read_text().splitlines():
        # of an impl of a trait the type stands behind the trait
        if match := re.match(r"impl(?:<[^>]*>)? (?:.* for )?(\w+)", line):
            type_ = match[1]
        elif line.startswith("}"):
            type_ = ""
        if match := re.match(r' *(pub )?(?:pub\([a-z]+\) )?(?:extern "C" )?fn (\w+)', line):
            open_ = [match[2], bool(match[1]), False]
            found.append((open_, type_))
        elif line.strip() == "{":
            open_ = None
        elif open_ and re.match(r" *requires\b", line):
            open_[2] = True
    return [Function(crate, module, type_, *told) for told, type_ in found]


class Sources:
    def __init__(self, root):
        self.root = root

    @cached_property
    def crates(self):
        return {path.name for path in self.root.glob("crates/*") if path.is_dir()}

    @cached_property
    def functions(self):
        return [function for file in sorted(self.root.glob("crates/*/src/*.rt")) for function in functions_of(file)]

    @cached_property
    def files(self):
        """Every file of code: no paper, and nothing that a build has made."""
        return [
            path
            for path in sorted(self.root.rglob("*"))
            if path.is_file() and path.suffix in CODE and not UNREAD & set(path.relative_to(self.root).parts[:-1])
        ]

    @cached_property
    def edits(self):
        """Every wrong version, as its crate and its name."""
        return {(path.parts[-3], path.stem) for folder in ("wrong", "must-fail") for path in self.root.glob(f"crates/*/{folder}/*.edit")}

    @cached_property
    def words(self):
        """Every word of the code, and the wrong versions by their names; a paper's own word is none."""
        found = {path.stem for path in self.files if path.suffix == ".edit"}
        for path in self.files:
            text = path.read_text(errors="replace")
            found.update(WORD.findall(text), PROVED_WORD.findall(text), re.findall(r"◌\w+◌(?:\w+◌)*", text))
        return found

    def path_of(self, function):
        """As a paper names it: the module stands before the name where the crate itself has a public function of that name."""
        own = any(
            other.public and other.module == "lib" and (other.crate, other.type, other.name) == (function.crate, function.type, function.name)
            for other in self.functions
        )
        if own and function.module != "lib":
            return f"{function.crate}::{function.module}::{function.name}"
        return function.path

    def declared(self, crate):
        """What a crate's code declares: functions, types, constants and cases, by name."""
        names = set()
        for file in self.root.glob(f"crates/{crate}/src/*.rt"):
            text = file.read_text()
            names.update(re.findall(r"\b(?:fn|struct|enum|const|type|mod) (\w+)", text), re.findall(r"^ +([A-Z]\w*)(?:\(.*\))?,$", text, re.M))
        return names

    def defined(self, files):
        """The definitions and theorems of files of specs/ and proofs/, fields and cases among them, by name."""
        pattern = re.compile(r"^ *(?:unfoldable |abbrev )?(?:pub )?(?:record |data )?([^\s:]+)(?= |$)", re.M)
        return {name for file in files for name in pattern.findall(file.read_text())}
