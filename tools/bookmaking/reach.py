"""What a statement or a definition reaches: the sources' own names, found through each file's imports."""

import re
from pathlib import Path

from antt import read_antt
from rattle import read_rattle
from scopes import Walk, free_names, tokens

MODULE = re.compile(r"^Rattle\.([a-z0-9_]+)\.(specs|proofs)\.(.+)$")
CONSTRUCTORS = {"zero", "suc", "true", "false", "[]", "◌∷◌", "refl", "Some", "None", "Ok", "Err"}

# types of the kit that code names without an import
BROUGHT = {"Option", "Result"}


class Sources:
    def __init__(self, root):
        self.root = Path(root)
        self.order = [line.split(":")[0].split()[0] for line in (self.root / "crates.txt").read_text().splitlines() if line.strip()]
        self.files = {}
        self.problems = []
        self.kit = {}

    def file(self, path):
        if path not in self.files:
            whole = self.root / path
            reader = read_rattle if path.endswith(".rt") else read_antt
            self.files[path] = reader(path.split("/")[1], path, whole.read_text()) if whole.is_file() else None
        return self.files[path]

    def ours(self, module):
        """A module of these crates, as (crate, place, the rest of its name), or none: the kit's libraries are named alike."""
        found = MODULE.match(module)
        return found.groups() if found and found.group(1) in self.order else None

    def declared(self, crate, name):
        """A type of a crate's code."""
        for whole in sorted((self.root / "crates" / crate / "src").glob("*.rt")):
            item = self.file(str(whole.relative_to(self.root))).items.get(name)
            if item:
                return item
        return None

    def there(self, module, name):
        """The item that a module of ours has under a name: its own, one that it passes on, or the type of a constructor or a variant."""
        crate, place, rest = self.ours(module)
        if place == "specs" and rest.startswith("declared."):
            return self.declared(crate, rest.split(".")[1])
        file = self.file(f"crates/{crate}/{place}/{rest.replace('.', '/')}.antt")
        if file is None:
            return None
        if name in file.items:
            return file.items[name]
        if name in file.exports:
            return self.there(*file.exports[name])
        return next((item for item in file.items.values() if item.kind == "data" and name in item.members), None)

    def is_made(self, module):
        """A module that the check makes of a function's types and clauses."""
        found = self.ours(module)
        return bool(found) and found[1] == "proofs" and module.rsplit(".", 1)[-1] in ("Kinds", "Reads")

    def lookup(self, file, name):
        """An item, the kit's module as text, or None."""
        several = [known for known in (*file.items, *file.imports) if known.count("◌") > 2 and name in known.split("◌")]
        spelled = [name, f"◌{name}◌", f"◌{name}", f"{name}◌", *several]
        for form in spelled:
            if form in file.items:
                return file.items[form]
            if form in file.imports:
                module, there = file.imports[form]
                return self.there(module, there) if self.ours(module) else f"{module} {there}"
        for item in file.items.values():
            if item.kind == "data" and name in item.members:
                return item
        if "." in name:
            head = name.split(".")[0]
            if head in file.aliases:
                module = file.aliases[head]
                if self.is_made(module):
                    return f"{module} {name}"
                return self.there(module, name.split(".", 1)[1]) if self.ours(module) else f"{module} {name}"
            return self.lookup(file, head)
        return None

    def is_constructor(self, file):
        """The test that tells, of the words on a clause's left, the cases from the names that they bind."""
        def test(token):
            found = self.lookup(file, token)
            if found is None or isinstance(found, str):
                return found is not None and found.split()[-1] in CONSTRUCTORS
            there = file.imports.get(token, (None, token))[1].split(".")[-1]
            return found.kind in ("data", "type") and there in found.members
        return test

    def names(self, item, statement_only):
        file = self.file(item.path)
        if item.kind == "type":
            inner = re.findall(r"\b[A-Z][A-Za-z0-9_]*", " ".join(line.split("//")[0] for line in item.statement))
            known = set(item.members) | {item.name}
            return [name for name in dict.fromkeys(inner) if name not in known or (name in file.imports and name != item.name)]
        if item.kind == "contract":
            return contract_names(item)
        return free_names(item, self.is_constructor(file), statement_only)

    def reached_by(self, item, statement_only=False):
        """The items that one item names, in the order of its text; the kit's names are kept apart."""
        file = self.file(item.path)
        found = []
        for name in self.names(item, statement_only):
            there = self.lookup(file, name)
            if there is None and name in BROUGHT and item.path.endswith(".rt"):
                there = f"std {name}"
            if isinstance(there, str):
                self.kit.setdefault(there, []).append(item)
            elif there is None:
                self.problems.append(f"{item.path}:{item.line}: `{item.name}` names `{name}`, and no definition of it is found")
            elif there is not item and there not in found:
                found.append(there)
        return found

    def specs(self):
        """Every file of specs/, by path."""
        return [self.file(str(whole.relative_to(self.root))) for whole in sorted(self.root.glob("crates/*/specs/**/*.antt"))]

    def closure(self, statements):
        """All items that statements reach, and for each what it names."""
        edges = {}
        waiting = [item for statement in statements for item in self.reached_by(statement, True)]
        while waiting:
            item = waiting.pop(0)
            if (item.path, item.name) in edges:
                continue
            named = [] if item.place == "proofs" else self.reached_by(item)
            edges[item.path, item.name] = (item, named)
            waiting += named
        return edges


# how a clause begins, which may have a name
CLAUSE = r"(?:requires|ensures)\*?(?: [a-z0-9_]+)? \{"


def contract_names(item):
    """The types in a function's head, and the free names of its clauses."""
    text = "\n".join(line for line in item.statement if not line.strip().startswith("//"))
    head = re.split(r"\n\s*(?:ghost|requires|ensures|decreases)\b", text)[0]
    given = re.findall(r"([a-z_][a-z0-9_]*):", head)
    names = [name for name in dict.fromkeys(re.findall(r"\b[A-Z][A-Za-z0-9_]*", head)) if name != "C"]
    for clause in re.findall(rf"^\s*{CLAUSE}(.*)\}}\s*$", text, re.M | re.S):
        for part in re.split(rf"\}}\s*\n\s*{CLAUSE}", clause):
            walk = Walk(given + ["self", "result"])
            walk.go(tokens(part.splitlines()))
            names += [name for name in walk.free if name not in names]
    return names
