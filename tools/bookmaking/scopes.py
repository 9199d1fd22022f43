"""The free names of antt text: those that are bound by nothing within it."""

import re

from antt import SIGNATURE, indent, is_comment

TOKEN = re.compile(r'"(?:[^"\\]|\\.)*"|[(){};,⌜⌝]|[^\s(){};,⌜⌝"]+')
WORDS = {"→", "×", "=", ":", "λ", "let", "in", "record", "where", "_", "Type", "⊥", "Unit", "tt", "absurd", "unfolding", "..", "|", "pub", "data",
         "unfoldable", "abbrev", "now", "entry", "exit", "module"}
OPEN, CLOSE = ("(", "{", "⌜"), (")", "}", "⌝")
NUMBER = re.compile(r"^(?:0x[0-9A-F]+|[0-9][0-9_]*)$")


def tokens(lines):
    return [token for line in lines if not is_comment(line) for token in TOKEN.findall(line)]


def is_word(token):
    return token not in OPEN + CLOSE + (";", ",") and token not in WORDS and not NUMBER.match(token) and not token.startswith((".", '"'))


class Walk:
    """Goes through tokens with the names that are bound, and keeps those that are not, in the order they are met."""

    def __init__(self, bound=()):
        self.scopes = [set(bound)]
        self.free = []

    def bound(self):
        return set().union(*self.scopes)

    def meet(self, token):
        name = token.rstrip(".") if len(token) > 1 else token
        head = name.split(".")[0] if "." in name and not name.startswith(".") else name
        if head and is_word(head) and head not in self.bound() and name not in self.free:
            self.free.append(name)

    def binder(self, line, at):
        """The names of `(x y : T` after its bracket, or none."""
        names = []
        for token in line[at + 1:]:
            if token == ":":
                return names
            if not is_word(token):
                return []
            names.append(token)
        return []

    def lambda_from(self, line, at):
        """Binds what stands between a λ and its dot; gives the place after it."""
        at += 1
        depth = 0
        while at < len(line):
            token = line[at]
            depth += (token in OPEN) - (token in CLOSE)
            if token in OPEN:
                self.scopes[-1].update(self.binder(line, at))
            elif token == "." and depth == 0:
                return at + 1
            elif depth == 0 and token not in CLOSE:
                self.scopes[-1].add(token.rstrip("."))
                if token.endswith("."):
                    return at + 1
            elif depth > 0:
                if is_word(token) and token not in self.bound():
                    self.meet(token)
            at += 1
        return at

    def go(self, line):
        at = 0
        while at < len(line):
            token = line[at]
            after = line[at + 1] if at + 1 < len(line) else ""
            if token == "λ":
                at = self.lambda_from(line, at)
                continue
            if token in OPEN:
                self.scopes[-1].update(self.binder(line, at))
                self.scopes.append(set())
            elif token in CLOSE:
                if len(self.scopes) > 1:
                    self.scopes.pop()
            elif token == "let":
                self.scopes[-1].add(after)
            elif is_word(token) and not (after == "=" and len(self.scopes) > 1):
                self.meet(token)
            at += 1


def split_clauses(body):
    """The clauses of a body, each with the lines of its where block apart."""
    clauses = []
    for line in body:
        if not line.strip() or is_comment(line):
            continue
        if indent(line) == 0:
            if line.startswith("unfolding"):
                continue
            clauses.append(([line], []))
        elif clauses:
            head, block = clauses[-1]
            (block if block or line.strip() == "where" else head).append(line)
    return clauses


def left_and_right(line):
    depth = 0
    for at, token in enumerate(line):
        depth += (token in OPEN) - (token in CLOSE)
        if token == "=" and depth == 0:
            return line[:at], line[at + 1:]
    return line, []


def local_names(block):
    return {m.group(1) for m in (SIGNATURE.match(line.strip()) for line in block) if m}


def clause_names(own, clause, block, bound, is_constructor):
    left, right = left_and_right(tokens(clause))
    walk = Walk(bound | local_names(block) | {own} | set(own.strip("◌").split("◌")))
    for token in left:
        if is_word(token):
            if is_constructor(token):
                walk.meet(token)
            else:
                walk.scopes[0].add(token)
    walk.go(right)
    free = list(walk.free)
    if len(block) > 1:
        depth = indent(block[1])
        inner = [line[depth:] for line in block[1:]]
        bound = walk.scopes[0]
        for line in inner:
            found = SIGNATURE.match(line)
            if found:
                sub = Walk(bound)
                sub.go(tokens([line])[2:])
                free += [n for n in sub.free if n not in free]
        for head, deeper in split_clauses([l for l in inner if not SIGNATURE.match(l)]):
            free += [n for n in clause_names(own, head, deeper, bound, is_constructor) if n not in free]
    return free


def group_names(item, bound):
    """Of a record or a data type: the names in its head and in its members' types; an earlier field is bound in a later one."""
    walk = Walk(bound | {item.name})
    head = tokens(item.statement[:1])
    walk.go(head[head.index(item.name) + 1:])
    for token in tokens(item.statement[1:]):
        if token in item.members and item.kind == "record":
            walk.scopes[0].add(token)
    inner = tokens(item.statement[1:])
    walk.go([t for at, t in enumerate(inner) if not (at + 1 < len(inner) and inner[at + 1] == ":" and t in item.members)])
    return walk.free


def free_names(item, is_constructor, statement_only=False):
    """The names that an item reaches, as they are written in its file."""
    outer = Walk()
    for header in item.modules:
        outer.go(tokens([header])[1:])
    bound = outer.scopes[0]
    free = [name for name in outer.free if name != "_"]
    if item.kind in ("record", "data"):
        return free + [n for n in group_names(item, bound) if n not in free]
    said = Walk(bound)
    stated = tokens(item.statement)
    said.go(stated[stated.index(":") + 1:])
    free += [n for n in said.free if n not in free]
    if not statement_only:
        for clause, block in split_clauses(item.body):
            free += [n for n in clause_names(item.name, clause, block, bound, is_constructor) if n not in free]
    return free
