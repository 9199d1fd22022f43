"""The book's chapters: what each promise is the first to reach, in reading order, the counts, and what is wrong."""

from dataclasses import dataclass, field

from key import explained
from page import Page
from promised import Promise, promises, sentences, stated_counts
from reach import Sources


@dataclass
class Chapter:
    place: int
    promise: Promise
    definitions: int = 0
    lines: int = 0
    new: list = field(default_factory=list)

    def words(self):
        if not self.definitions:
            return "Its statements name nothing that is defined here."
        here = "all of them above" if not self.new else f"{len(self.new):,} of them here for the first time"
        return f"It reaches {self.definitions:,} definitions in {self.lines:,} lines, {here}."


def lines_of(items):
    """The lines of definitions, comments and imports left out; the head of a module that several stand in counts once."""
    heads = {(item.path, head) for item in items for head in item.modules}
    return len(heads) + sum(len(item.lines()) - len(item.modules) for item in items)


def reading_order(sources, edges):
    """Files after those that they name, and in a file as it stands there."""
    files = {}
    for item, named in edges.values():
        files.setdefault(item.path, set()).update(other.path for other in named if other.path != item.path)
    place = {crate: at for at, crate in enumerate(sources.order)}
    ordered = []

    def visit(path):
        if path in ordered or path not in files:
            return
        seen = files.pop(path)
        for other in sorted(seen, key=lambda p: (place.get(p.split("/")[1], 0), p)):
            visit(other)
        ordered.append(path)

    for path in sorted(files, key=lambda p: (place.get(p.split("/")[1], 0), p)):
        visit(path)
    rank = {path: at for at, path in enumerate(ordered)}
    return sorted((item for item, _ in edges.values()), key=lambda i: (rank[i.path], i.line))


def chapters_of(sources, found):
    """A chapter a promise, and all that they reach, with its edges."""
    chapters, edges = [], {}
    for place, promise in enumerate(found):
        mine = sources.closure(promise.statements)
        chapter = Chapter(place, promise, len(mine), lines_of([item for item, _ in mine.values()]))
        fields = {name for item, _ in mine.values() for name in item.members}
        for part in promise.parts:
            if part not in fields:
                sources.problems.append(f"docs/PROMISED.md: nothing that {promise.number} reaches has a part `{part}`")
        chapter.new = [item for item in reading_order(sources, mine) if (item.path, item.name) not in edges]
        edges.update(mine)
        chapters.append(chapter)
    return chapters, edges


def of_demands(sources, found):
    """What demands 1 to 3 reach together."""
    edges = {}
    for promise in found:
        if promise.number in ("1", "2", "3"):
            edges.update(sources.closure(promise.statements))
    return [item for item, _ in edges.values()]


def held_to(totals, stated):
    """The counts that are above those that docs/PROMISED.md states, and those that are below."""
    names = ["definitions of demands 1 to 3", "lines of demands 1 to 3", "definitions in all", "lines in all"]
    found = [number for _, definitions, lines in totals for number in (definitions, lines)]
    said = [(now, most, f"{now:,} {name}: docs/PROMISED.md states {most:,}") for name, now, most in zip(names, found, stated)]
    return [text for now, most, text in said if now > most], [text for now, most, text in said if now < most]


def faults(sources, edges):
    """Names that lead nowhere, definitions in proofs/, and words that the key lacks."""
    misplaced = [f"{item.path}:{item.line}: `{item.name}` is reached by a promise, and stands in proofs/" for item, _ in edges.values() if item.place == "proofs"]
    missing = sorted({name.split()[-1] for name in sources.kit if not sources.ours(name.split()[0])} - explained())
    return list(dict.fromkeys(sources.problems)) + misplaced + [f"the key to the notation does not explain `{name}`" for name in missing]


def book(root, target):
    sources = Sources(root)
    text = (root / "docs/PROMISED.md").read_text()
    found = promises(sources, text)
    chapters, edges = chapters_of(sources, found)
    items = [item for chapter in chapters for item in chapter.new]
    demands = of_demands(sources, found)
    totals = [("demands 1 to 3", len(demands), lines_of(demands)), ("all promises", len(items), lines_of(items))]
    numbers = {(item.path, item.name): at for at, item in enumerate(items, 1)}
    stated = [(item.path, item.name) for promise in found for item in promise.statements]
    page = Page(sources, numbers, sentences((root / "docs/PROMISES.md").read_text(), list(dict.fromkeys([*edges, *stated]))))
    target.parent.mkdir(parents=True, exist_ok=True)
    target.write_text(page.whole((root / "VERSION").read_text().strip(), chapters, totals, items))
    counts = stated_counts(text)
    above, below = held_to(totals, counts) if counts else (["docs/PROMISED.md does not state how much there is to read"], [])
    problems = faults(sources, edges) + above
    for problem in problems:
        print(f"book: {problem}")
    for less in below:
        print(f"book: the paper may state less now: {less}")
    said = "; ".join(f"{name}: {definitions:,} definitions in {lines:,} lines" for name, definitions, lines in totals)
    print(f"{said}; {len(chapters)} promises: {target.relative_to(root) if target.is_relative_to(root) else target}")
    return 1 if problems else 0


def unreached(root):
    """Prints what specs/ defines and no promise reaches, with its lines, by file; and which files of specs/ import from proofs/."""
    sources = Sources(root)
    _, edges = chapters_of(sources, promises(sources, (root / "docs/PROMISED.md").read_text()))
    for file in sources.specs():
        left = [item for item in file.items.values() if (file.path, item.name) not in edges]
        if left:
            print(f"{file.path}: {lines_of(left)} lines: {', '.join(item.name for item in left)}")
        for module in sorted({module for module, _ in file.imports.values() if ".proofs." in module}):
            print(f"{file.path} imports from {module}")
    return 0
