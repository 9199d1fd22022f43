"""The page: the key, the counts, each promise with its statements and the definitions that it is the first to reach, and an index."""

import html
import re
from itertools import groupby

from antt import indent, is_comment
from key import KEY
from scopes import TOKEN, is_word
from style import STYLE

PIECE = re.compile(r"\s+|" + TOKEN.pattern)


def inline(text):
    """A paper's sentence as HTML: code, bold and links' words."""
    out = html.escape(text.replace("\\|", "|"), quote=False)
    out = re.sub(r"\[([^\]]+)\]\([^)]*\)", r"\1", out)
    out = re.sub(r"`([^`]+)`", r"<code>\1</code>", out)
    return re.sub(r"\*\*([^*]+)\*\*", r"<b>\1</b>", out)


def anchor(item):
    """The mark of a statement on the page."""
    return re.sub(r"[^A-Za-z0-9]+", "-", f"s-{item.path}-{item.name}")


class Page:
    def __init__(self, sources, numbers, sentences):
        self.sources = sources
        self.numbers = numbers
        self.sentences = sentences
        self.names = {}
        self.printed = set()

    def target(self, item, token):
        """The number of the definition that a word of an item's text stands for, or none."""
        key = (item.path, item.name, item.kind == "theorem")
        if key not in self.names:
            file = self.sources.file(item.path)
            found = {}
            for name in self.sources.names(item, item.place == "proofs"):
                there = self.sources.lookup(file, name)
                if there is not None and not isinstance(there, str) and there is not item:
                    found[name] = self.numbers.get((there.path, there.name))
            self.names[key] = found
        return self.names[key].get(token)

    def line(self, item, line):
        inner = line.strip()
        deep = indent(line)
        if is_comment(line):
            return f'<span class="l c" style="--i:{deep}">{html.escape(inner.lstrip("-/ "), quote=False)}</span>'
        out = []
        for piece in PIECE.findall(inner):
            text = html.escape(piece, quote=False)
            number = self.target(item, piece.rstrip(".") if len(piece) > 1 else piece) if is_word(piece) else None
            out.append(f'<a href="#d{number}">{text}</a>' if number else text)
        return f'<span class="l" style="--i:{deep}">{"".join(out)}</span>'

    def code(self, item, lines):
        return "".join(self.line(item, line) for line in lines if line.strip())

    def beside(self, item):
        """What stands next to a definition: the sentences that it carries, and the definitions of other files that it names."""
        said = "".join(f"<p>{inline(text)}</p>" for text in self.sentences.get((item.path, item.name), []))
        named = [t for t in self.sources.reached_by(item, item.place == "proofs") if t.path != item.path and (t.path, t.name) in self.numbers]
        links = " ".join(f'<a href="#d{self.numbers[t.path, t.name]}">{html.escape(t.name)}&nbsp;{self.numbers[t.path, t.name]}</a>' for t in named)
        return f'<div class="beside">{said}' + (f'<p class="uses">{links}</p>' if links else "") + "</div>"

    def comment(self, item):
        text = " ".join(item.comment)
        return f'<p class="comment">{inline(text)}</p>' if text else ""

    def definition(self, item):
        number = self.numbers[item.path, item.name]
        code = self.code(item, item.modules + item.statement + item.body)
        long = " long" if len(item.lines()) > 20 else ""
        return (f'<div class="item{long}" id="d{number}"><div class="text"><span class="n">{number}</span>{self.comment(item)}'
                f'<div class="code">{code}</div></div>{self.beside(item)}</div>')

    def statement(self, items):
        """A theorem or a contract; those of one file without comments stand together."""
        item = items[0]
        code = "".join(self.code(each, each.modules + each.statement) for each in items)
        where = (f"{item.path}:{item.line}" if len(items) == 1 else item.path).replace("/", "/<wbr>")
        said = "".join(f"<p>{inline(text)}</p>" for each in items for text in self.sentences.get((each.path, each.name), []))
        anchors = "".join(f'<span id="{anchor(each)}"></span>' for each in items)
        return (f'<div class="item said"><div class="text">{anchors}{self.comment(item)}<div class="code">{code}</div></div>'
                f'<div class="beside">{said}<p class="uses">{where}</p></div></div>')

    def statements(self, chapter):
        """Those that stand here for the first time, and the names of the others."""
        first = [item for item in chapter.promise.statements if anchor(item) not in self.printed]
        again = [item for item in chapter.promise.statements if item not in first]
        self.printed.update(anchor(item) for item in first)
        out = [self.statement(list(group)) for _, group in
               groupby(first, key=lambda i: (i.path, i.line if i.comment or i.modules or i.kind == "contract" else 0))]
        parts = f" The part{'s' * (len(chapter.promise.parts) > 1)} meant: {', '.join(f'<code>{p}</code>' for p in chapter.promise.parts)}." if chapter.promise.parts else ""
        if again:
            links = ", ".join(f'<a href="#{anchor(item)}"><code>{html.escape(item.name.removeprefix("fn "))}</code></a>' for item in again)
            out.append(f'<p class="again">Carried too by what stands above: {links}.{parts}</p>')
        elif parts:
            out.append(f'<p class="again">{parts}</p>')
        return "".join(out)

    def promise(self, chapter):
        title, rest = chapter.promise.title_and_rest()
        parts = [f'<section><h2 id="p{chapter.place}"><span>{chapter.promise.number}</span> {inline(title)}</h2><p class="promise">{inline(rest)}</p>',
                 f'<p class="count">{chapter.words()}</p>', self.statements(chapter)]
        for path, items in groupby(chapter.new, key=lambda i: i.path):
            about = " ".join(self.sources.file(path).about).replace(" Assumes nothing.", "")
            parts.append(f'<h3>{html.escape(path)}</h3><p class="about">{inline(about)}</p>')
            parts += [self.definition(item) for item in items]
        return "".join(parts) + "</section>"

    def contents(self, chapters, totals):
        rows = []
        for chapter in chapters:
            rows.append(f'<tr><td>{chapter.promise.number}</td><td><a href="#p{chapter.place}">{inline(chapter.promise.title_and_rest()[0])}</a></td>'
                        f'<td>{len(chapter.promise.statements)}</td><td>{chapter.definitions:,}</td><td>{chapter.lines:,}</td><td>{len(chapter.new):,}</td></tr>')
        for name, definitions, lines in totals:
            rows.append(f"<tr><td></td><td><b>{name}</b></td><td></td><td><b>{definitions:,}</b></td><td><b>{lines:,}</b></td><td></td></tr>")
        return ('<table><tr><th></th><th>promise</th><th>statements</th><th>definitions reached</th><th>their lines</th><th>first met here</th></tr>'
                + "".join(rows) + "</table>")

    def key(self):
        rows = "".join(f"<tr><td><code>{html.escape(what)}</code></td><td>{inline(means)}</td></tr>" for what, means, _ in KEY)
        return f'<h2>Key to the notation</h2><table class="key">{rows}</table>'

    def index(self, items):
        names = sorted(((item.name, self.numbers[item.path, item.name], item.crate) for item in items), key=lambda e: (e[0].strip("◌").lower(), e[1]))
        listed = "".join(f'<div><a href="#d{n}">{html.escape(name)}</a> <span>{crate}</span> {n}</div>' for name, n, crate in names)
        return f'<section><h2>Index</h2><div class="index">{listed}</div></section>'

    def whole(self, version, chapters, totals, items):
        return (f'<!DOCTYPE html><html lang="en"><head><meta charset="utf-8"><meta name="viewport" content="width=device-width, initial-scale=1">'
                f"<title>Mbrumzheg: what has to be believed</title><style>{STYLE}</style></head><body><main>"
                f"<h1>What has to be believed</h1><p>Mbrumzheg {html.escape(version)}</p>"
                f"<p>Each promise of docs/PROMISED.md, the statements that carry it, and every definition that these reach, each once. A definition stands before "
                f"the ones that use it. The statements are proved; that they say what is meant is for the reader to judge, and this is all that there is to read for it. "
                f"Beside a definition stand the sentences that docs/PROMISES.md says it carries, and the numbers of the definitions of other files that it names.</p>"
                f"{self.contents(chapters, totals)}{self.key()}{''.join(self.promise(c) for c in chapters)}{self.index(items)}</main></body></html>\n")
