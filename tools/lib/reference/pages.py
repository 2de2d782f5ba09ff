"""The pages of the reference, as HTML."""

import re
from html import escape
from posixpath import dirname, relpath
from urllib.parse import quote

from pygments.lexers import RustLexer
from pygments.token import STANDARD_TYPES

from reference import prose, signs
from reference.comments import first_sentence
from reference.project import Kit
from reference.resting import fields_of
from reference.sources import TYPE, Item
from reference.specs import Definition
from reference.terms import Field, Inside, Unknown

# How many lines a definition without a comment has at most that is shown in its place.
SHORT = 4
# How a comment begins that goes on from that of the definition before.
GOES_ON = re.compile("the same|and ", re.IGNORECASE)
FRAME = """<!doctype html>
<html lang="en" data-root="{root}">
<meta charset="utf-8">
<meta name="viewport" content="width=device-width, initial-scale=1">
<title>{title}</title>
<link rel="stylesheet" href="{root}style.css">
<script src="{root}search.js" defer></script>
<header><nav>{crumbs}</nav><form role="search" hidden><input type="search" placeholder="Search" aria-label="Search names and words"><ul></ul></form></header>
<main>
{body}
</main>
</html>
"""


class Page:
    """A page that is being written: links on it are told from where it stands."""

    def __init__(self, places, url, faults):
        self.places, self.url, self.faults, self.parts = places, url, faults, []

    def to(self, address):
        path, _, anchor = address.partition("#")
        if path == self.url and anchor:
            return f"#{anchor}"
        return relpath(path, dirname(self.url) or ".") + (f"#{anchor}" if anchor else "")

    def add(self, *parts):
        self.parts += parts

    def link(self, target, text, title=""):
        address = f"{signs.URL}#{quote(signs.sign_of(target))}" if isinstance(target, Kit) else self.places.address(target)
        shown = ' class="sign"' if isinstance(target, Kit) else ""
        shown += f' title="{escape(title.replace("`", ""))}"' if title else ""
        return f'<a href="{escape(self.to(address))}"{shown}>{text}</a>' if address else text

    def comment(self, lines, home, owner, where):
        """A comment of a file of sources, with the paths in it resolved where it stands."""

        def address(path):
            target = owner if path == "Self" else None
            if path.startswith("Self::") and owner is not None:
                target = owner.member(path[6:])
            elif target is None:
                target = home.find(tuple(path.split("::")))
            if target is None or isinstance(target, (Unknown, Field)):
                self.faults.append(f"{where}: [{path}] leads nowhere")
                return None
            found = self.places.address(target)
            return self.to(found) if found else None

        return prose.shown(lines, address)

    def definition_comment(self, lines):
        """A comment of a file of definitions, in which code stands between backticks."""
        return f"<p>{marked(' '.join(lines))}</p>" if lines else ""

    def term(self, text, words, records):
        """A term, each word of it linked to what it names."""
        parts, at, last = [], 0, None
        for word in words:
            if word.start < at:
                continue
            said, target = escape(text[word.start : word.end]), word.target
            if isinstance(target, Field):
                owner = last if word.start == at + 1 and last is not None else only(target.name, records)
                last = owner.kind_of(target.name) if isinstance(owner, Definition) else None
                target = Inside(owner, target.name) if owner is not None else None
            else:
                last = None
            title = sentence(target)
            is_unsaid = isinstance(target, Kit) and not title
            parts += [escape(text[at : word.start]), f'<i title="{target.module}">{said}</i>' if is_unsaid else self.link(target, said, title)]
            at = word.end
        return "".join([*parts, escape(text[at:])])

    def code(self, text, scope=None, lexer=RustLexer):
        """Code in colors, and with its types linked where the scope is known."""
        parts = []
        for kind, said in lexer().get_tokens(text):
            target = scope.typed(said) if scope and TYPE.fullmatch(said) else None
            parts.append(f'<span class="{STANDARD_TYPES.get(kind, "")}">{self.link(target, escape(said)) if target else escape(said)}</span>')
        return f'<pre class="code">{"".join(parts).rstrip()}</pre>'

    def written(self, title, crumbs):
        """The whole page."""
        here = [f'<a href="{self.to(address)}">{escape(name)}</a>' for name, address in crumbs]
        root = relpath(".", dirname(self.url) or ".") + "/"
        return FRAME.format(root=root, title=escape(title), crumbs=" › ".join(here), body="\n".join(self.parts))


def sentence(target):
    """What is said of a word: of a definition its comment, or where it has none its text if that is short, or the head of its file."""
    if isinstance(target, Kit):
        return signs.said().get(signs.sign_of(target), "")
    if isinstance(target, Inside):
        inner = target.item.inside.get(target.name) if isinstance(target.item, Item) else None
        said = inner and first_sentence(inner.doc) or sentence(target.item)
        return said if inner or not said else f"of {target.item.name}: {said}"
    if isinstance(target, Definition):
        said = " ".join(target.comment) or equations(target) or " ".join(it.strip().removeprefix("-- ") for it in target.home.comment)
        before = target.before() if GOES_ON.match(said) else None
        return f"{said} (before it, `{before.name}`: {sentence(before)})" if before else said
    return first_sentence(target.doc) if isinstance(target, Item) else ""


def equations(target):
    """The text of a definition if it is short, and of a single equation what is said of the first definition on its right."""
    if target.size > SHORT:
        return ""
    lines = [" ".join(it.split()) for it in target.text.split("\n", target.kind == "definition")[-1].split("\n")]
    right = target.text.rfind(" = ")
    rests = [it.target for it in target.words if it.start > right and isinstance(it.target, Definition) and it.target.comment] if len(lines) == 1 else []
    return "; ".join(filter(None, lines)) + "".join(f" (`{it.name}`: {' '.join(it.comment)})" for it in rests[:1])


def sentences(text, words):
    """What is said of the words of a clause, each with these words: of its definitions, and where it has none of its signs."""
    told = [(it.target, text[it.start : it.end], said) for it in words if not isinstance(it.target, Field) and (said := sentence(it.target))]
    names = {}
    for _, name, said in [it for it in told if not isinstance(it[0], Kit)] or told:
        names.setdefault(said, {})[name] = None
    return names


def marked(text):
    """A sentence in which code stands between backticks."""
    return re.sub(r"`([^`]+)`", r"<code>\1</code>", escape(text))


def only(name, records):
    """The record that a field is of, where only one of these has such a field."""
    found = [it for it in records if name in fields_of(it)]
    return found[0] if len(found) == 1 else None
