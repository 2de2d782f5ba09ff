"""Files of source code: modules, their items, and what is said of each."""

import re
from dataclasses import dataclass, field

from reference.terms import Inside

# What braces mean nothing in, with spaces of the same length in its place.
OTHER = re.compile(r"//[^\n]*|\"(?:[^\"\\]|\\.)*\"|b?'(?:[^'\\\n]|\\[^\n]+?)'", re.DOTALL)
HEAD = re.compile(
    r"(?P<public>pub(?P<narrow>\([^)]*\))?\s+)?"
    r"(?P<kind>(?:(?:const|unsafe|extern)\s+)*fn|struct|enum|trait|unsafe impl|impl|mod|const|static|type|(?:ghost )?use|ghost)\b\s*"
    r"(?P<name>\w+)?"
)
TRIVIA = re.compile(r"[\s,]+|//(?P<kind>/|!|) ?(?P<said>[^\n]*)|(?P<attribute>#!?\[)")
MEMBER = re.compile(r"(?:pub(?:\([^)]*\))? )?(ghost )?(\w+)")
CLAUSE = re.compile(r"\s*(ghost|requires|ensures)(\*?)\s*(\w+)?:?\s*\{")
TYPE = re.compile(r"(?<!')\b[A-Za-z_]\w*(?:::\w+)*")


def closing(text, start):
    """Where the bracket that opens there is closed."""
    depth = 0
    for found in re.compile(r"[(\[{}\])]").finditer(text, start):
        depth += 1 if found[0] in "([{" else -1
        if not depth:
            return found.start()
    raise ValueError(f"a bracket isn't closed: {text[start : start + 60]}")


def end_of(text, start, signs, end):
    """Where one of these signs stands outside of all brackets, or where all ends."""
    while start < end and text[start] not in signs:
        start = past(text, start)
    return start


def past(text, at):
    """Where what stands there is past: a sign, or a bracket with all that is in it."""
    return closing(text, at) + 1 if text[at] in "([{" else at + 1


def split(text):
    """What stands between the commas that are in no bracket."""
    parts, depth = [""], 0
    for sign, before in zip(text, " " + text):
        depth += (sign in "([{<") - (sign in ")]}" or (sign == ">" and before not in "-="))
        if sign == "," and not depth:
            parts.append("")
        else:
            parts[-1] += sign
    return [it.strip() for it in parts if it.strip()]


@dataclass(eq=False)
class Clause:
    """A clause of a call, or what a trait or an impl says of a ghost member."""

    kind: str
    name: str
    text: str


@dataclass(eq=False)
class Item:
    """An item of a file, with what stands inside it. Its text is that of its declaration, without comments and bodies."""

    kind: str
    name: str
    home: object
    line: int
    public: bool
    doc: list
    text: str = ""
    owner: object = None
    clauses: list = field(default_factory=list)
    inside: dict = field(default_factory=dict)
    calls: dict = field(default_factory=dict)
    block: object = None
    ghost: object = None
    impls: list = field(default_factory=list)

    @property
    def path(self):
        owner = [self.owner.name] if self.owner is not None else []
        home = self.home if self.owner is None else self.owner.home
        return "::".join([home.crate, *home.parts, *owner, self.name])

    @property
    def model(self):
        """What a type's values are read as: the clauses Value and view of its Model."""
        return [it for block in self.impls if block.name == "Model" for it in block.clauses if it.name in ("Value", "view")]

    @property
    def reading(self):
        """What one reads of it: its declaration, and what its values are read as or an impl says."""
        said = self.clauses if self.kind == "impl" else self.model
        return "\n".join([self.text, *(f"ghost {it.name} = {{ {it.text} }}" for it in said)])

    @property
    def size(self):
        return sum(line.strip() not in ("", "}") for line in self.reading.split("\n"))

    def member(self, name):
        """A variant, a field, a method or a ghost member, or one of what an alias stands for."""
        if name in self.inside:
            return Inside(self, name, self.inside[name].kind == "variant")
        if name in self.calls or any(name == it.name for it in self.clauses if it.kind == "member"):
            return Inside(self, name)
        if self.kind == "type":
            meant = self.home.find(tuple(TYPE.search(self.text.split("=", 1)[1])[0].split("::")))
            return meant.member(name) if hasattr(meant, "member") else meant
        return None


class Source:
    """A module of a crate: what its file, or its part of a file, has."""

    def __init__(self, project, crate, parts, path, public, outer=None):
        self.project, self.crate, self.parts, self.path, self.public, self.outer = project, crate, parts, path, public, outer
        self.items, self.children, self.uses, self.reexports, self.doc, self.pending = {}, {}, {}, [], [], []
        self.ghost = project.brought()

    def load(self):
        text = self.path.read_text()
        blank = OTHER.sub(lambda found: re.sub(r"[^\n]", " ", found[0]), text)
        Parser(self, text, blank).run(0, len(text), None)

    def attach_all(self):
        """Gives what stands in impls to their types, once all modules are read."""
        for item in self.pending:
            self.attach(item)
        for child in self.children.values():
            child.attach_all()

    def child(self, name, public):
        """Loads a module that has a file of its own."""
        folder = self.path.parent if self.path.name in ("lib.rt", "main.rt") else self.path.with_suffix("")
        self.children[name] = Source(self.project, self.crate, (*self.parts, name), folder / f"{name}.rt", public, self)
        self.children[name].load()

    def root(self):
        return self.outer.root() if self.outer else self

    def attach(self, block):
        """Gives what stands in an impl to its type."""
        head = re.sub(r"^(unsafe )?impl\s*", "", block.text)
        if head.startswith("<"):
            head = head[end_of_generics(head) :].lstrip()
        *trait, name = re.split(r"\sfor\s", head, maxsplit=1)
        named = TYPE.search(name)
        owner = self.find(tuple(named[0].split("::"))) if named else None
        if not isinstance(owner, Item):
            return
        block.name, block.owner = "".join(trait).strip(), owner
        owner.impls.append(block)
        owner.inside |= {} if trait else block.inside
        for name, item in block.calls.items():
            item.owner, item.block = owner, block
            if not trait:
                # Two impls for different arguments of a type may have calls of one name.
                owner.calls[f"{name}-{len(owner.calls)}" if name in owner.calls else name] = item

    def find(self, parts, seen=frozenset()):
        """What a path means here."""
        first, rest = parts[0], parts[1:]
        if first in ("crate", "super", "self"):
            at = self.root() if first == "crate" else self.outer if first == "super" else self
        else:
            at = self.member(first, seen) or self.project.crate(first)
        for name in rest:
            at = at.member(name) if hasattr(at, "member") else at
        return at

    def member(self, name, seen=frozenset()):
        if name in self.items or name in self.children:
            return self.items.get(name) or self.children[name]
        if name in self.uses and (self, name) not in seen:
            return self.find(self.uses[name], seen | {(self, name)})
        return None


def end_of_generics(text):
    depth = 0
    for at, sign in enumerate(text):
        depth += (sign == "<") - (sign == ">" and text[at - 1] not in "-=")
        if not depth:
            return at + 1
    return len(text)


class Parser:
    """Reads items one after another into a module."""

    def __init__(self, home, text, blank):
        self.home, self.text, self.blank = home, text, blank

    def run(self, at, end, owner):
        """Reads what stands between two places, of a file or inside an item."""
        at, doc = self.comments(at, end)
        while at < end:
            at, doc = self.comments(self.item(at, owner, doc), end)

    def comments(self, at, end):
        """Goes over comments and attributes. Returns where something else begins, and the comment that speaks of it."""
        doc = []
        while found := TRIVIA.match(self.text, at, end):
            if found["kind"]:
                (doc if found["kind"] == "/" else self.home.doc).append(found["said"])
            at = past(self.blank, found.end() - 1) if found["attribute"] else found.end()
        return at, doc

    def item(self, at, owner, doc):
        """Reads an item. Returns where it ends."""
        found = HEAD.match(self.blank, at)
        if not found:
            return past(self.blank, end_of(self.blank, at, "{;", len(self.blank)))
        kind = found["kind"].split()[-1]
        public = bool(found["public"]) and not found["narrow"] or (owner is not None and owner.kind == "trait")
        item = Item(kind, found["name"] or "", self.home, self.line(at), public, doc, owner=owner)
        readers = {"use": self.brings, "ghost": self.brings, "fn": self.function, "impl": self.block, "trait": self.block}
        return readers.get(kind, self.plain)(item, at, found.end(), owner)

    def line(self, at):
        return self.text.count("\n", 0, at) + 1

    def plain(self, item, at, inner, owner):
        """Reads a module, a type or a constant."""
        inner = end_of(self.blank, inner, ";" if item.kind in ("const", "static", "type") else "{;", len(self.blank))
        end = past(self.blank, inner)
        if item.kind == "mod":
            if self.blank[inner] == ";":
                self.home.child(item.name, item.public)
            return end
        self.keep(item, owner)
        self.members(item, inner + 1, end - 1)
        item.text = self.declaration(at, end)
        return end

    def keep(self, item, owner):
        (self.home.items if owner is None else owner.calls if item.kind == "fn" else owner.inside)[item.name] = item

    def declaration(self, start, end):
        """A text without comments, attributes and what is kept of a value."""
        text = self.bare(start, end)
        while found := re.search(r"(?m)^\s*(pub )?ghost \w+:[^{]*\{", text):
            stop = closing(text, found.end() - 1) + 1
            if by := re.match(r"\s*by\s*\{", text[stop:]):
                stop = closing(text, stop + by.end() - 1) + 1
            text = text[: found.start()] + text[stop:].lstrip(",")
        return "\n".join(line for line in text.split("\n") if line.strip())

    def bare(self, start, end):
        """A text without comments and attributes."""
        text = re.sub(r"(?m)//[^\n]*|^\s*#\[[^\n]*", "", self.text[start:end])
        return "\n".join(line.rstrip() for line in text.split("\n") if line.strip())

    def members(self, item, start, end):
        """Reads the fields of a struct or the variants of an enum."""
        at, doc = self.comments(start, end)
        while at < end:
            found, stop = MEMBER.match(self.blank, at), end_of(self.blank, at, ",", end)
            kind = "variant" if item.kind == "enum" else "kept" if found[1] else "field"
            public = kind == "variant" or self.text.startswith("pub ", at)
            text = self.text[found.end() : stop].lstrip(": ")
            if kind == "kept" and text.startswith("{"):
                inner = self.blank.index("{", found.end())
                text = self.text[inner + 1 : closing(self.blank, inner)].strip()
            item.inside[found[2]] = Item(kind, found[2], self.home, self.line(at), public, doc, text, item)
            at, doc = self.comments(stop, end)

    def function(self, item, at, end, owner):
        """Reads a call: its signature and clauses."""
        while self.blank[end] not in "{;" and not (self.blank[end].isspace() and CLAUSE.match(self.blank, end)):
            end = past(self.blank, end)
        item.text = self.declaration(at, end)
        self.keep(item, owner)
        while found := CLAUSE.match(self.blank, end):
            end = past(self.blank, found.end() - 1)
            item.clauses.append(Clause(found[1] + found[2], found[3] or "", self.text[found.end() : end - 1].strip()))
        return past(self.blank, end_of(self.blank, end, "{;", len(self.blank)))

    def block(self, item, at, end, owner):
        """Reads a trait or an impl."""
        end = end_of(self.blank, end, "{;", len(self.blank))
        stop = past(self.blank, end)
        head = re.sub(r",? >", ">", " ".join(self.bare(at, end).split()).replace("< ", "<"))
        item.text = head if item.kind == "impl" else self.bare(at, stop)
        item.ghost = self.home.project.brought()
        self.run(end + 1, stop - 1, item)
        if item.kind == "trait":
            self.keep(item, owner)
        else:
            self.home.pending.append(item)
        return stop

    def brings(self, item, at, end, owner):
        """Reads a `use`, a `ghost use` or what is said of a ghost member."""
        end = end_of(self.blank, at, ";", len(self.blank))
        said = " ".join(self.text[at:end].split())
        if said.startswith("ghost use "):
            (owner.ghost if owner is not None else self.home.ghost).bring(said.removeprefix("ghost "))
        elif item.kind == "ghost":
            inner = self.blank.index("{", at)
            owner.clauses.append(Clause("member", item.name, self.text[inner + 1 : closing(self.blank, inner)].strip()))
        else:
            for path, name in used(said.split("use ", 1)[1]):
                self.home.uses[name] = path
                self.home.reexports += [name] if item.public else []
        return end + 1


def used(tree, before=()):
    """The paths of a `use`, each with the name that it brings."""
    head, brace, inner = tree.partition("{")
    if brace:
        for part in split(inner.rsplit("}", 1)[0]):
            yield from used(part, (*before, *filter(None, head.strip().split("::"))))
        return
    path, _, name = tree.strip().partition(" as ")
    parts = (*before, *path.split("::"))
    if parts[-1] == "self":
        parts = parts[:-1]
    yield parts, name or parts[-1]
