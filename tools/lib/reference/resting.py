"""What a call's contract rests on: definitions and types, each after those that it stands on."""

import functools
import re
from typing import NamedTuple

from reference.project import Kit
from reference.sources import TYPE, Item, closing, end_of_generics, split
from reference.specs import Definition
from reference.terms import Field, Inside, Unknown, words_of

GIVEN = set("Ok Err Some None bool char str u8 u16 u32 u64 u128 usize i8 i16 i32 i64 i128 isize f32 f64".split())


def bounding(said, home):
    """What bounds name, and after a trait those that it extends."""
    for it in (home.find(tuple(path.split("::"))) for path in TYPE.findall(said)):
        yield it
        if isinstance(it, Item) and it.kind == "trait":
            yield from bounding(re.sub(r"<.*>", "", it.text.split("{")[0]).partition(":")[2], it.home)


class Parameter(NamedTuple):
    """A type parameter, whose bounds tell its members."""

    bounds: str
    home: object

    def member(self, name):
        bounds = list(bounding(self.bounds, self.home))
        return next((it.member(name) for it in bounds if isinstance(it, Item) and it.member(name)), None) or next(
            (Kit(name, "std") for it in bounds if isinstance(it, Kit)), None
        )


def generics(text, home):
    """The type parameters of a head, `impl<..>` or `fn name<..>`, with their bounds."""
    text = re.sub(r"^pub\([^)]*\)", "", text)
    found = re.match(r"[^<({]*?(?=<)", text)
    if not found:
        return {}
    inner = text[found.end() + 1 : found.end() + end_of_generics(text[found.end() :]) - 1]
    further = re.search(r"\bwhere\b(.*)", text, re.DOTALL)
    parts = [re.match(r"(?:const )?([\w']+)(?:\s*:\s*([^=]*))?", it) for it in split(inner) + split(further[1] if further else "")]
    bounds = {}
    for it in filter(None, parts):
        bounds[it[1]] = bounds.get(it[1], "") + " " + (it[2] or "")
    return {name: Parameter(said, home) for name, said in bounds.items()}


class Scope:
    """What names mean in the clauses of a call, of a trait or of an impl."""

    def __init__(self, item, trait=None):
        self.item, self.home = item, item.home
        self.block = item.block or (item if item.kind in ("impl", "trait") else trait or item.owner)
        owner = self.block
        self.owner = owner.owner if owner is not None and owner.kind == "impl" else owner
        self.types = generics(item.text, self.home) | (generics(owner.text, self.home) if owner is not None else {})

    def names(self, name):
        if name.startswith("⟦"):
            named = [it for it in map(self.typed, TYPE.findall(name)) if it is not None]
            return named + [block for it in named for block in it.impls if any(block.name.startswith(other.name) for other in named)]
        if name in self.types:
            return self.types[name]
        if name == "Self":
            return self.owner
        for ghost in (self.block.ghost if self.block is not None else None, self.home.ghost):
            if ghost is not None and (found := ghost.names(name)) is not None:
                return found
        if self.block is not None and self.block.kind == "trait" and self.block.member(name):
            return self.block.member(name)
        return self.home.member(name) or (Kit(name, "std.specs.Prelude") if name in GIVEN else None)

    def typed(self, path):
        """The type of a path, None for what is no type of the project."""
        name = path.split("::")[0]
        target = self.owner if path == "Self" else None if name in self.types else self.home.find(tuple(path.split("::")))
        return target if isinstance(target, Item) else None

    def kept(self, text):
        """The names in a type, but for those behind a type in < > of which its values aren't made."""
        at = 0
        while found := TYPE.search(text, at):
            yield found[0]
            at, target = found.end(), self.typed(found[0])
            if target is not None and text[at:].startswith("<") and (made := made_of(target)) is not None:
                end = at + end_of_generics(text[at:])
                given = (it for it in split(text[at + 1 : end - 1]) if not it.startswith("'"))
                for name, kind in zip((it for it in generics(target.text, target.home) if not it.startswith("'")), given):
                    yield from self.kept(kind) if name in made else ()
                at = end

    def rests(self, text):
        """The types of which a type's values are made."""
        return filter(None, map(self.typed, self.kept(text)))

    def parameters(self):
        """The parameters and the result of a call, with their types."""
        text = re.sub(r"^.*?\bfn \w+", "", self.item.text, count=1, flags=re.DOTALL)
        text = text[end_of_generics(text) if text.startswith("<") else 0 :].strip()
        end = closing(text, 0)
        for part in split(text[1:end]):
            name, colon, kind = part.partition(":")
            yield (name.replace("mut ", "").strip() if colon else "self"), (kind if colon else "Self")
        yield "result", text[end + 1 :].split("->", 1)[-1] if "->" in text[end:] else ""


def made_of(item):
    """The parameters of a type of which its values are made, where that is told."""
    if item.kind == "type":
        return set(Scope(item).kept(item.text.partition("=")[2]))
    return set(re.findall(r"\w+", " ".join(it.text for it in item.model))) if item.model else None


def clause_words(item, clause, trait=None):
    """What the words of a clause name."""
    scope = Scope(item, trait)
    names = {"result", *(name for name, _ in scope.parameters())} if item.kind == "fn" else set()
    return words_of(clause.text, scope.names, names)


def of_words(call, trait=None):
    """What the clauses of a call name."""
    return (it.target for clause in call.clauses for it in clause_words(call, clause, trait))


def of_values(call, trait=None):
    """The types of the parameters and the result that the clauses of a call speak of."""
    scope, said = Scope(call, trait), " ".join(it.text for it in call.clauses)
    for name, kind in scope.parameters():
        if re.search(rf"(?<![\w.]){name}\b", said):
            yield from scope.rests(kind)


def of_item(item):
    """What a type, a trait or a constant rests on."""
    scope = Scope(item)
    if item.kind in ("trait", "impl"):
        for clause in item.clauses:
            yield from (it.target for it in clause_words(item, clause))
        for call in item.calls.values() if item.kind == "trait" else ():
            yield from of_words(call, item)
            yield from of_values(call, item)
    elif item.kind == "struct" and item.model:
        block = next(it for it in item.impls if it.name == "Model")
        named = [it.target for clause in item.model for it in clause_words(block, clause)]
        yield from named
        used = {it.name for it in named if isinstance(it, Field)}
        for inner in [it for name, it in item.inside.items() if name in used] or item.inside.values():
            yield from scope.rests(inner.text) if inner.kind == "field" else ()
    elif item.kind in ("struct", "enum"):
        for inner in item.inside.values():
            if inner.kind in ("field", "variant"):
                yield from scope.rests(inner.text)
        if "(" in item.text and item.kind == "struct" and not item.inside:
            yield from scope.rests(item.text.split("(", 1)[1])
    else:
        yield from scope.rests(item.text.partition("=")[2] if item.kind == "type" else item.text.partition(":")[2])


@functools.cache
def below(item):
    """What a definition or a declaration names."""
    if isinstance(item, Item):
        return tuple(of_item(item))
    return tuple(it.target for it in (*item.words, *item.section.read(item.home)[1]))


def near(item):
    """An item, and the definitions and types that it names."""
    named = (it.item if isinstance(it, Inside) else it for it in below(item))
    return {item, *(it for it in named if isinstance(it, (Definition, Item)))}


class Part(list):
    """Definitions in order, each after those that it stands on."""

    def __str__(self):
        return f"{len(self)} definitions, {sum(it.size for it in self)} lines, {len({it.home.path for it in self})} files"


class Rests:
    """What a call rests on: `meaning`, what its clauses say, and `values`, what else says what the values are read as that they speak of.

    Besides the kit's `words`, and `lost`, the words that resolve nowhere, each with where it stands.
    """

    def __init__(self, call):
        self.items, self.words, self.lost, self.fields = [], {}, [], {}
        self.seen = set()
        self.follow(of_words(call), call)
        self.meaning = Part(self.items)
        self.follow(of_values(call), call)
        self.values = Part(self.items[len(self.meaning) :])
        known = {name for item in self.items for name in fields_of(item)}
        self.lost += [(home, name) for name, home in self.fields.items() if name not in known and not call.home.project.kit_has_field(name)]

    def follow(self, targets, home):
        for target in targets:
            if isinstance(target, Unknown):
                self.lost.append((home, target.name))
            elif isinstance(target, Field):
                self.fields.setdefault(target.name, home)
            elif isinstance(target, Kit):
                self.words.setdefault(target.module, set()).add(target.name)
            self.visit(target.item if isinstance(target, Inside) else target)

    def visit(self, item):
        if not isinstance(item, (Definition, Item)) or item in self.seen or item.kind == "fn":
            return
        self.seen.add(item)
        self.follow(below(item), item)
        self.items.append(item)


def fields_of(item):
    """The names that are fields of a value of this."""
    if isinstance(item, Definition):
        return item.fields() if item.kind == "record" else ()
    return [*item.inside, *(it.name for it in item.clauses)]
