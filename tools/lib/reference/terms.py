"""Terms of clauses and definitions: which of their words are bound there, and what the others name."""

import re
from typing import NamedTuple

# A trait's members at a type, a chain of names with a dot between them, the same behind a bracket, or a sign.
PART = r"(?:«[^»]*»|[^\s(){}.;,@\"«»]+)"
TOKEN = re.compile(rf"⟦<.*?>⟧(?:\.{PART})*|\.?{PART}(?:\.{PART})*|[(){{}}.;,]")
COMMENT = re.compile(r"--[^\n]*|//[^\n]*|\"(?:[^\"\\]|\\.)*\"")
SIGNS = set("( ) { } . ; , = : | → × λ ↦ _ [ ]".split())
# What the language has without an import, its tactics too.
OWN = "let in record open use as where pub Type Unit tt ⊥ absurd ¬ ∥ ∥₁ IsProp IsSet refl Path 𝓛 rw simp search assumption cc omega grind hlevel"
OWN = set(OWN.split())
# What a reference leads to at which time, and the reference itself.
TIMES = set("now old new entry exit ghost_name".split())


class Word(NamedTuple):
    """A word of a text that isn't bound there: where it stands, and what it names."""

    start: int
    end: int
    target: object


class Field(NamedTuple):
    """A field by its name alone, since no types are inferred."""

    name: str


class Inside(NamedTuple):
    """What stands inside an item under a name: a constructor, a variant, a member of a trait, a call of a type."""

    item: object
    name: str
    is_constructor: bool = False


class Unknown(NamedTuple):
    """A word that resolves nowhere."""

    name: str


def without_comments(text):
    """The text with spaces in place of comments and quoted texts."""
    return COMMENT.sub(lambda found: " " * len(found[0]), text)


def bare(name):
    return name.strip("«»")


def words_of(text, scope, names=frozenset()):
    """What the words of a term name, those apart that are bound in it or before it."""
    reader = Reader(text, scope)
    reader.read(0, len(text), names)
    return sorted(dict.fromkeys(reader.words), key=lambda it: it[:2])


class Reader:
    """Reads terms in a scope, a function from a name to what it names, or None. Keeps the words that it finds."""

    def __init__(self, text, scope):
        self.text, self.scope, self.words = without_comments(text), scope, []
        self.tokens = []

    def read(self, start, end, names):
        """Reads a term where these names are bound. Returns the names that are bound behind it."""
        self.tokens = list(TOKEN.finditer(self.text, start, end))
        groups, now, base, in_record, head, i = [], set(names), set(names), False, 0, 0
        while i < len(self.tokens):
            token, i = self.said(i), i + 1
            if token in "({":
                bound = self.binders(i)
                groups.append((base, now, bound, in_record, i - 1))
                before = self.said(head - 1) if self.said(i - 2) == ")" else self.said(i - 3)
                base, now, in_record = set(now), set(now), token == "{" and "record" in (before, self.said(i - 2))
                i = self.label(i + len(bound) + 1 if bound else i, in_record)
            elif token in ")}" and groups:
                base, now, bound, in_record, head = groups.pop()
                now |= set(bound)
            elif token in ";,":
                now, i = set(base), self.label(i, in_record)
            elif token == "λ" or (token == "let" and self.said(i) == "("):
                i = self.pattern(i, "." if token == "λ" else "=", now)
            elif token == "let":
                now.add(bare(self.said(i)))
                i += 1
            elif token == "use" and self.said(i) in ("{", "*"):
                i = self.opened(i, now)
            elif token not in SIGNS:
                self.name(i - 1, now)
        return now

    def patterns(self, start, end, names):
        """Reads the patterns of a clause, behind its name. Returns the names that are bound in it."""
        self.tokens, now = list(TOKEN.finditer(self.text, start, end)), set(names)
        self.pattern(1, "", now)
        return now

    def said(self, i):
        return self.tokens[i][0] if i < len(self.tokens) else ""

    def binders(self, i):
        """The names of `(x y : A)`, or none where a bracket begins something else."""
        names = []
        while self.said(i) and self.said(i) not in SIGNS:
            names.append(bare(self.said(i)))
            i += 1
        return names if self.said(i) == ":" else []

    def label(self, i, is_field):
        """Skips `name =`, of a field or of an argument."""
        if self.said(i + 1) != "=" or self.said(i) in SIGNS:
            return i
        if is_field:
            self.words.append(Word(*self.tokens[i].span(), Field(bare(self.said(i)))))
        return i + 2

    def opened(self, i, now):
        """The names that `use {a, b as c}` brings of a value's fields. Those of `use *` are in scope already."""
        if self.said(i) == "*":
            return i + 1
        end = next(j for j in range(i, len(self.tokens)) if self.said(j) == "}")
        for j in range(i + 1, end):
            if self.said(j) not in SIGNS | {"as"} and self.said(j + 1) != "as":
                now.add(bare(self.said(j)))
        return end + 1

    def pattern(self, i, stop, now):
        """Binds the names of patterns up to a sign, but for constructors."""
        depth = 0
        while self.said(i) and (depth or self.said(i) != stop):
            token, i = self.said(i), i + 1
            depth += (token in "({") - (token in ")}")
            if token == ":":
                while self.said(i) and self.said(i) != ")":
                    self.name(i, now)
                    i += 1
            elif token not in SIGNS:
                self.pattern_name(i - 1, now)
        return i + 1

    def pattern_name(self, i, now):
        target = self.scope(bare(self.said(i).split(".")[0]))
        if "." in self.said(i) or getattr(target, "is_constructor", False):
            self.name(i, set())
        elif not self.said(i).isdigit():
            now.add(bare(self.said(i)))

    def name(self, i, now):
        """Notes what a chain of names means."""
        found, token = self.tokens[i], self.said(i)
        if token in SIGNS or token[0].isdigit():
            return
        start = found.start()
        if token.startswith("⟦"):
            head, _, rest = token.partition("⟧")
            self.words += [Word(start, start + len(head) + 1, it) for it in self.scope(head + "⟧")]
            return self.fields(start + len(head) + 1, rest.split(".")[1:])
        parts = token.split(".")
        if not parts[0]:
            return self.fields(start, parts[1:])
        if bare(parts[0]) in now or (parts[0] in OWN and self.scope(parts[0]) is None):
            return self.fields(start + len(parts[0]), parts[1:])
        used, target = 1, self.scope(bare(parts[0]))
        while used < len(parts) and hasattr(target, "member") and (inner := target.member(bare(parts[used]))) is not None:
            target, used = inner, used + 1
        end = start + len(".".join(parts[:used]))
        self.words.append(Word(start, end, Unknown(token) if target is None else target))
        return self.fields(end, parts[used:])

    def fields(self, at, names):
        """Notes fields that follow each other from here on."""
        for name in names:
            if name not in TIMES and not name.isdigit():
                self.words.append(Word(at + 1, at + 1 + len(name), Field(bare(name))))
            at += 1 + len(name)
