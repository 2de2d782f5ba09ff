"""Wrong bodies: what they replace, and in which functions."""

import functools
import re
from pathlib import Path
from typing import NamedTuple

import prover

FUNCTION = re.compile(r'(?m)^([ \t]*)(?:pub(?:\([^)]*\))? )?(?:const |unsafe |extern\s+)*fn (\w+)')
IMPL = re.compile(r"(?m)^(?:unsafe )?(impl\b[^{]*)")
TYPE = re.compile(r"(?m)^[ \t]*(?:pub(?:\([^)]*\))? )?(?:struct|enum|union) (\w+)")
# Comments, strings and characters, whose braces don't count.
OTHER = re.compile(r"//[^\n]*|\"(?:[^\"\\]|\\.)*\"|b?'(?:[^'\\]|\\.)'", re.DOTALL)


def module_of(path):
    """The module of a file, as the prover spells it: "" for the root."""
    return "::".join(it for it in Path(path).with_suffix("").parts[1:] if it not in ("lib", "main"))


class Place(NamedTuple):
    """Where an edit changes something: a file, and the function with its impl, where it is in one."""

    path: str
    function: str | None
    owner: str

    def module(self):
        """The module of the file, as the prover spells it: "" for the root."""
        return module_of(self.path)

    def named(self, types):
        """The modules and the type, if any, that the function stands in, and its name. A method stands in the module of its type, which one of
        these files declares if the crate does."""
        module = module_of(types.get(self.owner, self.path))
        return [it for it in [*module.split("::"), self.owner, self.function] if it]


def code_of(text):
    """The text with blanks in the place of what is no code."""
    return OTHER.sub(lambda it: re.sub(r"[^\n]", " ", it[0]), text)


def split_at_angles(text):
    """What stands outside of the outermost angle brackets of a type or the head of an impl, and the items inside of the last ones."""
    outside, inside, depth = "", [""], 0
    for it in text.replace("->", ""):
        depth -= it == ">"
        if depth == 0:
            outside, inside = outside + it.strip("<>"), [""] if it == "<" else inside
        elif depth == 1 and it == ",":
            inside.append("")
        else:
            inside[-1] += it
        depth += it == "<"
    return outside, [it.strip() for it in inside if it.strip()]


def owner_of(head, declared):
    """How the prover spells the head of an impl: its type, and behind that its trait. Of a type that isn't declared in the crate, as an
    alias, it has the arguments too, without lifetimes."""
    outside, arguments = split_at_angles(head.partition(" where ")[0])
    trait, _, owner = outside.removeprefix("impl").rpartition(" for ")
    trait, owner = (it.strip().split("::")[-1] for it in (trait, owner))
    if owner not in declared:
        owner += "".join(f"+{it}" for it in arguments if not it.startswith("'"))
    return owner + trait


def functions_of(text, declared):
    """The functions of a file whose crate declares these types: of each its name, its impl or "", and where it begins and ends. It ends with
    the brace that is indented as it is."""
    code, found = code_of(text), []
    for it in FUNCTION.finditer(code):
        end = re.compile(rf"(?m)^{it[1]}\}}").search(code, it.end())
        heads = [head for head in IMPL.finditer(code) if head.start() < it.start()] if it[1] else []
        owner = owner_of(" ".join(heads[-1][1].split()), declared) if heads else ""
        found += [(it[2], owner, it.start(), end.start())] if end else []
    return found


def function_round(text, place, declared):
    """The name and the impl of the function round this place of a file; None and "" where there is none."""
    # (a declaration without a body seems to end where a later function does)
    return next((it[:2] for it in reversed(functions_of(text, declared)) if it[2] <= place < it[3]), (None, ""))


@functools.cache
def types_in(crate):
    """The types of the crate, each with a file that declares it."""
    folder = prover.CRATES / crate
    code = {it.relative_to(folder): code_of(it.read_text()) for it in prover.sources(crate) if it.suffix == ".rt"}
    return {name: file for file in code for name in TYPE.findall(code[file])}


class Edit:
    """A wrong body: its file, and the texts that it replaces."""

    def __init__(self, file):
        self.file, self.name, self.crate, self.pairs = file, file.name, file.parent.parent.name, []
        path = old = None
        for line in file.read_text().split("\n"):
            if line.startswith("file: "):
                path = line[6:].strip()
            elif line.startswith("old: "):
                old = line[5:]
            elif line.startswith("new:"):
                self.pairs.append((path, old, line[4:].removeprefix(" ")))
                old = None

    def applied(self, texts=None):
        """The texts of the crate's files once this edit is made too, and the places that it changes in src/. Raises ValueError where it
        can't be made."""
        texts, places = dict(texts or {}), set()
        for path, old, new in self.pairs:
            if not path or not old or not re.match(r"(src|proofs)/", path) or ".." in path:
                raise ValueError("it has a pair without a file of src/ or proofs/, or without an old text")
            file = prover.CRATES / self.crate / path
            if not file.is_file():
                raise ValueError(f"there is no file {path}")
            text = texts.get(path) or file.read_text()
            if text.count(old) != 1:
                raise ValueError(f"an old text stands {text.count(old)} times in {path}, and not once")
            if old == new:
                raise ValueError("it changes nothing")
            if path.startswith("src/"):
                places.add(Place(path, *function_round(text, text.index(old), types_in(self.crate))))
            texts[path] = text.replace(old, new)
        if not places:
            raise ValueError("it changes no body")
        return texts, places


def edits_of(crate, folder):
    return [Edit(it) for it in sorted((prover.CRATES / crate / folder).glob("*.edit"))]
