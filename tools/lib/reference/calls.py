"""docs/CALLS.md: the public calls that programs use, as tables made from the sources.

A call has a row, with the first sentence of its comment. The calls of a type in `handles` or `iterators`, and of a type that a crate below
defines, share a row. Laws are left out.

- asks: for a call with a `requires`, the public tests whose comments name the call ("[`flip_cw`] asks for this"), and `has_room` where the
  call's own comment names it or `has_room_for`. Without such a test, the sentence of its comment that begins with "Asks" or "Requires", up to
  a colon. Without that, its clauses.
- memory: "yes" if the call or its impl has an `Allocator`, and the result type, or a type that is part of it, is `AllocError` or `NoMemory`,
  or an enum with a variant `OutOfMemory`.
"""

import re
from os.path import relpath

from reference.comments import first_sentence, links, sentences, without_links
from reference.places import Places
from reference.resting import Scope
from reference.sources import TYPE, Item, closing, end_of_generics

PAGE = "docs/CALLS.md"
CRATES = {
    *("spade_dcel", "dcel_exchange", "dcel_convenience", "dcel_regions", "dcel_legalize", "dcel_planar", "dcel_delaunay", "dcel_constrained", "dcel_refinement"),
    *("dcel_svg", "dcel_commands"),
}
STEPPED_OVER = {"handles", "iterators"}
NO_MEMORY = {"AllocError", "NoMemory", "OutOfMemory"}
ASKS = re.compile(r"\b(?:asks?|requires?)\b")
ASKED = re.compile(r"(?:Asks|Requires) (.*?)(?:[:;] .*|\.)?")
HEAD = """# Calls

Generated from the sources by `tools/reference --calls`; don't edit it. The gate compares the two.

The public calls of the libraries, without laws, by crate and module.

- **asks**: what the caller proves or tests first. Where a public test covers it, that is named; `has_room` comes beside it for numbers of new
  elements, and `has_room_for` tests the same by a constant of `Room`.
- **memory**: the result can say that memory ran out.

[PROVED.md](PROVED.md) lists what is proved, and `tools/reference FOLDER` writes pages with every contract.
"""
TABLE = ["| call | does | asks | memory |", "|---|---|---|---|"]


class Calls:
    """The rows of all crates."""

    def __init__(self, project):
        self.project, self.places = project, Places(project)
        self.crates = [it for it in project.libraries() if it.crate in CRATES]
        self.tests = self.named_tests()

    def text(self):
        """The whole page."""
        return HEAD + "".join(self.section(it) for it in self.crates)

    def section(self, library):
        """A crate: a table for each of its modules."""
        parts = ["", f"## {library.crate}", "", first_sentence(library.doc)]
        for module in self.places.modules:
            if module.crate == library.crate and "laws" not in module.parts and (rows := list(self.rows(module))):
                head = f"### `{'::'.join([module.crate, *module.parts])}`"
                parts += ["", *([head, ""] if module.parts else []), *TABLE, *rows]
        return "\n".join([*parts, ""])

    def rows(self, module):
        for name, item in self.places.shown[module]:
            if not isinstance(item, Item) or (item.home.crate in CRATES and self.places.shown_by[item][1] is not module):
                continue
            calls = [item] if item.kind == "fn" else [it for it in item.calls.values() if it.public]
            if item.kind != "fn" and (item.home.crate not in CRATES or STEPPED_OVER & set(module.parts)):
                yield from [self.row_of_type(name, item, calls)] if calls else []
            else:
                yield from (self.row(call if call is item else f"{name}::{call.name}", call) for call in calls)

    def row(self, name, call):
        shown = name if isinstance(name, str) else call.name
        memory = "yes" if tells_of_memory(call) else ""
        return row(f"[`{shown}`]({self.file(call)})", first_sentence(call.doc), self.asked(call), memory)

    def row_of_type(self, name, item, calls):
        """The calls of a type, in one row."""
        files, asked = {}, {}
        for call in calls:
            files.setdefault(self.file(call), []).append(call)
            asked.setdefault(self.asked(call), []).append(call)
        shown = ", ".join(f"[{named(some)}]({file})" for file, some in files.items())
        asks = "; ".join(f"{named(some)}: {it}" for it, some in asked.items() if it)
        return row(f"`{name}`: {shown}", first_sentence(item.doc), asks, named(it for it in calls if tells_of_memory(it)))

    def file(self, call):
        return relpath(call.home.path, (self.project.root / PAGE).parent)

    def public_calls(self):
        for item in self.places.items:
            yield from [item] if item.kind == "fn" else (it for it in item.calls.values() if it.public)

    def named_tests(self):
        """The tests of all that a call asks, by the call: public calls that return a bool and say of what call it is asked."""
        found = {}
        for test in self.public_calls():
            said = [it for it in sentences(test.doc) if ASKS.search(it)] if result_of(test) == "bool" else []
            for path in links(" ".join(said), test.doc):
                call = Scope(test).typed(path)
                if isinstance(call, Item) and call.kind == "fn" and has_condition(call):
                    found.setdefault(call, []).append(test)
        return found

    def asked(self, call):
        """What a call asks, or nothing."""
        if not has_condition(call):
            return ""
        said = [found[1] for it in sentences(call.doc) if (found := ASKED.fullmatch(it))]
        if call in self.tests:
            room = ["`has_room`"] if any(re.search(r"`has_room(_for)?`", it) for it in said) else []
            return ", ".join([*(f"`{it.name}`" for it in self.tests[call]), *room])
        clauses = [f"`{flat(it.text)}`" for it in call.clauses if it.kind == "requires"]
        return "; ".join(map(without_links, said or clauses))


def has_condition(call):
    return any(it.kind == "requires" for it in call.clauses)


def result_of(call):
    """The type that a call returns, as it is written."""
    text = call.text[call.text.index(f"fn {call.name}") + len(call.name) + 3 :]
    text = text[end_of_generics(text) :] if text.startswith("<") else text
    found = re.fullmatch(r"\s*->\s*(.*?)\s*(?:\bwhere\b.*)?", text[closing(text, 0) + 1 :].strip("\n"), re.DOTALL)
    return found[1].rstrip(" \n;") if found else ""


def tells_of_memory(call):
    """Whether a call has an allocator, and its result can say that memory ran out."""
    if not any("Allocator" in it.text for it in (call, call.block) if it is not None):
        return False
    seen, left = set(), [(result_of(call), Scope(call))]
    while left:
        text, scope = left.pop()
        names = TYPE.findall(text)
        if NO_MEMORY & {it.split("::")[-1] for it in names}:
            return True
        for item in filter(lambda it: isinstance(it, Item) and it not in seen, map(scope.typed, names)):
            seen.add(item)
            left.append((item.text, Scope(item)))
    return False


def named(calls):
    return ", ".join(dict.fromkeys(f"`{it.name}`" for it in calls))


def row(*cells):
    return "|" + "|".join(f" {it} ".replace("|", "\\|") if it else " " for it in map(flat, cells)) + "|"


def flat(text):
    return " ".join(text.split())


def differences(found, wanted):
    """The first line in which the page differs from what the sources make, or what it has too many or too few."""
    lines, texts = found.split("\n"), wanted.split("\n")
    for number, (line, text) in enumerate(zip(lines, texts), 1):
        if line != text:
            return [f"{PAGE}:{number}: '{line}' is '{text}' by the sources; `tools/reference --calls` writes it"]
    if len(lines) != len(texts):
        return [f"{PAGE} has {len(lines)} lines, and by the sources {len(texts)}; `tools/reference --calls` writes it"]
    return []
