"""Files of definitions: what each declares and brings in."""

import functools
import re
from dataclasses import dataclass, field

from reference.terms import Inside, Reader, bare, without_comments

USE = re.compile(r"(pub )?use ([^\s{]+?)(?:\.\{(.*)\})?(?: as (\S+))?$", re.DOTALL)
MARKS = re.compile(r"(?:(?:pub|abbrev|unfoldable|opaque|pattern)\s+)*")
DECLARES = re.compile(r"(?:(record|data)\s+)?(\S+)(?=\s)")


@dataclass(eq=False)
class Definition:
    """A definition, a record or a data type, with the lines that it has in its file and the comment above them."""

    kind: str
    name: str
    home: object
    line: int
    section: "Section"
    comment: list
    lines: list = field(default_factory=list)
    indent: int = 0

    @functools.cached_property
    def text(self):
        return "\n".join(line[self.indent :] for line in self.lines)

    @property
    def size(self):
        return sum(bool(line.strip()) for line in without_comments(self.text).split("\n"))

    def before(self):
        """The definition before it in its file, or None."""
        items = list(self.home.items.values())
        return items[items.index(self) - 1] if self is not items[0] else None

    def parts(self):
        """Where its head and each further signature or clause begins and ends in its text."""
        text = without_comments(self.text)
        starts = [0]
        deep = min((len(line) - len(line.lstrip()) for line in text.split("\n")[1:] if line.strip()), default=0)
        for found in re.finditer(r"(?m)^( *)\S", text):
            if found.start() and len(found[1]) <= (deep if self.kind in ("record", "data") else 0):
                starts.append(found.start())
        return zip(starts, [*starts[1:], len(text)])

    def members(self):
        """The fields or constructors, each with where its type begins."""
        if self.kind in ("record", "data"):
            for start, end in list(self.parts())[1:]:
                found = re.compile(r"\s*(?:pub )?(\S+)\s*:(?= )").match(self.text, start, end)
                if found:
                    yield bare(found[1]), found.end(), end

    def member(self, name):
        """A constructor, written behind its type."""
        return Inside(self, name, True) if self.kind == "data" and name in (it[0] for it in self.members()) else None

    def kind_of(self, name):
        """What the type of a field begins with, where it has that field."""
        kinds = [self.text[start:end].split()[0] for field_name, start, end in self.members() if field_name == name]
        return self.home.names(kinds[0]) if kinds else None

    @functools.cache
    def fields(self):
        """The names of its fields, also of those that it opens."""
        opened = [it for start, end in self.parts() for it in self.opened(self.text[start:end])]
        return {name for name, *_ in self.members()} | set(opened)

    def opened(self, line):
        """The names that `open FIELD use *` brings into scope."""
        found = re.match(r"\s*(?:pub )?open (\S+) use (\*|\{.*\})", line)
        if not found:
            return set()
        if found[2] != "*":
            return {bare(it.split(" as ")[-1].strip()) for it in found[2][1:-1].split(",")}
        return self.kind_of(bare(found[1])).fields()

    @functools.cached_property
    def words(self):
        """What the words of its text name that aren't bound there."""
        reader = Reader(self.text, self.home.names)
        names, _ = self.section.read(self.home)
        for start, end in self.parts():
            line = self.text[start:end]
            head = re.match(rf"\s*{MARKS.pattern}(?:(record|data)\s+)?(?:pub )?", line).end()
            split = re.search(r"\s(:|=)(?=\s)", without_comments(line[head:]))
            if self.kind in ("record", "data") and not start:
                names = reader.read(start + head + len(self.name), end, names)
            elif self.opened(line):
                names = names | self.opened(line)
            elif split and split[1] == ":":
                reader.read(start + head + split.end(), end, names)
                names = names | ({bare(line[head:].split()[0])} if self.kind == "record" else set())
            elif split:
                bound = reader.patterns(start + head, start + head + split.start(), names)
                reader.read(start + head + split.end(), end, bound)
        return sorted((it for it in dict.fromkeys(reader.words) if it.target is not self), key=lambda it: it[:2])


class Section:
    """A `module _ (..) where`, whose parameters those inside take, or the whole file."""

    def __init__(self, outer, indent, text):
        self.outer, self.indent, self.text, self.opens = outer, indent, text, []

    @functools.cache
    def read(self, home):
        """The names that are bound inside, and what the words of the parameters name, also of the sections around it."""
        names, words = self.outer.read(home) if self.outer else (set(), [])
        reader = Reader("\n".join([self.text, *self.opens]), home.names)
        return reader.read(0, len(reader.text), names), words + reader.words


class Brought:
    """What `use` lines bring in: names, and modules whose names are written through them."""

    def __init__(self, project):
        self.project, self.uses, self.modules = project, {}, {}

    def bring(self, said):
        found = USE.match(said)
        if not found:
            return
        path = tuple(found[2].split("."))
        if found[3] is None:
            self.modules[found[4] or path[-1]] = path
        for item in (found[3] or "").split(","):
            if item.strip():
                whole, _, other = item.strip().partition(" as ")
                *inner, name = whole.split(".")
                self.uses[bare(other or name)] = (*path, *inner, bare(name))

    def names(self, name):
        """What a name means that was brought in, or a sign of an operator; None if it wasn't."""
        if name in self.uses:
            return self.project.find(self.uses[name])
        if name in self.modules:
            return self.project.module(self.modules[name])
        operator = next((it for it in self.uses if "◌" in it and name.strip("◌") in it.split("◌")), None)
        return self.project.find(self.uses[operator]) if operator else None


class SpecFile(Brought):
    """A file of definitions, of which others name those that are `pub`."""

    def __init__(self, project, path, parts):
        super().__init__(project)
        self.meant = {}
        self.path, self.parts, self.items, self.constructors = path, parts, {}, {}
        self.comment = []
        self.parse(path.read_text().split("\n"))
        for item in self.items.values():
            if item.kind == "data":
                self.constructors |= {name: item for name, *_ in item.members()}

    def parse(self, lines):
        section, now, comment = Section(None, 0, ""), None, []
        for number, line in enumerate(lines, 1):
            said, indent = line.strip(), len(line) - len(line.lstrip())
            if not said:
                if comment and not self.items and not self.uses and not self.comment:
                    self.comment, comment = comment, []
                comment = []
                continue
            if said.startswith("--"):
                comment.append(line)
                continue
            while section.outer and indent < section.indent:
                section = section.outer
            if re.match(r"(pub )?(use|mod) |unfoldable pub use ", said) and indent == 0:
                if not self.uses and not self.modules and comment:
                    self.comment, comment = comment, []
                self.bring(said)
                now = None
            elif said.startswith("module _"):
                section, now, comment = Section(section, indent + 2, said[len("module _") : -len("where")]), None, []
            elif said.startswith("open ") and indent == section.indent:
                section.opens.append(said)
                comment = []
            elif now and (indent > section.indent or not self.declares(said)):
                now.lines += [*comment, line]
                comment = []
            else:
                now = self.declare(said, number, section, comment, indent)
                now.lines.append(line)
                comment = []

    @staticmethod
    def declares(said):
        """Whether a line is the head of a definition, and not one of its clauses."""
        rest = said[MARKS.match(said).end() :]
        found = DECLARES.match(rest)
        return bool(found and (found[1] or rest[found.end() :].lstrip().startswith(":")))

    def declare(self, said, number, section, comment, indent):
        marks = MARKS.match(said)
        found = DECLARES.match(re.sub(r"^(record|data) pub ", r"\1 ", said[marks.end() :]))
        name = bare(found[2])
        said = [it.strip().removeprefix("--").strip() for it in comment]
        self.items[name] = Definition(found[1] or "definition", name, self, number, section, said, indent=indent)
        return self.items[name]

    def names(self, name):
        """What a name means here: a definition, a constructor, what is brought in, or None."""
        if name not in self.meant:
            self.meant[name] = self.search(name)
        return self.meant[name]

    def search(self, name):
        if name in self.items:
            return self.items[name]
        if name in self.constructors:
            return Inside(self.constructors[name], name, True)
        return super().names(name)

    def member(self, name):
        """What others mean by a name of this file."""
        return self.names(name)
