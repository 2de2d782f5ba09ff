"""Reads a header for C: its functions, structs, enums and constants, each with its comment. What it can't read is a fault."""

import re
from dataclasses import dataclass, field

COMMENT = re.compile(r"/\*(.*?)\*/", re.S)
# What a header has besides declarations.
PASSED = re.compile(r'\#(?:ifn?def|if|endif|include)\b[^\n]*|extern "C" \{|\}|static inline .*?\n\}|__attribute__\(\(used\)\) static [^;]*;', re.S)
CONSTANT = re.compile(r"#define (\w+)(?: ([^\n]+))?")
STRUCT = re.compile(r"typedef struct \{(.*?)\} (\w+);", re.S)
ENUM = re.compile(r"(?:typedef )?enum(?: (?P<tag>\w+))? \{(?P<inside>.*?)\}(?: (?P<name>\w+))?;", re.S)
FUNCTION = re.compile(r"(\w+) (\w+)\(([^()]*)\);")
MEMBER = re.compile(r"^\s*(\w+) = (\d+),?\s*(?:/\*(.*?)\*/)?[ \t]*$", re.M)
NAMED = re.compile(r"(?:(const )?(\w+) )?(\*?)(\w+)")
NAME_OF_STATUS = re.compile(r'case (\w+): return "(\w+)";')


class Unreadable(Exception):
    """A header has something that no part of it is."""


@dataclass(frozen=True)
class Type:
    name: str
    is_pointer: bool = False
    is_const: bool = False

    def __str__(self):
        return ("const " if self.is_const else "") + self.name + (" *" if self.is_pointer else "")


@dataclass(frozen=True)
class Named:
    """A parameter, or a field."""

    name: str
    type: Type

    def __str__(self):
        return f"{self.type} {self.name}".replace("* ", "*")


@dataclass(frozen=True)
class Member:
    name: str
    number: int
    says: str


@dataclass(frozen=True)
class Constant:
    value: str
    says: str


@dataclass(frozen=True)
class Function:
    name: str
    result: Type
    given: tuple

    def __str__(self):
        return f"{self.result} {self.name}({', '.join(map(str, self.given)) or 'void'})"


@dataclass(frozen=True)
class Struct:
    name: str
    fields: tuple
    says: str

    def __str__(self):
        return f"{self.name} {{ {' '.join(f'{it};' for it in self.fields)} }}"


@dataclass(frozen=True)
class Enum:
    name: str
    members: tuple
    says: str


@dataclass
class Header:
    functions: dict = field(default_factory=dict)
    structs: dict = field(default_factory=dict)
    enums: dict = field(default_factory=dict)
    constants: dict = field(default_factory=dict)
    names: dict = field(default_factory=dict)  # what the text of a status says

    def numbers(self):
        """The numbers of all members of enums."""
        return {it.name: it.number for enum in self.enums.values() for it in enum.members}


def words_of(comment):
    return " ".join(comment.split())


def named(text):
    """The parameters, or the fields of a struct: `uint64_t a, b` has the type once."""
    text = COMMENT.sub("", text)
    for one in filter(None, (words_of(it) for it in re.split("[,;]", "" if text.strip() == "void" else text))):
        if not (found := NAMED.fullmatch(one)):
            raise Unreadable(one)
        const, kind, star, name = found.groups()
        before = (kind, bool(const)) if kind else before  # noqa: F821
        yield Named(name, Type(before[0], bool(star), before[1]))


def read_enum(found, says):
    """An enum. Its members are as it says them: of each line one, with its number and perhaps a comment."""
    inside = found["inside"]
    members = tuple(Member(name, int(number), words_of(said)) for name, number, said in MEMBER.findall(inside))
    if left := COMMENT.sub("", MEMBER.sub("", inside)).strip():
        raise Unreadable(left)
    return Enum(found["name"] or found["tag"] or "", members, says)


def take(text, header, says):
    """Takes the declaration that a text begins with into the header. Returns how long it is."""
    if found := PASSED.match(text):
        header.names.update(NAME_OF_STATUS.findall(found[0]))
    elif found := CONSTANT.match(text):
        header.constants[found[1]] = Constant(found[2] or "", says)
    elif found := STRUCT.match(text):
        header.structs[found[2]] = Struct(found[2], tuple(named(found[1])), says)
    elif found := ENUM.match(text):
        enum = read_enum(found, says)
        header.enums[enum.name] = enum
    elif found := FUNCTION.match(text):
        header.functions[found[2]] = Function(found[2], Type(found[1]), tuple(named(found[3])))
    else:
        raise Unreadable(text.split("\n")[0])
    return found.end()


def read(text):
    """What a header declares. Raises Unreadable."""
    header, says, at = Header(), "", 0
    while at < len(text):
        if text[at].isspace():
            at += 1
        elif found := COMMENT.match(text, at):
            says, at = words_of(found[1]), found.end()
        else:
            at += take(text[at:], header, says)
            says = ""
    return header
