"""What Python declares of dcel.h."""

import re
import textwrap

from bind.names import camel, members, short

PATH = "bindings/python/dcel/_declared.py"
HEAD = '''"""Made of dcel.h by tools/bind --write: what it declares."""

from __future__ import annotations

import enum
from ctypes import POINTER, Structure, {types}
from typing import Any

'''
TYPES = {f"{name}_t": f"c_{name}" for name in ("uint8", "uint16", "uint32", "uint64", "int32", "int64")}
TYPES |= {"bool": "c_bool", "double": "c_double", "size_t": "c_size_t", "void": "None"}
NUMBERS = {"UINT32_MAX": "2**32 - 1", "UINT64_MAX": "2**64 - 1"}
WIDTH = 140


def kind(of):
    """The type of a parameter, a field or a result."""
    if of.is_pointer:
        return "c_void_p" if of.name == "void" else f"POINTER({kind_of_item(of)})"
    return kind_of_item(of)


def kind_of_item(of):
    return TYPES.get(of.name) or camel(short(of.name))


def constants(header):
    yield f"VERSION = {header.constants['DCEL_VERSION'].value}"
    for name in ("DCEL_NONE", "DCEL_NO_LINK"):
        yield f"# {header.constants[name].says}"
        yield f"{short(name)} = {NUMBERS[header.constants[name].value]}"


def enum(it):
    """An enum, each member with what the header says of it."""
    yield f"class {camel(short(it.name))}(enum.IntEnum):"
    yield from quoted(it.says)
    yield ""
    for name, member in members(it):
        yield f"    {name} = {member.number}" + (f"  #: {member.says}" if member.says else "")


def quoted(says):
    """A docstring."""
    lines = textwrap.wrap(f'"""{says}"""', WIDTH - 4, break_long_words=False)
    return [f"    {line}" for line in lines]


def struct(it):
    fields = ", ".join(f'("{field.name}", {kind(field.type)})' for field in it.fields)
    yield f"class {camel(short(it.name))}(Structure):"
    yield from [*quoted(it.says), ""] if it.says else []
    yield f"    _fields_ = [{fields}]"


def sentences(header):
    """What the header says of each kind of fault, with names of fields in the place of their numbers."""
    yield "# What a fault of each kind says."
    yield "FAULTS = {"
    for name, it in members(header.enums["dcel_fault_kind"]):
        yield f'    FaultKind.{name}: "{in_braces(it.says)}",'
    yield "}"


def in_braces(says):
    """`{number}` for each name of a field in backquotes."""
    pieces = says.split("`")
    return "".join(f"{{{it}}}" if place % 2 else it for place, it in enumerate(pieces))


def functions(header):
    pointers = sorted({it.type.name for function in header.functions.values() for it in function.given if it.type.is_pointer})
    alias = {name: f"_{short(name).removesuffix('_t')}" for name in pointers}
    for name in pointers:
        yield f"{alias[name]} = POINTER({TYPES.get(name) or camel(short(name))})"
    yield ""
    yield "# What each function returns, and what it takes."
    yield "FUNCTIONS: dict[str, tuple[Any, tuple[Any, ...]]] = {"
    for it in header.functions.values():
        given = [alias[each.type.name] if each.type.is_pointer else kind(each.type) for each in it.given]
        listed = f"({', '.join(given)}{',' if len(given) == 1 else ''})"
        yield f'    "{it.name}": ({kind(it.result)}, {listed}),'
    yield "}"


def structs(header):
    """The structs by their names in C."""
    yield "STRUCTS: dict[str, type[Structure]] = {"
    for name in header.structs:
        yield f'    "{name}": {camel(short(name))},'
    yield "}"


def text(header):
    """The text of the file."""
    classes = [*map(enum, header.enums.values()), *map(struct, header.structs.values())]
    tables = [structs(header), sentences(header), functions(header)]
    blocks = [constants(header), *classes]
    body = "\n\n\n".join("\n".join(it) for it in blocks) + "\n\n\n" + "\n\n".join("\n".join(it) for it in tables) + "\n"
    types = sorted(set(re.findall(r"\bc_\w+", body)), key=natural)
    return HEAD.format(types=", ".join(types)) + body


def natural(name):
    """The order of an import: c_uint8 stands before c_uint32."""
    return [int(it) if it.isdigit() else it for it in re.split(r"(\d+)", name)]
