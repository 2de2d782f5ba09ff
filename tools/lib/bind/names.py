"""Names in C, Rattle, Python and Rust."""

import re

# What the members of an enum begin with, where it isn't DCEL_ alone.
PREFIXES = {"dcel_fault_kind": "DCEL_FAULT_", "dcel_call": "DCEL_CALL_"}


def snake(name):
    """`dcel_half_edge` for `DcelHalfEdge`."""
    return re.sub(r"(?<!^)(?=[A-Z])", "_", name).lower()


def camel(name):
    """`HalfEdge` for `half_edge`, and for `HALF_EDGE`."""
    return "".join(it.capitalize() for it in name.split("_"))


def short(name):
    """A name without the library's."""
    return name.removeprefix("DCEL_").removeprefix("dcel_")


def members(enum):
    """The members of an enum, each with its short name."""
    prefix = PREFIXES.get(enum.name, "DCEL_")
    return [(it.name.removeprefix(prefix), it) for it in enum.members]
