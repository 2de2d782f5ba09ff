"""Compares the headers for C with what the static libraries export, and with the programs that try it."""

import re
from dataclasses import dataclass, replace
from pathlib import Path

import linking
from bind.header import Function, Named, Struct, Type, read, words_of
from bind.names import camel, short, snake

ROOT = Path(__file__).resolve().parents[3]


@dataclass(frozen=True)
class Library:
    header: str
    program: str  # which calls each function
    crates: tuple  # whose exports the header declares

    def read(self):
        """The header's text."""
        return (ROOT / self.header).read_text()


DCEL = Library("bindings/c/dcel.h", "bindings/c/check.c", linking.CRATES)
PAGE = Library("bindings/c/mesh_page.h", "bindings/c/page.c", ("mesh_page",))
LIBRARIES = (DCEL, PAGE)
# Structs that exports take from crates below, with the crate of each and its name in C.
FROM_BELOW = {
    "mesh_page": {
        "Memory": ("lent_heap", "mesh_page_memory"),
        "Triangle": ("dcel_delaunay", "mesh_page_triangle"),
        "Ends": ("dcel_delaunay", "mesh_page_ends"),
    },
    "dcel_triangulations": {
        "Triangle": ("dcel_delaunay", "dcel_triangle"),
        "Ends": ("dcel_delaunay", "dcel_ends"),
    },
}
TYPES = {"u8": "uint8_t", "u16": "uint16_t", "i32": "int32_t", "i64": "int64_t", "u32": "uint32_t", "u64": "uint64_t", "usize": "size_t"}
TYPES |= {"f64": "double", "bool": "bool", "": "void"}
EXPORT = re.compile(r'#\[unsafe\(no_mangle\)\]\s*(?:#\[[^\n]*\]\s*)?pub extern "C" fn (\w+)\(([^)]*?)\)(?: -> (\w+))?(?: \{|\n(.*?)^\{)', re.S | re.M)
SAME = re.compile(r"ensures same \{ (?:\w+\.)?kept_in (\w+)\.new ≡ (?:\w+\.)?kept_in \1\.old \}")
STRUCT = re.compile(r"#\[repr\(C\)\][^{;]*?pub struct (\w+) \{(.*?)\n\}", re.S)
FIELD = re.compile(r"^\s*(?:pub(?:\(crate\))? )?(\w+): ([^,]+),", re.M)
# What C sees of a struct that owns what is kept: the pointer of `Held`, whose allocator takes no bytes, and the flag.
KEPT = ("DcelMesh", "DcelTriangulation", "DcelConstrained", "MeshPageKept")
HELD = (Named("at", Type("void", True)), Named("is_open", Type("bool")))


def c_type(text, is_pointer=False, is_const=False, names=None):
    """A type in C, where structs from crates below have these names."""
    if raw := re.fullmatch(r"\*mut (\w+)", text):
        return c_type(raw[1], True)
    return Type((names or {}).get(text) or TYPES.get(text) or snake(text), is_pointer, is_const)


def parameters(text, names):
    """What C passes for the parameters of an export."""
    for parameter in filter(None, (it.strip() for it in text.split(","))):
        name, kind = (it.strip() for it in parameter.split(":"))
        if items := re.fullmatch(r"&(mut )?\[(\w+)\]", kind):
            yield Named(name, c_type(items[2], True, not items[1], names))
            yield Named(f"{name}_len", Type("size_t"))
        elif pointer := re.fullmatch(r"&(mut )?(\w+)", kind):
            yield Named(name, c_type(pointer[2], True, not pointer[1], names))
        elif kind != "Global":  # which takes no bytes
            yield Named(name, c_type(kind, names=names))


def struct(name, text, called=None):
    fields = HELD if name in KEPT else tuple(Named(it, c_type(kind)) for it, kind in FIELD.findall(re.sub(r"///.*", "", text)))
    return Struct(called or snake(name), fields, "")


def sources(crate):
    return [it.read_text() for it in sorted((ROOT / "crates" / crate / "src").rglob("*.rt"))]


def structs_in(crate):
    """The structs of a crate's sources that C can read."""
    return [found for text in sources(crate) for found in STRUCT.findall(text)]


def exported(crates):
    """The functions and structs that static libraries have for C, and what each function leaves as it was by its contract."""
    functions, structs, leaves = {}, [], {}
    for crate in crates:
        names = {name: called for name, (_, called) in FROM_BELOW.get(crate, {}).items()}
        for name, given, result, clauses in (found for text in sources(crate) for found in EXPORT.findall(text)):
            functions[name] = Function(name, c_type(result), tuple(parameters(given, names)))
            leaves[name] = SAME.findall(clauses)
        structs += [struct(name, inside) for name, inside in structs_in(crate) if name != "Held"]
        for wanted, (other, called) in FROM_BELOW.get(crate, {}).items():
            structs += [struct(name, inside, called) for name, inside in structs_in(other) if name == wanted]
    return functions, by_name(structs), leaves


def by_name(structs):
    """Structs by their names. Of two crates that have one of them otherwise the fields of both are there, which no header has."""
    found = {}
    for it in structs:
        other = found.get(it.name, it)
        found[it.name] = it if it == other else replace(it, fields=(*other.fields, *it.fields))
    return found


def as_exported(function, header, leaves):
    """A function of the header as the library has it: an enum is a number, and what a call leaves as it was may be const."""
    given = (replace(it, type=replace(it.type, is_const=False)) if it.name in leaves else it for it in function.given)
    result = Type("uint32_t") if function.result.name in header.enums else function.result
    return Function(function.name, result, tuple(given))


def declaration_faults(library, header):
    """Functions and structs that the header declares otherwise than the library has them, and functions that the program never calls."""
    functions, structs, leaves = exported(library.crates)
    said = {name: as_exported(it, header, leaves.get(name, ())) for name, it in header.functions.items()}
    for made, told in ((functions, said), (structs, {name: replace(it, says="") for name, it in header.structs.items()})):
        for name in sorted(set(made) | set(told)):
            if made.get(name) != told.get(name):
                has, says = (f"`{it[name]}`" if name in it else "none" for it in (made, told))
                yield f"{library.header}: {name}: {' '.join(library.crates)} has {has}, and the header {says}"
    program = (ROOT / library.program).read_text()
    for name in sorted(header.functions):
        if not re.search(rf"\b{name}\b", program):
            yield f"{library.program}: it never calls {name}"


def refusals():
    """The statuses that are refusals of commands, by number, with their names."""
    text = (ROOT / "crates/dcel_commands/src/refusal.rt").read_text()
    inside = re.search(r"pub enum Refusal \{(.*?)\n\}", text, re.S)[1]
    return dict(enumerate(re.findall(r"^    (\w+)(?: = 1)?,$", inside, re.M), 1))


def consts(*texts):
    return {name: int(number) for text in texts for name, number in re.findall(r"\bconst (\w+): u32 = (\d+);", text)}


def status_faults(library, header):
    """Statuses whose numbers or names differ from those that the library returns."""
    if library is DCEL:
        refused = {snake(name).upper(): number for number, name in refusals().items()}
        wanted = [refused, *(consts((ROOT / f"crates/{it}/src/status.rt").read_text()) for it in ("dcel_c", "dcel_triangulations"))]
        found = {short(it.name): it.number for it in header.enums["dcel_status"].members}
        for name in found:
            if header.names.get(f"DCEL_{name}") != camel(name):
                yield f"{library.header}: dcel_status_name has {header.names.get(f'DCEL_{name}')} for DCEL_{name}"
    else:  # those that libraries share whose exports answer into a buffer, and the crate's own
        wanted = [consts((ROOT / "crates/dcel_exports/src/status.rt").read_text(), *sources("mesh_page"))]
        found = {name.removeprefix("MESH_PAGE_"): number for name, number in header.numbers().items()}
    for name, number in (it for names in wanted for it in names.items()):
        if found.get(name) != number:
            yield f"{library.header}: the status {name} is {found.get(name)}, and the library returns {number}"
    for name in sorted(set(found) - {name for names in wanted for name in names}):
        yield f"{library.header}: the library returns no {name}"


def kind_faults(header):
    """Kinds of faults whose numbers or names differ from those that dcel_c tells."""
    told = (ROOT / "crates/dcel_c/src/fault.rt").read_text()
    found = re.findall(r"(LinksFault|FacesError)::(\w+)(?:\([^)]*\))? => [^=]*?\((\d+),", told)
    names = {("FacesError", "OneEnd"): "SideAtOne"}  # of a face, where another kind is of a half edge
    wanted = {snake(names.get((kind, name), name)).upper(): int(number) for kind, name, number in found if name != "OutOfMemory"}
    wanted["OTHER_COUNT"] = int(re.search(r"fn other_count\(.*?at_number\((\d+),", told, re.S)[1])
    numbers = {it.name.removeprefix("DCEL_FAULT_"): it.number for it in header.enums["dcel_fault_kind"].members}
    for name in sorted(set(wanted) | set(numbers)):
        if wanted.get(name) != numbers.get(name):
            yield f"{DCEL.header}: DCEL_FAULT_{name} is {numbers.get(name)}, and dcel_c tells {wanted.get(name)}"


def place_faults(header):
    """Kinds of places whose numbers or names differ from those that dcel_triangulations tells."""
    wanted = consts((ROOT / "crates/dcel_triangulations/src/position.rt").read_text())
    found = {short(it.name): it.number for it in header.enums["dcel_place"].members}
    for name in sorted(set(wanted) | set(found)):
        if wanted.get(name) != found.get(name):
            yield f"{DCEL.header}: DCEL_{name} is {found.get(name)}, and dcel_triangulations tells {wanted.get(name)}"


def refusal_faults(text, header):
    """Words behind `Refusals` in comments that are no statuses."""
    for comment in re.findall(r"/\*(.*?)\*/", text, re.S):
        said = re.search(r"Refusals: ([^.;]*)", words_of(comment))
        for word in re.findall(r"\b[A-Z]+(?:_[A-Z]+)*\b", said[1] if said else ""):
            if f"DCEL_{word}" not in header.numbers():
                yield f"{DCEL.header}: {word} is no status"


def faults(library, text):
    """Where a header with this text isn't what its library exports, or the program doesn't try it. Raises Unreadable."""
    header = read(text)
    found = [*declaration_faults(library, header), *status_faults(library, header)]
    return found + [*kind_faults(header), *place_faults(header), *refusal_faults(text, header)] if library is DCEL else found
