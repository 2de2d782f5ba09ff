"""What Rust declares of dcel.h, and the calls of its mesh."""

import textwrap

from bind.names import camel, members, short

FOLDER = "bindings/rust/src/ffi"
HEAD = "//! Made of `bindings/c/dcel.h` by `tools/bind --write`: {}\n\n"
WIDTH = 100
TYPES = {"bool": "bool", "size_t": "usize", "uint8_t": "u8", "uint16_t": "u16", "uint32_t": "u32", "uint64_t": "u64"}
TYPES |= {"int32_t": "i32", "int64_t": "i64", "double": "f64", "void": "c_void"}
# What is kept across calls, and the type that owns it.
KEPT = {"dcel_mesh": "Mesh", "dcel_triangulation": "Triangulation", "dcel_constrained": "Constrained"}
# That whose calls are made methods. Those of a triangulation are written by hand, as their statuses aren't all refusals of the crate.
CALLED = "dcel_mesh"
# What the crate does without: a mesh has what these lists have. Nothing of it is declared.
WITHOUT = {"dcel_triangle", "dcel_across", "dcel_ends", "dcel_edit", "dcel_reply"}
# Structs that are written by hand, as their fields are handles. What is made says that they lie as C has them.
BY_HAND = {"dcel_half_edge": "HalfEdgeEntry"}
SIZES = {"bool": 1, "uint8_t": 1, "uint32_t": 4, "uint64_t": 8, "size_t": 8}
# What a list of numbers has, by its name. A handle is its number.
HANDLES = {
    "border_loop": "FixedDirectedEdgeHandle",
    "strip": "FixedDirectedEdgeHandle",
    "edges": "FixedUndirectedEdgeHandle",
    "faces": "FixedFaceHandle<InnerTag>",
    "corners": "FixedVertexHandle",
}
# What the crate does without: it walks by steps, and asks for no version but by the name that only one has.
LEFT_OUT = {"dcel_version", "dcel_rev", "dcel_out_edges", "dcel_face_edges", "dcel_directed_edge", "dcel_replies"}
# In Rust values go with their elements, so it makes the edits of a list one by one, and removes a vertex by three calls, which list what goes.
LEFT_OUT |= {"dcel_apply_all", "dcel_insert_vertex", "dcel_remove_vertex", "dcel_collapse_edge", "dcel_can_collapse_edge"}
LEFT_OUT |= {f"dcel_triangulation_{it}" for it in ("points", "hull", "locate_all", "nearest_all")}
LEFT_OUT |= {f"dcel_constrained_{it}" for it in ("hull", "locate_all")}
# What ffi.rs calls itself: how a mesh is made and ends.
LIVES = {"dcel_new", "dcel_free", "dcel_clone"}


def kind(of):
    """The type of a field, a parameter or a result in Rust."""
    if of.is_pointer:
        return f"*{'const' if of.is_const else 'mut'} {kind_of_item(of.name)}"
    return kind_of_item(of.name)


def kind_of_item(name):
    if name in KEPT:
        return f"Raw{KEPT[name]}"
    return TYPES.get(name) or BY_HAND.get(name) or camel(short(name))


def wrapped(head, items, tail, indent):
    """A call or a signature: in a line if it is short, else an item a line, as rustfmt lays it out."""
    line = f"{indent}{head}({', '.join(items)}){tail}"
    if len(line) <= WIDTH:
        return [line]
    return [f"{indent}{head}(", *(f"{indent}    {it}," for it in items), f"{indent}){tail}"]


def comment(says, indent=""):
    return [f"{indent}/// {line}" for line in textwrap.wrap(says, WIDTH - 4 - len(indent))]


def slices(function):
    """The parameters of a function, a list with its length as one: each with whether it is a list."""
    given, found, at = function.given, [], 0
    while at < len(given):
        is_list = at + 1 < len(given) and given[at + 1].name == f"{given[at].name}_len"
        found.append((given[at], is_list))
        at += 1 + is_list
    return found


# Declarations.


def enum(it):
    """The numbers of an enum, in a module of its name."""
    yield from comment(it.says)
    yield "#[allow(dead_code)]"
    yield f"pub(crate) mod {short(it.name)} {{"
    for name, member in members(it):
        yield f"    pub(crate) const {name}: u32 = {member.number};"
    yield "}"


def status_names(header):
    """The names of statuses, by number."""
    yield "/// The names of statuses, by number."
    yield "#[cfg(test)]"
    yield f"pub(crate) const STATUS_NAMES: [&str; {len(header.names)}] = ["
    yield from (f'    "{header.names[it.name]}",' for it in header.enums["dcel_status"].members)
    yield "];"


def constants(header):
    for name in ("DCEL_NONE", "DCEL_NO_LINK"):
        kind, _, limit = header.constants[name].value.replace("UINT", "u").partition("_")
        yield from comment(header.constants[name].says)
        yield f"pub(crate) const {short(name)}: {kind} = {kind}::{limit};"


def struct(it):
    name, is_kept = kind_of_item(it.name), it.name in KEPT
    if it.name in BY_HAND:
        yield from layout(it)
        return
    seen = "pub(super)" if is_kept else "pub(crate)"
    yield from comment(f"{it.says} C's `{it.name}`.")
    yield "#[repr(C)]"
    yield from [] if is_kept else ["#[derive(Clone, Copy, Default)]"]
    yield f"{seen} struct {name} {{"
    yield from (f"    {seen} {field.name}: {kind(field.type)}," for field in it.fields)
    yield "}"


def layout(it):
    """Says at compile time that a struct that is written by hand lies as C has it."""
    name, at, widest = kind_of_item(it.name), 0, 1
    yield f"// {name} is C's `{it.name}`."
    yield "const _: () = {"
    for field in it.fields:
        size = SIZES[field.type.name]
        at, widest = -(-at // size) * size, max(widest, size)
        yield f"    assert!(offset_of!({name}, {field.name}) == {at});"
        at += size
    yield f"    assert!(size_of::<{name}>() == {-(-at // widest) * widest});"
    yield "};"


def parameter(it, is_list):
    """How the function itself takes it."""
    if is_list:
        yield f"{it.name}: {kind(it.type)}"
        yield f"{it.name}_len: usize"
    elif it.type.is_pointer:
        yield f"{it.name}: &mut {kind_of_item(it.type.name)}"
    else:
        yield f"{it.name}: {kind(it.type)}"


def result_of(function, header):
    name = "uint32_t" if function.result.name in header.enums else function.result.name
    return "" if name == "void" else f" -> {kind_of_item(name)}"


def declaration(function, header):
    given = [text for it, is_list in slices(function) for text in parameter(it, is_list)]
    safe = "" if any(is_list for _, is_list in slices(function)) else "safe "
    return wrapped(f"pub(super) {safe}fn {function.name}", given, f"{result_of(function, header)};", "    ")


def declarations(header):
    """The text of declarations.rs."""
    version = next(it for it in header.functions if it.startswith("dcel_version_"))
    imports = ["use super::HalfEdgeEntry;\nuse std::ffi::c_void;\nuse std::mem::offset_of;"]
    blocks = [imports, constants(header), *(enum(it) for it in header.enums.values()), status_names(header)]
    blocks += [struct(it) for it in header.structs.values() if it.name not in WITHOUT]
    blocks += [
        [
            "/// With it what uses the crate is linked with no library of another version than the crate's.",
            "#[used]",
            f'static VERSION_WANTED: extern "C" fn() -> u32 = {version};',
        ],
        extern(header),
    ]
    return HEAD.format("its numbers, structs and functions.") + "\n\n".join("\n".join(it) for it in blocks) + "\n"


def extern(header):
    yield "// SAFETY: these are the functions of the header. The safe ones ask for a mesh as the last call left it,"
    yield "// which is what a `&mut RawMesh` leads to in this module, and for places to write to, which"
    yield "// references are. The others ask for slices too."
    yield 'unsafe extern "C" {'
    for it in header.functions.values():
        if it.name not in LEFT_OUT and not WITHOUT & {given.type.name for given in it.given}:
            yield from declaration(it, header)
    yield "}"


# Calls.

SAFETY = "the slices last for the call, and each number that it writes is a handle."


def is_told(it, is_list):
    """Whether a call puts one thing there, which its method returns."""
    return it.type.is_pointer and not it.type.is_const and not is_list


def taken(it, is_list):
    """How a method takes it."""
    if not is_list:
        return f"{it.name}: {kind(it.type)}"
    item = HANDLES.get(it.name) if it.type.name == "uint32_t" else None
    return f"{it.name}: &{'' if it.type.is_const else 'mut '}[{item or kind_of_item(it.type.name)}]"


def passed(it, is_list):
    """How a method passes it on."""
    if is_list:
        cast = ".cast()" if it.type.name == "uint32_t" and it.name in HANDLES else ""
        return [f"{it.name}.as_{'' if it.type.is_const else 'mut_'}ptr(){cast}", f"{it.name}.len()"]
    return [f"&mut {it.name}" if is_told(it, is_list) else it.name]


def name_of(function):
    """The name of a function's method: `insert` for dcel_triangulation_insert."""
    return short(function.name).removeprefix(f"{short(function.given[0].type.name)}_")


def method(function):
    """A method for a function, which takes its lists as slices, and returns what it tells."""
    (kept, _), *given = slices(function)
    if any(it.type.name == "dcel_fault" for it, _ in given):
        return made(function, kept, given)
    told = [it for it, is_list in given if is_told(it, is_list)]
    own = ["&self" if kept.type.is_const else "&mut self", *(taken(*it) for it in given if not is_told(*it))]
    call = wrapped(function.name, [kept.name, *(text for it in given for text in passed(*it))], "", " " * 12)
    is_unsafe = any(is_list for _, is_list in given)
    before, after, result = answer(function, told, "read" if kept.type.is_const else "edit")
    lines = [] if is_unsafe else ["    #[inline]"]
    lines += wrapped(f"pub(crate) fn {name_of(function)}", own, f" -> {result} {{", "    ")
    lines += [f"        let mut {it.name} = {default(kind_of_item(it.type.name))};" for it in told]
    lines += [f"        // SAFETY: {SAFETY}"] if is_unsafe else []
    lines += lent(f"{before}|{kept.name}|", call, after, is_unsafe)
    return [*lines, *([f"        Ok({together([it.name for it in told])})"] if told else []), "    }"]


def together(names):
    """One name, or several as a tuple."""
    return names[0] if len(names) == 1 else f"({', '.join(names)})"


def default(name):
    return {"bool": "false", "u32": "0", "u64": "0"}.get(name) or f"{name}::default()"


def answer(function, told, how):
    """What stands before and behind the closure that calls, where the mesh is lent to read or to edit, and what the method returns."""
    if function.result.name == "dcel_status":
        result = f"Result<{together([kind_of_item(it.type.name) for it in told])}, Refusal>"
        after = "?;" if told else ""
        return (f"self.{how}(", f"){after}", result) if how == "edit" else (f"Refusal::of(self.{how}(", f")){after}", result)
    if function.result.name != "uint64_t":
        return f"self.{how}(", ")", kind_of_item(function.result.name)
    if name_of(function).startswith("num_"):
        return f"self.{how}(", ") as usize", "usize"
    return f"found(self.{how}(", "))", "Option<u32>"


def lent(before, call, after, is_unsafe):
    """The lines of an expression with a closure that calls."""
    line = f"        {before} {call[0].strip()}{after}"
    if not is_unsafe and len(call) == 1 and len(line) <= WIDTH:
        return [line]
    return [f"        {before} {'unsafe ' if is_unsafe else ''}{{", *call, f"        }}{after}"]


def made(function, kept, given):
    """A function of what is made of lists, or of the fault that they have."""
    lists = [it for it in given if not is_told(*it)]
    lines = wrapped(f"pub(crate) fn {name_of(function)}", [taken(*it) for it in lists], " -> Result<Self, Option<Fault>> {", "    ")
    call = wrapped(function.name, [kept.name, *(text for it in lists for text in passed(*it)), "fault"], "", " " * 12)
    return [*lines, f"        // SAFETY: {SAFETY}", f"        Self::given(|{kept.name}, fault| unsafe {{", *call, "        })", "    }"]


def calls(header):
    """The text of calls.rs."""
    text = HEAD.format("each call as a method.") + "// A list is a slice, and what a call tells is returned.\n\nuse super::*;\n"
    own = [it for it in header.functions.values() if it.given and it.given[0].type.name == CALLED]
    methods = ["\n".join(method(it)) for it in own if it.name not in LEFT_OUT | LIVES]
    return f"{text}\nimpl {KEPT[CALLED]} {{\n" + "\n\n".join(methods) + "\n}\n"
