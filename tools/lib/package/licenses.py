"""The licenses in a package: the project's own, and those of the kit's libraries that its binaries contain."""

import re
import sys

import prover

EXPRESSION = "MIT OR Apache-2.0"
OWN = ["LICENSE-APACHE", "LICENSE-MIT", "NOTICE"]
LIST = "licenses/README"
# How the kit's libraries name the files with their licenses.
TEXTS = ("COPYING*", "LICENCE*", "LICENSE*", "NOTICE*")
HEAD = """\
The binaries of this package contain code of these libraries of the Rattle kit. A library that is a port has its license in a folder here. For
the others the kit gives no license text.

"""
NO_PORT = "The binaries of this package contain no port: of the Rattle kit they contain only these libraries, for which it gives no license text.\n\n"


def used(library):
    """The libraries that one of the kit uses itself."""
    told = prover.kit() / f"rlibs/{library}.rlib/format"
    text = told.read_text(errors="replace") if told.is_file() else ""
    if f"\ncrate {library}\n" not in text:
        sys.exit(f"package: {told} doesn't say what {library} uses")
    return re.findall(r"^dep (\w+)$", text, re.M)


def libraries(names):
    """The libraries of the kit that are in the binaries of these crates, by crates.txt and by what the kit says that each library uses."""
    crates = prover.crates()
    left = ["std", *(it for name in names for crate in [*prover.below(name), name] for it in crates[crate][1] if it not in crates)]
    found = set()
    while left:
        if (library := left.pop()) not in found:
            found.add(library)
            left += used(library)
    return sorted(found)


def texts(library):
    """The files with the licenses of a library of the kit, none unless it is a port."""
    folder = prover.kit() / "rattle" / library
    return sorted(it for pattern in TEXTS for it in folder.glob(pattern) if it.is_file())


def files(names):
    """What a package has whose binaries are of these crates: the bytes of each file by its path."""
    found = {name: (prover.ROOT / name).read_bytes() for name in OWN}
    listed = {library: texts(library) for library in libraries(names)}
    found.update((f"licenses/{library}/{it.name}", it.read_bytes()) for library, its in listed.items() for it in its)
    lines = [f"{library}: {', '.join(it.name for it in its) or 'no text'}\n" for library, its in listed.items()]
    found[LIST] = ((HEAD if any(listed.values()) else NO_PORT) + "".join(lines)).encode()
    return found


def put(folder, names):
    """Puts them into a folder."""
    for name, content in files(names).items():
        (folder / name).parent.mkdir(parents=True, exist_ok=True)
        (folder / name).write_bytes(content)
