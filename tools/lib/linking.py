"""What callers link: the proved static library with the kit's heap as one archive, and the same as a shared library. Both have the functions
of dcel.h under their names, and nothing else."""

import re
import subprocess
import tempfile
from contextlib import contextmanager
from pathlib import Path

ROOT = Path(__file__).resolve().parents[2]
HEADER = ROOT / "bindings/c/dcel.h"
VERSION = (ROOT / "VERSION").read_text().strip()
# The static libraries of which it is made. Each has no other names than its exports.
CRATES = ("dcel_c", "dcel_triangulations")
# Programs go on to use a library as long as the first two numbers stay.
SONAME = f"libdcel.so.{VERSION.rpartition('.')[0]}"
# As Debian asks of libraries: no text to be relocated, nothing left to be bound or written once it is loaded, and no stack that can be run.
HARDENED = ["-z,text", "-z,defs", "-z,relro", "-z,now", "-z,noexecstack"]


def functions():
    """The names of the functions that the header declares."""
    code = re.sub(r"/\*.*?\*/|^#.*?$|^static .*?^\}", "", HEADER.read_text(), flags=re.S | re.M)
    return sorted(re.findall(r"\b(dcel_\w+)\([^()]*\);", code))


def run(*words):
    subprocess.run(words, check=True)


@contextmanager
def replaced(target):
    """Another place to make a file, which then is put in the place of the target at once: who reads that has the old one or the new one."""
    with tempfile.TemporaryDirectory(dir=Path(target).parent, prefix="made-") as work:
        made = Path(work) / Path(target).name
        yield made
        made.replace(target)


def make_static(target, *archives):
    """Makes one archive of several, with the functions of the header as its only names."""
    with tempfile.TemporaryDirectory() as work, replaced(target) as made:
        whole, names = Path(work) / "dcel.o", Path(work) / "names"
        names.write_text("".join(f"{it}\n" for it in functions()))
        run("ld", "-r", "-o", whole, "--whole-archive", *archives)
        run("objcopy", "--strip-unneeded", "--remove-section=.llvm_addrsig", f"--keep-global-symbols={names}", whole)
        run("ar", "rcsD", made, whole)


def make_shared(target, archive):
    """Makes a shared library of an archive."""
    with tempfile.TemporaryDirectory() as work, replaced(target) as made:
        exports = Path(work) / "exports"
        exports.write_text(f"{{ global: {' '.join(f'{it};' for it in functions())} local: *; }};\n")
        words = [f"-Wl,{it}" for it in [*HARDENED, f"-soname,{SONAME}", "-Bsymbolic", f"--version-script={exports}"]]
        run("cc", "-shared", "-s", *words, "-o", made, "-Wl,--whole-archive", archive, "-Wl,--no-whole-archive")


def oldest_glibc(*files):
    """The version of glibc, as (2, 14), that programs and libraries ask for at least."""
    said = subprocess.run(["objdump", "-T", *files], capture_output=True, text=True, check=True).stdout
    return max([(2, 5), *(tuple(map(int, it.split("."))) for it in re.findall(r"\bGLIBC_(\d+\.\d+)", said))])


def platform_tag(library):
    """What a wheel with the library says of where it runs."""
    return "manylinux_{}_{}_x86_64".format(*oldest_glibc(library))


def plain(page):
    """The text of a page of the sources, without links to others of them."""
    return re.sub(r"\[([^]]+)\]\((?!\w+:)[^)]*\)", r"\1", Path(page).read_text())
