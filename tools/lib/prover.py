"""Calls the kit's prover with the words that `rt` gives it. No other file knows them.

`rt` knows the libraries below a crate by stamps, and `rt ci` leaves none: after it, `rt lib` and `rt check` would prove all below again.
What `rt ci` leaves is whole, so it is taken as it is where it is newer than its sources. A kit that keeps what passed puts libraries back
with the time at which they were made, in a clone whose sources are newer: so `tools/lib/prover.py`, called right after a run of `rt ci` that
passed and found no such library before, notes of which sources they are. Where there are stamps, `rt lib` says whether the libraries are
up to date, and proves what isn't.
"""

import functools
import hashlib
import os
import subprocess
import sys
from pathlib import Path

ROOT = Path(__file__).resolve().parents[2]
CRATES = ROOT / "crates"
SOURCES = ("src", "specs", "proofs")
# What the prover says where it doesn't know a word that it was given.
UNKNOWN = ("error: unexpected argument", "error: unrecognized", "error: the following required arguments", "error: invalid value")


@functools.cache
def kit():
    """The folder of the kit."""
    said = subprocess.run(["rt", "doc"], capture_output=True, text=True, check=True).stdout
    return Path(said.split("\n")[0]).parent


@functools.cache
def version():
    """The line that names the kit."""
    return subprocess.run(["rt", "version"], capture_output=True, check=True).stdout


@functools.cache
def crates():
    """The crates of crates.txt: for each its kind, as `staticlib` or "", and the libraries that it lists."""
    found = {}
    for line in (ROOT / "crates.txt").read_text().splitlines():
        head, _, names = line.partition("#")[0].partition(":")
        if head.strip():
            name, *kind = head.split()
            found[name] = " ".join(kind), names.split()
    return found


def below(name):
    """The crates of the repository that this one reaches, each after those that it uses."""
    found = []
    for library in crates()[name][1]:
        if library in crates():
            found += [it for it in [*below(library), library] if it not in found]
    return found


def sources(name):
    """The files that the crate is proved from."""
    return sorted(it for part in SOURCES for it in (CRATES / name / part).rglob("*") if it.is_file())


def root_of(name):
    return "src/main.rt" if (CRATES / name / "src/main.rt").is_file() else "src/lib.rt"


def is_program(name):
    return root_of(name) == "src/main.rt"


def built(name):
    """Where the program or the static library of a crate lies."""
    return CRATES / name / "out" / (name if is_program(name) else f"lib{name}.a")


def sum_of_built(name, file):
    """A sum of what is built of a crate, of all sources that it is of, and of the kit."""
    found = hashlib.sha256(version() + file.read_bytes())
    for it in [*below(name), name]:
        found.update(repr((it, crates()[it], sum_once(it))).encode())
    return found.hexdigest()


@functools.cache
def sum_once(name):
    """The same sum, for a run in which no source changes."""
    return sum_of_sources(name)


def note_built(name, file=None):
    """Notes that a program or a library, in the usual place or in this file, was built over what `rt ci` left, of these sources."""
    file = file or built(name)
    file.with_suffix(".sources").write_text(sum_of_built(name, file))


def is_as_built(name, file=None):
    """Whether it is still the one that was noted, and of these sources."""
    file = file or built(name)
    noted = file.with_suffix(".sources")
    return noted.is_file() and file.is_file() and noted.read_text() == sum_of_built(name, file)


def library(name):
    """Where the proved library of a crate lies."""
    return CRATES / name / "out" / "rlib" / f"{name}.rlib"


def is_stamped(name):
    return (library(name).parent / "stamp").is_file()


def sum_of_sources(name):
    found = hashlib.sha256()
    for file in sources(name):
        found.update(repr((str(file.relative_to(CRATES)), file.read_bytes())).encode())
    return found.hexdigest()


def note(name):
    """Where it is noted of which sources the library is."""
    return library(name).parent / "sources"


def note_all():
    """Notes of each library and each program that `rt ci` has left that it is of these sources."""
    for name in crates():
        if (library(name) / "format").is_file() and not is_stamped(name):
            note(name).write_text(sum_of_sources(name))
        # A program has a stamp where it is of `rt run`.
        if is_program(name) and built(name).is_file() and not built(name).with_suffix(".stamp").is_file():
            note_built(name)


def is_of_sources(name):
    """Whether the library is there, and newer than each of its sources or noted to be of them."""
    made = library(name) / "format"
    if not made.is_file():
        return False
    if note(name).is_file():
        return note(name).read_text() == sum_of_sources(name)
    return all(it.stat().st_mtime < made.stat().st_mtime for it in sources(name))


def is_ready(name):
    """Whether the libraries below are what `rt ci` left of these sources."""
    return not any(map(is_stamped, below(name))) and all(map(is_of_sources, below(name)))


def make_ready(name):
    """Has the libraries below proved that aren't yet. Returns whether they are."""
    if is_ready(name):
        return True
    direct = [it for it in crates()[name][1] if it in crates()]
    return all(subprocess.run(["rt", "lib"], cwd=CRATES / it, stdout=sys.stderr, check=False).returncode == 0 for it in direct)


def words(name):
    """The words for a crate, whose files lie where the prover is called."""
    kind, listed = crates()[name]
    found = ["--crate-name", name, root_of(name), "--links", f"{name}="]
    found += ["--crate-type", kind] if kind else []
    for it in ["std", *listed]:
        found += ["--extern", f"{it}={library(it) if it in crates() else kit() / 'rlibs' / f'{it}.rlib'}"]
    for folder in [kit() / "rlibs", *(library(it).parent for it in below(name))]:
        found += ["-L", f"dependency={folder}"]
    return [*found, "--antt-project", kit() / "rattle/logic/antt-project.json", "--logic-built", kit() / "logic_built"]


def run(command, folder):
    """Runs a program of the kit's."""
    return subprocess.run(
        command,
        cwd=folder,
        stdin=subprocess.DEVNULL,
        stdout=subprocess.PIPE,
        stderr=subprocess.STDOUT,
        text=True,
        errors="replace",
        check=False,
    )


def link(target, archive, module):
    """Links a static library that was built for this target into a module. Returns the linker's status and what it says."""
    ran = run([kit() / "bin/rattle-link", "--target", target, "--toolchain", kit() / "toolchain", "-o", module, archive], ROOT)
    return ran.returncode, ran.stdout


def call(step, name, more, folder):
    """Calls the prover for a step, `check` or `build`, in a folder that has the crate's files. Returns its status and what it says."""
    ran = run([kit() / "bin/rattle", step, *words(name), *more], folder)
    if ran.returncode == 2 and ran.stdout.startswith(UNKNOWN):
        sys.exit(f"this kit's prover takes other words than {os.path.relpath(__file__)} gives it: {ran.stdout.splitlines()[0]}")
    return ran.returncode, ran.stdout


if __name__ == "__main__":
    note_all()
