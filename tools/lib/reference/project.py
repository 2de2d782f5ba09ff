"""The project's crates, and the kit's behind them: what a path leads to."""

import functools
import re
import subprocess
from pathlib import Path
from typing import NamedTuple

from reference.sources import Source
from reference.specs import Brought, SpecFile
from reference.terms import without_comments

MADE = {"declared", "contracts"}


class Kit(NamedTuple):
    """A word of the kit, by the name that the project gives it and the module that it comes from."""

    name: str
    module: str
    is_constructor: bool = True

    def member(self, name):
        return Kit(f"{self.name}.{name}", self.module)


class Module(NamedTuple):
    """A module of definitions that is brought in under a name."""

    project: object
    parts: tuple

    def member(self, name):
        return self.project.find((*self.parts, name))


class Project:
    def __init__(self, root):
        self.root = root
        self.crates = [line.split(":")[0].split()[0] for line in (root / "crates.txt").read_text().splitlines() if ":" in line.split("#")[0]]
        self.sources, self.specs, self.found = {}, {}, {}

    @functools.cached_property
    def kit(self):
        """The folder of the kit's sources, or None where there is no kit."""
        try:
            page = subprocess.run(["rt", "doc"], capture_output=True, text=True, check=True).stdout.strip()
        except (OSError, subprocess.CalledProcessError):
            return None
        return Path(page).parent / "rattle"

    def libraries(self):
        """The crates that programs may call, those of tests left out."""
        libraries = [it for it in self.crates if (self.root / "crates" / it / "src/lib.rt").is_file()]
        return [self.crate(it) for it in libraries if not it.startswith("dcel_tests_")]

    @functools.cached_property
    def everywhere(self):
        """The names that every file has."""
        return set(re.findall(r"\w+", text_of(self.kit / "std/src/prelude.rt")))

    @functools.cached_property
    def kit_fields(self):
        """The names that are fields of something in the kit."""
        paths = [it for name in ("core", "std", "std_alloc", "std_heap") for it in (self.kit / name).glob("s*/**/*.*t")]
        paths += (self.kit / "logic").glob("Denote/*.antt")
        return {name for it in paths for name in re.findall(r"(?m)^\s*(?:pub )?(?:ghost )?([\w-]+)\s*:", it.read_text())}

    def kit_has_field(self, name):
        """Whether the kit has a field of this name; without a kit nothing is known of that."""
        return self.kit is None or name in self.kit_fields

    def calls(self, name):
        """The public calls that a name, or as much of a path as is given, means: those that promise nothing only where no other does. A program
        is among the crates if the path begins with it."""
        *outer, last = name.split("::")
        crates = [self.crate(outer[0])] if outer and (self.root / "crates" / outer[0] / "src/main.rt").is_file() else self.libraries()
        named = [it for crate in crates for it in public_calls(crate) if it.name == last]
        found = [it for it in named if is_part(outer, it.path.split("::")[:-1])]
        return [it for it in found if any(clause.kind.startswith("ensures") for clause in it.clauses)] or found

    def brought(self):
        return Brought(self)

    def crate(self, name):
        """The module at the root of a crate; a word of the kit for a crate of the kit, and for what every file has; or None."""
        if name not in self.crates:
            return Kit(name, "std") if not self.kit or name in self.everywhere or (self.kit / name).is_dir() else None
        if name not in self.sources:
            source = self.root / "crates" / name / "src"
            path = next(it for it in (source / "lib.rt", source / "main.rt") if it.is_file())
            self.sources[name] = Source(self, name, (), path, True)
            self.sources[name].load()
            self.sources[name].attach_all()
        return self.sources[name]

    def spec(self, parts):
        """The file of definitions of a module, or None."""
        if parts not in self.specs:
            _, crate, *inner = parts
            folder = self.root.joinpath("crates", crate, *inner)
            path = next((it for it in (folder.with_suffix(".antt"), folder / "Lib.antt") if it.is_file()), None)
            self.specs[parts] = SpecFile(self, path, parts) if path else None
        return self.specs[parts]

    def specs_of(self, crate):
        """The files of a crate that have definitions."""
        folder = self.root / "crates"
        for path in sorted(folder.glob(f"{crate}/specs/**/*.antt")):
            parts = ("Rattle", *path.relative_to(folder).with_suffix("").parts)
            if (spec := self.spec(parts[:-1] if parts[-1] == "Lib" else parts)).items:
                yield spec

    def module(self, parts):
        return Module(self, tuple(parts))

    def find(self, parts):
        """What a path names, the name last; None if it names nothing."""
        if parts not in self.found:
            self.found[parts] = self.search(parts)
        return self.found[parts]

    def search(self, parts):
        if parts[0] != "Rattle":
            return Kit(parts[-1], ".".join(parts[:-1]))
        if parts[1] not in self.crates:
            return self.find_in_kit(parts)
        if parts[3] in MADE:
            return self.find_in_source(self.crate(parts[1]), parts[4:])
        for used in range(len(parts) - 1, 2, -1):
            if spec := self.spec(parts[:used]):
                target = spec.member(parts[used])
                for name in parts[used + 1 :]:
                    target = target.member(name) if hasattr(target, "member") else None
                return target
        return None

    def find_in_source(self, at, names):
        """An item of the sources, by a path of what is made of them."""
        for i, name in enumerate(names):
            if name.startswith(("The", "the_")):
                rest = [it for it in names[i + 1 :] if name != "TheInside"]
                return at.member(rest[0]) if rest and hasattr(at, "member") else at
            inner = at.member(name)
            if inner is None:
                return at if i + 1 == len(names) and getattr(at, "name", "") == name else None
            at = inner
        return at

    def find_in_kit(self, parts):
        """A word of the kit. Where the kit is there, its file has to have the word."""
        word = Kit(parts[-1], ".".join(parts[1:-1]))
        if not self.kit or MADE & set(parts):
            return word
        for used in range(len(parts) - 1, 3, -1):
            path = self.kit.joinpath(*parts[1:used]).with_suffix(".antt")
            if path.is_file():
                return word if parts[-1] in written_in(path) else None
        passed_on = re.search(rf"(?m)^pub use (Rattle\.\S+\.{parts[3]})$", text_of(self.kit.joinpath(*parts[1:3], "Lib.antt")))
        return word if passed_on and self.find_in_kit((*passed_on[1].split("."), *parts[4:])) else None


@functools.cache
def text_of(path):
    return path.read_text() if path.is_file() else ""


@functools.cache
def written_in(path):
    return set(re.split(r"[\s{},]+", without_comments(text_of(path))))


def is_part(names, path):
    """Whether these names stand in a path, in this order."""
    left = iter(path)
    return all(it in left for it in names)


def public_calls(source):
    """The public calls of a module and of its types, and those of the modules inside it."""
    for item in source.items.values():
        yield from (it for it in ([item] if item.kind == "fn" else item.calls.values()) if it.kind == "fn" and it.public)
    for child in source.children.values():
        yield from public_calls(child)
