"""What was refused before, by sums of all that the verdict rested on: a file without contents for each edit."""

import functools
import hashlib
import os
from pathlib import Path

import prover

FOLDER = Path(os.environ.get("XDG_CACHE_HOME") or Path.home() / ".cache") / "spade_dcel-wrong-bodies"
TOOL = [Path(prover.__file__), *sorted(Path(__file__).parent.glob("*.py"))]


@functools.cache
def sum_of(crate):
    """A sum of the kit, of this tool, and of the files of the crate; of those below it without their proofs, since a contract that a wrong
    body breaks stands in their sources and specs."""
    found = hashlib.sha256(prover.version())
    for file in TOOL:
        found.update(file.read_bytes())
    for name in [crate, *prover.below(crate)]:
        found.update(repr((name, prover.crates()[name])).encode())
        for file in prover.sources(name):
            path = file.relative_to(prover.CRATES)
            if name == crate or path.parts[1] != "proofs":
                found.update(repr((str(path), file.read_bytes())).encode())
    return found.digest()


class Kept:
    """The edits of a crate that were refused."""

    def __init__(self, crate):
        self.crate = crate

    def file(self, edit):
        return FOLDER / hashlib.sha256(sum_of(self.crate) + repr(edit.pairs).encode()).hexdigest()

    def has(self, edit):
        return self.file(edit).is_file()

    def keep(self, edit):
        FOLDER.mkdir(parents=True, exist_ok=True)
        self.file(edit).touch()
