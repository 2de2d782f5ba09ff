"""The wrong bodies of one crate, tried by the prover."""

import os
import re
import shutil
import tempfile
from pathlib import Path

import prover
from wrong.edits import functions_of, types_in
from wrong.holes import open_proofs

JUDGED = re.compile(r"(?m)^(?:fn|impl) (\S+): (.*)$")
ENDED = re.compile(r"(?m)^(?:only|logic|holes)=\S.*\s*\Z")
ERROR = re.compile(r"(?m)^.*\berror(?:\[[\w-]+\])?: .*$")
# A part that the prover was told to check, and doesn't know by this name.
UNKNOWN = re.compile(r"(?m)^rattle: error: (?:several functions are named `|`\w+` has no [\w ]+ `)([^`]+)`")
PLACED = re.compile(r"(?m)^(?:note: )?(?:\./)?(\S+?):(\d+):\d+: .*$")
# What is said of a goal of a function that stays open.
LEFT_OPEN = re.compile(r"it is not proved that|found no proof")
# What is said of a proof file that names something that the edit took away.
TAKEN_AWAY = re.compile(r"has no field|is not in scope|has no `|was not admitted")


class Verdict:
    """What a check of a crate, or of some of its functions, said."""

    def __init__(self, crate, status, said, is_open):
        self.crate, self.status, self.said, self.is_open = crate, status, said, is_open
        self.judged = dict(JUDGED.findall(said))
        self.ended = bool(ENDED.search(said))

    def names_of(self, place):
        """The functions that it judges and that may be this one: by their impl, whose name may go on, or by the module of the file."""
        if not place.function:
            head = "::".join(it for it in [self.crate, place.module()] if it)
            return [it for it in self.judged if it.startswith(f"{head}::")]
        if place.owner:
            ends = re.compile(rf".*::{re.escape(place.owner)}[^:]*::{place.function}")
            return [it for it in self.judged if ends.fullmatch(it)]
        return [it for it in self.judged if it == "::".join(it for it in [self.crate, place.module(), place.function] if it)]

    def refuses(self, place):
        """Whether it says of this function that it is not proved. One of several with its name suffices, since the others are as ever."""
        return any(map(self.is_refused, self.names_of(place)))

    def is_refused(self, function):
        """Whether it says that the function has no proof of its own. A function that calls one that is refused isn't proved either: where
        proofs are open, it is told what both stand on."""
        said = self.judged[function]
        own = f"`Rattle.{function.replace('::', '.proofs.', 1).replace('::', '.')}."
        is_only_refused = said == "not proved" or own in said
        return said.startswith("no proof: expected") or said.startswith("not proved") and (is_only_refused or not self.is_open)

    def notes_on(self, place, text):
        """What it says of places of this function, which stands in this text, and of its proof files: whether of these, and the words."""
        functions = functions_of(text, types_in(self.crate))
        lines = [[text.count("\n", 0, at) + 1 for at in it[2:]] for it in functions if it[:2] == (place.function, place.owner)]
        folder = f"{place.owner}/{place.function}/" if place.owner else f"proofs/{place.module().replace('::', '/')}/{place.function}/"
        for it in PLACED.finditer(self.said):
            is_proof = folder in it[1]
            if is_proof or it[1] == place.path and any(first <= int(it[2]) <= last for first, last in lines):
                yield is_proof, it[0]

    def leaves_open(self, place, text):
        """Whether it says that a goal of this function, which no answer is for, isn't proved: then what it calls doesn't matter."""
        return any(not is_proof and LEFT_OPEN.search(words) for is_proof, words in self.notes_on(place, text))

    def says_little(self, place, text):
        """Whether all that it says of this function, which stands in this text, is that a proof file names what the edit took away."""
        told = [is_proof and bool(TAKEN_AWAY.search(words)) for is_proof, words in self.notes_on(place, text)]
        return bool(told) and all(told)

    def why(self):
        """Why an edit that was tried alone is not refused."""
        error = ERROR.search(self.said)
        if self.status == 0:
            return "NOT REFUSED: all is proved with it"
        if not self.ended:
            return f"BAD: the check stopped before any proof: {error[0][:200] if error else self.said[-200:]}"
        return f"BAD: no function that it changes is refused: {error[0][:200] if error else ''}"


class Trial:
    """Edits of a crate, each tried over the work of those before it."""

    def __init__(self, crate, edits):
        self.crate, self.edits = crate, edits
        self.unknown = set()  # names that the prover doesn't know, or knows several times
        self.checks, self.little = 0, []

    def run(self):
        """Yields each edit with None if it is refused, and else with the reason."""
        for batch in self.batches():
            yield from self.tried(batch)

    def control(self):
        """Yields each edit with None if the functions that it changes are judged, and not refused, as they are; and else with the reason."""
        for batch in self.batches():
            places = {edit: edit.applied()[1] for edit in batch}
            verdict = self.check({}, set().union(*places.values()))
            for edit in batch:
                if not verdict.ended or not any(map(verdict.names_of, places[edit])):
                    yield edit, f"NOT JUDGED: {verdict.said[-200:]}"
                else:
                    is_refused = any(self.is_refused(verdict, it, {}) for it in places[edit])
                    yield edit, "REFUSED AS IT IS" if is_refused else None

    def batches(self):
        """Yields the edits in batches, and keeps the prover's work for the next one meanwhile."""
        with tempfile.TemporaryDirectory(prefix="wrong-bodies-") as self.kept:
            left = self.edits
            while left:
                batch, left = self.next_batch(left)
                yield batch

    def next_batch(self, edits):
        """As many of the edits as lie in different functions, and the rest. One that changes no function alone is a batch of its own."""
        texts, batch, used, rest = {}, [], set(), []
        for edit in edits:
            _, places = edit.applied()
            is_single = None in {it.function for it in places}
            if is_single and not batch:
                return [edit], [it for it in edits if it is not edit]
            names = {(it.path, it.function) for it in places}
            try:
                made = None if is_single or names & used else edit.applied(texts)[0]
            except ValueError:
                made = None
            if made:
                texts, batch, used = made, [*batch, edit], used | names
            else:
                rest.append(edit)
        return batch, rest

    def tried(self, batch, is_open=True):
        """Yields the verdict on each edit of a batch, tried in a copy in which what they call has open proofs, and in doubt in one that
        has all its proofs."""
        texts, places = {}, {}
        for edit in batch:
            texts, places[edit] = edit.applied(texts)
        verdict = self.check(texts, set().union(*places.values()), is_open)
        doubtful = []
        for edit in batch:
            is_refused = verdict.ended and verdict.status == 1 and any(self.is_refused(verdict, it, texts) for it in places[edit])
            says_little = is_refused and all(verdict.says_little(it, texts[it.path]) for it in places[edit])
            if is_refused and not (says_little and verdict.is_open):
                self.little += [edit] if says_little else []
                yield edit, None
            else:
                doubtful.append(edit)
        if doubtful and verdict.is_open:
            yield from self.tried(doubtful, False)
        elif doubtful and len(batch) == 1:
            yield batch[0], verdict.why()
        elif len(doubtful) == len(batch):
            yield from self.tried(batch[: len(batch) // 2], False)
            yield from self.tried(batch[len(batch) // 2 :], False)
        elif doubtful:
            yield from self.tried(doubtful, False)

    def is_refused(self, verdict, place, texts):
        """Whether the verdict on a copy with these texts is that this function isn't proved, whatever it calls."""
        text = texts.get(place.path) or (prover.CRATES / self.crate / place.path).read_text()
        return verdict.refuses(place) or verdict.leaves_open(place, text)

    def check(self, texts, places, is_open=True):
        """Has these functions checked in a copy of the crate that has these texts, and in which the proofs of all others are open, if only
        functions are changed."""
        closed = places if is_open and all(it.function for it in places) else None
        while True:
            parts = self.parts(places)
            verdict = self.called(texts, [it for part in parts for it in ("--only", part)], closed)
            strange = UNKNOWN.search(verdict.said)
            if not strange or strange[1] not in parts:
                return verdict
            self.unknown.add(strange[1])

    def parts(self, places):
        """What the prover is told to check: each function, or its module where the prover doesn't know it by a name of ours. Nothing, which
        means the whole crate, where there is no such module, or where something else than a function is changed, as a law of an impl."""
        parts = {self.part(it) for it in places}
        return [] if None in parts else sorted(parts)

    def part(self, place):
        if not place.function:
            return None
        module = place.module()
        names = [*self.special(place), "::".join(place.named(types_in(self.crate)))]
        names += ["::".join(it for it in [place.owner or module, place.function] if it), module]
        return next((it for it in names if it and it not in self.unknown), None)

    def special(self, place):
        """The name of a function of an impl for some arguments of its type, which the folder of its proof has, as `PlanarMesh+unit+A`."""
        proofs = prover.CRATES / self.crate / "proofs"
        found = [it for it in proofs.rglob(f"{place.owner}*/{place.function}") if it.parent.name.partition("+")[0] == place.owner]
        return [f"{it.parent.name}::{it.name}" for it in found if len(found) == 1 and "+" in it.parent.name]

    def called(self, texts, more, closed):
        """Calls the prover. If some places are closed, the proofs of all other functions are open."""
        self.checks += 1
        folder = prover.CRATES / self.crate
        with tempfile.TemporaryDirectory(prefix="wrong-bodies-") as room:
            for part in prover.SOURCES:
                if (folder / part).is_dir():
                    shutil.copytree(folder / part, f"{room}/{part}")
            for path, text in texts.items():
                Path(room, path).write_text(text)
            if closed:
                open_proofs(room, self.crate, closed)
                more = [*more, "--allow-holes"]
            more = [*more, "--jobs", "1", "--incremental", self.kept]
            verdict = Verdict(self.crate, *prover.call("check", self.crate, more, room), bool(closed))
        if os.environ.get("LOGS"):
            Path(os.environ["LOGS"], f"{self.crate}-{self.checks}.log").write_text(verdict.said)
        return verdict
