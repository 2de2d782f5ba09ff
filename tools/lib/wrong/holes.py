"""A hole in the place of proofs: what a wrong body calls is believed by its contract, and not proved again. Its body isn't read either."""

import re
from pathlib import Path

from wrong.edits import Place, code_of, functions_of, types_in

# The files of a function's proof, and what stands there instead.
PROOF = ("Answers.antt", "Invariants.antt", "Proof.antt")
OPEN = """use Rattle.{crate}.proofs.Believed.{{believed}}
use Rattle.{module}.Statement.{{statement}}

pub {name}_spec : {{M : Type 1}} → statement M
{name}_spec = believed
"""
# All of them stand on one hole, since the prover prints the goal of each.
BELIEVED = """pub believed {ℓ} : {A : Type ℓ} → A
believed = ?
"""


def places_in(room, types):
    """The functions of a copy of a crate in this folder, which declares these types."""
    for file in sorted(Path(room, "src").rglob("*.rt")):
        for name, owner, _, _ in functions_of(file.read_text(), types):
            yield Place(str(file.relative_to(room)), name, owner)


def body_of(code, begin, end):
    """Where the body of a function begins, behind its brace: below its clauses the brace has a line of its own, indented as the function is.
    None where there is no such place, or where the body gives the result its type."""
    indent = re.match(r"[ \t]*", code[begin:])[0]
    brace = re.compile(rf"(?m)^{indent}\{{$").search(code, begin, end)
    if not brace:
        brace = re.compile(r"(?m)\{$").search(code, begin, end)
        if not brace or re.search(r"\b(requires|ensures|ghost)\b", code[begin : brace.start()]):
            return None
    return None if "-> impl " in code[begin : brace.start()] else brace.end()


def hollow(text, types, closed):
    """The text of a file whose crate declares these types, in which all functions but the closed ones never return, on as many lines. What
    calls them rests on their contracts, and the borrow checker has less to do. Functions of traits stay as they are: the folder of such a
    one may have another name than is known here, and with its body it needs no hole."""
    found = functions_of(text, types)
    code = code_of(text)
    for name, owner, begin, end in reversed(found):
        is_declared = any(begin < it[2] < end for it in found)
        is_kept = name in closed or is_declared or (owner and owner not in types)
        body = None if is_kept else body_of(code, begin, end)
        lines = text.count("\n", body, end) if body else 0
        if lines > 1:
            text = f"{text[:body]}\nloop {{}}" + "\n" * (lines - 1) + text[end:]
    return text


def open_proofs(room, crate, closed):
    """Leaves the proofs open of all functions of this copy but those at these places."""
    types, closed = types_in(crate), {(it.path, it.function) for it in closed}
    for place in places_in(room, types):
        if (place.path, place.function) not in closed:
            parts = ["proofs", *place.named(types)]
            folder = Path(room, *parts)
            folder.mkdir(parents=True, exist_ok=True)
            for file in PROOF:
                (folder / file).unlink(missing_ok=True)
            (folder / "Proof.antt").write_text(OPEN.format(crate=crate, module=".".join([crate, *parts]), name=place.function))
    for file in Path(room, "src").rglob("*.rt"):
        here = str(file.relative_to(room))
        file.write_text(hollow(file.read_text(), types, {name for path, name in closed if path == here}))
    Path(room, "proofs/Believed.antt").write_text(BELIEVED)
    with Path(room, "proofs/Lib.antt").open("a") as file:
        file.write("\nmod Believed\n")
