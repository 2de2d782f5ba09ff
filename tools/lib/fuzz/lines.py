"""What a line says, what it asks, and what it is answered, as docs/LINES.md has it."""

import re
from collections import defaultdict
from pathlib import Path
from typing import NamedTuple

from . import words

ROOT = Path(__file__).resolve().parents[3]
PAGE = (ROOT / "docs/LINES.md").read_text()
NAMES = dict(re.findall(r"\b(\d+) ([A-Z][A-Za-z]+)[,.]", PAGE))
NUMBER = re.compile(r"0|[1-9][0-9]*")
DATUM = re.compile(r"0|-?[1-9][0-9]*")


class Row(NamedTuple):
    """A row of the page: the items behind a word, the words of its replies, what a line adds of vertices, edges and faces, the numbers of its
    refusals, and the calls that do the same. Each that is added is a number, and whether as many as half edges in the line's list are added too.
    A query adds nothing."""
    items: list
    replies: set
    adds: list | None
    refusals: list
    calls: set


def words_in(reply):
    """The words of a reply, each number left out, and that of a face too."""
    return {re.sub(r"\d+", "", it) for it in reply.split() if not re.fullmatch(r"-?\d+|[A-Z]", it)}


def row(items, columns, above):
    """The row of a word with these items, and these columns behind them, below rows with these replies."""
    _, reply, *adds, refusals, calls = columns.split(" | ")
    said = above if reply.startswith("the same") else {word for text in re.findall(r"`([^`]*)`", reply) for word in words_in(text)}
    return Row(items.split(), said, added_by(*adds) if adds else None, re.findall(r"\d+", refusals), set(re.findall(r"`(\w+)`", calls)))


def added_by(adds):
    """What a column says that a line adds of vertices, edges and faces."""
    counts = [re.search(rf"(n )?(- )?(\d+) {kind}", adds) for kind in ("vert", "edge", "face")]
    return [(int((it[2] or "").strip() + it[3]), it[1] is not None) if it else (0, False) for it in counts]


def rows():
    """The rows of the page by their words."""
    found, above = {}, set()
    for word, items, columns in re.findall(r"(?m)^\| `(\w+)([^`]*)` \| (.*) \|$", PAGE):
        found[word] = row(items, columns, above)
        above = found[word].replies
    return found


ROWS = rows()


def in_c():
    """The words whose calls C has, and so what is built on them."""
    header = (ROOT / "bindings/c/dcel.h").read_text()
    return [word for word, row in ROWS.items() if row.calls <= set(re.findall(r"\bdcel_(\w+)\(", header))]


def read(line):
    """The word and what stands after it, or None where the line is bad."""
    word, *items = line.split(" ")
    if len(line.encode()) > 4096 or word not in ROWS:
        return None
    given = []
    for kind in ROWS[word].items:
        if kind.endswith(".."):
            count = next((place for place, item in enumerate(items) if not is_number(item)), len(items))
            given.append([int(item) for item in items[:count]])
            items = items[count:]
        elif not items or not is_item(kind, items[0]):
            return None
        else:
            given += [int(items[0])] if kind != "/" else []
            items = items[1:]
    return None if items else (word, given)


def is_item(kind, item):
    return item == "/" if kind == "/" else (is_datum if kind == "D" else is_number)(item)


def is_number(item):
    return NUMBER.fullmatch(item) is not None and int(item) < 2 ** 32


def is_datum(item):
    return DATUM.fullmatch(item) is not None and -2 ** 63 <= int(item) < 2 ** 63


def added(word, given):
    """How many vertices, edges and faces a line adds."""
    listed = next((len(it) for it in given if isinstance(it, list)), 0)
    return tuple(number + listed * is_more for number, is_more in ROWS[word].adds or [(0, False)] * 3)


def answer(mesh, line, limit=2 ** 31):
    """The reply to a line, which may edit the mesh, where no count of the mesh may be above the limit."""
    request = read(line)
    if request is None:
        return "bad line"
    word, given = request
    for number in ROWS[word].refusals:
        if is_refused(mesh, word, given, int(number), limit):
            return f"refused {number} {NAMES[number]}"
    return getattr(words, word)(mesh, *given) or "ok"


def outcome(line, reply):
    """A line's word with how it was answered: `done`, or the number of its refusal. None where the line is bad."""
    request = read(line)
    return request and (request[0], reply.split()[1] if reply.startswith("refused ") else "done")


def outcomes(chosen=ROWS):
    """The outcomes that the page tells of these words."""
    return {(word, how) for word in chosen for how in ["done", *ROWS[word].refusals]}


def told_of(word, how):
    """An outcome in words."""
    return f"{word} {'carried out' if how == 'done' else f'refused as {how}'}"


def is_refused(mesh, word, given, number, limit):
    """Whether a line that no lesser number refuses is refused by this one. The model never lacks memory."""
    if number == 19:
        counts = (0, 0, 0) if word == "triangle" else mesh.sizes()
        return any(more and count + more > limit for count, more in zip(counts, added(word, given)))
    numbers = defaultdict(list)
    for kind, it in zip((kind for kind in ROWS[word].items if kind != "/"), given):
        numbers[kind[0]] += it if isinstance(it, list) else [it]
    return number != 20 and words.REFUSED.get((number, word), words.REFUSED.get(number))(mesh, numbers)
