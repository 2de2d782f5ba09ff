"""What is said of words that no definition of the project explains: signs, and words of the kit."""

import functools
import re
from html import escape
from pathlib import Path

from reference import prose

TEXT = Path(__file__).resolve().parent / "looks/signs.md"
URL = "signs.html"
ROW = re.compile(r"(?m)^- ((?:`[^`]+`(?:, )?)+): (.*)\n")


def names(row):
    return re.findall(r"`([^`]+)`", row[1])


@functools.cache
def said():
    """What the page says of each sign."""
    return {name: row[2].replace("`", "") for row in ROW.finditer(TEXT.read_text()) for name in names(row)}


def sign_of(word):
    """The sign of a word of the kit: of an operator without the places round it, of a member without its type."""
    return word.name.replace("◌", "").split(".")[-1]


def body():
    """The page, with a place for each sign."""
    for part in re.split(r"((?:^- .*\n)+)", TEXT.read_text(), flags=re.MULTILINE):
        rows = list(ROW.finditer(part))
        yield "<dl class=list>" if rows else prose.shown(part.split("\n"), str)
        for row in rows:
            terms = " ".join(f'<code id="{escape(it)}">{escape(it)}</code>' for it in names(row))
            yield f"<dt>{terms}</dt><dd>{prose.shown([row[2]], str)}</dd>"
        yield "</dl>" if rows else ""
