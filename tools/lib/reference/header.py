"""bindings/c/dcel.h: the prototype of each function, and what its comments say. Whatever else reads the header may take its place."""

import re
import textwrap
from typing import NamedTuple

PART = re.compile(r"/\*(.*?)\*/|^(\w[^;{}()]*\b(\w+)\([^;{}]*\));", re.DOTALL | re.MULTILINE)
# Types, what runs in the header itself, and what the preprocessor reads.
PASSED = re.compile(r"^static inline .*?^\}|^(?:typedef )?(?:struct|enum)\b.*?\}[^;]*;|^#[^\n]*|^__attribute__[^;]*;", re.DOTALL | re.MULTILINE)
STATUSES = re.compile(r"typedef enum \{([^}]*)\} dcel_status;")
SECTION = re.compile(r"\s*---- (.*?) ----", re.DOTALL)


class Declared(NamedTuple):
    prototype: str
    comment: str
    section: str
    statuses: list


def laid_out(prototype):
    """A prototype in one line, or with a line for each parameter where it is long."""
    line = " ".join(prototype.split()) + ";"
    return line if len(line) <= 80 else re.sub(r"(\(|, )", lambda found: found[1].rstrip() + "\n    ", line)


class Header:
    def __init__(self, text):
        self.statuses = {name: int(number) for name, number in re.findall(r"(\w+) = (\d+)", STATUSES.search(text)[1])}
        self.head = self.plain(PART.search(text)[1])
        self.functions = dict(self.declared(PASSED.sub("", text)))

    def declared(self, text):
        """Each function with its comment, which it may share with those right above, and that of its section."""
        comment, section, end = "", "", 0
        for part in PART.finditer(text):
            if part[1] is None:
                comment = "" if end and "\n\n" in text[end : part.start()] else comment
                said = self.named(comment) or ([] if "DCEL_" in comment else self.named(section))
                yield part[3], Declared(laid_out(part[2]), comment, section, said)
                end = part.end()
            elif SECTION.match(part[1]):
                comment, section, end = "", self.plain(SECTION.sub(r"**\1**", part[1], count=1)), 0
            else:
                comment, end = self.plain(part[1]), 0

    def plain(self, comment):
        """A comment as Markdown."""
        text = textwrap.dedent("   " + comment.strip())
        return re.sub(r"\bDCEL_[A-Z_]+", r"`\g<0>`", re.sub(r"(?m)^(?=- )", "\n", text))

    def named(self, comment):
        """The statuses that a comment names, with or without what all names begin with."""
        found = re.findall(r"\b[A-Z][A-Z_]+\b", comment)
        return [it for it in self.statuses if it in found or it.removeprefix("DCEL_") in found]
