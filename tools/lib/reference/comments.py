"""What comments of the sources say, before anything is made of them."""

import re

LINK = re.compile(r"\[(`[^`\]]+`|[^\[\]`]+)\](?:\(\s*([^)\s]+)\))?(?![\[(])")
MEANT = re.compile(r"(?m)^\[([^\]]+)\]: (\S+)$")
PATH = re.compile(r"[A-Za-z_]\w*(?:::\w+)*")
DRAWING = re.compile(r"(?ms)^```.*?^```$")
SENTENCE = re.compile(r"(?<=\.)\s+(?=[A-Z`\[])")


def summary(lines):
    """The first paragraph of a comment."""
    return "\n".join(lines).strip().split("\n\n")[0].split("\n")


def paragraph(text, start):
    """The paragraph of a text that begins so, or nothing."""
    return next((it for it in text.split("\n\n") if it.startswith(start)), "")


def sentences(lines):
    """The sentences of a comment, each on one line, without drawings."""
    text = MEANT.sub("", DRAWING.sub("\n\n", "\n".join(lines)))
    return [" ".join(it.split()) for part in text.split("\n\n") for it in SENTENCE.split(part.strip()) if it.strip()]


def links(text, doc):
    """The paths that the links of a part of a comment lead to; what its names mean may stand elsewhere in the comment."""
    meant = dict(MEANT.findall("\n".join(doc)))
    for words, target in LINK.findall(text):
        if target or words.startswith("`"):
            path = target or meant.get(words) or words.strip("`").removesuffix("()").removesuffix("!")
            if PATH.fullmatch(path):
                yield path


def without_links(text):
    """A sentence with the words of its links alone."""
    return LINK.sub(lambda found: found[1] if found[2] or found[1].startswith("`") else found[0], text)


def first_sentence(lines):
    """The first sentence of a comment, or nothing where there is none."""
    return without_links(next(iter(sentences(summary(lines))), ""))
