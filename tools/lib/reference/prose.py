"""Comments as pages show them: Markdown, with links to items."""

import re

import markdown

from reference.comments import LINK, MEANT, PATH

READER = markdown.Markdown(
    extensions=["fenced_code", "codehilite", "tables", "sane_lists"],
    extension_configs={"codehilite": {"guess_lang": False, "css_class": "code"}},
)


def shown(lines, address):
    """A comment as HTML. `address` tells where a path of an item leads, and None where it has no page."""
    text, meant = "\n".join(lines), {}
    for found in MEANT.finditer(text):
        meant[found[1]] = found[2]
    parts = re.split(r"(?ms)^(```.*?^```$)", MEANT.sub("", text))
    READER.reset()
    return READER.convert("".join(it if it.startswith("```") else LINK.sub(lambda found: linked(found, meant, address), it) for it in parts))


def linked(found, meant, address):
    """A link with its address: `[text](path)`, or [`path`] alone. What is in brackets and is no link stays."""
    text, target = found.groups()
    if target is None and not text.startswith("`"):
        return found[0]
    path = target or meant.get(text) or text.strip("`").removesuffix("()").removesuffix("!")
    if not PATH.fullmatch(path):
        return found[0]
    where = address(path)
    return f"[{text}](<{where}>)" if where else text
