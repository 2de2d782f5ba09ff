"""The numbers that documents give of what contracts rest on."""

import re

from reference.resting import Rests

ROW = re.compile(r"(?m)^\| `([\w:]+)` \| (.*) \| (\d+) \| (\d+) \| (\d+) \| (\d+) \|$")
COMMAND = re.compile(r"`tools/believe ([\w:]+)`")
SAID = re.compile(r"([\d,]+)\s+definitions[^.]*?([\d,]+)\s+lines")


def counts(part):
    return [len(part), sum(it.size for it in part)]


def believed(root):
    """The contracts that docs/PROVED.md counts, in its order, each with what it promises."""
    return [found.group(1, 2) for found in ROW.finditer((root / "docs/PROVED.md").read_text())]


def count_faults(project, text):
    """Numbers of a document that aren't those that the tool counts: those of a table's row, and those beside a command to count them."""
    for name, _, *told in ROW.findall(text):
        yield from fault(project, name, [int(it) for it in told])
    for paragraph in text.split("\n\n"):
        if (command := COMMAND.search(paragraph)) and (said := SAID.findall(paragraph)):
            yield from fault(project, command[1], [int(it.replace(",", "")) for pair in said for it in pair])


def fault(project, name, told):
    if len(project.calls(name)) != 1:
        yield f"`tools/believe {name}` names {len(project.calls(name))} calls"
        return
    found = counted(project, name)
    if told != found[: len(told)]:
        yield f"{name} rests on {found}, definitions and lines, first of what it says and then of what values are read as, and not on {told}"


def counted(project, name):
    rests = Rests(project.calls(name)[0])
    return [*counts(rests.meaning), *counts(rests.values)]


def recounted(project, text):
    """A document with the numbers in its rows as the tool counts them."""
    return ROW.sub(lambda row: f"| `{row[1]}` | {row[2]} | {' | '.join(map(str, counted(project, row[1])))} |", text)
