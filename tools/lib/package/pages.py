"""Pages of `man` for the programs: by help2man from what a program says of itself, and for dcel_run from docs/LINES.md, which says more."""

import os
import re
import time

import linking

# In place of what help2man would ask the program for.
HEAD = """\
% DCEL_RUN 1 "{date}" "dcel_run {version}" "User Commands"

# NAME
dcel_run - answers lines about a mesh

# SYNOPSIS
**dcel_run** [*FILE*]

# DESCRIPTION
"""


def page(program, run):
    """The page of a program. `run` gives what a command writes."""
    if program.name == "dcel_run":
        return run("go-md2man", input=lines_page())
    about = run(program, "--help").splitlines()[0].partition(". ")[0]
    return run("help2man", "--no-info", f"--name={about[0].lower()}{about[1:]}", program)


def lines_page():
    """docs/LINES.md as a page, with a list in place of each table, since a terminal has no room for six columns."""
    _, text = linking.plain(linking.ROOT / "docs/LINES.md").split("\n", 1)
    date = time.strftime("%Y-%m-%d", time.gmtime(int(os.environ["SOURCE_DATE_EPOCH"])))
    text = re.sub(r"(?:^\|.*\n)+", listed, text, flags=re.M).replace("\n## ", "\n# ")
    return HEAD.format(date=date, version=linking.VERSION) + text


def listed(table):
    """The rows of a table as items: the first column, and below it the second, and the others behind their titles."""
    titles, _, *rows = [[it.strip() for it in line.strip("|").split("|")] for line in table[0].strip().splitlines()]
    items = []
    for name, does, *others in rows:
        told = "; ".join([does, *(f"{title} {it}" for title, it in zip(titles[2:], others))])
        items.append(f"{name}\n: {told}\n\n")
    return "".join(items)
