"""Figures that documents repeat: README's speeds are those of docs/SPEED.md and docs/DELAUNAY.md, and docs/CALLING.md has the sizes of the
packages."""

import re

from documents import unseen

# Each row of README's table of speeds: the page, the row of its table, and where in the row the time and the ratio are.
SPEEDS = {
    "walk around vertices": ("SPEED", "walk", (3, 5)),
    "insert a vertex into a triangle, room reserved": ("SPEED", "insert_reserved", (3, 5)),
    "flip an edge": ("SPEED", "flip", (3, 5)),
    "triangulate a million random points": ("DELAUNAY", "random 1,000,000", (0, 2)),
}
# A row of the table of packages: how the file's name begins and ends, and its size.
PACKAGE = re.compile(r"^\| `dcel-VERSION([^`]*)` \|.*\| ([\d,]+) kB \|$", re.MULTILINE)
# By how much a size may differ from what the page says: packages change a little with each commit.
NEAR = 0.03
ROW = re.compile(r"^\| ([^|]+) \| ([\d.,]+) ns\b[^|]* \| ([\d.]+) of \w+ \|$", re.MULTILINE)


def table_rows(text):
    """The numbers of each row of the tables of a page, by the row's name. A row that begins with a size belongs to the last name."""
    rows, name = {}, ""
    for line in text.splitlines():
        found = re.match(r"([a-z][a-z_ ]*?)? +((?:[\d,]+ +)?)((?:[\d.]+|-)(?: +(?:[\d.]+|-))+)$", line)
        if found:
            name = found[1] or name
            rows.setdefault(f"{name} {found[2]}".strip() if "," in found[2] else name, (found[2].split() if "," not in found[2] else []) + found[3].split())
    return rows


def speed_faults(readme, pages):
    """Rows of README's table that aren't what the pages say, and rows that aren't there."""
    said = {name: (time, ratio) for name, time, ratio in ROW.findall(readme)}
    for name, (page, row, (time, ratio)) in SPEEDS.items():
        numbers = table_rows(pages[page]).get(row)
        if numbers is None:
            yield f"docs/{page}.md has no row '{row}'"
        elif said.get(name) != (wanted := (f"{float(numbers[time]):.0f}", numbers[ratio])):
            yield f"'{name}' is {wanted[0]} ns and {wanted[1]} by docs/{page}.md, and README says {said.get(name)}"
    for name in sorted(said.keys() - SPEEDS.keys()):
        yield f"nothing compares '{name}'"


def size_faults(page, sizes):
    """Packages whose size isn't what the page says, rounded to kilobytes, and packages or rows that have none. `sizes` has the bytes of each
    file, by its name after the version."""
    said = {name: int(size.replace(",", "")) for name, size in PACKAGE.findall(page)}
    for name, size in sizes.items():
        if name not in said:
            yield f"docs/CALLING.md has no size of dcel-VERSION{name}, which has {size:,} bytes"
        elif abs(said[name] * 1000 - size) > NEAR * size:
            yield f"dcel-VERSION{name} has {size:,} bytes, and docs/CALLING.md says {said[name]:,} kB"
    for name in sorted(said.keys() - sizes.keys()):
        yield f"docs/CALLING.md has a size of dcel-VERSION{name}, and there is no such package"


def planted_figures():
    """Planted faults that aren't found, and faults found where there are none."""
    pages = {
        "SPEED": "walk  1.8 0.62 0.53 12.0 0.33 0.32\ninsert_reserved 28.1 1.4 1.05 199.5 1.48 0.79\nflip 20.8 1.2 1.1 203.2 1.82 1.72\n",
        "DELAUNAY": "random          100,000   310    573  0.54\n              1,000,000   355    625  0.57   1133\n",
    }
    table = "\n".join(
        f"| {name} | {time} ns a thing | {ratio} of spade |"
        for name, time, ratio in zip(SPEEDS, ("12", "200", "203", "355"), ("0.32", "0.79", "1.72", "0.57"), strict=True)
    )
    packages = "| `dcel-VERSION-py3.whl` | Python | 2.14 | 1,214 kB |\n| `dcel-VERSION.tgz` | JavaScript | none | 98 kB |\n"
    sizes = {"-py3.whl": 1_214_100, ".tgz": 98_400}
    return [f"in sound figures is found {it}" for it in (*speed_faults(table, pages), *size_faults(packages, sizes))] + unseen(
        {
            "another size": size_faults(packages.replace("1,214", "1,264"), sizes),
            "a package that is missing": size_faults(packages.replace("py3", "py4"), sizes),
            "a size of no package": size_faults(packages, {"-py3.whl": 1_214_100}),
            "another time": speed_faults(table.replace("355", "356"), pages),
            "another ratio": speed_faults(table.replace("0.57", "0.58"), pages),
            "a row that is missing": speed_faults(table.replace("flip an edge", "flip edges"), pages),
            "a page without the row": speed_faults(table, {**pages, "DELAUNAY": ""}),
        }
    )
