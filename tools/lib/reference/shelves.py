"""The shelves of crates: comments of crates.txt, and the headings of docs/ARCHITECTURE.md."""

import re

ITEM = re.compile(r"- ((?:`\w+`(?:, )?)+)")


def shelves_of(crates):
    """The shelves of crates.txt with their crates. The name of a shelf is what the comment above its crates says up to a colon or full stop."""
    shelves, name, is_comment = [], "", False
    for line in crates.splitlines():
        if line.startswith("#") and not is_comment:
            name = re.split("[:.]", line.strip("# "), maxsplit=1)[0]
        is_comment = line.startswith("#")
        if crate := re.match(r"(\w+)[^#]*:", line):
            if name or not shelves:
                shelves.append((name, []))
                name = ""
            shelves[-1][1].append(crate[1])
    return shelves


def shelves_on(page):
    """The shelves of a page's section "Crates", with the crates of their list items."""
    section = re.search(r"(?ms)^## Crates$(.*?)(?=^## |\Z)", page)
    shelves = []
    for line in section[1].split("\n") if section else ():
        if line.startswith("### "):
            shelves.append((line[4:].strip(), []))
        elif item := ITEM.match(line):
            shelves = shelves or [("", [])]
            shelves[-1][1].extend(re.findall(r"\w+", item[1]))
    return shelves


def shelf_faults(crates, page):
    """Where a page doesn't list the crates as crates.txt does, by shelf and in order."""
    wanted, found = shelves_of(crates), shelves_on(page)
    faults = [f"crates.txt has '{it[0]}' on no shelf" for name, it in wanted if not name]
    if (names := [it for it, _ in wanted]) != (told := [it for it, _ in found]):
        faults.append(f"its shelves are {told}, and those of crates.txt {names}")
    places = [(crate, name) for name, listed in found for crate in listed]
    known = {crate: name for name, listed in wanted for crate in listed}
    faults += [f"{crate} is no crate of crates.txt" for crate, _ in places if crate not in known]
    for crate, name in known.items():
        at = [it for other, it in places if other == crate]
        if len(at) != 1:
            faults.append(f"{crate} is in {len(at)} list items of the section Crates, and not in one")
        elif names == told and at[0] != name:
            faults.append(f"{crate} is on the shelf '{at[0]}', and in crates.txt on '{name}'")
    if not faults:
        faults = [f"{it} is where crates.txt has {crate}" for (it, _), crate in zip(places, known) if it != crate][:1]
    return faults
