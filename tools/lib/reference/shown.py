"""Whether pages have what is public in the sources, told by the lines of these alone."""

import html
import re

PUBLIC = re.compile(r"pub (?:const |unsafe |extern \"C\" )*(?:fn|struct|enum|trait|type|const|static) (\w+)")
REEXPORT = re.compile(r"pub use ([^;]+);", re.DOTALL)


def squeezed(text):
    """The letters and digits of a text."""
    return re.sub(r"\W+", "", text)


def said(lines):
    """What a comment says, without addresses of links."""
    text = re.sub(r"(?m)^\[[^\]]+\]: \S+$|^```\w*$", "", "\n".join(lines))
    return squeezed(re.sub(r"\]\(\s*[^)\s]+\)", "]", text))


def public_modules(folder):
    """The files of a crate, each with whether all modules down to it are public."""

    def inner(path, beside, is_public):
        yield path, is_public
        for found in re.finditer(r"(?m)^(pub )?mod (\w+);", path.read_text()):
            below = beside / f"{found[2]}.rt"
            yield from inner(below, beside / found[2], is_public and bool(found[1]))

    yield from inner(folder / "src/lib.rt", folder / "src", True)


def lines_of(path):
    """What is `pub` in a file: its line, the type that it is a call of, if it is one, its name and the comment above it."""
    owner, comment, is_test = "", [], False
    for number, line in enumerate(path.read_text().split("\n"), 1):
        text = line.strip()
        if found := re.match(r"(?:unsafe )?impl\b(.*)", line):
            head = re.sub(r"^<[^>]*(?:<[^>]*>[^>]*)*>", "", found[1]).strip()
            owner = "" if re.search(r"\bfor\b", found[1]) else re.match(r"\w*", head)[0]
        if text.startswith("///"):
            comment.append(text[3:].removeprefix(" "))
        elif text.startswith(("#", "//")):
            is_test |= text.startswith("#") and "test" in text
        else:
            found = PUBLIC.match(text)
            if found and not is_test and line.startswith(("pub", "    pub")):
                yield number, "" if line.startswith("pub") else owner, found[1], comment
            comment, is_test = [], False


def public_items(folder):
    """What a library shows: where each stands, the type that it is a call of, its name and the comment above it."""
    files = list(public_modules(folder))
    passed_on = [set(re.findall(r"\w+", found)) for path, _ in files for found in REEXPORT.findall(path.read_text())]
    lines = [(path, is_public, *line) for path, is_public in files for line in lines_of(path)]

    def is_item(path, is_public, owner, name):
        return not owner and (is_public or any({path.stem, name} <= it for it in passed_on))

    names = {name for path, is_public, _, owner, name, _ in lines if is_item(path, is_public, owner, name)}
    for path, is_public, number, owner, name, comment in lines:
        if owner in names or is_item(path, is_public, owner, name):
            yield f"{path.name}:{number}", owner, name, comment


def faults(project, pages):
    """Public items without a comment, and those that aren't on a page with theirs. `pages` is the text of each page by its address."""
    texts = {url: squeezed(html.unescape(re.sub(r"<[^>]*>", "", text))) for url, text in pages.items()}
    count = 0
    for library in project.libraries():
        for place, owner, name, comment in public_items(project.root / "crates" / library.crate):
            count += 1
            if not comment:
                yield f"{library.crate}/{place}: {name} has no comment"
            ends = f"/{owner or name}.html"
            its = [text for url, text in texts.items() if url.startswith(f"{library.crate}/") and url.endswith(ends)]
            if not any(squeezed(name) in text and said(comment) in text for text in its):
                yield f"{library.crate}/{place}: {name} is on no page with its comment"
    if count < 100:
        yield f"only {count} public items are found"
