"""What pages say of the library for C: as dcel.h has it."""

import linking
from pygments.lexers import CLexer

from reference import prose
from reference.header import Header


class Exports:
    def __init__(self, project):
        self.header = Header((project.root / "bindings/c/dcel.h").read_text())
        self.refusals = list(project.crate("dcel_commands").find(("refusal", "Refusal")).inside.values())
        self.constants = {name: it for crate in ("dcel_triangulations", "dcel_c") for name, it in project.crate(crate).find(("status",)).items.items()}

    def has(self, item):
        """Whether an item is a function for C."""
        return item.home.crate in linking.CRATES and item.kind == "fn" and item.name.startswith("dcel_")

    def show(self, page, name):
        """A function's prototype, what is said of it, and the statuses that it returns. Returns whether the header has it."""
        if it := self.header.functions.get(name):
            page.add(page.code(it.prototype, lexer=CLexer), prose.shown(it.comment.split("\n"), str))
            self.show_statuses(page, it.statuses)
            page.add(f"<h3>Its part of dcel.h</h3>{prose.shown(it.section.split(chr(10)), str)}" if it.section else "")
            page.add(f'<p><a href="{page.to("dcel_c/index.html#all")}">What holds for all calls</a></p>')
        return it is not None

    def show_all(self, page):
        """What is said of all functions, and all statuses."""
        page.add("<h2 id=all>What dcel.h says of all calls</h2>", prose.shown(self.header.head.split("\n"), str), "<h3>Statuses</h3>")
        self.show_statuses(page, self.header.statuses)

    def show_statuses(self, page, names):
        """What statuses mean, by the comments of the library's constants and of the refusals."""
        page.add("<dl class=list>" if names else "")
        for name in names:
            number = self.header.statuses[name]
            item = self.constants.get(name.removeprefix("DCEL_")) or self.refusals[number - 1]
            page.add(f"<dt><code>{name}</code> <small>{number}</small></dt><dd>{prose.shown(item.doc, str)}</dd>")
        page.add("</dl>" if names else "")
