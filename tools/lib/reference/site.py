"""The reference as a folder of pages."""

import json
import re
import shutil
from functools import partial
from html import escape
from pathlib import Path
from urllib.parse import quote

from reference import prose, signs
from reference.comments import first_sentence, summary
from reference.counts import believed
from reference.drawings import Drawings
from reference.examples import SHOWN, examples
from reference.exports import Exports
from reference.pages import Page, marked, sentence, sentences
from reference.places import Places
from reference.project import Kit
from reference.resting import Rests, Scope, clause_words, near
from reference.shelves import shelves_of
from reference.sources import Item, Source
from reference.terms import words_of

KINDS = {"fn": "calls", "struct": "types", "enum": "types", "type": "types", "trait": "traits", "const": "constants", "static": "constants"}
LOOKS = Path(__file__).resolve().parent / "looks"
# Where a reader begins.
START = {
    "Make a mesh": ["spade_dcel::operations::new_triangle", "dcel_exchange::from_faces", "spade_dcel::operations::from_links"],
    "Edit it": ["spade_dcel::operations", "dcel_convenience::insert_vertex", "dcel_convenience::remove_vertex"],
    "Walk on it": ["spade_dcel::handles::VertexHandle", "spade_dcel::handles::DirectedEdgeHandle", "spade_dcel::handles::FaceHandle"],
    "Triangulate points": ["dcel_delaunay::Triangulation", "dcel_delaunay::triangulate"],
    "Keep edges as constraints": ["dcel_constrained::ConstrainedTriangulation"],
    "Refine triangles": ["dcel_refinement::refine"],
}


def breaking(name):
    """A name that may go on in the next line behind each of its words."""
    return name.replace("_", "_<wbr>")


def unsaid(clause, words):
    """The signs of a clause of which nothing is said, or all of it where nothing is said of any word."""
    names = [it.target.name for it in words if isinstance(it.target, Kit) and not sentence(it.target)]
    return names if sentences(clause.text, words) else [*names, "the whole clause"]


class Site:
    def __init__(self, project):
        self.project, self.places, self.faults, self.names, self.files = project, Places(project), [], [], {}
        self.rests = {it: Rests(it) for it in self.calls()}
        for call, rests in self.rests.items():
            self.faults += [f"{self.place(home)}: {name} resolves nowhere, says {call.path}" for home, name in rests.lost]
            self.places.inner |= {it for it in rests.items if isinstance(it, Item)}
        self.drawings, self.exports = Drawings(self.places), Exports(project)
        self.examples, faults = examples(project, SHOWN)
        self.faults += faults

    def calls(self):
        """Each call that has a page, or a place on one."""
        for item in self.places.items:
            yield from [item] if item.kind == "fn" else []
            yield from (it for it in item.calls.values() if it.public)
            yield from (it for block in item.impls if block.name not in ("", "Model") for it in block.calls.values())

    def place(self, item):
        return f"{item.home.path.relative_to(self.project.root)}:{item.line}"

    def page(self, url):
        return Page(self.places, url, self.faults)

    def keep(self, page, title, crumbs):
        self.files[page.url] = page.written(title, [("reference", "index.html"), *crumbs])

    def note(self, name, kind, address, comment):
        """Keeps what search finds: a name, or words of the first sentence that is said of it."""
        self.names.append([name, kind, address, first_sentence(comment)])

    # What pages say of one thing.

    def clauses(self, page, title, clauses, words, records):
        if clauses:
            page.add(f'<h3>{title} <a class=how href="{page.to(signs.URL)}">how to read this</a></h3>', "<dl class=clauses>")
            for it in clauses:
                named = words(it)
                said = "".join(f"<li><code>{escape(', '.join(of))}</code>: {marked(text)}" for text, of in sentences(it.text, named).items())
                page.add(f"<dt>{escape(it.name)}</dt>", f"<dd><pre>{page.term(it.text, named, records)}</pre><ul class=said>{said}</ul></dd>")
            page.add("</dl>")

    def call(self, page, call, heading, anchor=None):
        """A call: its signature, what is said of it, what it asks and gives, and what that rests on."""
        scope, rests = Scope(call), self.rests[call]
        page.add(f'<section id="{anchor}">' if anchor else "<section>", f"<{heading}>{breaking(call.name)}</{heading}>")
        if self.exports.has(call):
            self.faults += [] if self.exports.show(page, call.name) else [f"bindings/c/dcel.h: there is no {call.name}"]
            self.drawings.show(page, call.name.removeprefix("dcel_"))
            page.add("<h3>As the library exports it</h3>")
        page.add(page.code(call.text, scope), page.comment(call.doc, call.home, scope.owner, self.place(call)))
        letters = self.drawings.letters(call)
        page.add(letters or "")
        self.faults += [f"{self.place(call)}: nothing says what the letters of the drawing mean"] if letters is None else []
        if call.owner is None:
            self.drawings.show(page, call.name)
        if example := self.examples.get(call):
            page.add("<h3>Example</h3>", page.code(example.text, Scope(example.item)))
            page.add(f"<p class=count>from {example.item.home.path.relative_to(self.project.root)}, which the gate runs</p>")
        for title, kind in (("For some", "ghost"), ("Asks", "requires"), ("Gives", "ensures")):
            some = {it: clause_words(call, it) for it in call.clauses if it.kind.startswith(kind)}
            self.clauses(page, title, some, some.get, rests.items)
            self.faults += [f"{call.path}, {clause.name}: nothing says what {it} means" for clause in some for it in unsaid(clause, some[clause])]
        for part, of in ((rests.meaning, "Rests"), (rests.values, "Its values rest")):
            if part:
                links = " ".join(page.link(it, escape(it.name)) for it in part)
                page.add(f"<details><summary>{of} on {part}</summary><p class=names>{links}</p></details>")
        page.add("</section>")

    def members(self, page, item):
        """What stands inside a type or a trait, but for calls."""
        for it in item.inside.values():
            if it.public and it.kind != "kept":
                said = page.code(it.text, Scope(item)) if it.kind == "const" else f"<code>{escape(it.name)}</code>"
                page.add(f'<div id="{it.name}">{said} {page.comment(it.doc, it.home, item, self.place(it))}</div>')
        kept = [it for it in item.inside.values() if it.kind == "kept"]
        self.clauses(page, "Always so", kept, lambda it: words_of(it.text, Scope(item).names, item.inside), near(item))
        if item.model:
            block = next(it for it in item.impls if it.name == "Model")
            self.clauses(page, "Read in clauses as", item.model, lambda it: clause_words(block, it), near(item))
        self.clauses(page, "Each type tells", [it for it in item.clauses if it.kind == "member"], lambda it: clause_words(item, it), ())

    def item(self, name, item, module):
        """The page of an item."""
        page = self.page(self.places.items[item])
        self.note(name, "law" if "laws" in module.parts else KINDS[item.kind][:-1], page.url, item.doc)
        if item.kind == "fn":
            self.call(page, item, "h1")
        else:
            head = item.text.split("{")[0] if item.kind == "trait" else item.text
            page.add(f"<h1>{name}</h1>", page.code(head, Scope(item)), page.comment(item.doc, item.home, item, self.place(item)))
            self.members(page, item)
            calls, block = {name: it for name, it in item.calls.items() if it.public}, None
            page.add(f"<p class=names>{' '.join(page.link(it, it.name) for it in calls.values())}</p>")
            for anchor, call in calls.items():
                if call.block is not block:
                    block = call.block
                    page.add(page.comment(block.doc, block.home, item, self.place(block)), page.code(block.text, Scope(block)))
                self.note(f"{name}::{call.name}", "call", f"{page.url}#{anchor}", call.doc)
                self.call(page, call, "h2", anchor)
            for block in item.impls:
                if block.name not in ("", "Model"):
                    page.add(f"<h2>{escape(block.name)}</h2>", page.code(block.text, Scope(block)))
                    self.clauses(page, "Says", block.clauses, lambda it, block=block: clause_words(block, it), ())
                    for call in block.calls.values():
                        self.call(page, call, "h3")
        self.keep(page, f"{name} - {module.crate}", self.crumbs(module))

    def crumbs(self, module):
        outer = self.crumbs(module.outer) if module.outer else []
        return [*outer, (module.parts[-1] if module.parts else module.crate, self.places.modules[module])]

    def module(self, module):
        """The page of a module: what it is for, and what it has."""
        page, path = self.page(self.places.modules[module]), "::".join([module.crate, *module.parts])
        self.note(path, "module", page.url, module.doc)
        page.add(f"<h1>{path}</h1>", page.comment(module.doc, module, None, f"{module.path.name}:1"))
        if path == "dcel_c":
            self.exports.show_all(page)
        inner = [(name, it) for name, it in module.children.items() if it in self.places.modules]
        inner += [(name, it) for name, it in self.places.shown[module] if isinstance(it, Source)]
        self.listed(page, "Modules", inner)
        for kind in dict.fromkeys(KINDS.values()):
            self.listed(page, kind.capitalize(), [it for it in self.places.shown[module] if isinstance(it[1], Item) and KINDS[it[1].kind] == kind])
        if not module.parts:
            files = [it for it in self.specs if it.parts[1] == module.crate]
            links = " ".join(f'<a href="{page.to(self.places.file(it.path))}">{".".join(it.parts[3:])}</a>' for it in files)
            page.add(f"<h2>Definitions</h2><p class=names>{links}</p>" if files else "")
        self.keep(page, path, self.crumbs(module))

    def listed(self, page, title, items):
        if items:
            page.add(f"<h2>{title}</h2>", "<dl class=list>")
            for name, item in sorted(items, key=lambda it: it[0]):
                self.entry(page, page.link(item, breaking(name)), item, item if isinstance(item, Source) else item.home)
            page.add("</dl>")

    def definitions(self, spec):
        """The page of a file of definitions."""
        page = self.page(self.places.file(spec.path))
        name = ".".join(spec.parts[3:])
        page.add(f"<h1>{name}</h1>", page.definition_comment([it.strip()[2:].strip() for it in spec.comment]))
        section = None
        for item in spec.items.values():
            self.note(item.name, "definition", f"{page.url}#{item.name}", item.comment)
            if item.section is not section and item.section.text:
                page.add(f"<p>In what follows <code>{escape(item.section.text.strip())}</code></p>")
            section = item.section
            page.add(f'<section class=definition id="{escape(item.name)}"><h2>{escape(item.name)}</h2>', page.definition_comment(item.comment))
            page.add(f"<pre>{page.term(item.text, item.words, near(item))}</pre></section>")
        self.keep(page, f"{name} - {spec.parts[1]}", [(spec.parts[1], f"{spec.parts[1]}/index.html")])

    def reading(self):
        """The page of signs."""
        page = self.page(signs.URL)
        page.add(*signs.body())
        for name, said in signs.said().items():
            self.note(name, "sign", f"{page.url}#{quote(name)}", [said])
        self.keep(page, "How to read a contract", [])

    def declarations(self, url, items):
        """The page of what isn't public in a file of sources, and contracts rest on."""
        page, home = self.page(url), items[0].home
        page.add(f"<h1>{'::'.join([home.crate, *home.parts])}</h1><p>What isn't public here, and contracts rest on.</p>")
        for item in items:
            self.note(item.name, "type", f"{url}#{item.name}", item.doc)
            page.add(f'<section id="{item.name}"><h2>{item.name}</h2>', page.comment(item.doc, home, item, self.place(item)))
            page.add(page.code(item.text, Scope(item)))
            self.members(page, item)
            page.add("</section>")
        self.keep(page, home.crate, [(home.crate, f"{home.crate}/index.html")])

    def front(self):
        page = self.page("index.html")
        page.add((LOOKS / "front.html").read_text(), "<h2>Start here</h2>", "<dl class=list>")
        for words, paths in START.items():
            page.add(f"<dt>{words}</dt><dd>", *map(partial(self.started, page), paths), "</dd>")
        page.add("</dl>", "<h2>Crates</h2>")
        libraries = {it.crate: it for it in self.project.libraries()}
        for shelf, crates in shelves_of((self.project.root / "crates.txt").read_text()):
            if shown := [libraries[it] for it in reversed(crates) if it in libraries]:
                page.add(f"<h3>{escape(shelf)}</h3>" if shelf else "", "<dl class=list>")
                for it in shown:
                    self.entry(page, page.link(it, it.crate), it, it, f"<p class=count>{self.counted(it)}</p>")
                page.add("</dl>")
        self.beliefs(page)
        self.files["index.html"] = page.written("Reference", [("reference", "index.html")])

    def started(self, page, path):
        """Where a reader begins, with the first sentence of what is said there."""
        crate, *rest = path.split("::")
        item = self.project.crate(crate).find(rest)
        if self.places.address(item) is None:
            self.faults.append(f"index.html: {path} has no page")
        return f"<p>{page.link(item, rest[-1])}: {escape(first_sentence(item.doc))}</p>"

    def entry(self, page, link, item, home, more=""):
        """What a list says of an item, a module or a crate: the first paragraph of its comment."""
        said = page.comment(summary(item.doc), home, item if isinstance(item, Item) else None, link)
        page.add(f"<dt>{link}</dt><dd>{said}{more}</dd>")

    def beliefs(self, page):
        page.add("<h2 id=believe>What to believe</h2>", "<dl class=list>")
        for name, promise in believed(self.project.root):
            call = self.project.calls(name)[0]
            # A program has no page.
            rests, shown = (self.rests[call], page.link(call, name)) if call in self.rests else (Rests(call), f"<code>{escape(name)}</code>")
            values = f"; for values {rests.values}" if rests.values else ""
            page.add(f"<dt>{shown}</dt><dd>{prose.shown([promise], str)}<p class=count>{rests.meaning}{values}</p></dd>")
        page.add("</dl>")

    def counted(self, library):
        """How many items of each kind a library shows, calls of types among them."""
        items = [it for it in self.places.items if it.home.crate == library.crate]
        kinds = [KINDS[it.kind] for it in items] + ["calls" for item in items for it in item.calls.values() if it.public]
        counts = {kind: kinds.count(kind) for kind in dict.fromkeys(KINDS.values())}
        return ", ".join(f"{count} {kind if count > 1 else kind[:-1]}" for kind, count in counts.items() if count)

    def write(self, folder):
        """Writes all pages, with what they show, unless something is wrong with what they are made of."""
        self.specs = [it for library in self.project.libraries() for it in self.project.specs_of(library.crate)]
        for module in self.places.modules:
            self.module(module)
        for item, (name, module) in self.places.shown_by.items():
            self.item(name, item, module)
        for spec in self.specs:
            self.definitions(spec)
        inner = {}
        for item in sorted(self.places.inner - self.places.items.keys(), key=lambda it: (it.path, it.line)):
            inner.setdefault(self.places.page(item), []).append(item)
        for url, items in inner.items():
            self.declarations(url, items)
        self.reading()
        self.front()
        if self.faults:
            return
        for url, text in self.files.items():
            (folder / url).parent.mkdir(parents=True, exist_ok=True)
            (folder / url).write_text(text)
        (folder / "names.js").write_text(f"names = {json.dumps(sorted(self.names), ensure_ascii=False)};\n")
        for name in ("style.css", "search.js"):
            shutil.copyfile(LOOKS / name, folder / name)
        (folder / "pictures").mkdir(exist_ok=True)
        for picture in (self.project.root / "docs/pictures").glob("*.svg"):
            shutil.copyfile(picture, folder / "pictures" / picture.name)
