"""On which page each item stands, and where on it."""

from urllib.parse import quote

from reference.sources import Item, Source
from reference.specs import Definition
from reference.terms import Inside


class Places:
    """The public items of each library by the modules that show them, and the address of each item and definition."""

    def __init__(self, project):
        self.project, self.items, self.shown_by, self.modules, self.shown, self.inner = project, {}, {}, {}, {}, set()
        for library in project.libraries():
            self.place(library)

    def place(self, module):
        """Gives a public module a page, and each item that it is the first to show."""
        folder = "/".join([module.crate, *module.parts])
        self.modules[module] = f"{folder}/index.html"
        self.shown[module] = [(name, it) for name, it in module.items.items() if it.public and it.kind != "impl"]
        self.shown[module] += [(name, module.find(module.uses[name])) for name in module.reexports]
        for name, item in self.shown[module]:
            if isinstance(item, Item) and item.home.crate == module.crate and item not in self.items:
                self.items[item], self.shown_by[item] = f"{folder}/{name}.html", (name, module)
        for child in module.children.values():
            if child.public:
                self.place(child)

    def page(self, item):
        """The page of an item, which is that of its file where it is no public one."""
        return self.items.get(item) or self.file(item.home.path)

    def file(self, path):
        """The page of a file of definitions, or of what isn't public in a file of sources."""
        parts = path.relative_to(self.project.root / "crates").with_suffix(".html").parts
        return "definitions/" + "/".join(it for it in parts if it != "specs")

    def address(self, target):
        """The address of what a word names, None if it has none."""
        if isinstance(target, Source):
            return self.modules.get(target)
        if isinstance(target, Inside):
            return self.inside(target.item, target.name)
        if isinstance(target, Item) and target.owner is not None:
            return self.inside(target.owner, next((name for name, it in target.owner.calls.items() if it is target), target.name))
        if target in self.items:
            return self.items[target]
        if target in self.inner or (isinstance(target, Definition) and target.home.parts[2] == "specs"):
            return f"{self.page(target)}#{quote(target.name)}"
        return None

    def inside(self, item, name):
        """The address of what stands inside an item, which is that of the item where it has no place of its own."""
        found = isinstance(item, Item) and item in self.items and (item.calls.get(name) or item.inside.get(name))
        return f"{self.items[item]}#{quote(name)}" if found and found.public and found.kind != "kept" else self.address(item)
