"""Lines made at random for a mesh: most of them lawful, and the others wrong in one way or another."""

from .lines import ROWS
from .mesh import CLOSED, other

FAR = [4294967295, 4294967296, 99999999999999999999, 2147483648]
BROKEN = ["", " ", "words ", " words", "append", "append -0", "append 01", "append 9223372036854775808", "append -9223372036854775808",
          "append 1 2", "setup  0 1", "FLIP 0", "flip 0\r", "flip -1", "flip 00", "flip 0x1", "cleanup /", "cleanup", "remesh 1 3 5 / 3",
          "remesh / /", "strip /", "isolate", "hull 0", "check?", "wörds", "isolate 10" + " 0" * 2043, "isolate 10" + " 0" * 2044]
GROWING = ["insert"] * 6 + ["outside"] * 3 + ["close"] * 3 + ["half"] * 2 + ["split"] * 4 + ["line"] * 2 + ["extend"] * 3 + ["setup"]
CHANGING = ["flip"] * 5 + ["legalize"] * 3 + ["swap"] * 2 + ["put"] * 2
OPENING = ["isolate"] * 4 + ["vertex ring"] * 2 + ["region"] * 4 + ["strip"] * 4
LOOKS = ["words", "hull", "counts", "check", "out", "out", "origin", "origin"]


class Maker:
    """Makes lines from a seeded source of random numbers. Of words that aren't named here it takes those that it is given."""

    def __init__(self, random, most_vertices=40, words=ROWS):
        self.random = random
        self.most_vertices = most_vertices
        self.words = list(words)
        self.queries = [word for word in words if ROWS[word].adds is None]

    def line(self, mesh):
        """A line for this mesh."""
        chance = self.random.random()
        if chance < 0.03:
            return self.random.choice(BROKEN)
        if chance < 0.12:
            return self.wild(mesh)
        if chance < 0.30:
            return self.asking(mesh)
        line = self.lawful(mesh)
        return self.bent(line, mesh) if self.random.random() < 0.12 else line

    def lawful(self, mesh):
        """A line that is likely to be carried out."""
        chance = self.random.random()
        if chance < 0.004:
            return self.random.choice(["clear", "clear", "triangle 0 -1 2"])
        if len(mesh.data) < 3 and chance < 0.15:
            return "triangle 7 8 9"
        if mesh.removal != CLOSED and self.random.random() < 0.35:
            return self.closing(mesh)
        if mesh.removal != CLOSED and self.random.random() < 0.05:
            return self.opening(mesh)
        if mesh.removal == CLOSED and self.random.random() < (0.5 if len(mesh.data) > self.most_vertices else 0.12):
            return self.opening(mesh)
        if self.random.random() < 0.3:
            return self.changing(mesh)
        return self.growing(mesh)

    # Numbers.

    def number(self, count):
        """A number below the count, and at times one that isn't."""
        return self.random.choice(FAR + [count, count + 1]) if count == 0 or self.random.random() < 0.02 else self.random.randrange(count)

    def pick(self, items):
        items = list(items)
        return self.random.choice(items) if items else 0

    def vertex(self, mesh):
        return self.number(len(mesh.data))

    def live_halves(self, mesh):
        return list(mesh.places())

    def datum(self):
        return self.random.choice([0, 1, -1, 7, 2 ** 63 - 1, -2 ** 63, self.random.randrange(1000)])

    # Kinds of lines.

    def item(self, mesh, kind):
        """A number, a datum or a list of such a kind as docs/LINES.md names, or what stands between lists."""
        if kind.endswith(".."):
            return " ".join(self.item(mesh, kind[0]) for _ in range(self.random.randrange(5)))
        counts = {"A": len(mesh.data), "B": len(mesh.data), "V": len(mesh.data), "H": len(mesh.origins), "U": mesh.edge_count(),
                  "F": len(mesh.words), "N": 3}
        return kind if kind == "/" else str(self.datum() if kind == "D" else self.number(counts[kind]))

    def of(self, mesh, word):
        """A line of this word, with items of its kinds."""
        return " ".join(it for it in [word, *(self.item(mesh, kind) for kind in ROWS[word].items)] if it)

    def wild(self, mesh):
        """Any word, with items of its kinds, but of no thought."""
        return self.of(mesh, self.random.choice(self.words))

    def asking(self, mesh):
        return self.of(mesh, self.random.choice(self.queries))

    def look(self, mesh, line):
        """A line that shows something of the mesh: of its vertices one that the line names, one where it grew last, or any."""
        word = self.random.choice(LOOKS)
        if word not in ("out", "origin"):
            return word
        named = [int(item) for item in line.split(" ")[1:] if item.isdigit()]
        vertices = named + mesh.origins[-6:] if self.random.random() < 0.7 else range(len(mesh.data))
        vertex = self.pick(vertex for vertex in vertices if mesh.is_live_vertex(vertex))
        if word == "out" or not mesh.is_live_vertex(vertex) or mesh.is_unconnected(vertex):
            return f"out {vertex}"
        return f"origin {self.pick(mesh.out_edges(mesh.vertex_anchors[vertex]))}"

    def changing(self, mesh):
        word = self.random.choice(CHANGING)
        if word == "flip":
            can = [edge for edge in range(mesh.edge_count()) if mesh.can_flip(edge)]
            return f"flip {self.pick(can)}"
        if word == "legalize":
            edges = [self.number(mesh.edge_count()) for _ in range(self.random.randrange(6))]
            edges = list(range(mesh.edge_count())) if self.random.random() < 0.3 else edges
            return " ".join(map(str, ["legalize", self.random.choice([0, 1, 2, 5, 1000]), *edges]))
        if word == "swap":
            return f"swap {self.vertex(mesh)} {self.vertex(mesh)}"
        return f"put {self.vertex(mesh)} {self.datum()}"

    def growing(self, mesh):
        free = [vertex for vertex in range(len(mesh.data)) if mesh.is_unconnected(vertex)]
        if not free or (len(free) < 3 and self.random.random() < 0.3):
            return f"append {self.datum()}"
        new, word, halves = self.pick(free), self.random.choice(GROWING), self.live_halves(mesh)
        if not halves:
            return f"setup {new} {self.pick(free)}"
        if len(mesh.words) == 1 and self.random.random() < 0.8:
            word = self.random.choice(["extend", "line"])
        if word == "insert":
            is_any = self.random.random() < 0.05
            return f"insert {new} {self.pick(face for face in range(1, len(mesh.words)) if is_any or mesh.is_triangle(face))}"
        if word == "close":
            return f"close {self.pick(mesh.words[0])}"
        if word == "extend":
            return f"extend {self.pick(vertex for vertex in range(len(mesh.data)) if mesh.degree(vertex) == 1)} {new}"
        if word == "outside":
            return f"outside {self.pick(mesh.words[0] if self.random.random() < 0.7 else halves)} {new}"
        if word == "line":
            return f"line {self.pick(half for half in halves if mesh.face(half) == mesh.face(other(half)))} {new}"
        return f"{word} {self.pick(halves)} {new}"

    def opening(self, mesh):
        word = self.random.choice(OPENING)
        if not mesh.origins or (len(mesh.words) == 1 and self.random.random() < 0.6):
            free = [vertex for vertex in range(len(mesh.data)) if mesh.is_unconnected(vertex)]
            return f"remove {self.pick(free)}" if mesh.origins and free else f"degenerate {self.vertex(mesh)}"
        if word == "region":
            return self.region(mesh)
        if word == "strip":
            return self.strip(mesh)
        inside = [vertex for vertex in range(len(mesh.data)) if mesh.is_live_vertex(vertex) and mesh.lies_inside(vertex)]
        if not inside:
            return f"{self.random.choice(['degenerate', 'remove'])} {self.vertex(mesh)}"
        vertex = self.pick(inside)
        halves = self.turned(mesh.out_edges(mesh.vertex_anchors[vertex]))
        border = [mesh.next(half) for half in halves][::-1]
        if word == "isolate":
            return " ".join(map(str, ["isolate", vertex, *border]))
        edges, faces = [half // 2 for half in halves], [mesh.face(half) for half in halves]
        if self.random.random() < 0.5:
            self.random.shuffle(edges)
            self.random.shuffle(faces)
        return " ".join(map(str, ["remesh", *border, "/", *edges, "/", *faces]))

    def turned(self, items):
        place = self.random.randrange(len(items))
        return items[place:] + items[:place]

    def region(self, mesh):
        """A ring round some faces, each joined to the ones before by one edge, however many they have in common."""
        inner = [face for face in range(1, len(mesh.words)) if mesh.is_live_face(face)]
        if not inner:
            return f"remove {self.vertex(mesh)}"
        faces, edges = [self.pick(inner)], []
        for _ in range(self.random.randrange(5)):
            ways = [half for face in faces for half in mesh.words[face] if mesh.face(other(half)) not in [0, *faces]]
            if ways:
                half = self.pick(ways)
                edges.append(half // 2)
                faces.append(mesh.face(other(half)))
        ring = [half for face in faces for half in mesh.words[face] if half // 2 not in edges]
        walk = [self.pick(ring)]
        while (half := mesh.past(walk[-1], edges)) != walk[0]:
            walk.append(half)
        self.random.shuffle(edges)
        return " ".join(map(str, ["remesh", *walk[::-1], "/", *edges, "/", *faces]))

    def strip(self, mesh):
        outer = self.pick(mesh.words[0])
        walk = mesh.out_edges(outer)
        return " ".join(map(str, ["strip"] + [mesh.next(half) for half in walk[1:] + walk[:1]]))

    def closing(self, mesh):
        if mesh.removal[0] == "cleaned":
            return f"remove {mesh.removal[1]}"
        edges, faces = list(mesh.removal[1]), list(mesh.removal[2])
        self.random.shuffle(edges)
        self.random.shuffle(faces)
        return " ".join(map(str, ["cleanup", *edges, "/", *faces]))

    def bent(self, line, mesh):
        """The line with an item changed, doubled, left out or exchanged with another."""
        items = line.split(" ")
        place = self.random.randrange(1, len(items)) if len(items) > 1 else 0
        if place == 0:
            return line
        way = self.random.randrange(4)
        if way == 0:
            items[place] = str(self.number(max(len(mesh.origins), len(mesh.data), 3)))
        elif way == 1:
            items.insert(place, items[place])
        elif way == 2:
            del items[place]
        else:
            where = self.random.randrange(1, len(items))
            items[place], items[where] = items[where], items[place]
        return " ".join(items)
