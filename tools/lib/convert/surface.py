"""A surface of vertices and faces, with what can be told of it by faces and corners alone."""

from collections import Counter

# The numbers that a file may have for a vertex.
NUMBERS = range(2 ** 32)


def sides_of(face):
    return list(zip(face, face[1:] + face[:1]))


class Surface:
    """Vertices by number and faces by their corners."""

    def __init__(self, vertices, faces):
        self.vertices, self.faces = vertices, [list(face) for face in faces]

    def unreadable(self):
        return {place for place, face in enumerate(self.faces) for corner in face if corner not in NUMBERS}

    def few(self):
        return {place for place, face in enumerate(self.faces) if len(face) < 3}

    def strange(self):
        return {(place, corner) for place, face in enumerate(self.faces) for corner in face if corner not in range(self.vertices)}

    def flat(self):
        return {(place, one) for place, face in enumerate(self.faces) for one, two in sides_of(face) if one == two}

    def sides(self):
        return Counter(side for face in self.faces for side in sides_of(face))

    def twice(self):
        return {side for side, count in self.sides().items() if count > 1}

    def edges(self):
        return {frozenset(side) for side in self.sides()}

    def border(self):
        """The ways round the border: for each side without a neighbor the way back."""
        sides = self.sides()
        return [(two, one) for one, two in sides if (two, one) not in sides]

    def doubled(self):
        return {vertex for vertex, count in Counter(start for start, _ in self.border()).items() if count > 1}

    def loops(self):
        """How many loops the border has, where no vertex is doubled."""
        after, count = dict(self.border()), 0
        while after:
            count += 1
            start, end = after.popitem()
            while end != start:
                end = after.pop(end)
        return count

    def turns(self):
        """How many turns the corners at each vertex make, where each side has one face and no vertex is doubled."""
        after = {}
        for face in self.faces:
            for before, corner, behind in zip(face[-1:] + face[:-1], face, face[1:] + face[:1]):
                after[corner, behind] = before
        border = self.border()
        ends = dict(border)
        for before, corner in border:
            after[corner, ends[corner]] = before
        count = Counter()
        while after:
            (corner, start), end = after.popitem()
            count[corner] += 1
            while end != start:
                end = after.pop((corner, end))
        return count

    def parts(self):
        """How many parts the surface has, vertices without a face left aside."""
        root = {}

        def find(one):
            while root.setdefault(one, one) != one:
                one = root[one]
            return one

        for face in self.faces:
            for corner in face[1:]:
                root[find(face[0])] = find(corner)
        return len({find(corner) for face in self.faces for corner in face})

    def kind(self):
        """How many parts and borders the surface has, and its genus."""
        parts, borders = self.parts(), self.loops()
        used = {corner for face in self.faces for corner in face}
        return parts, borders, max(0, 2 * parts - borders - (len(used) - len(self.edges()) + len(self.faces))) // 2

    def stats(self):
        """How much there is of what, as the program tells it."""
        names = ("vertices", "edges", "faces", "parts", "borders", "genus")
        counts = (self.vertices, len(self.edges()), len(self.faces), *self.kind())
        return "".join(f"{name} {count}\n" for name, count in zip(names, counts))

    def lacks_outer_face(self):
        """Whether there is no border, and no face that comes to each vertex once."""
        return bool(self.faces) and not self.border() and all(len(set(face)) < len(face) for face in self.faces)

    def lent(self):
        """The place of the first face that comes to no vertex twice, if there is no border, so that it becomes the outer one."""
        if not self.faces or self.border():
            return None
        return next((place for place, face in enumerate(self.faces) if len(set(face)) == len(face)), None)

    def is_mesh(self):
        if not self.vertices and not self.faces:
            return False
        if self.few() or self.strange() or self.flat() or self.twice() or self.doubled() or self.loops() > 1 or self.lacks_outer_face():
            return False
        return not self.faces or (max(self.turns().values()) == 1 and self.kind() in [(1, 0, 0), (1, 1, 0)])

    def text(self, chooser):
        """An OFF file, with coordinates made up."""
        places = [" ".join(f"{chooser.uniform(-1, 1):.3f}" for _ in range(3)) for _ in range(self.vertices)]
        faces = [" ".join(map(str, [len(face), *face])) for face in self.faces]
        return "\n".join(["OFF", f"{self.vertices} {len(self.faces)} 0", *places, *faces]) + "\n"

    def line_of(self, place):
        """The line of that file that has a face."""
        return self.vertices + place + 3
