"""A mesh as plain lists of words. It has no links: each step is looked up in the words."""

CLOSED = ("closed",)


def other(half):
    """The other half of a half edge."""
    return half ^ 1


def renumbered(count, gone):
    """Where each number goes once these are taken out: for each of them, from the largest down, the last one is put at its place."""
    places = list(range(count))
    for number in sorted(gone, reverse=True):
        places[number] = places[-1]
        places.pop()
    return {old: new for new, old in enumerate(places)}


class Mesh:
    """The mesh that the program has after the lines so far."""

    def __init__(self):
        self.data = []
        self.origins = []
        self.words = [[]]
        self.vertex_anchors = []
        self.face_anchors = [None]
        self.removal = CLOSED
        self._places = None

    # Reading.

    def places(self):
        """The face and the place of each half edge that stands in a word."""
        if self._places is None:
            self._places = {half: (face, place) for face, word in enumerate(self.words) for place, half in enumerate(word)}
        return self._places

    def face(self, half):
        return self.places()[half][0]

    def next(self, half):
        face, place = self.places()[half]
        word = self.words[face]
        return word[(place + 1) % len(word)]

    def prev(self, half):
        face, place = self.places()[half]
        return self.words[face][place - 1]

    def to(self, half):
        return self.origins[other(half)]

    def ccw(self, half):
        return other(self.prev(half))

    def out_edges(self, half):
        """The half edges that start where this one does, by `ccw` from it on."""
        walk = [half]
        while self.ccw(walk[-1]) != half:
            walk.append(self.ccw(walk[-1]))
        return walk

    def edge_count(self):
        return len(self.origins) // 2

    def sizes(self):
        return len(self.data), self.edge_count(), len(self.words)

    def vertex_given_up(self):
        return self.removal[-1] if self.removal != CLOSED else None

    def is_live_vertex(self, vertex):
        return vertex < len(self.data) and vertex != self.vertex_given_up()

    def is_live_edge(self, edge):
        given_up = self.removal[1] if self.removal[0] == "isolated" else ()
        return edge < self.edge_count() and edge not in given_up

    def is_live_half(self, half):
        return self.is_live_edge(half // 2)

    def is_live_face(self, face):
        given_up = self.removal[2] if self.removal[0] == "isolated" else ()
        return face < len(self.words) and face not in given_up

    def is_unconnected(self, vertex):
        return self.is_live_vertex(vertex) and self.vertex_anchors[vertex] is None

    def turn(self, vertex):
        """The half edges that start at a vertex, by `ccw` from its anchor on."""
        anchor = self.vertex_anchors[vertex]
        return [] if anchor is None else self.out_edges(anchor)

    def degree(self, vertex):
        return len(self.turn(vertex))

    def is_triangle(self, face):
        return self.is_live_face(face) and len(self.words[face]) == 3

    def can_flip(self, edge):
        if not self.is_live_edge(edge):
            return False
        half = 2 * edge
        sides = (half, other(half))
        corners = [self.origins[self.prev(side)] for side in sides]
        return all(self.is_triangle(self.face(side)) for side in sides) and corners[0] != corners[1]

    def lies_inside(self, vertex):
        """Whether the vertex lies inside triangles alone, three or more."""
        anchor = self.vertex_anchors[vertex]
        if anchor is None:
            return False
        faces = [self.face(half) for half in self.out_edges(anchor)]
        return len(faces) >= 3 and all(face != 0 and len(self.words[face]) == 3 for face in faces)

    def is_border_loop(self, border, vertex):
        if not self.is_live_vertex(vertex) or not self.lies_inside(vertex):
            return False
        around = [self.next(half) for half in self.out_edges(self.vertex_anchors[vertex])]
        return is_turn(border[::-1], around) and self.starts_alone(border)

    def starts_alone(self, border):
        """Whether the origin of the last item starts no other item."""
        start = self.origins[border[-1]]
        return sum(self.origins[half] == start for half in border) == 1

    def ring_vertex(self, border, edges, faces):
        """The vertex inside this ring, where it is the ring of a vertex."""
        if not border or not self.is_live_half(border[0]):
            return None
        vertex = self.origins[self.prev(border[0])]
        if not self.is_border_loop(border, vertex):
            return None
        halves = self.out_edges(self.vertex_anchors[vertex])
        if sorted(edges) != sorted(half // 2 for half in halves) or sorted(faces) != sorted(self.face(half) for half in halves):
            return None
        return vertex

    def is_region_ring(self, border, edges, faces):
        """Whether the list, read from its end, goes round these faces once the edges between them are left out."""
        inner = set(faces)
        if len(inner) != len(faces) or len(set(edges)) != len(edges) or len(faces) != len(edges) + 1 or len(border) < 3:
            return False
        if not all(face != 0 and self.is_live_face(face) for face in faces) or not all(map(self.is_live_edge, edges)):
            return False
        for edge in edges:
            sides = {self.face(2 * edge), self.face(2 * edge + 1)}
            if len(sides) != 2 or not sides <= inner:
                return False
        left = {half for face in faces for half in self.words[face] if half // 2 not in edges}
        if border[-1] not in left:
            return False
        walk = [border[-1]]
        while (half := self.past(walk[-1], edges)) != walk[0]:
            walk.append(half)
        return border[::-1] == walk and set(walk) == left and self.starts_alone(border)

    def past(self, half, edges):
        """The next half edge, past those of these edges."""
        half = self.next(half)
        while half // 2 in edges:
            half = self.next(other(half))
        return half

    def strip_parts(self, strip):
        """The vertex whose strip this is, and its outer half edge."""
        if not strip or not self.is_live_half(strip[-1]):
            return None
        outer = self.prev(strip[-1])
        walk = self.out_edges(outer)
        faces = [self.face(half) for half in walk]
        if faces[0] != 0 or len(self.words[0]) < 3 or any(face == 0 or len(self.words[face]) != 3 for face in faces[1:]):
            return None
        if strip != [self.next(half) for half in walk[1:] + walk[:1]]:
            return None
        return self.origins[outer], outer

    def is_path(self):
        return len(self.words) == 1 and all(self.degree(vertex) in (1, 2) for vertex in range(len(self.data)))

    def is_checked(self):
        if self.removal != CLOSED:
            return False
        if len(self.data) <= 1:
            return True
        if not self.origins or None in self.vertex_anchors:
            return False
        for half in range(0, len(self.origins), 2):
            face = self.face(half)
            if face != 0 and len(self.words[face]) != 3:
                return False
            if len(self.words) > 1 and face == self.face(half + 1):
                return False
        return True

    # Parts of edits.

    def replace(self, half, items):
        """Has these items take the place of a half edge in its word."""
        face, place = self.places()[half]
        self.set_word(face, self.words[face][:place] + items + self.words[face][place + 1:])

    def set_word(self, face, word):
        self.words[face] = word
        self._places = None

    def add_face(self, word, anchor):
        self.words.append(word)
        self.face_anchors.append(anchor)
        self._places = None

    # Removals.

    def give_up(self, edges, faces, vertex):
        self.removal = ("isolated", set(edges), set(faces), vertex)
        for face in faces:
            self.set_word(face, [])
            self.face_anchors[face] = None
        if vertex is not None:
            self.vertex_anchors[vertex] = None

    def fill(self, border, edges, faces, vertex):
        """Gives up what lies inside the ring, and fills it with triangles that meet where its last half edge starts. Answers the new edges."""
        ring = border[::-1]
        n, first_edge = len(ring), self.edge_count()
        start = self.origins[ring[0]]
        ends = [self.to(half) for half in ring]
        closing = ring[0]
        self.give_up(edges, faces, vertex)
        for j in range(n - 3):
            half = 2 * (first_edge + j)
            self.add_face([closing, ring[j + 1], half], half)
            self.origins += [ends[j + 1], start]
            closing = half + 1
        self.add_face([closing, ring[n - 2], ring[n - 1]], closing)
        for half in ring[1:n - 2] + [ring[n - 1], ring[n - 2]]:
            self.vertex_anchors[self.origins[half]] = half
        self.vertex_anchors[start] = closing
        return list(range(first_edge, first_edge + n - 3))

    def rename_edges(self, gone):
        moved = renumbered(self.edge_count(), gone)

        def rename(half):
            return None if half is None else 2 * moved[half // 2] + half % 2

        origins = [None] * (2 * len(moved))
        for old, new in moved.items():
            origins[2 * new], origins[2 * new + 1] = self.origins[2 * old], self.origins[2 * old + 1]
        self.origins = origins
        self.words = [[rename(half) for half in word] for word in self.words]
        self.vertex_anchors = [rename(half) for half in self.vertex_anchors]
        self.face_anchors = [rename(half) for half in self.face_anchors]
        self._places = None

    def rename_faces(self, gone):
        moved = renumbered(len(self.words), gone)
        words, anchors = [None] * len(moved), [None] * len(moved)
        for old, new in moved.items():
            words[new], anchors[new] = self.words[old], self.face_anchors[old]
        self.words, self.face_anchors, self._places = words, anchors, None


def is_turn(items, others):
    """Whether two lists without repetitions are one cyclic list."""
    if len(items) != len(others) or not items or items[0] not in others:
        return False
    place = others.index(items[0])
    return items == others[place:] + others[:place]
