"""What a file of words claims, with what can be told of it by its lists alone."""

import re
from collections import Counter

from fuzz.mesh import other
from fuzz.words import from_least

COUNTS = re.compile(r"vertices (\d+) edges (\d+) faces (\d+)")
NUMBERS = range(2 ** 32)


def numbers_of(tokens):
    """The numbers that these are, or None where one is no number."""
    return [int(token) for token in tokens] if all(token.isdecimal() and int(token) in NUMBERS for token in tokens) else None


def pairs_of(cyclic):
    return list(zip(cyclic, cyclic[1:] + cyclic[:1]))


class Claim:
    """The lines of a file, and what stands in them. Line 1 has the counts, then come a word for each face and a turn for each vertex. Blank
    lines behind these are none."""

    def __init__(self, text):
        self.lines = [line.split() for line in text.split("\n")[:-1]]
        found = COUNTS.fullmatch(" ".join(self.lines[0])) if self.lines else None
        self.counts = [int(count) for count in found.groups()] if found and all(int(count) in NUMBERS for count in found.groups()) else None
        if self.counts:
            self.vertices, self.edges, self.faces = self.counts
            while len(self.lines) > 1 + self.faces + self.vertices and not self.lines[-1]:
                self.lines.pop()
            words, turns = self.lines[1:1 + self.faces], self.lines[1 + self.faces:]
            self.words, self.turns = ([numbers_of(line[1:]) or [] for line in lists] for lists in (words, turns))
            self.halves = range(2 * self.edges)

    # What the lines say.

    def name_of(self, line):
        """How this line has to begin."""
        return f"F{line - 2}" if line - 2 < self.faces else "out"

    def is_readable(self):
        """Whether there are the lines that the counts say, each with half edges that there are."""
        if self.counts is None or len(self.lines) != 1 + self.faces + self.vertices:
            return False
        lists = [numbers_of(line[1:]) for line in self.lines[1:]]
        return all(line[:1] == [self.name_of(place)] for place, line in enumerate(self.lines[1:], 2)) and all(
            found is not None and all(half in self.halves for half in found) for found in lists)

    def is_listed(self):
        """Whether each half edge stands once in the words, and once in the turns."""
        listed = [sorted(half for found in lists for half in found) for lists in (self.words, self.turns)]
        return all(len(halves) == len(self.halves) and halves == list(self.halves) for halves in listed)

    def count(self, half, lists):
        return Counter(item for found in lists for item in found)[half]

    # The links, where all half edges are listed.

    def next(self):
        return {half: after for word in self.words for half, after in pairs_of(word)}

    def ccw(self):
        return {after: other(half) for half, after in self.next().items()}

    def origins(self):
        return {half: vertex for vertex, turn in enumerate(self.turns) for half in turn}

    def apart(self):
        origins = self.origins()
        return {half for half, after in self.next().items() if origins[after] != origins[other(half)]}

    def flat(self):
        return {half for turn in self.turns for half in turn if other(half) in turn}

    def unused(self):
        """The faces without a half edge, but the outer one where there is no edge at all."""
        return {face for face, word in enumerate(self.words) if not word and (face or self.edges)}

    def parted(self):
        """The vertices whose half edges are several turns."""
        ccw, found = self.ccw(), set()
        for vertex, turn in enumerate(self.turns):
            if turn:
                walk = [turn[0]]
                while ccw[walk[-1]] != walk[0]:
                    walk.append(ccw[walk[-1]])
                if len(walk) < len(turn):
                    found.add(vertex)
        return found

    def reached(self):
        """The half edges that are reached from number 0."""
        after, found, left = self.next(), set(), [0] if self.edges else []
        while left:
            half = left.pop()
            if half not in found:
                found.add(half)
                left += [after[half], other(half)]
        return found

    def euler(self):
        return sum(1 for turn in self.turns if turn) - self.edges + self.faces

    def is_mesh(self):
        if not (self.is_readable() and self.is_listed() and self.faces) or self.apart() or self.flat() or self.unused() or self.parted():
            return False
        ccw = self.ccw()
        in_order = all(ccw[half] == after for turn in self.turns for half, after in pairs_of(turn))
        return in_order and len(self.reached()) == len(self.halves) and (self.euler() == 2 or not self.edges)

    def text(self):
        """The file of the same mesh, each list from its least half edge on."""
        return text_of(self.words, self.turns)


def text_of(words, turns):
    counts = f"vertices {len(turns)} edges {sum(map(len, words)) // 2} faces {len(words)}"
    words = [" ".join(map(str, [f"F{face}", *from_least(word)])) for face, word in enumerate(words)]
    return "\n".join([counts, *words, *(" ".join(map(str, ["out", *from_least(turn)])) for turn in turns)]) + "\n"


def text_of_faces(vertices, faces):
    """The file of the mesh whose inner faces these are: edges are numbered by their first sides, which are the even half edges."""
    halves, words, edges = {}, [], 0
    for face in faces:
        for start, end in pairs_of(list(face)):
            if (start, end) not in halves:
                halves[start, end], halves[end, start] = 2 * edges, 2 * edges + 1
                edges += 1
        words.append([halves[side] for side in pairs_of(list(face))])
    inside = {half for word in words for half in word}
    border = {start: (half, end) for (start, end), half in halves.items() if half not in inside}
    outer, at = [], next(iter(border), None)
    while len(outer) < len(border):
        half, at = border[at]
        outer.append(half)
    return text_of([outer, *words], turns_of(vertices, [outer, *words], {half: start for (start, _), half in halves.items()}))


def text_of_surface(surface):
    """The file of the mesh of a surface. One without a border lends the first face that comes to no vertex twice as the outer one."""
    faces, place = list(surface.faces), surface.lent()
    if place is not None:
        del faces[place]
    return text_of_faces(surface.vertices, faces)


def closing(surface):
    """The line behind these words, if the outer face is one of the surface."""
    return "" if surface.lent() is None else f"closed {surface.lent()}\n"


def turns_of(vertices, words, origins):
    """The half edges out of each vertex."""
    ccw = {after: other(half) for word in words for half, after in pairs_of(word)}
    turns = [[] for _ in range(vertices)]
    for half in sorted(origins):
        turn = turns[origins[half]]
        if not turn:
            turn.append(half)
            while ccw[turn[-1]] != half:
                turn.append(ccw[turn[-1]])
    return turns
