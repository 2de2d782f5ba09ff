"""Whether the reason holds that dcel_convert gives where it refuses an OFF file."""

import re

from .surface import sides_of

# What may be said; which of its numbers, if any, is the face whose line is named; and whether that is so.
REASONS = [
    (r"face (\d+) of the list has fewer than three corners", 0, lambda s, face: face in s.few()),
    (r"face (\d+) of the list has corner (\d+), and there is no such vertex", 0, lambda s, face, corner: (face, corner) in s.strange()),
    (r"face (\d+) of the list has corner (\d+) twice in a row", 0, lambda s, face, corner: (face, corner) in s.flat()),
    (r"faces (\d+) and (\d+) of the list both have the side from (\d+) to (\d+)", 1,
     lambda s, one, two, start, end: (start, end) in s.twice() and all((start, end) in sides_of(s.faces[it]) for it in (one, two))
     and (one != two or sides_of(s.faces[one]).count((start, end)) > 1)),
    (r"two sides without a neighbor end at vertex (\d+)", None, lambda s, vertex: vertex in s.doubled()),
    (r"there is no border, and each face comes to a vertex twice", None, lambda s: s.lacks_outer_face()),
    (r"the file has no vertex and no face", None, lambda s: not s.vertices and not s.faces),
    (r"no mesh has these faces: the half edges of vertex (\d+) are no single turn", None, lambda s, vertex: s.turns()[vertex] > 1),
    (r"the surface has (\d+) parts?, (\d+) borders?, genus (\d+); taken is one part, of genus 0, with at most one border",
     None, lambda s, *counts: counts == s.kind() and (counts[0] > 1 or counts[1] > 1 or counts[2] > 0)),
]
UNREADABLE = r"a number is not written as one, or out of range: '(.*)'"


def holds(surface, words):
    """Whether what the program says of the surface's file is so, and of the line that it names."""
    found = re.fullmatch(r"dcel_convert: (?:line (\d+): )?(.*)\n", words)
    if not found:
        return False
    line, said = found.groups()
    if found := re.fullmatch(UNREADABLE, said):
        return line in {str(surface.line_of(place)) for place in surface.unreadable() if found[1] in map(str, surface.faces[place])}
    for pattern, named, check in REASONS:
        if found := re.fullmatch(pattern, said):
            numbers = [int(number) for number in found.groups()]
            wanted = None if named is None else str(surface.line_of(numbers[named]))
            return line == wanted and not surface.unreadable() and check(surface, *numbers)
    return False
