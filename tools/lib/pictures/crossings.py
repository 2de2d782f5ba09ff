"""Whether live edges of a picture cross, touch or lie over one another, by whole numbers alone.

Coordinates are read as whole tenths. An edge is a list of pieces: straight ones of two points, and arcs of three, which lie in the triangle
of these. Two arcs are halved again and again, until their triangles lie apart or are too small to be seen: then they meet.
"""

import re
from itertools import combinations, pairwise

EDGE = re.compile(r'<path class="edge" d="([^"]*)"/>')
STEP = re.compile(r"([MLQ])([-\d. ]+)")

# How often an arc is halved. Its points are then whole numbers of a quarter as many tenths for each time.
HALVINGS = 10
UNIT = 4 ** HALVINGS


def tenths(number):
    """A number with at most one digit behind its point, in tenths."""
    whole, _, part = number.lstrip("-").partition(".")
    assert len(part) <= 1, number
    return (-1 if number.startswith("-") else 1) * (10 * int(whole) + int(part or "0"))


def pieces_of(way):
    """The pieces of a way, each by its points; none has no length."""
    pieces, here = [], None
    for letter, numbers in STEP.findall(way):
        numbers = [tenths(number) * UNIT for number in numbers.split()]
        points = list(zip(numbers[::2], numbers[1::2]))
        if letter != "M":
            pieces.append([here, *points])
        here = points[-1]
    return [piece for piece in pieces if any(point != piece[0] for point in piece)]


def side(a, b, c):
    """Positive if c lies on one side of the line from a to b, negative on the other, and 0 on it."""
    return (b[0] - a[0]) * (c[1] - a[1]) - (b[1] - a[1]) * (c[0] - a[0])


def along(a, b, c):
    """How far c lies beyond a in the direction of b."""
    return (b[0] - a[0]) * (c[0] - a[0]) + (b[1] - a[1]) * (c[1] - a[1])


def is_apart_along(first, second, measure):
    ours, theirs = [measure(point) for point in first], [measure(point) for point in second]
    return max(ours) < min(theirs) or max(theirs) < min(ours)


def are_apart(first, second):
    """Whether the triangles of two pieces have no point in common."""
    if any(is_apart_along(first, second, lambda point, axis=axis: point[axis]) for axis in (0, 1)):
        return True
    sides = [(a, b) for piece in (first, second) for a, b in combinations(piece, 2) if a != b]
    return any(is_apart_along(first, second, lambda point, a=a, b=b, measure=measure: measure(a, b, point))
               for a, b in sides for measure in (side, along))


def halves(piece):
    """The two halves of an arc, or the straight piece itself."""
    if len(piece) == 2:
        return [piece]
    (x0, y0), (x1, y1), (x2, y2) = piece
    middle = ((x0 + 2 * x1 + x2) // 4, (y0 + 2 * y1 + y2) // 4)
    return [[piece[0], ((x0 + x1) // 2, (y0 + y1) // 2), middle], [middle, ((x1 + x2) // 2, (y1 + y2) // 2), piece[2]]]


def do_meet(first, second, halvings=HALVINGS):
    """Whether two pieces have a point in common, or come too near to tell."""
    if are_apart(first, second):
        return False
    if halvings == 0 or len(first) == len(second) == 2:
        return True
    return any(do_meet(ours, theirs, halvings - 1) for ours in halves(first) for theirs in halves(second))


def do_fork(first, second):
    """Whether two straight pieces from the same point have no other one in common."""
    (start, ours), (other_start, theirs) = first, second
    return start == other_start and (side(start, ours, theirs) != 0 or along(start, ours, theirs) < 0)


def is_fork(first, second):
    """Whether two pieces, each at an end of its edge, have nothing in common but one end of each."""
    if len(first) != 2 or len(second) != 2:
        return False
    return any(do_fork(ours, theirs) for ours in (first, first[::-1]) for theirs in (second, second[::-1]))


def do_cross(first, second):
    """Whether two edges have a point in common that is no end of both."""
    ends = {first[0][0], first[-1][-1]} & {second[0][0], second[-1][-1]}
    for ours in first:
        for theirs in second:
            shared = ends & {ours[0], ours[-1]} & {theirs[0], theirs[-1]}
            if do_meet(ours, theirs) and not (shared and is_fork(ours, theirs)):
                return True
    return False


def crosses_itself(edge):
    """Whether an edge crosses or touches itself, but where its two ends are the same vertex."""
    for place, ours in enumerate(edge):
        for theirs in edge[place + 2:]:
            is_loop = ours is edge[0] and theirs is edge[-1] and ours[0] == theirs[-1]
            if do_meet(ours, theirs) and not (is_loop and is_fork(ours, theirs)):
                return True
    return any(len(ours) == len(theirs) == 2 and not is_fork(ours, theirs) for ours, theirs in pairwise(edge))


def crossing_faults(picture):
    """The live edges that cross, by their places among those that are drawn."""
    edges = [pieces_of(way) for way in EDGE.findall(picture)]
    for place, edge in enumerate(edges):
        if not edge:
            yield f"edge {place} of those drawn has no length"
        elif crosses_itself(edge):
            yield f"edge {place} of those drawn crosses itself"
    for (place, first), (other, second) in combinations(enumerate(edges), 2):
        if first and second and do_cross(first, second):
            yield f"edges {place} and {other} of those drawn cross"


# Ways of two edges, and whether they cross.
TRIED = [
    ("M0 0L10 10", "M0 10L10 0", True), ("M0 0L10 0", "M5 0L5 10", True), ("M0 0L10 0", "M5 0.1L5 10", False),
    ("M0 0L10 0", "M0 0L20 0", True), ("M0 0L10 0", "M10 0L5 0", True), ("M0 0L10 0", "M10 0L20 0", False),
    ("M0 0L10 0", "M0 0L0.1 10", False), ("M0 0L10 0", "M0 0L5 5Q10 10 15 5L20 0", False),
    ("M0 0L10 0", "M0 0L5 5Q7.5 7.5 7.5 5L10 0", False), ("M0 0L10 0", "M0 0L4 4Q5 -5 6 4L10 0", True),
    ("M0 0L4 4Q5 5 6 4L10 0", "M5 4.6L5 20", False), ("M0 0L4 4Q5 5 6 4L10 0", "M5 4.5L5 20", True),
    ("M0 0L4 4Q5 5 6 4L10 0", "M0 0L4 3Q5 3.8 6 3L10 0", False), ("M0 0L4 4Q5 5 6 4L10 0", "M0 9L4 5Q5 4 6 5L10 9", True),
]


def planted_over(way):
    """The way of an edge across the middle of another one."""
    piece = max(pieces_of(way), key=len)
    (x0, y0), (x1, y1), (x2, y2) = [[x // UNIT for x in point] for point in (piece[0], piece[len(piece) // 2], piece[-1])]
    middle = ((x0 + x2) // 2, (y0 + y2) // 2)
    points = [middle, (x1, y1)] if len(piece) == 3 else [(middle[0] + y - y0, middle[1] - x + x0) for x, y in ((x2, y2), (2 * x0 - x2, 2 * y0 - y2))]
    return "M{} {}L{} {}".format(*(f"{'-' * (number < 0)}{abs(number) // 10}.{abs(number) % 10}" for point in points for number in point))


def planted_faults(picture):
    """The edges over which one can be planted without being found."""
    for place, way in enumerate(EDGE.findall(picture)):
        planted = picture.replace("</svg>", f'<path class="edge" d="{planted_over(way)}"/></svg>')
        last = len(EDGE.findall(picture))
        if f"edges {place} and {last} of those drawn cross" not in crossing_faults(planted):
            yield f"an edge planted over edge {place} of those drawn isn't found"


def tried_faults():
    """The pairs of ways that are judged wrongly."""
    for first, second, do_they in TRIED:
        found = [*crossing_faults("".join(f'<path class="edge" d="{way}"/>' for way in (first, second)))]
        if bool(found) != do_they:
            yield f"{first} and {second}: {found or 'no crossing'}"
