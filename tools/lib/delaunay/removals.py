"""Removals of vertices among constraints, by the library's calls, as no program can be asked for them: made at random, exact checks of what is
left, and faults planted in right answers."""

from itertools import islice
from typing import NamedTuple

from delaunay import laid
from delaunay.constrained import Joins, flipped, lawful_part, marked_by, some_curves, some_pairs
from delaunay.library import Kept
from delaunay.plane import Wrong, begun, finds, hull_of, lies_inside, neighbors_of, rounds
from delaunay.points import LIMIT, somewhere

# Sets of at most so many points lose all. What is left is judged each time where there are no more, and else twice.
SMALL = 12
# How many edges of a kind are flipped to plant faults.
FLIPS = 3


class Tried(NamedTuple):
    """How many vertices were removed; what of those that were ends of constraints, on the hull or neither was judged; and how many sets lost all."""

    removed: int = 0
    ends: int = 0
    on_hull: int = 0
    inside: int = 0
    emptied: int = 0

    def and_then(self, other):
        return Tried(*map(sum, zip(self, other)))


class Expected:
    """What a triangulation has to have: the point of each vertex, and the ends of each constraint, as points."""

    def __init__(self, points, vertices, marked):
        self.points, self.marked = list(dict.fromkeys(points)), set(marked)
        for point, vertex in zip(points, vertices):
            if vertex >= len(self.points):
                raise Wrong(f"vertex {vertex} of {len(self.points)} points")
            self.points[vertex] = point
        if [self.points[vertex] for vertex in vertices] != points:
            raise Wrong("points that are told other vertices")

    def live(self):
        return dict(enumerate(self.points))

    def is_end(self, point):
        return any(point in edge for edge in self.marked)

    def remove(self, vertex):
        """Removes a vertex: the last one gets its number. Returns the old number of that, or None."""
        gone, last = self.points[vertex], self.points.pop()
        if gone != last:
            self.points[vertex] = last
        self.marked -= {edge for edge in self.marked if gone in edge}
        return None if gone == last else len(self.points)


# What is removed.


def some_order(rng, expected):
    """Points in the order in which they are removed: at random, from one side on, toward a point or away from it, and ends of constraints first or
    last."""
    points = rng.sample(expected.points, len(expected.points))
    ends = {point for edge in expected.marked for point in edge}
    a, b, x, y = rng.randint(-9, 9), rng.randint(-9, 9), *rng.choice(points)
    keys = [
        lambda point: 0,
        lambda point: a * point[0] + b * point[1],
        lambda point: (point[0] - x) ** 2 + (point[1] - y) ** 2,
        lambda point: -((point[0] - x) ** 2 + (point[1] - y) ** 2),
        lambda point: point in ends,
        lambda point: point not in ends,
    ]
    return sorted(points, key=rng.choice(keys))


# What is checked.


def check_moved(wanted, moved):
    if moved != wanted:
        raise Wrong(f"the vertex that is renamed was {moved}, and not {wanted}")


def check_links(lists, links):
    """The half edges of each edge start at its ends, those of each face follow one another, and their origins are the corners of its triangle."""
    if [(links[number][2], links[number + 1][2]) for number in range(0, len(links), 2)] != lists.edges:
        raise Wrong("half edges that start elsewhere")
    found = [[] for _ in range(len(lists.triangles) + 1)]
    if any(after >= len(links) or face >= len(found) for after, _, _, face in links):
        raise Wrong("a half edge or a face that there isn't")
    for number, (after, _, origin, face) in enumerate(links):
        if links[after][1:] != (number, links[number ^ 1][2], face):
            raise Wrong(f"half edge {number} isn't linked to the next one")
        found[face].append((origin, links[after][2], links[links[after][0]][2]))
    if any(sorted(its) != sorted(rounds(row)) for its, row in zip(found[1:], lists.triangles)):
        raise Wrong("half edges of a face that aren't those of its triangle")
    if len(found[0]) != (len(lists.hull) if links else 0):
        raise Wrong("half edges of the outer face that aren't those of the hull")


def judge(expected, told):
    """Whether all that is told is so of these points, with these constraints between them."""
    if told.points != expected.points:
        raise Wrong("other points")
    laid.judge(expected.live(), expected.marked, told.lists)
    check_links(told.lists, told.links)
    if not told.is_whole:
        raise Wrong("it isn't whole")


def loaded(points, gone, joins):
    """The triangulation of points without those that are gone, with joins as its constraints, and what it has to have."""
    left = [point for number, point in enumerate(points) if number not in gone]
    # A join may lead to a number that is gone, if an equal point isn't.
    rows = {point: row for row, point in enumerate(left)}
    kept = Kept(left, [(rows[points[a]], rows[points[b]]) for _, _, a, b in joins.all()])
    return kept, Expected(left, kept.vertices, marked_by(points, set(left), joins))


def check_set(rng, points, gone, joins):
    """Removes vertices from the triangulation of points without those that are gone, with joins as constraints, and checks what is left. Returns
    what was tried."""
    kept, expected = loaded(points, set(gone), joins)
    with kept:
        if not expected.points:
            judge(expected, kept.told())
            return Tried()
        order = some_order(rng, expected)
        count = len(order)
        most = count if count <= SMALL else rng.choice([1, count // 2, count - rng.randint(1, SMALL), count])
        judged = {rng.randrange(most), most - 1}
        tried = Tried(removed=most, emptied=int(most == count))
        for place, point in enumerate(order[:most]):
            try:
                tried = tried.and_then(remove_one(kept, expected, point, place in judged or count - place <= SMALL))
            except Wrong as wrong:
                text = "\n".join(f"{x} {y}" for x, y in order[:place + 1])
                raise Wrong(f"{wrong}\njoins: {joins}\nremoved among constraints, in this order:\n{text}") from wrong
        return tried


def remove_one(kept, expected, point, is_judged):
    """Removes the vertex of a point, and checks what is left if that is judged. Returns what was tried."""
    tried = Tried()
    if is_judged:
        is_end, on_hull = expected.is_end(point), point in hull_of(sorted(expected.points))
        tried = Tried(ends=int(is_end), on_hull=int(on_hull), inside=int(not is_end and not on_hull))
    vertex = expected.points.index(point)
    check_moved(expected.remove(vertex), kept.remove(vertex))
    if is_judged:
        judge(expected, kept.told())
    return tried


# Faults that are planted, to see that each is found.


def relisted(lists, triangles):
    """The same lists with other triangles."""
    edges = sorted({(min(a, b), max(a, b)) for row in triangles for a, b, _ in rounds(row)})
    return lists._replace(triangles=triangles, neighbors=neighbors_of(triangles), edges=edges)


def other_marks(expected, lists, lost):
    """Lists with other constraints, where some were lost with the vertex: what is done, what is to be found, and the lists."""
    free = [row for row in lists.edges if frozenset(expected.points[it] for it in row) not in expected.marked]
    near = [row for row in free if any(expected.points[it] in edge for edge in lost for it in row)]
    if near:
        yield "a mark left", "other constraints", lists._replace(constraints=[*lists.constraints, near[0]])
    if lists.constraints:
        yield "another constraint unmarked", "other constraints", lists._replace(constraints=lists.constraints[1:])
    if lists.constraints and near:
        yield "another edge marked", "other constraints", lists._replace(constraints=[near[0], *lists.constraints[1:]])


def other_triangles(expected, lists, vertex):
    """Lists with other triangles after a vertex was removed whose number is another's now, or none's."""
    points, rows = expected.points, lists.triangles
    turned = [begun(*row) for row in rows]
    renamed = [tuple(len(points) if it == vertex else it for it in row) for row in rows]
    if renamed != rows:
        yield "a corner not renamed", "is no point's least row", relisted(lists, renamed)
    yield "a triangle missing", "the border isn't the hull", relisted(lists, rows[1:])
    yield "a triangle turned over", "a triangle that doesn't go counterclockwise", relisted(lists, [rows[0][::-1], *rows[1:]])
    flat = (it for it in flipped(points, turned, expected.marked, False) if lies_inside(*(points[it[0][place]] for place in (0, 3, 2, 1))))
    for _, others in islice(flat, FLIPS):
        yield "an edge that isn't Delaunay", "which no constraint has", relisted(lists, others)
    for _, others in islice(flipped(points, turned, expected.marked, True), FLIPS):
        yield "a constraint flipped", "a constraint that isn't an edge", relisted(lists, others)


def other_rows(lists):
    """Lists one of which disagrees with the others."""
    yield "other neighbors", "--neighbors has others", lists._replace(neighbors=[(-1, -1, -1), *lists.neighbors[1:]])
    yield "an edge left out", "other edges", lists._replace(edges=lists.edges[1:])
    yield "the hull the other way", "--hull has others", lists._replace(hull=lists.hull[::-1])
    yield "another depth", "other regions", lists._replace(regions=[lists.regions[0] + 1, *lists.regions[1:]])


def other_links(links):
    """Links of half edges, one of which leads elsewhere."""
    after, before, origin, face = links[0]
    yield "another half edge before", [(after, before ^ 1, origin, face), *links[1:]]
    yield "another half edge after", [(after ^ 1, before, origin, face), *links[1:]]
    yield "another origin", [(after, before, links[1][2], face), *links[1:]]
    yield "another face", [(after, before, origin, links[1][3]), *links[1:]]


def wrongs(expected, before, after, vertex, lost):
    """What may be told wrongly after the removal of a vertex, with constraints that were lost by it: what is done, what is to be found, and it."""
    yield "the vertex left", "other points", before
    if vertex + 1 < len(expected.points):
        yield "points not renamed", "other points", after._replace(points=before.points[:vertex] + before.points[vertex + 1:])
    for name, reason, lists in [
        *other_marks(expected, after.lists, lost), *other_triangles(expected, after.lists, vertex), *other_rows(after.lists),
    ]:
        yield name, reason, after._replace(lists=lists)
    for name, links in other_links(after.links):
        yield name, "half edge", after._replace(links=links)
    yield "not whole", "it isn't whole", after._replace(is_whole=False)


OF_MOVED = ["another vertex renamed", "no vertex renamed", "a vertex renamed"]
OF_TOLD = [
    "the vertex left", "points not renamed", "a mark left", "another constraint unmarked", "another edge marked", "a corner not renamed",
    "a triangle missing", "a triangle turned over", "an edge that isn't Delaunay", "a constraint flipped", "other neighbors", "an edge left out",
    "the hull the other way", "another depth", "another half edge before", "another half edge after", "another origin", "another face", "not whole",
]


def plant_one(kept, expected, point, planted):
    """Removes the vertex of a point, and plants each fault into what is told then."""
    before, marks, vertex = kept.told(), set(expected.marked), expected.points.index(point)
    wanted, moved = expected.remove(vertex), kept.remove(vertex)
    check_moved(wanted, moved)
    others = [("another vertex renamed", vertex), ("no vertex renamed", None)] if wanted is not None else [("a vertex renamed", vertex)]
    for name, other in others:
        finds("the vertex that is renamed was", check_moved, wanted, other)
        planted[name] += 1
    after = kept.told()
    judge(expected, after)
    if not after.lists.triangles:
        return
    for name, reason, wrong in wrongs(expected, before, after, vertex, marks - expected.marked):
        finds(reason, judge, expected, wrong)
        planted[name] += 1


def self_test(rng, sets):
    """Plants each fault into what is told after removals among constraints of some sets of points. Returns how many were planted."""
    planted = dict.fromkeys([*OF_MOVED, *OF_TOLD], 0)
    for number in range(sets):
        points = somewhere(rng, rng.randint(12, 40), rng.choice([4, 30, LIMIT]))
        points.append(points[3])
        gone = rng.sample(range(len(points)), 3) if number % 2 else []
        kept, expected = loaded(points, gone, lawful_part(points, gone, Joins(some_pairs(rng, points), some_curves(rng, points))))
        with kept:
            judge(expected, kept.told())
            for point in some_order(rng, expected)[:3]:
                plant_one(kept, expected, point, planted)
            plant_one(kept, expected, expected.points[-1], planted)
    if missing := [fault for fault, times in planted.items() if times < 3]:
        raise Wrong(f"'{missing[0]}' was hardly planted")
    return sum(planted.values())
