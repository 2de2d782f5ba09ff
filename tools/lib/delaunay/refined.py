"""Refined triangulations: exact checks of their angles and areas, of what stays and of what is new, and faults planted in right ones. All is in whole
numbers."""

import math
from typing import NamedTuple

from delaunay import laid
from delaunay.constrained import flipped
from delaunay.laid import Lists
from delaunay.plane import Wrong, begun, finds, lies_inside, neighbors_of, rounds, turn


class Asked(NamedTuple):
    """What is asked for: a smallest angle by its tangent, rise / run, twice the largest area, or None, how many points may be added, and whether only
    triangles inside count: those that a way from outside reaches past an odd number of constraints, if past as few as possible."""

    rise: int
    run: int
    doubled_area: int | None
    most: int
    is_inside: bool


class Came(NamedTuple):
    """What a refinement came to: all points by their rows, the lists, how many points it says that it added, how many corners between two
    constraints it says are smaller than asked, and whether all is as asked."""

    points: list
    lists: Lists
    added: int
    excepted: int
    done: bool


def tangent_of(degrees):
    """A tangent that is at least that of an angle from 0 to 45 degrees, and little more."""
    return math.ceil(math.tan(math.radians(degrees)) * 65535), 65535


def is_wide(asked, p, a, b):
    """Whether the angle at p from the way to a to the way to b, counterclockwise, is at least the smallest: its cotangent is dot product by cross
    product."""
    dot = (a[0] - p[0]) * (b[0] - p[0]) + (a[1] - p[1]) * (b[1] - p[1])
    return asked.rise * dot <= asked.run * turn(p, a, b)


def fault_of(asked, corners, marked):
    """What is wrong with a triangle that counts, by its corners, or ""."""
    if asked.doubled_area is not None and turn(*corners) > asked.doubled_area:
        return "a triangle is too large"
    for p, a, b in rounds(corners):
        if not is_wide(asked, p, a, b) and not {frozenset((p, a)), frozenset((p, b))} <= marked:
            return "an angle is too small"
    return ""


def counting(asked, came):
    """The corners of each triangle that counts, by the depths that the lists have."""
    rows = [row for row, depth in zip(came.lists.triangles, came.lists.regions) if depth % 2 or not asked.is_inside]
    return [[came.points[number] for number in row] for row in rows]


def faults_of(asked, came, marked):
    """What is wrong with each triangle that counts."""
    return [it for it in (fault_of(asked, corners, marked) for corners in counting(asked, came)) if it]


def exceptions_of(asked, came, marked):
    """How many corners that count are smaller than asked, between two constraints."""
    corners = [corner for row in counting(asked, came) for corner in rounds(row)]
    return sum(not is_wide(asked, p, a, b) and {frozenset((p, a)), frozenset((p, b))} <= marked for p, a, b in corners)


def judge(points, segments, asked, came):
    """Whether a refinement of the triangulation of points, with segments as constraints, came to what it may."""
    if came.points[:len(points)] != points:
        raise Wrong("an old point isn't at its place")
    new = came.points[len(points):]
    if len(new) != came.added:
        raise Wrong(f"{len(new)} points are added, and {came.added} are told")
    if len(new) > asked.most:
        raise Wrong("more points are added than allowed")
    if len(set(came.points)) != len(set(points)) + len(new):
        raise Wrong("a new point is where one was")
    marked = laid.marked_by(came.points, segments, [True] * len(segments))
    found = {frozenset(came.points[number] for number in row) for row in came.lists.constraints}
    if marked - found:
        raise Wrong("a segment isn't a chain of constraints")
    if found - marked:
        raise Wrong("a constraint isn't part of a segment")
    laid.judge(dict(enumerate(came.points)), marked, came.lists)
    faults = faults_of(asked, came, marked)
    if came.done and faults:
        raise Wrong(faults[0])
    if not came.done and not faults:
        raise Wrong("all is as asked, and that isn't told")
    if (excepted := exceptions_of(asked, came, marked)) != came.excepted:
        raise Wrong(f"{excepted} corners are excepted, and {came.excepted} are told")


# What is asked of a domain.


def some_asked(rng, domain):
    """An angle, an area and a number of points at random, which may be out of reach."""
    wide = max((abs(it) for point in domain.points for it in point), default=1)
    area = wide * wide // rng.choice([1, 10, 50, 200]) if rng.randint(0, 2) == 0 else None
    return Asked(*tangent_of(rng.choice([0, 5, 15, 20, 20, 20, 25, 30])), area, rng.choice([0, 1, 7, 60, 200, 200]), domain.is_inside)


# Faults that are planted, to see that each is found.


def with_triangles(came, triangles):
    """The same with other triangles, and with the depths that these have."""
    edges = sorted({(min(a, b), max(a, b)) for row in triangles for a, b, _ in rounds(row)})
    marked = {frozenset(came.points[it] for it in row) for row in came.lists.constraints}
    depths = laid.depths([tuple(came.points[it] for it in row) for row in triangles], marked)
    return came._replace(lists=came.lists._replace(triangles=triangles, neighbors=neighbors_of(triangles), edges=edges, regions=depths))


def moved(came, row, step):
    """The same with one point moved."""
    x, y = came.points[row]
    return came._replace(points=[*came.points[:row], (x + step[0], y + step[1]), *came.points[row + 1:]])


def with_constraints(came, constraints):
    return came._replace(lists=came.lists._replace(constraints=constraints))


def split_rows(count, came):
    """Rows of new points, after the old ones, at which constraints end, and constraints that end there."""
    halves = [row for row in came.lists.constraints if max(row) >= count]
    return sorted({max(row) for row in halves}), halves


def other_counts(asked, came):
    """Other numbers of points than were added, or allowed."""
    yield "a point more is told", "are told", asked, came._replace(added=came.added + 1)
    yield "an exception more is told", "corners are excepted", asked, came._replace(excepted=came.excepted + 1)
    if came.added:
        yield "a point too many", "more points are added than allowed", asked._replace(most=came.added - 1), came
        doubled = came._replace(points=[*came.points, came.points[-1]], added=came.added + 1)
        yield "a new point where one was", "a new point is where one was", asked._replace(most=came.added + 1), doubled


def other_constraints(count, came):
    """Other constraints than parts of the segments."""
    split, halves = split_rows(count, came)
    marks = set(map(frozenset, came.lists.constraints))
    if halves:
        rest = [it for it in came.lists.constraints if it != halves[0]]
        yield "a half isn't marked", "a segment isn't a chain of constraints", with_constraints(came, rest)
    if free := next((row for row in came.lists.edges if frozenset(row) not in marks), None):
        yield "another edge is marked", "a constraint isn't part of a segment", with_constraints(came, [*came.lists.constraints, free])
    for row in split[:1]:
        ends = [next(iter(set(edge) - {row})) for edge in came.lists.constraints if row in edge]
        (a, b), (c, d) = (came.points[it] for it in ends[:2]) if len(ends) > 1 else ((0, 0), (0, 0))
        # A step across.
        step = (0, 1) if a != c else (1, 0)
        if (a, b) != (c, d):
            yield "a constraint is split off its line", "a segment isn't a chain of constraints", moved(came, row, step)


def other_triangles(came):
    """Other triangles, whose constraints stay."""
    marked = {frozenset(came.points[it] for it in row) for row in came.lists.constraints}
    rows = [begun(*row) for row in came.lists.triangles]
    yield "a triangle missing", "the border isn't the hull", with_triangles(came, rows[1:])
    for (a, b, c, d), others in flipped(came.points, rows, marked, False):
        if lies_inside(*(came.points[it] for it in (a, d, c, b))):
            yield "an edge that isn't Delaunay", "which no constraint has", with_triangles(came, others)
            break


def others(points, asked, came):
    """What may come out wrong: what is done, what is to be found, what is asked and what came."""
    count = len(points)
    yield "an old point moved", "an old point isn't at its place", asked, moved(came, 0, (1, 0))
    if count > 1 and points[0] != points[1]:
        swapped = came._replace(points=[points[1], points[0], *came.points[2:]])
        yield "old points exchanged", "an old point isn't at its place", asked, swapped
    yield from other_counts(asked, came)
    for name, reason, wrong in [*other_constraints(count, came), *(other_triangles(came) if came.lists.triangles else [])]:
        yield name, reason, asked, wrong
    if came.lists.regions:
        depths = [came.lists.regions[0] + 1, *came.lists.regions[1:]]
        yield "another depth", "other regions", asked, came._replace(lists=came.lists._replace(regions=depths))
    if not came.done:
        yield "told as done", "is too", asked, came._replace(done=True)
    else:
        yield "told as not done", "all is as asked", asked, came._replace(done=False)


NAMES = [
    "an old point moved", "old points exchanged", "a point more is told", "an exception more is told", "a point too many", "a new point where one was", "a half isn't marked",
    "another edge is marked", "a constraint is split off its line", "a triangle missing", "an edge that isn't Delaunay", "another depth",
    "told as done", "told as not done", "a bad triangle left", "a small angle at one constraint", "a triangle too large by one",
]


def plant(points, segments, asked, came, planted):
    """Plants each fault into what a refinement came to."""
    judge(points, segments, asked, came)
    for name, reason, other, wrong in others(points, asked, came):
        finds(reason, judge, points, segments, other, wrong)
        planted[name] += 1


def plant_last(points, segments, asked, fewer, planted):
    """Plants a bad triangle: what is there before the last point is added, told as if all were as asked."""
    judge(points, segments, asked, fewer)
    if not fewer.done:
        finds("is too", judge, points, segments, asked, fewer._replace(done=True))
        planted["a bad triangle left"] += 1


def plant_limits(planted):
    """Looks at the limits: angles of which one, two or no side is a constraint, as large as asked and a little smaller, and areas."""
    corners = [(0, 0), (40, 0), (40, 10)]
    sides = [frozenset(it) for it in zip(corners, corners[1:] + corners[:1])]
    for asked, marked, wanted in (
        (Asked(1, 4, 400, 0, True), [], ""), (Asked(1, 4, 399, 0, True), [], "a triangle is too large"), (Asked(1, 4, None, 0, True), [], ""),
        (Asked(251, 1000, None, 0, True), [], "an angle is too small"), (Asked(251, 1000, None, 0, True), sides[:1], "an angle is too small"),
        (Asked(251, 1000, None, 0, True), sides[:2], "an angle is too small"), (Asked(251, 1000, None, 0, True), [sides[0], sides[2]], ""),
        (Asked(251, 1000, 399, 0, True), sides, "a triangle is too large"), (Asked(1, 4, 0, 0, True), [], "a triangle is too large"),
        (Asked(0, 1, None, 0, True), [], ""),
    ):
        if fault_of(asked, corners, set(marked)) != wanted:
            raise Wrong(f"of {asked} with constraints {marked} it isn't said that {wanted or 'all is well'}")
        planted["a triangle too large by one" if "large" in wanted else "a small angle at one constraint"] += 1
