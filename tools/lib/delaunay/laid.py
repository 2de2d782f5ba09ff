"""Triangulations of points with constraints between them, as bindings list them: sets made at random, and exact checks of the lists."""

from heapq import heapify, heappop, heappush
from itertools import combinations
from typing import NamedTuple

from delaunay.constrained import Joins, check_free_circles, meet_aside, parts_of, some_curves, some_pairs
from delaunay.plane import Wrong, check_cover, check_hull, check_neighbors, hull_of, is_line
from delaunay.points import KINDS


class Lists(NamedTuple):
    """What a triangulation lists, by the rows of points: of equal ones the least."""

    triangles: list
    neighbors: list
    edges: list
    hull: list
    constraints: list
    regions: list


def some_points(rng, number, most):
    """So many points at most. The kinds take turns."""
    return KINDS[number % len(KINDS)](rng, rng.randint(1, most))


def some_segments(rng, points):
    """Pairs of rows: those of joins made at random."""
    joins = Joins(some_pairs(rng, points), some_curves(rng, points)) if points else Joins([], [])
    return [(a, b) for _, _, a, b in joins.all()]


def laid_ones(points, segments):
    """For each segment whether it crosses none before it, but for those that do."""
    left, laid, answers = set(points), [], []
    for a, b in segments:
        segment = points[a], points[b]
        answers.append(not any(meet_aside(left, segment, other) for other in laid))
        laid += [segment] if answers[-1] else []
    return answers


def marked_by(points, segments, laid):
    """The parts of the segments that are laid, as pairs of points."""
    left = set(points)
    return {part for (a, b), is_laid in zip(segments, laid) if is_laid for part in parts_of(left, points[a], points[b])}


def depths(triangles, marked):
    """The least number of marked edges on a way to each triangle from outside: of ways that wait, the one past the fewest goes on first."""
    beside = {}
    for place, corners in enumerate(triangles):
        for pair in combinations(corners, 2):
            beside.setdefault(frozenset(pair), []).append(place)
    found = {}
    waiting = [(int(edge in marked), places[0]) for edge, places in beside.items() if len(places) == 1]
    heapify(waiting)
    while waiting:
        depth, place = heappop(waiting)
        if place not in found:
            found[place] = depth
            for edge in map(frozenset, combinations(triangles[place], 2)):
                for other in beside[edge]:
                    heappush(waiting, (depth + (edge in marked), other))
    return [found.get(place) for place in range(len(triangles))]


def judge(live, marked, lists):
    """Whether the lists are those of points by their rows, with these constraints between them."""
    least = {point: row for row, point in sorted(live.items(), reverse=True)}
    distinct = sorted(least)
    hull = hull_of(distinct)

    def stands(row):
        if row not in live or least[live[row]] != row:
            raise Wrong(f"{row} is no point's least row")
        return live[row]

    triangles, edges, constraints = ([tuple(map(stands, row)) for row in its] for its in (lists.triangles, lists.edges, lists.constraints))
    if len(distinct) < 3 or is_line(distinct):
        if triangles:
            raise Wrong("triangles of points on a line")
        wanted = {frozenset(pair) for pair in zip(distinct, distinct[1:])}
    else:
        wanted = {frozenset(pair) for pair in check_cover(triangles, distinct, hull)}
    for name, found, its in (("edges", edges, wanted), ("constraints", constraints, marked)):
        if len(found) != len(its) or set(map(frozenset, found)) != its:
            raise Wrong(f"other {name}")
    if not marked <= wanted:
        raise Wrong("a constraint that isn't an edge")
    check_free_circles(triangles, marked)
    check_hull([stands(row) for row in lists.hull], hull)
    check_neighbors(Lists(list(map(tuple, lists.triangles)), list(map(tuple, lists.neighbors)), *lists[2:]))
    if lists.regions != depths(triangles, marked):
        raise Wrong("other regions")
