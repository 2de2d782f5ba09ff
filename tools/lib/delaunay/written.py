"""Refinements of domains by the program: what it writes of them, judged by exact numbers, and faults planted in right answers."""

import random
import re
import tempfile
from fractions import Fraction
from typing import NamedTuple

from delaunay import domains, laid
from delaunay.asking import ended, numbers
from delaunay.constrained import check_free_circles, is_inside
from delaunay.plane import Wrong, check_cover, finds, hull_of, least_numbers, rounds, turn
from delaunay.refined import Asked, fault_of, tangent_of

# Decimals that are written have at most so many places more than those that are read, and doubles on a grid none here.
STEPS = 10**4
ADDED = re.compile(r"^delaunay: (?:not all triangles are as asked: )?([0-9]+) points? w(?:as|ere) added$", re.MULTILINE)


class Written(NamedTuple):
    """All points, in parts of a unit, the triangles and edges by their numbers, how many points are said to be added, and whether it is said that each
    triangle is as asked."""

    points: list
    triangles: list
    edges: list
    added: int
    done: bool


def write(path, rows):
    with open(path, "w", encoding="ascii") as file:
        file.writelines(" ".join(map(str, row)) + "\n" for row in rows)


def read(path):
    with open(path, encoding="ascii") as file:
        return file.read().splitlines()


def steps_of(line):
    """The coordinates of a line, in steps."""
    steps = [Fraction(word) * STEPS for word in line.split(" ")]
    if len(steps) != 2 or any(it.denominator != 1 for it in steps):
        raise Wrong(f"--points-to has the line {line}")
    return tuple(map(int, steps))


def written_of(domain, degrees, asked):
    """What the program writes of a domain that it refines."""
    curves, rest = domains.curves_of(domain.segments)
    with tempfile.TemporaryDirectory() as folder:
        write(f"{folder}/points", domain.points)
        write(f"{folder}/curves", curves)
        write(f"{folder}/pairs", rest if domain.is_inside else domain.segments)
        words = ["--refine", str(degrees), "--max-points", str(asked.most), "--constraints", f"{folder}/pairs"]
        words += ["--outline", f"{folder}/curves"] if domain.is_inside else []
        words += ["--max-area", str(Fraction(asked.doubled_area, 2) if asked.doubled_area % 2 == 0 else f"{asked.doubled_area // 2}.5")] if asked.doubled_area else []
        names = ("points", "triangles", "edges")
        words += [word for name in names for word in (f"--{name}-to", f"{folder}/{name}.made")]
        status, out, error = ended(f"{folder}/points", *words)
        told = ADDED.findall(error)
        if out or status not in (0, 1) or len(told) != 1 or (status == 1) != ("not all" in error):
            raise Wrong(f"it ends with status {status}, and says {error.strip()}")
        points, triangles, edges = (read(f"{folder}/{name}.made") for name in names)
    return Written(list(map(steps_of, points)), numbers(triangles, 3), numbers(edges, 2), int(told[0]), status == 0)


def within(curve, place):
    """Whether a place lies inside a curve, or None on it."""
    crossed = False
    for a, b in zip(curve, curve[1:] + curve[:1]):
        side = turn(a, b, place)
        if side == 0 and min(a[0], b[0]) <= place[0] <= max(a[0], b[0]) and min(a[1], b[1]) <= place[1] <= max(a[1], b[1]):
            return None
        if (a[1] > place[1]) != (b[1] > place[1]) and (side > 0) == (b[1] > a[1]):
            crossed = not crossed
    return crossed


def doubled_area_of(curves):
    """Twice the area inside an odd number of curves, none of which touches another one."""
    total = 0
    for curve in curves:
        around = [within(other, curve[0]) for other in curves if other is not curve]
        area = abs(sum(turn((0, 0), a, b) for a, b in zip(curve, curve[1:] + curve[:1])))
        total += -area if around.count(True) % 2 else area
    return total


def check_marked(marked, corners, edges):
    """A part of a segment that is no edge lies in no triangle, so it is outside."""
    for a, b in map(tuple, marked - edges):
        middle = a[0] + b[0], a[1] + b[1]
        for row in corners:
            if all(turn(*((2 * x, 2 * y) for x, y in pair), middle) >= 0 for pair in zip(row, row[1:] + row[:1])):
                raise Wrong("a segment isn't a chain of edges")


def judge(domain, asked, came):
    """Whether what the program wrote is what it may write."""
    count = len(domain.points)
    old = [(x * STEPS, y * STEPS) for x, y in domain.points]
    if came.points[:count] != old:
        raise Wrong("an old point isn't at its place")
    if len(came.points) - count != came.added:
        raise Wrong(f"{len(came.points) - count} points are added, and {came.added} are told")
    if came.added > asked.most:
        raise Wrong("more points are added than allowed")
    if len(set(came.points)) != len(set(old)) + came.added:
        raise Wrong("a new point is where one was")
    least = least_numbers(came.points, ())
    corners = [tuple(came.points[number] for number in row) for row in came.triangles]
    if any(least[came.points[number]] != number for row in came.triangles for number in row):
        raise Wrong("a number that is no point's least")
    judge_triangles(domain, asked, came, corners)


def judge_triangles(domain, asked, came, corners):
    """Whether the triangles are those of a constrained triangulation of the points, inside the domain, and as asked."""
    halves = [(a, b) for row in corners for a, b, _ in rounds(row)]
    marked = laid.marked_by(came.points, domain.segments, [True] * len(domain.segments))
    edges = set(map(frozenset, halves))
    if any(turn(*row) <= 0 for row in corners) or len(set(halves)) != len(halves):
        raise Wrong("triangles lie on each other")
    if domain.is_inside:
        curves = domains.curves_of(domain.segments)[0]
        if not all(is_inside(came.points, curves, row) for row in came.triangles):
            raise Wrong("a triangle is outside")
        if sum(turn(*row) for row in corners) != doubled_area_of([[came.points[number] for number in curve] for curve in curves]):
            raise Wrong("the triangles don't cover the domain")
    else:
        hull = hull_of(sorted(set(came.points)))
        check_cover(corners, sorted(set(came.points)), hull)
        # Sides of the hull are split, as segments are.
        marked |= set(map(frozenset, zip(hull, hull[1:] + hull[:1])))
    check_marked(marked, corners, edges)
    check_free_circles(corners, marked)
    if {frozenset(came.points[number] for number in row) for row in came.edges} != edges or len(came.edges) != len(edges):
        raise Wrong("--edges has others")
    area = None if asked.doubled_area is None else asked.doubled_area * STEPS**2
    faults = [it for it in (fault_of(asked._replace(doubled_area=area), row, marked) for row in corners) if it]
    if came.done and faults:
        raise Wrong(faults[0])
    if not came.done and not faults:
        raise Wrong("each triangle is as asked, and that isn't told")


class Tried(NamedTuple):
    """How many refinements came to what was asked, how many didn't, and how many points were added."""

    done: int = 0
    short: int = 0
    added: int = 0


def some_askings(rng):
    """An angle, its tangent, no area, and a number of points."""
    degrees = rng.choice([0, 10, 20, 20, 25.5, 30])
    return degrees, Asked(*tangent_of(degrees), None, rng.choice([0, 5, 300, 300]), True)


def cases(count, seed):
    """Domains with what is asked of them: those with a name, and others made at random."""
    for make in domains.NAMED:
        domain = make()
        domain = domain._replace(points=[(x // domains.UNIT, y // domains.UNIT) for x, y in domain.points])
        wide = max(abs(it) for point in domain.points for it in point)
        for degrees, area in ((20, None), (20, wide * wide // 500), (25, None)):
            yield domain, degrees, Asked(*tangent_of(degrees), area, 20_000, domain.is_inside)
    for number in range(count):
        rng = random.Random(1000 * seed + number)
        domain = domains.some_domain(rng, 2 * number + 1)
        segments = [(a, b) for a, b in domain.segments if domain.points[a] != domain.points[b]]
        points = [(x // domains.UNIT, y // domains.UNIT) for x, y in domain.points]
        yield domain._replace(points=points, segments=segments), *some_askings(rng)


def check_all(count, seed):
    """Checks what the program writes of the domains with a name and of so many others. Returns what was tried."""
    done = short = added = 0
    for place, (domain, degrees, asked) in enumerate(cases(count, seed)):
        try:
            came = written_of(domain, degrees, asked)
            judge(domain, asked, came)
            if place < 3 * len(domains.NAMED) and not came.done:
                raise Wrong("it isn't refined as asked")
        except Wrong as wrong:
            given = f"points: {domain.points}\nsegments: {domain.segments}"
            raise Wrong(f"{domain.name}, of which {degrees} degrees and {asked} are asked: {wrong}\n{given}") from wrong
        done, short, added = done + came.done, short + (not came.done), added + came.added
    return Tried(done, short, added)


# Faults that are planted, to see that each is found.


def others(asked, came):
    """What may come out wrong: what is done, what is to be found, what is asked and what came."""
    (x, y), *rest = came.points
    yield "an old point moved", "an old point isn't at its place", asked, came._replace(points=[(x + 1, y), *rest])
    yield "a point more is told", "are told", asked, came._replace(added=came.added + 1)
    yield "a triangle missing", "", asked, came._replace(triangles=came.triangles[1:])
    yield "a triangle twice", "triangles lie on each other", asked, came._replace(triangles=came.triangles + came.triangles[:1])
    yield "an edge missing", "--edges has others", asked, came._replace(edges=came.edges[1:])
    if came.added:
        yield "a point too many", "more points are added than allowed", asked._replace(most=came.added - 1), came
    yield "told otherwise", "told" if came.done else "", asked, came._replace(done=not came.done)


NAMES = ["an old point moved", "a point more is told", "a triangle missing", "a triangle twice", "an edge missing", "a point too many", "told otherwise"]


def self_test(seed, count):
    """Plants faults into what the program writes. Returns how many were planted."""
    planted = dict.fromkeys(NAMES, 0)
    for domain, degrees, asked in list(cases(count, seed))[::5]:
        came = written_of(domain, degrees, asked)
        judge(domain, asked, came)
        for name, reason, other, wrong in others(asked, came):
            finds(reason, judge, domain, other, wrong)
            planted[name] += 1
    if missing := [name for name, times in planted.items() if times < 3]:
        raise Wrong(f"'{missing[0]}' was hardly planted")
    return sum(planted.values())
