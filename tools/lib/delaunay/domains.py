"""Domains to be refined: points and segments between them, ten with a name and others made at random. Coordinates are multiples of a power of two
where that fits, so that segments can be split."""

import math
from typing import NamedTuple

from delaunay import laid
from delaunay.points import LIMIT

# The power of two, and how many of its multiples a figure is wide, about.
UNIT = 4096
WIDE = 2**20


class Domain(NamedTuple):
    """Points, segments by the places of their ends, and whether only the triangles inside of them count."""

    name: str
    points: list
    segments: list
    is_inside: bool = True


# Figures.


def on_grid(x, y):
    """The multiples of the unit nearest to a place in a figure that is about 1 wide."""
    return round(x * WIDE) * UNIT, round(y * WIDE) * UNIT


def joined(curves, more=()):
    """The points of closed curves, the segments along them, and those of more lines that aren't closed."""
    points, segments = [], []
    for curve, is_closed in [*((it, True) for it in curves), *((it, False) for it in more)]:
        rows = range(len(points), len(points) + len(curve))
        segments += [*zip(rows, rows[1:]), *([(rows[-1], rows[0])] if is_closed else [])]
        points += [on_grid(*place) for place in curve]
    return points, segments


def around(x, y, radii):
    """Places around a middle, each so far from it, in equal turns."""
    turn = 2 * math.pi / len(radii)
    return [(x + radius * math.cos(turn * place), y + radius * math.sin(turn * place)) for place, radius in enumerate(radii)]


def square(x, y, half):
    return [(x - half, y - half), (x + half, y - half), (x + half, y + half), (x - half, y + half)]


def teeth(count, inner, outer):
    """The radii of a wheel with so many teeth."""
    return [inner, inner, outer, outer] * count


def square_with_circle():
    return Domain("a square with a circle", *joined([square(0, 0, 0.5), around(0, 0, [0.2] * 64)]))


def gears():
    left = [around(-0.27, 0, teeth(18, 0.2, 0.24)), around(-0.27, 0, [0.06] * 20)]
    right = [around(0.27, 0.02, teeth(12, 0.17, 0.21)), square(0.27, 0.02, 0.05)]
    return Domain("gears", *joined([*left, *right]))


def lake():
    shore = around(0, 0, [0.4 + 0.05 * math.sin(7 * turn) + 0.02 * math.sin(23 * turn) for turn in (math.pi * it / 90 for it in range(180))])
    islands = [around(0.22 * math.cos(it), 0.22 * math.sin(it), [0.05 + 0.02 * (place % 2) for place in range(8 + it)]) for it in range(6)]
    return Domain("a lake with islands, and a pond on one", *joined([shore, *islands, around(0.22, 0, [0.02] * 5)]))


def comb():
    gap = [(0.012, 0.5), (0.012, 0.1), (-0.012, 0.1), (-0.012, 0.5)]
    gaps = [(middle / 24 + x, y) for middle in range(23, 0, -1) for x, y in gap]
    return Domain("a comb", *joined([[(0, 0), (1, 0), (1, 0.5), *gaps, (0, 0.5)]]))


def letter():
    left = [(0.34, 1), (0.02, 0.03), (-0.08, 0), (0.14, 0), (0.22, 0.3)]
    outside = left + [(0.72 - x, y) for x, y in left[::-1]]
    return Domain("an A", *joined([outside, [(0.25, 0.4), (0.47, 0.4), (0.36, 0.86)]]))


def strip():
    below = [((it + 0.4 * math.sin(it * it)) / 400, 0) for it in range(401)]
    return Domain("a long strip of many segments", *joined([below + [(x + 0.001, 0.0015) for x, _ in below[::-1]]]))


def star():
    return Domain("a star", *joined([around(0, 0, [0.1, 0.5] * 11)]))


def spiral():
    way = [(it * math.pi / 12, 0.05 + 0.005 * it) for it in range(73)]
    outer = [((radius + 0.04) * math.cos(turn), (radius + 0.04) * math.sin(turn)) for turn, radius in way]
    inner = [(radius * math.cos(turn), radius * math.sin(turn)) for turn, radius in way]
    return Domain("a spiral", *joined([outer + inner[::-1]]))


def fan():
    rays = [[(0, 0), (0.4 * math.cos(it / 7), 0.4 * math.sin(it / 7))] for it in range(12)]
    points, segments = joined([square(0, 0, 0.5)], rays)
    # All rays start at one point.
    return Domain("a fan in a square", points, segments, is_inside=False)


def plate():
    holes = [around(x / 6, y / 6, [0.03 + 0.01 * ((x + y) % 3)] * (4 + x)) for x in range(1, 6) for y in range(1, 6)]
    return Domain("a plate with holes", *joined([square(0.5, 0.5, 0.5), *holes]))


def long_shore():
    """A lake with 100,000 segments, for times."""
    turns = [2 * math.pi * it / 100_000 for it in range(100_000)]
    return Domain("a lake with 100,000 segments", *joined([around(0, 0, [0.4 + 0.05 * math.sin(7 * it) + 0.002 * math.sin(997 * it) for it in turns])]))


NAMED = [square_with_circle, gears, lake, comb, letter, strip, star, spiral, fan, plate]


def curves_of(segments):
    """The closed curves that segments follow one behind the other, each as its points, and the segments that are in none."""
    curves, rest, way = [], [], []
    for segment in segments:
        if way and way[-1][1] != segment[0]:
            rest += way
            way = []
        way.append(segment)
        if len(way) > 2 and way[0][0] == segment[1]:
            curves.append([from_ for from_, _ in way])
            way = []
    return curves, [*rest, *way]


# Domains made at random.


def some_figure(rng):
    """A polygon that its middle sees, with holes, points and open lines in some of them, none of which cross."""
    count = rng.randint(3, 20)
    curves = [around(0, 0, [rng.uniform(0.3, 0.5) for _ in range(count)])]
    curves += [around(0.1, 0, [rng.uniform(0.01, 0.05) for _ in range(rng.randint(3, 6))])] if rng.randint(0, 1) else []
    curves += [around(-0.07, 0.02, [rng.uniform(0.01, 0.05) for _ in range(rng.randint(3, 6))])] if rng.randint(0, 2) == 0 else []
    points, segments = joined(curves)
    points += [on_grid(rng.uniform(-0.2, 0.2), rng.uniform(-0.2, 0.2)) for _ in range(rng.randint(0, 5))]
    more = [(rng.randrange(len(points)), rng.randrange(len(points))) for _ in range(rng.randint(0, 3))]
    return points, [*segments, *more]


def some_domain(rng, number):
    """A figure, or points of any kind with segments between them. The kinds take turns. Segments that cross others are left out."""
    if number % 2:
        points, segments = some_figure(rng)
    else:
        points = laid.some_points(rng, number // 2, 25)
        segments = laid.some_segments(rng, points)
        fits = all(abs(it) * UNIT <= LIMIT for point in points for it in point)
        points = [tuple(it * UNIT for it in point) for point in points] if fits else points
    segments = [it for it, is_laid in zip(segments, laid.laid_ones(points, segments)) if is_laid]
    return Domain(f"domain {number}", points, segments, rng.randint(0, 3) > 0)
