"""What delaunay answers about points some of which are joined by constraints, or by the curves of an outline: joins made at random, exact checks
of the answers, and faults planted in right ones."""

import math
import tempfile
from fractions import Fraction
from itertools import combinations
from pathlib import Path
from typing import NamedTuple

from delaunay.asking import ended, notes_of, numbers, run
from delaunay.plane import (
    Wrong, begun, check_cover, check_hull, check_neighbors, check_words, finds, hull_of, is_line, least_numbers, lies_inside, neighbors_of, rounds,
    turn,
)
from delaunay.points import LIMIT, somewhere

# Of how many pairs and curves the joins are chosen.
MOST = 12
# Why a join is refused.
REASONS = REMOVED, ITSELF, CROSSING = "a point is joined that is removed", "a point is joined to itself", "it crosses another constraint"


class Joins(NamedTuple):
    """Pairs of points that constraints join, and the curves of an outline, by the points' numbers."""

    pairs: list
    curves: list

    def sides(self):
        """The two points of each join of a curve, in the order of the lines, with the line's number."""
        return [(line, *side) for line, curve in enumerate(self.curves, 1) for side in zip(curve, curve[1:] + curve[:1])]

    def all(self):
        """The file, the line and the two points of each join, in the order in which they come."""
        pairs = [("constraints", line, *pair) for line, pair in enumerate(self.pairs, 1)]
        return pairs + [("outline", *side) for side in self.sides()]


class Told(NamedTuple):
    """The rows of numbers that the program writes."""

    triangles: list
    neighbors: list
    edges: list
    hull: list
    stats: list
    off: list
    words: list


# Joins made at random.


def some_pairs(rng, points):
    """Pairs of points: anywhere, near to one another, out of one point, or along one line."""
    count, pairs = len(points), []
    for _ in range(rng.randint(0, MOST)):
        a, b = rng.randrange(count), rng.randrange(count)
        kind = rng.randrange(4)
        if kind == 1:
            b = min((it for it in range(count) if it != a), key=lambda it: math.dist(points[a], points[it]), default=a)
        if kind == 2 and pairs:
            a = pairs[-1][0]
        if kind == 3:
            along = [it for it in range(count) if turn(points[a], points[b], points[it]) == 0]
            a, b = rng.choice(along), rng.choice(along)
        if a != b:
            pairs.append((a, b))
    return pairs


def some_curves(rng, points):
    """Closed curves: round a middle, the hull, three points, and others again or with a side in common."""
    count, curves = len(points), []
    for _ in range(rng.randint(0, MOST // 3)):
        kind = rng.randrange(5)
        some = rng.sample(range(count), min(count, 3 if kind < 2 else rng.randint(3, 8)))
        if kind == 2:
            number = {point: it for it, point in enumerate(points)}
            some = [number[point] for point in dict.fromkeys(hull_of(sorted(number)))]
        if kind > 2:
            x, y = (sum(points[it][way] for it in some) / len(some) for way in (0, 1))
            some.sort(key=lambda it: math.atan2(points[it][1] - y, points[it][0] - x))
        if kind == 1 and curves:
            place = rng.randrange(len(curves[-1]))
            some[:2] = [curves[-1][place - 1], curves[-1][place]]
        if kind == 4 and curves:
            some = rng.choice([curves[-1], curves[-1][::-1]])
        if len(set(some)) > 2:
            curves.append(some)
    return curves


def meet_aside(left, one, other):
    """Whether two segments cross at a place that isn't a point."""
    (p, q), (r, s) = one, other
    from_r, from_s, from_p, from_q = turn(p, q, r), turn(p, q, s), turn(r, s, p), turn(r, s, q)
    if from_r * from_s >= 0 or from_p * from_q >= 0:
        return False
    part = Fraction(from_p, from_p - from_q)
    return tuple(a + part * (b - a) for a, b in zip(p, q)) not in left


def refusal_of(points, gone, joins):
    """The file, the line and the reason of the first join that is refused."""
    left, laid = set(least_numbers(points, gone)), []
    for file, line, a, b in joins.all():
        segment = points[a], points[b]
        if any(end not in left for end in segment):
            return file, line, REMOVED
        if segment[0] == segment[1]:
            return file, line, ITSELF
        if any(meet_aside(left, segment, other) for other in laid):
            return file, line, CROSSING
        laid.append(segment)
    return None


def lawful_part(points, gone, joins):
    """The same joins without pairs and curves that are refused after those before."""
    pairs, curves = [], []
    for pair in joins.pairs:
        if not refusal_of(points, gone, Joins([*pairs, pair], [])):
            pairs.append(pair)
    for curve in joins.curves:
        if not refusal_of(points, gone, Joins(pairs, [*curves, curve])):
            curves.append(curve)
    return Joins(pairs, curves)


# What the program answers.


def written(folder, points, gone, pairs, curves):
    """The words that name these points and joins, which are written to files."""
    texts = {"points": points, "gone": [(it,) for it in gone], "constraints": pairs, "outline": curves}
    for name, rows in texts.items():
        Path(folder, name).write_text("".join(" ".join(map(str, row)) + "\n" for row in rows), encoding="ascii")
    words = ["--remove", f"{folder}/gone"] if gone else []
    words += ["--constraints", f"{folder}/constraints"] if pairs or not curves else []
    return words + (["--outline", f"{folder}/outline"] if curves else [])


def told_of(points, gone, pairs, curves):
    """What the program answers about points and joins. If there are curves it writes no words."""
    with tempfile.TemporaryDirectory() as folder:
        words, path = written(folder, points, gone, pairs, curves), f"{folder}/points"
        said, listed = notes_of(points, gone)
        return Told(
            numbers(run(path, *words, said=listed), 3),
            numbers(run(path, *words, "--neighbors", said=listed), 3),
            numbers(run(path, *words, "--edges", said=said), 2),
            [number for (number,) in numbers(run(path, *words, "--hull", said=said), 1)],
            [int(text.split(" ")[0]) for text in run(path, *words, "--stats", said=said)],
            run(path, *words, "--off", said=listed),
            [] if curves else [text.split(" ") for text in run(path, *words, "--words", said=said)],
        )


def refused(points, gone, joins):
    """How the program ends, what it writes and what it says about joins, without the folder of the files."""
    with tempfile.TemporaryDirectory() as folder:
        status, out, said = ended(f"{folder}/points", *written(folder, points, gone, joins.pairs, joins.curves))
        return status, out, said.replace(f"{folder}/", "")


# What is checked.


def parts_of(left, p, q):
    """The parts of a segment from point to point."""
    low, high = sorted((p, q))
    on = sorted(point for point in left if turn(p, q, point) == 0 and low <= point <= high)
    return [frozenset(pair) for pair in zip(on, on[1:])]


def marked_by(points, left, joins):
    """The parts of all joins."""
    return {part for _, _, a, b in joins.all() for part in parts_of(left, points[a], points[b])}


def check_free_circles(triangles, marked):
    """No corner lies inside the circle across an edge that isn't marked."""
    across = {(a, b): c for corners in triangles for a, b, c in rounds(corners)}
    for (a, b), c in across.items():
        if frozenset((a, b)) not in marked and (b, a) in across and lies_inside(a, b, c, across[b, a]):
            raise Wrong(f"{across[b, a]} lies inside the circle across the edge from {a} to {b}, which no constraint has")


def check_rows(points, told, edges, triangles):
    """The neighbors, and the counts and rows of these edges and triangles."""
    check_neighbors(told)
    if told.stats[2:4] != [edges, triangles]:
        raise Wrong(f"--stats says {told.stats}")
    rows = [f"{x} {y} 0" for x, y in points] + [f"3 {a} {b} {c}" for a, b, c in told.triangles]
    if told.off != ["OFF", f"{len(points)} {triangles} 0", *rows]:
        raise Wrong("--off has others")


def judge_all(points, gone, joins, told):
    """Whether the answers about points and constraints are right, each of them and together."""
    first = least_numbers(points, gone)
    distinct = sorted(first)
    hull, marked = hull_of(distinct), marked_by(points, set(first), joins)

    def stands(number):
        if not 0 <= number < len(points) or first.get(points[number]) != number:
            raise Wrong(f"{number} is no point's least number")
        return points[number]

    if any(row[0] != min(row) for row in told.triangles):
        raise Wrong("a triangle that doesn't begin with its least number")
    triangles = [tuple(stands(number) for number in row) for row in told.triangles]
    edges = [frozenset(stands(number) for number in row) for row in told.edges]
    if len(distinct) < 3 or is_line(distinct):
        if triangles:
            raise Wrong("triangles of points on a line")
        wanted = {frozenset(pair) for pair in zip(distinct, distinct[1:])}
    else:
        wanted = {frozenset(pair) for pair in check_cover(triangles, distinct, hull)}
    if not marked <= wanted:
        raise Wrong("a constraint that isn't a chain of edges")
    check_free_circles(triangles, marked)
    if len(edges) != len(wanted) or set(edges) != wanted:
        raise Wrong("--edges has others")
    check_hull([stands(number) for number in told.hull], hull)
    check_rows(points, told, len(edges), len(triangles))
    if [*told.stats[:2], *told.stats[4:]] != [len(points), len(distinct), len(set(hull)), len(marked)]:
        raise Wrong(f"--stats says {told.stats}")
    check_words(len(points), told)


def is_inside(points, curves, row):
    """Whether the middle of a triangle lies inside an odd number of curves: whether a ray to the right crosses their sides so often."""
    x, y = (sum(points[number][way] for number in row) for way in (0, 1))
    is_odd = False
    for curve in curves:
        for a, b in zip(curve, curve[1:] + curve[:1]):
            # Three times as large, as the sums are.
            p, q = (tuple(3 * it for it in points[number]) for number in (a, b))
            if (p[1] > y) != (q[1] > y) and (turn(p, q, (x, y)) > 0) == (q[1] > p[1]):
                is_odd = not is_odd
    return is_odd


def judge_inside(points, curves, whole, told):
    """Whether the answers about an outline are those about all triangles, as far as they lie inside."""
    if told.triangles != [row for row in whole.triangles if is_inside(points, curves, row)]:
        raise Wrong("other triangles than those inside the outline")
    ends = {frozenset(pair[:2]) for row in told.triangles for pair in rounds(row)}
    if told.edges != [row for row in whole.edges if frozenset(row) in ends]:
        raise Wrong("--edges has others than those inside the outline")
    if told.hull != whole.hull or [*told.stats[:2], *told.stats[4:]] != [*whole.stats[:2], *whole.stats[4:]]:
        raise Wrong("--hull or --stats has other points or constraints inside the outline")
    check_rows(points, told, len(told.edges), len(told.triangles))


def judge_refusal(points, gone, joins, told):
    """Whether joins are refused for the first reason that there is, and nothing is written."""
    file, line, reason = refusal_of(points, gone, joins)
    wanted = 1, "", f"delaunay: {file}, line {line}: {reason}\n"
    if told != wanted:
        raise Wrong(f"what is told of a refusal is {told}, and not {wanted}")


class Tried(NamedTuple):
    """How many sets of joins were refused, how many joins are laid, and of how many outlines the inside was judged."""

    refused: int = 0
    laid: int = 0
    outlines: int = 0

    def and_then(self, other):
        return Tried(*map(sum, zip(self, other)))


def check_set(rng, points, gone):
    """Checks what the program answers about points and joins, and that it refuses joins. Returns what was tried, and the joins that are laid."""
    joins = Joins(some_pairs(rng, points), some_curves(rng, points)) if points else Joins([], [])
    lawful = lawful_part(points, gone, joins)
    is_refused = refusal_of(points, gone, joins) is not None
    try:
        if is_refused:
            judge_refusal(points, gone, joins, refused(points, gone, joins))
        whole = told_of(points, gone, [*lawful.pairs, *(side[1:] for side in lawful.sides())], [])
        judge_all(points, gone, lawful, whole)
        if lawful.curves:
            judge_inside(points, lawful.curves, whole, told_of(points, gone, *lawful))
    except Wrong as wrong:
        raise Wrong(f"{wrong}\npairs: {joins.pairs}\ncurves: {joins.curves}") from wrong
    return Tried(int(is_refused), len(lawful.all()), int(bool(lawful.curves))), lawful


# Faults that are planted, to see that each is found.

def retold(points, right, triangles):
    """The same answers with other triangles."""
    edges = sorted({(min(pair[:2]), max(pair[:2])) for row in triangles for pair in rounds(row)})
    return right._replace(
        triangles=triangles,
        neighbors=neighbors_of(triangles),
        edges=edges,
        stats=[*right.stats[:2], len(edges), len(triangles), *right.stats[4:]],
        off=["OFF", f"{len(points)} {len(triangles)} 0", *right.off[2:2 + len(points)], *(f"3 {a} {b} {c}" for a, b, c in triangles)],
    )


def flipped(points, triangles, marked, of_marked):
    """The triangles after a flip of each edge that is marked, or isn't, and whose triangles make a convex whole, and the corners of these."""
    across = {(a, b): c for row in triangles for a, b, c in rounds(row)}
    for (a, b), c in across.items():
        d = across.get((b, a))
        ends = frozenset((points[a], points[b]))
        if d is None or (ends in marked) != of_marked:
            continue
        if turn(points[a], points[d], points[c]) > 0 and turn(points[d], points[b], points[c]) > 0:
            rest = [row for row in triangles if row not in (begun(a, b, c), begun(b, a, d))]
            yield (a, b, c, d), [*rest, begun(a, d, c), begun(d, b, c)]


def flips(points, right, marked, of_marked):
    """The answers after each such flip."""
    for corners, triangles in flipped(points, right.triangles, marked, of_marked):
        yield corners, retold(points, right, triangles)


def renumbered(right, old, new):
    """The triangles with another number for a point."""
    return [begun(*(new if it == old else it for it in row)) for row in right.triangles]


def others_in_all(points, gone, right):
    """Answers with other triangles, what is done to them, and what is to be found."""
    rows = right.triangles
    a, b, c = rows[0]
    yield "a triangle left out", "the border isn't the hull", rows[1:]
    yield "a triangle doubled", "two triangles on one side of an edge", [*rows, rows[0]]
    yield "a triangle turned over", "a triangle that doesn't go counterclockwise", [(a, c, b), *rows[1:]]
    yield "a row begun elsewhere", "a triangle that doesn't begin with its least number", [(b, c, a), *rows[1:]]
    ends = {pair[:2] for row in rows for pair in rounds(row)}
    numbers_used = sorted({it for row in rows for it in row})
    for over in combinations(numbers_used, 3):
        over = over if turn(*(points[it] for it in over)) > 0 else over[::-1]
        if turn(*(points[it] for it in over)) > 0 and not ends & {pair[:2] for pair in rounds(over)}:
            yield "a triangle over others", "the border isn't the hull", [*rows, begun(*over)]
            break
    for number in numbers_used:
        way = {pair[1]: pair[2] for row in rows for pair in rounds(row) if pair[0] == number}
        if len(way) == 3 and set(way) == set(way.values()):
            first = min(way)
            rest = [row for row in rows if number not in row]
            yield "a point left out", "a point that is no corner", [*rest, (first, way[first], way[way[first]])]
    first = least_numbers(points, gone)
    for number, point in enumerate(points):
        if number not in gone and first[point] != number:
            yield "another equal point", "is no point's least number", renumbered(right, first[point], number)
    if gone:
        yield "a point that is removed", "is no point's least number", renumbered(right, a, gone[0])


def slips_of_either(right):
    """Answers one of which disagrees with the others, whether of all triangles or of those inside, what is done, and what is to be found."""
    turned = right.neighbors[1:] + right.neighbors[:1]
    if turned != right.neighbors:
        yield "other neighbors", "--neighbors has others", right._replace(neighbors=turned)
    yield "a row of --off left out", "--off has others", right._replace(off=right.off[:-1])
    if right.edges:
        yield "an edge left out", "--edges has others", right._replace(edges=right.edges[1:])
    for place, name in ((2, "another count of edges"), (3, "another count of triangles")):
        yield name, "--stats says", counted_on(right, place)


def counted_on(right, place):
    """The answers with one more in a row of --stats."""
    return right._replace(stats=[it + (number == place) for number, it in enumerate(right.stats)])


def slips_of_all(right):
    """The same of all triangles."""
    yield from slips_of_either(right)
    yield "the hull the other way", "--hull has others", right._replace(hull=right.hull[::-1])
    for place, name in enumerate(["points", "vertices", "", "", "the hull", "constraints"]):
        if name:
            yield f"another count of {name}", "--stats says", counted_on(right, place)
    out = next(number for number, row in enumerate(right.words) if row[0] == "out" and row[1:])
    yield "words without counts", "--words counts otherwise", right._replace(words=right.words[1:])
    less = [*right.words[:out], right.words[out][:-1], *right.words[out + 1:]]
    yield "words without a half edge", "--words has others", right._replace(words=less)


def slips_of_inside(right):
    """The same of the triangles inside an outline."""
    yield from slips_of_either(right)
    other = "--hull or --stats has other points or constraints"
    yield "the hull the other way, inside", other, right._replace(hull=right.hull[::-1])
    for place, name in enumerate(["points", "vertices", "", "", "the hull", "constraints"]):
        if name:
            yield f"another count of {name}, inside", other, counted_on(right, place)


def others_inside(whole, right):
    """Other triangles than those inside: with one of the outside, without one, all, or none."""
    outside = [row for row in whole.triangles if row not in right.triangles]
    for row in outside[:3]:
        yield "a triangle of the outside", [it for it in whole.triangles if it in right.triangles or it == row]
    for row in right.triangles[:3]:
        yield "a triangle of the inside left out", [it for it in right.triangles if it != row]
    if outside:
        yield "all triangles", whole.triangles
    if right.triangles:
        yield "no triangles", []


def plant(points, gone, joins, planted):
    """Plants each fault into right answers."""
    whole = told_of(points, gone, [*joins.pairs, *(side[1:] for side in joins.sides())], [])
    marked = marked_by(points, set(least_numbers(points, gone)), joins)
    judge_all(points, gone, joins, whole)
    wrongs = list(slips_of_all(whole))
    wrongs += [(name, reason, retold(points, whole, rows)) for name, reason, rows in others_in_all(points, gone, whole)]
    wrongs += [("a marked edge flipped", "that isn't a chain of edges", wrong) for _, wrong in flips(points, whole, marked, True)]
    for (a, b, c, d), wrong in flips(points, whole, marked, False):
        if lies_inside(points[a], points[d], points[c], points[b]):
            wrongs.append(("a free edge flipped", "which no constraint has", wrong))
    for name, reason, wrong in wrongs:
        finds(reason, judge_all, points, gone, joins, wrong)
        planted[name] += 1
    if joins.curves:
        plant_inside(points, joins.curves, whole, told_of(points, gone, *joins), planted)


def plant_inside(points, curves, whole, right, planted):
    """Plants faults into right answers about an outline."""
    judge_inside(points, curves, whole, right)
    wrongs = [(name, "other triangles than those inside", retold(points, right, rows)) for name, rows in others_inside(whole, right)]
    for name, reason, wrong in [*wrongs, *slips_of_inside(right)]:
        finds(reason, judge_inside, points, curves, whole, wrong)
        planted[f"{name}: an outline"] += 1


def others_refused(told, lawful):
    """What is told of a refusal, with something changed, and what is told of joins that aren't refused."""
    status, _, said = told
    names = {"constraints": "outline", "outline": "constraints"}
    file = next(name for name in names if f" {name}," in said)
    reason = said.split(": ")[-1]
    yield "a refusal that writes", (status, "0 1 2\n", said)
    yield "a refusal with status 0", (0, "", said)
    yield "a refusal of another line", (status, "", said.replace("line ", "line 1"))
    yield "a refusal of another file", (status, "", said.replace(f" {file},", f" {names[file]},"))
    yield "a refusal for another reason", (status, "", said.replace(reason, next(it for it in REASONS if f"{it}\n" != reason) + "\n"))
    yield "no refusal", lawful


def plant_refusals(points, gone, joins, planted):
    """Plants faults into what is told of a refusal."""
    told = refused(points, gone, joins)
    judge_refusal(points, gone, joins, told)
    for name, wrong in others_refused(told, refused(points, gone, lawful_part(points, gone, joins))):
        finds("what is told of a refusal", judge_refusal, points, gone, joins, wrong)
        planted[name] += 1


OF_EITHER = [
    "other neighbors", "a row of --off left out", "an edge left out", "another count of edges", "another count of triangles",
]
COUNTS = ["another count of points", "another count of vertices", "another count of the hull", "another count of constraints"]
OF_ALL = [
    "a triangle left out", "a triangle doubled", "a triangle turned over", "a row begun elsewhere", "a triangle over others", "a point left out",
    "another equal point", "a point that is removed", "a marked edge flipped", "a free edge flipped", "the hull the other way",
    "words without counts", "words without a half edge", *OF_EITHER, *COUNTS,
]
OF_OUTLINES = [
    "a triangle of the outside", "a triangle of the inside left out", "all triangles", "no triangles", *OF_EITHER,
    *(f"{name}, inside" for name in ["the hull the other way", *COUNTS]),
]
OF_REFUSALS = [
    "a refusal that writes", "a refusal with status 0", "a refusal of another line", "a refusal of another file", "a refusal for another reason",
    "no refusal",
]


def self_test(rng, sets):
    """Plants each fault into the answers about some sets of points. Returns how many were planted."""
    planted = dict.fromkeys([*OF_ALL, *(f"{name}: an outline" for name in OF_OUTLINES), *OF_REFUSALS], 0)
    for number in range(sets):
        points = somewhere(rng, rng.randint(12, 40), rng.choice([4, 30, LIMIT]))
        points.append(points[3])
        gone = rng.sample(range(len(points)), 3) if number % 2 else []
        joins = Joins(some_pairs(rng, points), some_curves(rng, points))
        if refusal_of(points, gone, joins):
            plant_refusals(points, gone, joins, planted)
        plant(points, gone, lawful_part(points, gone, joins), planted)
    if missing := [fault for fault, times in planted.items() if times < 3]:
        raise Wrong(f"'{missing[0]}' was hardly planted")
    return sum(planted.values())
