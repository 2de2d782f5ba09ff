"""Points of the plane by exact numbers, and what triangles of them have to be."""


class Wrong(Exception):
    """What is wrong with an answer."""


def turn(a, b, c):
    """Above 0 where c lies on the left of the way from a to b."""
    return (b[0] - a[0]) * (c[1] - a[1]) - (b[1] - a[1]) * (c[0] - a[0])


def hull_of(points):
    """The hull, counterclockwise, with the points between its corners; of points on a line, there and back."""
    points = sorted(points)
    if len(points) < 2:
        return points
    if is_line(points):
        return points[:-1] + points[:0:-1]
    halves = []
    for half in (points, points[::-1]):
        way = []
        for point in half:
            while len(way) > 1 and turn(way[-2], way[-1], point) < 0:
                way.pop()
            way.append(point)
        halves.append(way)
    return halves[0][:-1] + halves[1][:-1]


def is_line(points):
    """Whether sorted points stand on one line."""
    return all(turn(points[0], points[-1], point) == 0 for point in points)


def turned_to(items, first):
    place = items.index(first)
    return items[place:] + items[:place]


def lies_inside(a, b, c, point):
    """Whether a point lies inside the circle of a triangle that goes counterclockwise."""
    rows = [(x - point[0], y - point[1]) for x, y in (a, b, c)]
    (ax, ay), (bx, by), (cx, cy) = rows
    a, b, c = (x * x + y * y for x, y in rows)
    return ax * (by * c - cy * b) - ay * (bx * c - cx * b) + a * (bx * cy - cx * by) > 0


def rounds(corners):
    """The corners of a triangle from each on."""
    a, b, c = corners
    return (a, b, c), (b, c, a), (c, a, b)


def check_cover(triangles, distinct, hull):
    """The triangles go counterclockwise, and their border is the hull: so each place of it lies in one of them. Returns their half edges."""
    if any(turn(*corners) <= 0 for corners in triangles):
        raise Wrong("a triangle that doesn't go counterclockwise")
    halves = {(a, b) for corners in triangles for a, b, _ in rounds(corners)}
    if len(halves) != 3 * len(triangles):
        raise Wrong("two triangles on one side of an edge")
    if {(a, b) for a, b in halves if (b, a) not in halves} != set(zip(hull, hull[1:] + hull[:1])):
        raise Wrong("the border isn't the hull")
    area = sum(turn((0, 0), a, b) for a, b in zip(hull, hull[1:] + hull[:1]))
    if sum(turn(*corners) for corners in triangles) != area:
        raise Wrong("another area than that of the hull")
    if {corner for corners in triangles for corner in corners} != set(distinct):
        raise Wrong("a point that is no corner")
    if len(triangles) != 2 * len(distinct) - 2 - len(hull):
        raise Wrong(f"{len(triangles)} triangles of {len(distinct)} points, {len(hull)} on the hull")
    return halves


def begun(a, b, c):
    """These three corners, from the least number on."""
    return min(rounds((a, b, c)), key=lambda row: row[0])


def least_numbers(points, gone):
    """The least number of each point that isn't gone."""
    return {point: number for number, point in reversed(list(enumerate(points))) if number not in gone}


def neighbors_of(triangles):
    """The triangle across from each corner: the one that has the edge between the other two, or -1 where there is none."""
    on = {(a, b): number for number, row in enumerate(triangles) for a, b, _ in rounds(row)}
    return [tuple(on.get((b, a), -1) for a, b in ((y, z), (z, x), (x, y))) for x, y, z in triangles]


def check_neighbors(answers):
    if answers.neighbors != neighbors_of(answers.triangles):
        raise Wrong("--neighbors has others")


def check_hull(border, hull):
    # On a line the way there and back may begin anywhere, and one point is met twice.
    if sorted(border) != sorted(hull) or (hull and len(set(hull)) == len(hull) and turned_to(border, hull[0]) != hull):
        raise Wrong("--hull has others")


def check_words(count, answers):
    """The half edges round each face start at its corners, and those out of a point start there."""
    edges, faces = len(answers.edges), len(answers.triangles) + 1
    rows = answers.words
    if rows[:1] != [["vertices", str(count), "edges", str(edges), "faces", str(faces)]] or len(rows) != 1 + faces + count:
        raise Wrong("--words counts otherwise")
    origin = {}
    for number, row in enumerate(rows[1 + faces:]):
        if row[:1] != ["out"] or any(half in origin for half in row[1:]):
            raise Wrong("--words has a half edge out of two points")
        origin |= dict.fromkeys(row[1:], number)
    corners = [[origin.pop(half, None) for half in halves] for _, *halves in rows[1:1 + faces]]
    named = [row[0] for row in rows[1:1 + faces]]
    if origin or any(None in row for row in corners) or named != [f"F{face}" for face in range(faces)]:
        raise Wrong("--words has others")
    if [begun(*row) for row in corners[1:]] != answers.triangles or len(corners[0]) != len(answers.hull) - (len(answers.hull) == 1):
        raise Wrong("--words has other faces")


def finds(reason, check, *of):
    """Raises a fault unless a check finds that reason."""
    try:
        check(*of)
    except Wrong as wrong:
        if reason in str(wrong):
            return
        raise Wrong(f"'{reason}' is called '{wrong}'") from wrong
    raise Wrong(f"'{reason}' isn't found")
