"""What the program delaunay says of where places are, compared with the triangles that it writes."""

from delaunay.plane import Wrong, finds, is_line, least_numbers, turn

# How many numbers stand behind each word.
COUNTS = {"OnFace": 1, "OnEdge": 2, "OnVertex": 1, "OutsideOfConvexHull": 2, "BeyondLine": 1, "NoTriangulation": 0}


def is_between(a, b, place):
    """Whether a place is on the segment between two others, and is neither."""
    return turn(a, b, place) == 0 and place not in (a, b) and min(a, b) < place < max(a, b)


def is_outside(left, a, b, place):
    """Whether a place is on the left of the way along the hull between two points, or of a line of all."""
    if turn(a, b, place) <= 0 or any(turn(a, b, point) > 0 for point in left):
        return False
    return not any(is_between(a, b, point) for point in left)


def is_beyond(left, end, place):
    """Whether all points are on a line with a place, and this one is the end before it."""
    return is_line(sorted([*left, place])) and len(left) > 1 and end in (min(left), max(left)) and not min(left) <= place <= max(left) \
        and all(not is_between(end, place, point) for point in left)


def is_right(points, first, triangles, edges, place, word, row):
    """Whether a word and its numbers say where a place is."""
    left = list(first)
    if word == "OnFace":
        if not 0 <= row[0] < len(triangles):
            return False
        a, b, c = (points[number] for number in triangles[row[0]])
        return all(turn(*side, place) > 0 for side in ((a, b), (b, c), (c, a)))
    if any(not 0 <= number < len(points) or first.get(points[number]) != number for number in row):
        return False
    ends = [points[number] for number in row]
    if word == "OnEdge":
        return row[0] < row[1] and tuple(row) in edges and is_between(*ends, place)
    if word == "OnVertex":
        return ends == [place]
    if word == "OutsideOfConvexHull":
        return tuple(sorted(row)) in edges and is_outside(left, *ends, place)
    if word == "BeyondLine":
        return is_beyond(left, *ends, place)
    return len(left) < 2 and place not in left


def check_located(points, triangles, edges, asked, lines, gone=()):
    """Each place is where the program says that it is."""
    first = least_numbers(points, gone)
    if len(lines) != len(asked):
        raise Wrong("--locate answers more or less than is asked")
    for place, line in zip(asked, lines):
        word, *rest = line.split(" ")
        if COUNTS.get(word) != len(rest) or not all(it.isdigit() for it in rest):
            raise Wrong(f"--locate says '{line}'")
        if not is_right(points, first, triangles, set(edges), place, word, [int(it) for it in rest]):
            raise Wrong(f"--locate says '{line}' of {place[0]} {place[1]}")


def self_test():
    """Plants faults into right answers. Returns how many."""
    points, triangles, edges = [(0, 0), (4, 0), (0, 4), (0, 0)], [(0, 1, 2)], [(0, 1), (1, 2), (0, 2)]
    asked = [(1, 1), (2, 0), (4, 0), (5, 5), (-1, 1)]
    right = ["OnFace 0", "OnEdge 0 1", "OnVertex 1", "OutsideOfConvexHull 2 1", "OutsideOfConvexHull 0 2"]
    check_located(points, triangles, edges, asked, right)
    wrong = [
        "OnFace 1", "OnEdge 0 1", "OnVertex 0", "OutsideOfConvexHull 0 1", "OutsideOfConvexHull 1 0", "OutsideOfConvexHull 2 0", "BeyondLine 0",
        "NoTriangulation", "OnFace", "OnFace -1", "Nowhere 0", "OnVertex 3",
    ]
    for line in wrong:
        finds("--locate says", check_located, points, triangles, edges, asked[:1], [line])
    finds("more or less", check_located, points, triangles, edges, asked, right[1:])
    line = [(0, 0), (2, 2), (4, 4)]
    check_located(line, [], [(0, 1), (1, 2)], [(5, 5), (-1, -1), (1, 0)], ["BeyondLine 2", "BeyondLine 0", "OutsideOfConvexHull 1 0"])
    for said in ("BeyondLine 0", "BeyondLine 1", "NoTriangulation", "OnEdge 1 2", "OutsideOfConvexHull 1 0"):
        finds("--locate says", check_located, line, [], [(0, 1), (1, 2)], [(5, 5)], [said])
    return len(wrong) + 6
