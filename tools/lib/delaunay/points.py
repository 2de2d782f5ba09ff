"""Sets of points made at random, many of them degenerate."""

LIMIT = 2**53
# How far apart points may be for the predicates to compute in machine words, about.
NEAR = 2**30
MOST = 300


def somewhere(rng, count, reach=LIMIT):
    """Points anywhere, no coordinate beyond the reach."""
    return [(rng.randint(-reach, reach), rng.randint(-reach, reach)) for _ in range(count)]


def crowded(rng, count):
    return somewhere(rng, count, rng.choice([1, 3, 10, 30]))


def grid(rng, count):
    width = rng.randint(1, max(1, int(count**0.5)) + 3)
    step = rng.choice([1, 2, 1000, NEAR // 200, LIMIT // 200])
    return [(step * (i % width), step * (i // width) - LIMIT // 2) for i in range(count)]


def slanted(rng, count):
    """A grid whose axes are none of the plane's."""
    width = max(1, int(count**0.5))
    most = rng.choice([900, LIMIT // MOST // 2])
    (a, b), (c, d) = [(rng.randint(-most, most), rng.randint(-most, most)) for _ in range(2)]
    return [(a * (i % width) + c * (i // width), b * (i % width) + d * (i // width)) for i in range(count)]


def line(rng, count):
    a, b = rng.choice([(1, 0), (0, 1), (1, 1), (2, -3), (-7, 5)])
    reach = rng.choice([5, count, 100_000_000, LIMIT // 7])
    return [(a * k, b * k) for k in (rng.randint(-reach, reach) for _ in range(count))]


def line_and_more(rng, count):
    return line(rng, count - count // 8 - 1) + somewhere(rng, count // 8 + 1, rng.choice([3, 1000]))


def sides(rng, count):
    """Points on the sides of a triangle or a square, some within."""
    reach = rng.choice([3, 20, NEAR, LIMIT])
    corners = rng.choice([[(-reach, -reach), (reach, -reach), (reach, reach), (-reach, reach)], [(0, -reach), (reach, 0), (0, reach)]])
    points = []
    for _ in range(count):
        place = rng.randrange(len(corners))
        (a, b), (c, d) = corners[place - 1], corners[place]
        # A step along a side is as long in x as in y, or one of them is 0.
        part, whole = rng.randint(0, reach), reach
        points.append((a + (c - a) * part // whole, b + (d - b) * part // whole) if rng.randint(0, 9) else (rng.randint(0, 2), 0))
    return points


def cross(rng, count):
    return [(0, k) if k % 2 else (k, 0) for k in (rng.randint(-count, count) for _ in range(count))]


CIRCLES = {}


def circle(rng, count):
    """Points on a circle of whole numbers, which may fill the whole range."""
    radius = rng.choice([5, 65, 1105, 5525])
    if radius not in CIRCLES:
        CIRCLES[radius] = [
            (x, y) for x in range(-radius, radius + 1) for y in [round((radius**2 - x**2) ** 0.5)] if x * x + y * y == radius**2
        ]
        CIRCLES[radius] += [(x, -y) for x, y in CIRCLES[radius] if y]
    points = rng.sample(CIRCLES[radius], min(count, len(CIRCLES[radius])))
    scale = rng.choice([1, 1, 100_000, LIMIT // radius])
    return [(scale * x, scale * y) for x, y in points] + [(0, 0)] * rng.randint(0, 2)


def circles(rng, count):
    """Two circles, one of which may have moved, with equal points among them."""
    x, y = rng.choice([(0, 0), (1, 0), (2, 3)])
    moved = [(x + a, y + b) for a, b in circle(rng, count // 2)]
    return circle(rng, count // 2) + [it for it in moved if max(map(abs, it)) <= LIMIT]


def equal(rng, count):
    few = somewhere(rng, rng.randint(1, 4), rng.choice([2, LIMIT]))
    return [rng.choice(few) for _ in range(count)]


def extremes(rng, count):
    ends = rng.choice([[-1, 0, 1], [-NEAR, -NEAR - 1, NEAR - 1, NEAR]]) + [-LIMIT, -LIMIT + 1, LIMIT - 1, LIMIT]
    return [(rng.choice(ends), rng.choice(ends)) for _ in range(count)]


def nearly_a_line(rng, count):
    """Points beside a line, by one at most."""
    reach = rng.choice([NEAR, LIMIT])
    return [(k, k // 3 + rng.randint(0, 1)) for k in (rng.randint(-reach, reach) for _ in range(count))]


def parabola(rng, count):
    reach = rng.choice([2**15, 2**26])
    return [(k, k * k) for k in (rng.randint(-reach, reach) for _ in range(count))]


def clusters(rng, count):
    centres = somewhere(rng, rng.randint(1, 4), LIMIT - 50)
    return [(x + rng.randint(-9, 9), y + rng.randint(-9, 9)) for x, y in (rng.choice(centres) for _ in range(count))]


def corners(rng, count):
    """Points near the corners of the whole range, and far from all others."""
    return [tuple(rng.choice([-1, 1]) * (LIMIT - rng.randint(0, 3)) for _ in range(2)) for _ in range(count)]


def cluster_and_far(rng, count):
    """A cluster, and three points far from it."""
    far = somewhere(rng, 3)
    x, y = rng.choice([(0, 0), (LIMIT - 1000, -LIMIT)])
    return [(x + a, y + b) for a, b in ((rng.randint(0, 1000), rng.randint(0, 1000)) for _ in range(count))] + far


def few(rng, _):
    """No, one or two points, which may be one."""
    return somewhere(rng, rng.randint(0, 2), rng.choice([0, 1, LIMIT]))


KINDS = [
    somewhere, crowded, grid, slanted, line, line_and_more, sides, cross, circle, circles, equal, extremes, nearly_a_line, parabola,
    clusters, corners, cluster_and_far, few,
]


def points_of(rng, number):
    """The set of points of this number, and what kind it is. The kinds take turns."""
    kind = KINDS[number % len(KINDS)]
    points = kind(rng, rng.choice([rng.randint(1, 8), rng.randint(1, 60), rng.randint(1, MOST)]))
    if rng.randint(0, 1):
        rng.shuffle(points)
    if rng.randint(0, 3) == 0:
        points.sort()
    return kind.__name__, points
