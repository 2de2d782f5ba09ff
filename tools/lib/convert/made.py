"""Surfaces made at random: whole ones, damaged ones, and such as lie on no sphere."""

from .surface import Surface, sides_of


def sphere(chooser):
    """A closed surface: a tetrahedron with vertices put in, edges flipped, and faces joined."""
    surface = Surface(4, [(0, 2, 1), (0, 1, 3), (1, 2, 3), (2, 0, 3)])
    for _ in range(chooser.randrange(12)):
        face = surface.faces.pop(chooser.randrange(len(surface.faces)))
        surface.faces += [[*side, surface.vertices] for side in sides_of(face)]
        surface.vertices += 1
    for _ in range(chooser.randrange(8)):
        join(surface, chooser)
    chooser.shuffle(surface.faces)
    return surface


def join(surface, chooser):
    """Joins two faces along a side, if they share one alone and corners are left that three edges meet at."""
    one = chooser.choice(surface.faces)
    start, end = chooser.choice(sides_of(one))
    two = next((face for face in surface.faces if (end, start) in sides_of(face)), None)
    if two is None or two is one or len(set(one) & set(two)) > 2:
        return
    turned = [one[(one.index(end) + step) % len(one)] for step in range(len(one))]
    other = [two[(two.index(start) + step) % len(two)] for step in range(len(two))]
    surface.faces = [face for face in surface.faces if face is not one and face is not two] + [turned + other[1:-1]]


def grid(chooser, is_turned, is_closed):
    """A grid with its first and last column joined, in a turned way or not, and then its first and last row, or not."""
    width, height = chooser.randrange(3, 6), chooser.randrange(3, 6)
    rows = height if is_closed else height + 1
    surface = Surface(width * rows, [])

    def number(x, y):
        if x == width and is_turned:
            y = height - y
        return x % width * rows + y % rows

    for x in range(width):
        for y in range(height):
            surface.faces.append([number(x, y), number(x + 1, y), number(x + 1, y + 1), number(x, y + 1)])
    return surface


def put_beside(surface, other, shared=()):
    """Adds another surface, whose vertices are new but the shared ones."""
    names = {corner: corner + surface.vertices for corner in range(other.vertices)}
    names.update((corner, corner) for corner in shared)
    surface.faces += [[names[corner] for corner in face] for face in other.faces]
    surface.vertices += other.vertices


def exchange(surface, chooser, corner):
    """Has another number take the place of a corner."""
    face = chooser.choice(surface.faces)
    face[chooser.randrange(len(face))] = corner


def add_third(surface, chooser):
    """Adds a face along a side that has two, in the one or the other way round."""
    face = [*chooser.choice(sides_of(chooser.choice(surface.faces))), surface.vertices]
    surface.vertices += 1
    surface.faces.insert(chooser.randrange(len(surface.faces) + 1), face if chooser.random() < 0.5 else face[::-1])


def leave_out(surface, chooser, count):
    for _ in range(min(count, len(surface.faces))):
        surface.faces.pop(chooser.randrange(len(surface.faces)))


# What is done to a sphere that has faces.
DAMAGES = {
    "nothing": lambda s, c: None,
    "a face left out": lambda s, c: leave_out(s, c, 1),
    "two faces left out": lambda s, c: leave_out(s, c, 2),
    "a face twice": lambda s, c: s.faces.insert(c.randrange(len(s.faces)), list(c.choice(s.faces))),
    "a face turned round": lambda s, c: c.choice(s.faces).reverse(),
    "another corner": lambda s, c: exchange(s, c, c.randrange(s.vertices)),
    "the first or last vertex as a corner": lambda s, c: exchange(s, c, c.choice([0, s.vertices - 1])),
    "a corner past the vertices": lambda s, c: exchange(s, c, c.choice([s.vertices, s.vertices + 1, 2 ** 31 - 1, 2 ** 31, 2 ** 32 - 1])),
    "a corner that is no number": lambda s, c: exchange(s, c, c.choice([-1, -2 ** 31, 2 ** 32, 2 ** 63, 2 ** 64])),
    "a corner left out": lambda s, c: c.choice(s.faces).pop(),
    "an edge with three faces": add_third,
    "any face more": lambda s, c: s.faces.append([*c.sample(range(s.vertices), 2), s.vertices - 1]),
    "two components": lambda s, c: put_beside(s, sphere(c)),
    "two spheres at a vertex": lambda s, c: put_beside(s, sphere(c), [0]),
    "two spheres at two vertices": lambda s, c: put_beside(s, sphere(c), [0, 1]),
    "a vertex more": lambda s, c: setattr(s, "vertices", s.vertices + 1),
    "no faces": lambda s, c: s.faces.clear(),
}

# What is no sphere to begin with.
GRIDS = {
    "a torus": lambda c: grid(c, False, True),
    "a Klein bottle": lambda c: grid(c, True, True),
    "a ring": lambda c: grid(c, False, False),
    "a Moebius strip": lambda c: grid(c, True, False),
}


def made(chooser):
    """What was done, and the surface; one in four has another damage besides."""
    kind = chooser.choice([*DAMAGES, *GRIDS])
    surface = GRIDS[kind](chooser) if kind in GRIDS else sphere(chooser)
    if kind in DAMAGES:
        DAMAGES[kind](surface, chooser)
    if surface.faces and chooser.random() < 0.25:
        chooser.choice(list(DAMAGES.values()))(surface, chooser)
    return kind, surface
