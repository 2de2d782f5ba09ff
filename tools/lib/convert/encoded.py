"""Surfaces as files of bytes: PLY, and STL as bytes and as text, with what each of them says as OFF."""

import math
import struct

# The types of whole numbers in PLY: their names, and how struct writes them.
WHOLE = {
    "char": "b", "int8": "b", "uchar": "B", "uint8": "B", "short": "h", "int16": "h", "ushort": "H", "uint16": "H",
    "int": "i", "int32": "i", "uint": "I", "uint32": "I",
}
FLOATS = {"float": "f", "float32": "f", "double": "d", "float64": "d"}
ORDERS = {"binary_little_endian": "<", "binary_big_endian": ">"}

# Floats that are written by other rules than most.
EDGES = [0.0, -0.0, 1.0, -1.0, 0.1, 1e-7, 1e30, -2.5e-30, 16777217.0, 123456789.0, 2.0**-126, 2.0**-149, 3.4028234663852886e38]


def kept(value, letter):
    """The value, as a float of this size keeps it."""
    return struct.unpack(letter, struct.pack(letter, value))[0]


def digits_of(value, letter):
    """How many digits the shortest decimal has that reads back to a float of this size."""
    return next(count for count in range(1, 18) if kept(float(f"{value:.{count - 1}e}"), letter) == value)


def is_shortest(word, value, letter):
    """Whether a word is a shortest decimal of a float of this size."""
    digits = word.lower().split("e")[0].replace("-", "").replace(".", "").strip("0")
    read = kept(float(word), letter)
    return read == value and math.copysign(1, read) == math.copysign(1, value) and len(digits) <= digits_of(value, letter)


def coordinate(chooser, letter):
    """A float of this size, made up."""
    value = chooser.choice([*EDGES, chooser.uniform(-1, 1), chooser.uniform(-1e6, 1e6), chooser.gauss(0, 1) * 10.0 ** chooser.randrange(-30, 30)])
    return kept(value, letter)


class Encoded:
    """A file of bytes, where its vertices and faces begin, and the size of its floats."""

    def __init__(self, content, points, faces, letter):
        self.content, self.points, self.faces, self.letter = content, points, faces, letter
        self.at = []


def header_line(chooser, text):
    return text + chooser.choice(["\n", "\n", "\r\n"])


def ply(surface, chooser):
    """The surface as binary PLY, by types and an order of bytes made up, with properties and elements that nobody reads."""
    name, order = chooser.choice(list(ORDERS.items()))
    kind, letter = chooser.choice(list(FLOATS.items()))
    most = max([corner for face in surface.faces for corner in face], default=0)
    fits = [it for it in WHOLE if most < 256 ** struct.calcsize("=" + WHOLE[it]) // (1 if WHOLE[it].isupper() else 2)]
    index, length = chooser.choice(fits or ["uint"]), chooser.choice([*WHOLE])
    extra = chooser.random() < 0.3
    points = [tuple(coordinate(chooser, letter) for _ in range(3)) for _ in range(surface.vertices)]
    lines = ["ply", f"format {name} 1.0", "comment made up", f"element vertex {surface.vertices}", *(f"property {kind} {axis}" for axis in "xyz")]
    lines += ["property uchar red", "property list short double weights"] if extra else []
    lines += ["element edge 2", "property int a", "property list uchar ushort b"] if extra else []
    lines += [f"element face {len(surface.faces)}", f"property list {length} {index} vertex_indices", "end_header"]
    content = "".join(header_line(chooser, line) for line in lines).encode()
    for point in points:
        content += struct.pack(f"{order}3{letter}", *point) + (struct.pack(f"{order}Bh2d", 7, 2, 0.5, math.nan) if extra else b"")
    content += (struct.pack(f"{order}iBiB3H", 1, 0, 2, 3, 1, 2, 3)) if extra else b""
    made = Encoded(b"", points, surface.faces, letter)
    for face in surface.faces:
        made.at.append(len(content))
        content += struct.pack(f"{order}{WHOLE[length]}{len(face)}{WHOLE[index]}", len(face), *face)
    made.content = content
    return made


def joined(points, faces):
    """The points and faces that come of triangles with these corners: one for each place, in the order in which they come first."""
    numbers, places, triangles = {}, [], []
    for face in faces:
        for corner in face:
            place = tuple(value + 0.0 for value in points[corner])
            if place not in numbers:
                numbers[place] = len(places)
                places.append(points[corner])
        triangles.append([numbers[tuple(value + 0.0 for value in points[corner])] for corner in face])
    return places, triangles


def stl_points(surface, chooser):
    """Points for the vertices, some of them at one place."""
    points = [tuple(coordinate(chooser, "f") for _ in range(3)) for _ in range(surface.vertices)]
    if chooser.random() < 0.1 and len(points) > 1:
        points[-1] = points[0]
    return points


def binary_stl(surface, chooser):
    """The triangles of a surface as binary STL. The first bytes may be those of text."""
    points = stl_points(surface, chooser)
    content = chooser.choice([b"solid made up", b"made up"]).ljust(80, b" ") + struct.pack("<I", len(surface.faces))
    made = Encoded(b"", *joined(points, surface.faces), "f")
    for face in surface.faces:
        made.at.append(len(content))
        content += struct.pack("<12fH", 0, 0, 1, *(value for corner in face for value in points[corner]), 0)
    made.content = content
    return made


def text_stl(surface, chooser):
    """The triangles of a surface as STL as text."""
    points = stl_points(surface, chooser)
    made, lines = Encoded(b"", *joined(points, surface.faces), "d"), ["solid made up"]
    for face in surface.faces:
        made.at.append(len(lines) + 1)
        corners = [f"    vertex {x!r} {y!r} {z!r}" for x, y, z in (points[corner] for corner in face)]
        lines += ["  facet normal 0 0 1", "    outer loop", *corners, "    endloop", "  endfacet"]
    made.content = "\n".join([*lines, "endsolid made up", ""]).encode()
    return made


MUTATIONS = {
    "another byte": lambda b, c: b.__setitem__(c.randrange(len(b)), c.randrange(256)),
    "a byte turned": lambda b, c: flip(b, c.randrange(len(b)), c.randrange(8)),
    "some bytes left out": lambda b, c: cut(b, c.randrange(len(b)), 1 + c.randrange(60)),
    "cut off": lambda b, c: cut(b, c.randrange(len(b)), len(b)),
    "bytes more": lambda b, c: insert(b, c.randrange(len(b) + 1), c.randbytes(1 + c.randrange(60))),
    "bytes twice": lambda b, c: again(b, c.randrange(len(b)), 1 + c.randrange(60)),
    "four large bytes": lambda b, c: large(b, c.randrange(len(b))),
}


def flip(content, place, bit):
    content[place] ^= 1 << bit


def cut(content, place, count):
    del content[place:place + count]


def insert(content, place, more):
    content[place:place] = more


def again(content, place, count):
    content[place:place] = content[place:place + count]


def large(content, place):
    content[place:place + 4] = b"\xff" * len(content[place:place + 4])


def mutated(content, chooser):
    """What was done, and the content after it; one in four is mutated several times."""
    content, kind = bytearray(content), chooser.choice(list(MUTATIONS))
    MUTATIONS[kind](content, chooser)
    while content and chooser.random() < 0.25:
        MUTATIONS[chooser.choice(list(MUTATIONS))](content, chooser)
    return kind, bytes(content)


def grid(side):
    """A square of so many cells along a side, as triangles."""
    def at(x, y):
        return x * (side + 1) + y
    faces = [face for x in range(side) for y in range(side)
             for face in ((at(x, y), at(x + 1, y), at(x + 1, y + 1)), (at(x, y), at(x + 1, y + 1), at(x, y + 1)))]
    return [(float(x), float(y), 0.0) for x in range(side + 1) for y in range(side + 1)], faces


def grid_ply(side):
    points, faces = grid(side)
    head = f"ply\nformat binary_little_endian 1.0\nelement vertex {len(points)}\nproperty float x\nproperty float y\nproperty float z\n"
    head += f"element face {len(faces)}\nproperty list uchar int vertex_indices\nend_header\n"
    return head.encode() + b"".join(struct.pack("<3f", *it) for it in points) + b"".join(struct.pack("<B3i", 3, *it) for it in faces)


def grid_stl(side):
    points, faces = grid(side)
    rows = (struct.pack("<12fH", 0, 0, 1, *points[a], *points[b], *points[c], 0) for a, b, c in faces)
    return b"grid".ljust(80) + struct.pack("<I", len(faces)) + b"".join(rows)
