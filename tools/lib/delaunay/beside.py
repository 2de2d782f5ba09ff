"""The lists that a binding has of points and of segments between them, beside what the program delaunay writes of the same."""

import random
import tempfile
from pathlib import Path

from delaunay.asking import notes_of, numbers, run
from delaunay.laid import Lists, laid_ones, some_segments
from delaunay.points import NEAR, somewhere

# What the program writes into files, and how many numbers a line has.
WRITTEN = {"triangles": 3, "neighbors": 3, "edges": 2, "hull": 1}


def some_set(seed):
    """Points of which no four are on a circle, but by a rare chance, so there is one triangulation; of every other seed with segments between
    them that cross none."""
    rng = random.Random(seed)
    points = somewhere(rng, rng.randint(3, 25), NEAR)
    segments = some_segments(rng, points) if seed % 2 else []
    return points, [it for it, is_laid in zip(segments, laid_ones(points, segments)) if is_laid and it[0] != it[1]]


def written(points, segments):
    """What the program writes of them."""
    with tempfile.TemporaryDirectory() as name:
        folder = Path(name)
        given, joined = folder / "points", folder / "joined"
        given.write_text("".join(f"{x} {y}\n" for x, y in points))
        joined.write_text("".join(f"{a} {b}\n" for a, b in segments))
        outputs = [word for it in WRITTEN for word in (f"--{it}-to", str(folder / it))]
        run(given, *outputs, *(["--constraints", str(joined)] if segments else []), said=notes_of(points)[1])
        found = [numbers((folder / it).read_text().splitlines(), count) for it, count in WRITTEN.items()]
    return Lists(*found[:3], [number for (number,) in found[3]], [], [])


def from_least(numbers, others=()):
    """A cycle of numbers from the least on, and what belongs to them."""
    at = numbers.index(min(numbers)) if numbers else 0
    return (*numbers[at:], *numbers[:at]), (*others[at:], *others[:at])


def across(lists):
    """Of each triangle, by its corners from the least on, the corners of those across from them."""
    names = [from_least(tuple(it))[0] for it in lists.triangles]
    turned = [from_least(tuple(corners), tuple(others)) for corners, others in zip(lists.triangles, lists.neighbors, strict=True)]
    return sorted(((corners, tuple(names[it] if 0 <= it < len(names) else it for it in others)) for corners, others in turned), key=str)


def differences(points, segments, lists):
    """Which lists differ from what the program writes."""
    wanted = written(points, segments)
    pairs = {
        "triangles or their neighbors": [across(it) for it in (lists, wanted)],
        "edges": [sorted(tuple(sorted(edge)) for edge in it.edges) for it in (lists, wanted)],
        "hull": [from_least(tuple(it.hull)) for it in (lists, wanted)],
    }
    return [f"{name}: {found}, and the program has {other}" for name, (found, other) in pairs.items() if found != other]


def unfound(points, segments, lists):
    """Changes of lists that are right, if no difference is found of them."""
    planted = {
        "a triangle less": lists._replace(triangles=lists.triangles[1:], neighbors=lists.neighbors[1:]),
        "a triangle that goes clockwise": lists._replace(triangles=[lists.triangles[0][::-1], *lists.triangles[1:]]),
        "neighbors in another order": lists._replace(neighbors=[(*row[1:], row[0]) for row in lists.neighbors]),
        "an edge less": lists._replace(edges=lists.edges[1:]),
        "a hull that goes clockwise": lists._replace(hull=lists.hull[::-1]),
    }
    return [f"{name} isn't found" for name, wrong in planted.items() if not differences(points, segments, wrong)]
