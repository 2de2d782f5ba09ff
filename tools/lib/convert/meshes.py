"""Meshes of plain lists, and what their faces tell of them: found by half edges, of which dcel_convert sees nothing."""

import random
from collections import Counter
from copy import deepcopy
from math import isfinite
from pathlib import Path

from fuzz.lines import answer
from fuzz.making import Maker
from fuzz.mesh import CLOSED, Mesh, other
from fuzz.words import from_least

from .surface import Surface

ROOT = Path(__file__).resolve().parents[3]

# How it begins to tell of a surface with several parts or borders.
MORE = r"the surface has \d+ parts?, \d+ borders?"


def stored():
    """The meshes without an open removal that stored lines leave: those of the pictures, and after any line of a talk, once each."""
    for path in sorted(ROOT.glob("docs/pictures/*.lines")):
        for mesh in [*states(path.read_text().splitlines())][-1:]:
            yield path.name, mesh
    seen = []
    for path in sorted(ROOT.glob("crates/dcel_talks/data/*.talk")):
        for talk in path.read_text().split("\n# "):
            for mesh in states([line[2:] for line in talk.split("\n") if line.startswith("> ")]):
                looks = (len(mesh.data), corners_of(mesh))
                if looks not in seen:
                    seen.append(looks)
                    yield f"{path.name}, {talk.splitlines()[0].removeprefix('# ')}", mesh


def states(lines):
    """A copy of the mesh after each line that leaves no removal open."""
    mesh = Mesh()
    for line in lines:
        answer(mesh, line)
        if mesh.removal == CLOSED:
            yield deepcopy(mesh)


def at_random(seed):
    """A mesh after lines of the fuzzer, from a seed. For every second seed lines are left out after which faces wouldn't tell the mesh."""
    maker, mesh = Maker(random.Random(seed), 12), Mesh()
    for _ in range(20 + seed % 50):
        after = deepcopy(mesh)
        answer(after, maker.lawful(mesh))
        if seed % 2 or after.removal != CLOSED or len(after.words) == 1 or inner_faces(after)[2]:
            mesh = after
    while mesh.removal != CLOSED:
        answer(mesh, maker.closing(mesh))
    return mesh


def ways_of(mesh, halves):
    """From where to where these half edges lead."""
    return [(mesh.origins[half], mesh.to(half)) for half in halves]


def corners_of(mesh):
    return [[mesh.origins[half] for half in word] for word in mesh.words]


def corners_from_least(mesh):
    """The corners of each face, from where its least half edge starts on."""
    return [[mesh.origins[half] for half in from_least(word)] for word in mesh.words]


def words_of(mesh):
    """The file of words, as the lines are answered."""
    lines = ["counts", "words", *(f"out {vertex}" for vertex in range(len(mesh.data)))]
    return "".join(answer(mesh, line) + "\n" for line in lines)


def left_out_of_faces(mesh):
    """What is said where a file of faces is made of the mesh."""
    count = sum(1 for half in mesh.words[0] if mesh.face(other(half)) == 0) // 2
    return f"dcel_convert: left out: an edge with the outer face on both sides ({count})\n" if count else ""


def doubled_ends(mesh):
    """The least two vertices that two edges join of which each has a face beside it that isn't the outer one, or None."""
    edges = Counter(
        tuple(sorted((mesh.origins[half], mesh.to(half))))
        for half in range(0, 2 * mesh.edge_count(), 2)
        if mesh.face(half) != 0 or mesh.face(other(half)) != 0
    )
    return min((ends for ends, count in edges.items() if count > 1), default=None)


def refused_as_doubled(ends):
    """What is said of such vertices."""
    return f"dcel_convert: two edges join vertices {ends[0]} and {ends[1]}: words alone can tell them apart\n"


def told_of_zeros(mesh):
    """What is said where no places are asked for."""
    return "dcel_convert: words have no coordinates: all are 0, and --places finds some\n" if mesh.data else ""


def fault_of_points(mesh, points):
    """What is wrong with points that are found for the vertices: one for each, those of vertices with an edge different, the others at 0."""
    used = set(mesh.origins)
    if len(points) != len(mesh.data) or any(not isfinite(float(word)) for point in points for word in point):
        return f"these are no points of the vertices: {points}"
    if any(point[2] != "0" for point in points) or any(points[vertex] != ("0", "0", "0") for vertex in range(len(points)) if vertex not in used):
        return f"a vertex without an edge doesn't lie at 0, or a point not in the plane: {points}"
    return None if len({points[vertex] for vertex in used}) == len(used) else f"two vertices lie at one place: {points}"


def inner_faces(mesh):
    """The surface of the inner faces, why they are no mesh by themselves, and whether they are this one."""
    words = mesh.words[1:]
    ways = ways_of(mesh, [half for word in words for half in word])
    border = [half for half in mesh.words[0] if mesh.face(other(half)) != 0 and ways_of(mesh, [half])[0] not in ways]
    reason = why_refused(words, ways) or why_no_border(ways_of(mesh, border)) or why_apart([ways_of(mesh, word) for word in words])
    reason = reason or why_nothing(mesh, words)
    return Surface(len(mesh.data), corners_of(mesh)[1:]), reason, reason is None and border == mesh.words[0]


def all_faces(mesh):
    """The same of all faces, of which the first that comes to no vertex twice is made the outer one."""
    faces = corners_of(mesh)
    reason = why_refused(mesh.words, ways_of(mesh, [half for word in mesh.words for half in word]))
    if reason is None and all(len(set(face)) < len(face) for face in faces):
        reason = "there is no border, and each face comes to a vertex twice"
    return Surface(len(mesh.data), faces), reason, reason is None


def why_nothing(mesh, words):
    """What is wrong where there is no vertex and no face."""
    return None if mesh.data or words else "the file has no vertex and no face"


def why_refused(words, ways):
    """What is wrong with faces of these half edges, that lead these ways, if anything."""
    if any(len(word) < 3 for word in words):
        return "has fewer than three corners"
    if len(set(ways)) < len(ways):
        return "both have the side"
    return None


def why_no_border(ways):
    """What keeps these ways from being a border, if anything."""
    if max(Counter(start for start, _ in ways).values(), default=0) > 1:
        return "two sides without a neighbor end at vertex"
    after = dict(ways)
    vertex = start = next(iter(after), None)
    while after:
        vertex = after.pop(vertex)
        if vertex == start and after:
            return MORE
    return None


def why_apart(faces):
    """What is wrong where faces with these sides don't hang together by edges: two edges between two vertices, laid upon one another, have
    closed some of them up."""
    reached, left = set(), [0] if faces else []
    while left:
        face = left.pop()
        if face not in reached:
            reached.add(face)
            back = {(end, start) for start, end in faces[face]}
            left += [place for place, sides in enumerate(faces) if back.intersection(sides)]
    return None if len(reached) == len(faces) else f"no mesh has these faces|{MORE}"
