"""What each line does, by a function of its word, which edits the mesh and returns the reply, or nothing for `ok`; and what lines ask."""

from .mesh import CLOSED, other

# Replies.


def listed(word, numbers):
    return " ".join([word, *map(str, numbers)])


def opened(edges, faces, new):
    return " ".join([listed("opened edges", edges), listed("faces", faces), listed("new", new)])


def from_least(items):
    place = items.index(min(items)) if items else 0
    return items[place:] + items[:place]


# Commands.


def append(mesh, datum):
    mesh.data.append(datum)
    mesh.vertex_anchors.append(None)
    return f"vertex {len(mesh.data) - 1}"


def triangle(mesh, *data):
    clear(mesh)
    mesh.data, mesh.origins = list(data), [0, 1, 1, 2, 2, 0]
    mesh.words, mesh.vertex_anchors, mesh.face_anchors = [[0, 2, 4], [1, 5, 3]], [0, 2, 4], [0, 1]


def setup(mesh, first, second):
    mesh.set_word(0, [0, 1])
    mesh.origins = [first, second]
    mesh.vertex_anchors[first], mesh.vertex_anchors[second], mesh.face_anchors[0] = 0, 1, 0


def extend(mesh, end, new):
    half = len(mesh.origins)
    out = mesh.vertex_anchors[end]
    mesh.replace(other(out), [other(out), half + 1, half])
    mesh.origins += [new, end]
    mesh.vertex_anchors[new] = half
    return f"vertex {new}"


def line(mesh, edge, new):
    half, end = len(mesh.origins), mesh.to(edge)
    mesh.replace(edge, [edge, half])
    mesh.replace(other(edge), [half + 1, other(edge)])
    mesh.origins[other(edge)] = new
    mesh.origins += [new, end]
    mesh.vertex_anchors[end], mesh.vertex_anchors[new] = half + 1, half
    return f"halves {edge} {half}"


def close(mesh, edge):
    half, after = len(mesh.origins), mesh.next(edge)
    start, end = mesh.origins[edge], mesh.to(after)
    word = [item for item in mesh.words[0] if item != after]
    word[word.index(edge)] = half + 1
    mesh.set_word(0, word)
    mesh.add_face([edge, after, half], half)
    mesh.origins += [end, start]
    mesh.face_anchors[0] = half + 1
    return f"half {half + 1}"


def outside(mesh, edge, new):
    half, face = len(mesh.origins), mesh.face(edge)
    mesh.replace(edge, [half + 3, half + 1])
    mesh.origins += [mesh.to(edge), new, new, mesh.origins[edge]]
    mesh.add_face([edge, half, half + 2], edge)
    mesh.face_anchors[face], mesh.vertex_anchors[new] = half + 3, half + 2
    return f"vertex {new}"


def insert(mesh, new, face):
    half = len(mesh.origins)
    word = mesh.words[face]
    first = word.index(mesh.face_anchors[face])
    a, b, c = word[first:] + word[:first]
    mesh.set_word(face, [a, half, half + 5])
    mesh.add_face([b, half + 2, half + 1], b)
    mesh.add_face([c, half + 4, half + 3], c)
    mesh.origins += [mesh.origins[b], new, mesh.origins[c], new, mesh.origins[a], new]
    mesh.vertex_anchors[new] = half + 1
    return f"vertex {new}"


def half(mesh, edge, new):
    first, face, twin = len(mesh.origins), mesh.face(edge), other(edge)
    after, before, end = mesh.next(edge), mesh.prev(edge), mesh.to(edge)
    mesh.replace(twin, [first + 3, twin])
    mesh.set_word(face, [edge, first + 1, before])
    mesh.origins += [mesh.origins[before], new, new, end]
    mesh.origins[twin] = new
    mesh.add_face([first, first + 2, after], first + 2)
    mesh.vertex_anchors[new], mesh.vertex_anchors[end], mesh.face_anchors[face] = first + 2, first + 3, edge
    return f"halves {edge} {first + 2}"


def split(mesh, edge, new):
    half, twin, end = len(mesh.origins), other(edge), mesh.to(edge)
    face, facing = mesh.face(edge), mesh.face(twin)
    after, before, twin_after, twin_before = mesh.next(edge), mesh.prev(edge), mesh.next(twin), mesh.prev(twin)
    mesh.origins += [mesh.origins[twin_before], new, end, new, mesh.origins[before], new]
    mesh.origins[twin] = new
    mesh.set_word(face, [edge, half + 5, before])
    mesh.set_word(facing, [twin, twin_after, half])
    mesh.add_face([half + 2, half + 1, twin_before], half + 2)
    mesh.add_face([half + 4, half + 3, after], half + 4)
    mesh.vertex_anchors[new], mesh.vertex_anchors[end] = twin, half + 2
    mesh.face_anchors[face], mesh.face_anchors[facing] = edge, half
    return f"halves {edge} {half + 3}"


def flip(mesh, edge):
    half, twin = 2 * edge, 2 * edge + 1
    start, end = mesh.origins[half], mesh.origins[twin]
    after, before, twin_after, twin_before = mesh.next(half), mesh.prev(half), mesh.next(twin), mesh.prev(twin)
    face, facing = mesh.face(half), mesh.face(twin)
    mesh.origins[half], mesh.origins[twin] = mesh.origins[before], mesh.origins[twin_before]
    mesh.set_word(face, [half, twin_before, after])
    mesh.set_word(facing, [twin, before, twin_after])
    mesh.vertex_anchors[start], mesh.vertex_anchors[end] = twin_after, after
    mesh.face_anchors[face], mesh.face_anchors[facing] = half, twin


def legalize(mesh, most, edges):
    left, flips = list(edges), 0
    while left:
        edge = left.pop()
        if not mesh.can_flip(edge):
            continue
        half, twin = 2 * edge, 2 * edge + 1
        corners = min(mesh.origins[mesh.prev(half)], mesh.origins[mesh.prev(twin)])
        if corners >= min(mesh.origins[half], mesh.origins[twin]):
            continue
        if flips == most:
            return f"flips {flips} stopped"
        flip(mesh, edge)
        flips += 1
        left += [edge] + [item // 2 for item in (mesh.next(half), mesh.prev(half), mesh.next(twin), mesh.prev(twin))]
    return f"flips {flips} done"


def swap(mesh, first, second):
    renamed = {first: second, second: first}
    mesh.origins = [renamed.get(vertex, vertex) for vertex in mesh.origins]
    for items in (mesh.data, mesh.vertex_anchors):
        items[first], items[second] = items[second], items[first]


def put(mesh, vertex, datum):
    mesh.data[vertex] = datum


def isolate(mesh, vertex, border):
    halves = mesh.out_edges(mesh.vertex_anchors[vertex])
    edges, faces = [half // 2 for half in halves], [mesh.face(half) for half in halves]
    return opened(edges, faces, mesh.fill(border, edges, faces, vertex))


def remesh(mesh, border, inside_edges, inside_faces):
    vertex = mesh.ring_vertex(border, inside_edges, inside_faces)
    return opened(inside_edges, inside_faces, mesh.fill(border, inside_edges, inside_faces, vertex))


def strip(mesh, border):
    vertex, outer = mesh.strip_parts(border)
    edges = [mesh.prev(half) // 2 for half in border]
    faces = [mesh.face(half) for half in border[:-1]]
    before = mesh.prev(outer)
    place = mesh.words[0].index(outer)
    word = mesh.words[0][place:] + mesh.words[0][:place]
    assert word[0] == outer and word[-1] == before
    mesh.set_word(0, word[1:-1] + border[:-1])
    mesh.give_up(edges, faces, vertex)
    for half in border:
        mesh.vertex_anchors[mesh.origins[half]] = half
    mesh.face_anchors[0] = border[-1]
    return opened(edges, faces, [])


def cleanup(mesh, *_):
    _, edges, faces, vertex = mesh.removal
    mesh.rename_edges(edges)
    mesh.rename_faces(faces)
    mesh.removal = CLOSED if vertex is None else ("cleaned", vertex)


def remove(mesh, vertex):
    last = len(mesh.data) - 1
    datum = mesh.data[vertex]
    mesh.data[vertex], mesh.vertex_anchors[vertex] = mesh.data[last], mesh.vertex_anchors[last]
    mesh.data.pop()
    mesh.vertex_anchors.pop()
    mesh.origins = [vertex if start == last else start for start in mesh.origins]
    mesh.removal = CLOSED
    return f"removed {datum}" + ("" if vertex == last else f" moved {last}")


def degenerate(mesh, vertex):
    anchor = mesh.vertex_anchors[vertex]
    if anchor is not None:
        drop_path_edge(mesh, vertex, anchor)
    return remove(mesh, vertex)


def drop_path_edge(mesh, vertex, anchor):
    halves = mesh.out_edges(anchor)
    gone = halves[-1] if len(halves) == 1 else mesh.ccw(anchor)
    instead = None if len(mesh.data) == 2 else mesh.next(gone) if len(halves) == 1 else anchor
    end = mesh.to(gone)
    mesh.set_word(0, [half for half in mesh.words[0] if half // 2 != gone // 2])
    if len(halves) == 2:
        mesh.origins[anchor] = end
    mesh.vertex_anchors[vertex] = None

    def replaced(half):
        return instead if half is not None and half // 2 == gone // 2 else half

    mesh.vertex_anchors = [replaced(half) for half in mesh.vertex_anchors]
    mesh.face_anchors = [replaced(half) for half in mesh.face_anchors]
    mesh.rename_edges([gone // 2])


def clear(mesh):
    mesh.__init__()


# Queries.


def counts(mesh):
    return "vertices {} edges {} faces {}".format(*mesh.sizes())


def words(mesh):
    return "\n".join(listed(f"F{face}", from_least(mesh.words[face])) for face in range(len(mesh.words)) if mesh.is_live_face(face))


def hull(mesh):
    return listed("hull", from_least(mesh.words[0]))


def out(mesh, vertex):
    return listed("out", from_least(mesh.turn(vertex)))


def origin(mesh, half):
    return f"vertex {mesh.origins[half]}"


def between(mesh, first, second):
    found = [half for half in mesh.turn(first) if mesh.to(half) == second]
    return f"half {found[0]}" if found else "none"


def get(mesh, vertex):
    return f"datum {mesh.data[vertex]}"


def check(mesh):
    return "true" if mesh.is_checked() else "false"


# Conditions.

# Whether a line is refused by a number, or a word's line where it asks something of its own. `it` has the numbers of the line by the letters
# of docs/LINES.md, and is asked in the order of the refusals.
REFUSED = {
    1: lambda mesh, it: any(vertex >= len(mesh.data) for vertex in it["A"] + it["B"] + it["V"]),
    2: lambda mesh, it: any(half >= len(mesh.origins) for half in it["H"]) or any(edge >= mesh.edge_count() for edge in it["U"]),
    3: lambda mesh, it: any(face == 0 or face >= len(mesh.words) for face in it["F"]),
    4: lambda mesh, it: mesh.removal != CLOSED,
    (4, "remove"): lambda mesh, it: mesh.removal not in (CLOSED, ("cleaned", *it["V"])),
    5: lambda mesh, it: mesh.removal[0] != "isolated",
    6: lambda mesh, it: not (all(map(mesh.is_live_vertex, it["A"] + it["B"] + it["V"])) and all(map(mesh.is_live_half, it["H"]))
                             and all(map(mesh.is_live_edge, it["U"])) and all(map(mesh.is_live_face, it["F"]))),
    7: lambda mesh, it: it["A"] == it["B"],
    8: lambda mesh, it: not all(map(mesh.is_unconnected, it["B"])),
    (8, "remove"): lambda mesh, it: mesh.removal == CLOSED and not all(map(mesh.is_unconnected, it["V"])),
    9: lambda mesh, it: mesh.origins != [],
    10: lambda mesh, it: any(mesh.degree(end) != 1 for end in it["A"]),
    11: lambda mesh, it: any(mesh.face(half) != mesh.face(other(half)) for half in it["H"]),
    12: lambda mesh, it: any(mesh.face(half) != 0 for half in it["H"]),
    13: lambda mesh, it: not all(map(mesh.is_triangle, it["F"] + [mesh.face(half) for half in it["H"] + sides(it["U"])])),
    (13, "split"): lambda mesh, it: not all(mesh.is_triangle(mesh.face(half)) for half in sides(half // 2 for half in it["H"])),
    (14, "close"): lambda mesh, it: any(mesh.to(mesh.next(half)) == mesh.origins[half] for half in it["H"]),
    (14, "flip"): lambda mesh, it: not all(map(mesh.can_flip, it["U"])),
    (15, "isolate"): lambda mesh, it: not it["H"] or not mesh.is_border_loop(it["H"], *it["V"]),
    (15, "remesh"): lambda mesh, it: mesh.ring_vertex(it["H"], it["U"], it["F"]) is None and not mesh.is_region_ring(it["H"], it["U"], it["F"]),
    16: lambda mesh, it: mesh.strip_parts(it["H"]) is None,
    17: lambda mesh, it: [sorted(it["U"]), sorted(it["F"])] != list(map(sorted, mesh.removal[1:3])),
    18: lambda mesh, it: len(mesh.data) != 1 and not mesh.is_path(),
}


def sides(edges):
    return [half for edge in edges for half in (2 * edge, 2 * edge + 1)]
