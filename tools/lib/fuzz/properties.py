"""What holds of every mesh, computed from its words alone. The model is checked by this too, so that both can't be wrong alike unseen."""

from .mesh import CLOSED, other


def fault_of(mesh):
    """What doesn't hold of the mesh, or None."""
    live = {half for half in range(len(mesh.origins)) if mesh.is_live_half(half)}
    listed = [half for word in mesh.words for half in word]
    if len(listed) != len(set(listed)) or set(listed) != live:
        return "each live half edge stands in one word, once"
    for face, word in enumerate(mesh.words):
        if face and mesh.is_live_face(face) != bool(word):
            return f"face {face} has a word just where it is live"
    for half in live:
        if mesh.origins[mesh.next(half)] != mesh.to(half) or mesh.origins[half] == mesh.to(half):
            return f"half edge {half} leads to where its next one starts, and to another vertex"
        if not mesh.is_live_vertex(mesh.origins[half]):
            return f"half edge {half} starts at a live vertex"
    return anchor_fault(mesh, live) or sphere_fault(mesh, live)


def anchor_fault(mesh, live):
    for vertex, anchor in enumerate(mesh.vertex_anchors):
        starts = {half for half in live if mesh.origins[half] == vertex}
        if (anchor is None) != (not starts) or (starts and set(mesh.out_edges(anchor)) != starts):
            return f"what starts at vertex {vertex} is one turn from its anchor"
    for face, anchor in enumerate(mesh.face_anchors):
        if (anchor is None) != (not mesh.words[face]) or (anchor is not None and anchor not in mesh.words[face]):
            return f"face {face} is anchored"
    return None


def sphere_fault(mesh, live):
    if not live:
        return None
    seen, left = set(), [next(iter(live))]
    while left:
        half = left.pop()
        if half not in seen:
            seen.add(half)
            left += [mesh.next(half), other(half)]
    if seen != live:
        return "the mesh is connected"
    vertices = len({mesh.origins[half] for half in live})
    faces = sum(map(mesh.is_live_face, range(len(mesh.words))))
    if vertices - len(live) // 2 + faces != 2:
        return "vertices minus edges plus faces are two"
    return None


def is_count_of_hull(mesh):
    """Whether edges are three times the vertices, minus three and the hull, where all inner faces are triangles."""
    if mesh.removal != CLOSED or not mesh.words[0] or any(len(word) != 3 for word in mesh.words[1:]):
        return True
    used = len(set(mesh.origins))
    return mesh.edge_count() == 3 * used - 3 - len(mesh.words[0])
