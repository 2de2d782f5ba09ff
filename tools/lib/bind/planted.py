"""Faults that are planted in the headers, to see each found."""

from bind.exports import DCEL, LIBRARIES, PAGE, faults
from bind.header import Unreadable

# The library, what its header has, what stands there instead, and a word of the fault that is found.
PLANTED = [
    (DCEL, "dcel_flip_cw(dcel_mesh *mesh, uint32_t undirected_edge)", "dcel_flip_cw(dcel_mesh *mesh, uint64_t undirected_edge)", "dcel_flip_cw"),
    (DCEL, "uint32_t first, uint32_t second);", "uint32_t second, uint32_t first);", "dcel_setup_initial_two_vertices"),
    (DCEL, "bool dcel_can_flip(", "uint32_t dcel_can_flip(", "dcel_can_flip"),
    (DCEL, "dcel_clear(dcel_mesh *mesh)", "dcel_clear(const dcel_mesh *mesh)", "dcel_clear"),
    (DCEL, "const uint32_t *strip", "uint32_t *strip", "dcel_disconnect_edge_strip"),
    (DCEL, "bool dcel_sanity_check(const dcel_mesh *mesh);", "", "dcel_sanity_check"),
    (DCEL, "bool dcel_sanity_check(", "bool dcel_is_sane(const dcel_mesh *mesh);\nbool dcel_sanity_check(", "never calls dcel_is_sane"),
    (DCEL, "uint64_t datum, moved;", "uint64_t moved, datum;", "dcel_removed"),
    (DCEL, "DCEL_SHORT = 22", "DCEL_SHORT = 24", "the status SHORT"),
    (DCEL, "DCEL_BAD_RING = 15", "DCEL_BAD_RING = 16", "the status BAD_RING"),
    (DCEL, 'return "BadRing"', 'return "BadStrip"', "DCEL_BAD_RING"),
    (DCEL, "DCEL_FAULT_APART = 10", "DCEL_FAULT_APART = 11", "DCEL_FAULT_APART"),
    (DCEL, "DCEL_OUTSIDE = 3", "DCEL_OUTSIDE = 6", "DCEL_OUTSIDE"),
    (DCEL, "Refusals: NO_SUCH_VERTEX, GIVEN_UP.", "Refusals: NO_VERTEX, GIVEN_UP.", "NO_VERTEX is no status"),
    (DCEL, "void dcel_free(", "void *dcel_free(", "can't be read"),
    (DCEL, "DCEL_STOPPED = 1,", "DCEL_STOPPED,", "can't be read"),
    (PAGE, "MESH_PAGE_SHORT = 1", "MESH_PAGE_SHORT = 2", "the status SHORT"),
    (PAGE, "bool anchors,", "", "mesh_page_picture"),
]


def found(library, text):
    """The faults of a header with this text."""
    try:
        return faults(library, text)
    except Unreadable as error:
        return [f"{error} can't be read"]


def missed():
    """Planted faults that aren't found, and faults found where there are none."""
    wrong = [f"nothing is planted, and is found: {it}" for library in LIBRARIES for it in found(library, library.read())]
    for library, old, new, word in PLANTED:
        text = library.read()
        if old not in text:
            wrong.append(f"{library.header} doesn't have {old!r}")
        elif not any(word in it for it in found(library, text.replace(old, new, 1))):
            wrong.append(f"{new!r} in the place of {old!r} isn't found")
    return wrong
