"""Examples of calls: functions of programs and of tests that the gate runs, as their sources have them."""

import re

# What shows which of the calls that programs use most.
SHOWN = {
    "dcel_example::editing::triangle": ["new_triangle"],
    "dcel_example::editing::put_into": ["append_unconnected_vertex", "insert_into_triangle", "Dcel::can_insert_into_triangle"],
    "dcel_example::editing::take_out": ["isolate_vertex_and_fill_hole", "cleanup_isolated_vertex", "swap_remove_vertex"],
    "dcel_example::editing::border_of": ["DirectedEdgeHandle::next"],
    "dcel_example::asking::split": ["split_half_edge", "Dcel::has_room_for"],
    "dcel_example::asking::before": ["DirectedEdgeHandle::prev", "DirectedEdgeHandle::from"],
    "dcel_example::asking::carry_out": ["command::apply"],
    "dcel_example::refining::refine": ["flip_cw", "Dcel::can_flip"],
    "dcel_example::refining::inner_faces": ["Dcel::live_inner_faces"],
    "dcel_example::refining::inner_edges": ["Dcel::live_undirected_edges", "UndirectedEdgeHandle::is_part_of_convex_hull"],
    "dcel_example::walking::steps_from": ["Dcel::get_vertex"],
    "dcel_example::walking::reach_neighbors": ["VertexHandle::out_edges", "DirectedEdgeHandle::to"],
    "dcel_example::settling::settle": ["legalize_edges"],
    "dcel_example_delaunay::triangulated": ["Triangulation::new"],
    "dcel_example_delaunay::insert_points": ["Triangulation::insert"],
    "dcel_example_delaunay::show_changes": ["Triangulation::remove", "Triangulation::nearest_vertex"],
    "dcel_example_delaunay::outline::with_segments": ["ConstrainedTriangulation::from_triangulation"],
    "dcel_example_delaunay::outline::show_outline": ["ConstrainedTriangulation::regions"],
    "dcel_example_delaunay::outline::add_side": ["ConstrainedTriangulation::add_constraint"],
    "dcel_tests_parts::callers::check_neighbors": ["degree", "dcel_convenience::neighbors"],
    "dcel_tests_parts::memory::is_removed": ["dcel_convenience::remove_vertex"],
    "dcel_tests_parts::memory::make": ["from_faces"],
}


class Example:
    """A function with its comment, as its file has it."""

    def __init__(self, item):
        self.item, lines = item, item.home.path.read_text().split("\n")
        start, end = item.line - 1, lines.index("}", item.line - 1) + 1
        while lines[start - 1].startswith("///"):
            start -= 1
        self.text = "\n".join(lines[start:end])


def examples(project, shown):
    """The example of each call, and what is wrong with these: a function or a call that isn't there, or isn't called."""
    found, faults = {}, []
    for path, names in shown.items():
        crate, *rest = path.split("::")
        item = project.crate(crate).find(rest) if crate in project.crates else None
        if getattr(item, "kind", "") != "fn":
            faults.append(f"examples: {path} is no function")
            continue
        example = Example(item)
        for name in names:
            calls = project.calls(name)
            if len(calls) != 1:
                faults.append(f"examples: {name} names {len(calls)} calls")
            elif not re.search(rf"\b{calls[0].name}\(", re.sub(r"//[^\n]*", "", example.text)):
                faults.append(f"examples: {path} doesn't call {name}")
            else:
                found[calls[0]] = example
    return found, faults
