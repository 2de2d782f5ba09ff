// Inserts the points of a file into CGAL's Delaunay_triangulation_2 as a range, removes those whose numbers another file has, and tells how
// many nanoseconds each took. Or it inserts them into a Constrained_Delaunay_triangulation_2, and then the constraints that join the pairs of
// points whose numbers a file has.
#include <CGAL/Constrained_Delaunay_triangulation_2.h>
#include <CGAL/Delaunay_triangulation_2.h>
#include <CGAL/Exact_predicates_inexact_constructions_kernel.h>

#include <chrono>
#include <cstdio>
#include <map>
#include <set>
#include <string>
#include <utility>
#include <vector>

using Kernel = CGAL::Exact_predicates_inexact_constructions_kernel;
using Triangulation = CGAL::Delaunay_triangulation_2<Kernel>;
using Constrained = CGAL::Constrained_Delaunay_triangulation_2<Kernel>;

// All vertices of a triangulation without triangles.
template <class Triangulation> static size_t hull_size(const Triangulation &triangulation) {
    if (triangulation.dimension() < 2) return triangulation.number_of_vertices();
    size_t count = 0;
    auto face = triangulation.incident_faces(triangulation.infinite_vertex());
    const auto first = face;
    do ++count;
    while (++face != first);
    return count;
}

using Clock = std::chrono::steady_clock;

static void tell_time(Clock::time_point start, const char *of) {
    const auto took = std::chrono::duration_cast<std::chrono::nanoseconds>(Clock::now() - start);
    std::printf("%lld nanoseconds%s\n", (long long)took.count(), of);
}

// The vertices at which no point is left without those of these numbers, the ones that were inserted last first.
static std::vector<Triangulation::Vertex_handle> vertices_of(const Triangulation &triangulation, const std::vector<Kernel::Point_2> &points,
                                                             std::FILE *numbers) {
    std::vector<bool> stays(points.size(), true);
    size_t number;
    while (std::fscanf(numbers, "%zu", &number) == 1) stays.at(number) = false;
    std::set<Kernel::Point_2> removed(points.begin(), points.end());
    for (number = 0; number < points.size(); ++number)
        if (stays[number]) removed.erase(points[number]);
    std::vector<Triangulation::Vertex_handle> vertices;
    for (auto vertex = triangulation.finite_vertices_begin(); vertex != triangulation.finite_vertices_end(); ++vertex)
        if (removed.count(vertex->point())) vertices.push_back(vertex);
    return {vertices.rbegin(), vertices.rend()};
}

// The vertices at the ends of constraints, which pairs of numbers of points name.
static std::vector<std::pair<Constrained::Vertex_handle, Constrained::Vertex_handle>>
ends_of(const Constrained &triangulation, const std::vector<Kernel::Point_2> &points, std::FILE *pairs) {
    std::map<Kernel::Point_2, Constrained::Vertex_handle> vertices;
    for (auto vertex = triangulation.finite_vertices_begin(); vertex != triangulation.finite_vertices_end(); ++vertex)
        vertices[vertex->point()] = vertex;
    std::vector<std::pair<Constrained::Vertex_handle, Constrained::Vertex_handle>> ends;
    size_t from, to;
    while (std::fscanf(pairs, "%zu %zu", &from, &to) == 2) ends.emplace_back(vertices.at(points.at(from)), vertices.at(points.at(to)));
    return ends;
}

template <class Triangulation> static Triangulation inserted(const std::vector<Kernel::Point_2> &points) {
    const auto start = Clock::now();
    Triangulation triangulation;
    triangulation.insert(points.begin(), points.end());
    tell_time(start, "");
    return triangulation;
}

template <class Triangulation> static void tell_counts(const Triangulation &triangulation, size_t points) {
    std::printf("%zu points\n%zu vertices\n%zu triangles\n", points, (size_t)triangulation.number_of_vertices(),
                (size_t)triangulation.number_of_faces());
    std::printf("%zu vertices on the hull\n", hull_size(triangulation));
}

static void remove_some(const std::vector<Kernel::Point_2> &points, std::FILE *numbers) {
    auto triangulation = inserted<Triangulation>(points);
    if (numbers) {
        const auto vertices = vertices_of(triangulation, points, numbers);
        const auto start = Clock::now();
        for (const auto vertex : vertices) triangulation.remove(vertex);
        tell_time(start, " to remove points");
    }
    tell_counts(triangulation, points.size());
}

static void constrain(const std::vector<Kernel::Point_2> &points, std::FILE *pairs) {
    auto triangulation = inserted<Constrained>(points);
    const auto ends = ends_of(triangulation, points, pairs);
    const auto start = Clock::now();
    for (const auto &[from, to] : ends) triangulation.insert_constraint(from, to);
    tell_time(start, " to put in constraints");
    tell_counts(triangulation, points.size());
    size_t count = 0;
    for (auto edge = triangulation.finite_edges_begin(); edge != triangulation.finite_edges_end(); ++edge)
        count += triangulation.is_constrained(*edge);
    std::printf("%zu constraint edges\n", count);
}

int main(int count, char **words) {
    const bool is_constrained = count == 4 && std::string(words[2]) == "--constraints";
    std::FILE *file = count >= 2 && (count <= 3 || is_constrained) ? std::fopen(words[1], "r") : nullptr;
    std::FILE *numbers = count >= 3 ? std::fopen(words[count - 1], "r") : nullptr;
    if (!file || (count >= 3 && !numbers)) {
        std::fputs("it takes a file of points, and maybe one of numbers, or --constraints and one of pairs\n", stderr);
        return 2;
    }
    std::vector<Kernel::Point_2> points;
    double x, y;
    while (std::fscanf(file, "%lf %lf", &x, &y) == 2) points.emplace_back(x, y);
    if (is_constrained)
        constrain(points, numbers);
    else
        remove_some(points, numbers);
}
