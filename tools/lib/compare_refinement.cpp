// Refines a domain by CGAL's Delaunay_mesher_2 to a smallest angle, and tells how many points that adds, the smallest angle in hundredths of
// a degree, and how many nanoseconds the refinement took. The arguments are a file of points, one of pairs of their numbers that constraints
// join, the angle in degrees, and whether only triangles inside count: those to which a way from outside crosses an odd number of constraints.
#include <CGAL/Constrained_Delaunay_triangulation_2.h>
#include <CGAL/Delaunay_mesh_criteria_2.h>
#include <CGAL/Delaunay_mesh_face_base_2.h>
#include <CGAL/Delaunay_mesh_vertex_base_2.h>
#include <CGAL/Delaunay_mesher_2.h>
#include <CGAL/Exact_predicates_inexact_constructions_kernel.h>

#include <algorithm>
#include <chrono>
#include <cmath>
#include <cstdio>
#include <cstdlib>
#include <cstring>
#include <deque>
#include <map>
#include <vector>

using Kernel = CGAL::Exact_predicates_inexact_constructions_kernel;
using Structure = CGAL::Triangulation_data_structure_2<CGAL::Delaunay_mesh_vertex_base_2<Kernel>, CGAL::Delaunay_mesh_face_base_2<Kernel>>;
using Triangulation = CGAL::Constrained_Delaunay_triangulation_2<Kernel, Structure>;
using Criteria = CGAL::Delaunay_mesh_criteria_2<Triangulation>;

static const double HALF_TURN = 180;

// The least number of constraints on a way from outside to each face.
static std::map<Triangulation::Face_handle, int> depths(const Triangulation &triangulation) {
    std::map<Triangulation::Face_handle, int> depth{{triangulation.infinite_face(), 0}};
    std::deque<Triangulation::Face_handle> due{triangulation.infinite_face()};
    while (!due.empty()) {
        const auto face = due.front();
        due.pop_front();
        for (int side = 0; side < 3; ++side) {
            const auto beyond = face->neighbor(side);
            const bool crosses = face->is_constrained(side);
            const int there = depth[face] + (crosses ? 1 : 0);
            const auto known = depth.find(beyond);
            if (known != depth.end() && known->second <= there) continue;
            depth[beyond] = there;
            if (crosses) due.push_back(beyond);
            else due.push_front(beyond);
        }
    }
    return depth;
}

static double angle(const Kernel::Point_2 &corner, const Kernel::Point_2 &from, const Kernel::Point_2 &to) {
    const auto a = from - corner, b = to - corner;
    return std::atan2(a.x() * b.y() - a.y() * b.x(), a * b) * HALF_TURN / CGAL_PI;
}

static double smallest_angle(const Triangulation &triangulation) {
    double least = HALF_TURN;
    for (auto face = triangulation.finite_faces_begin(); face != triangulation.finite_faces_end(); ++face)
        for (int it = 0; it < 3 && face->is_in_domain(); ++it)
            least = std::min(least, angle(face->vertex(it)->point(), face->vertex((it + 1) % 3)->point(), face->vertex((it + 2) % 3)->point()));
    return least;
}

static void load(Triangulation &triangulation, const char *points, const char *pairs) {
    std::vector<Triangulation::Vertex_handle> vertices;
    double x, y;
    std::FILE *file = std::fopen(points, "r");
    Triangulation::Face_handle near;
    while (file && std::fscanf(file, "%lf %lf", &x, &y) == 2) {
        vertices.push_back(triangulation.insert(Kernel::Point_2(x, y), near));
        near = vertices.back()->face();
    }
    size_t from, to;
    file = std::fopen(pairs, "r");
    while (file && std::fscanf(file, "%zu %zu", &from, &to) == 2) triangulation.insert_constraint(vertices.at(from), vertices.at(to));
}

int main(int count, char **words) {
    if (count != 5) return 2;
    Triangulation triangulation;
    load(triangulation, words[1], words[2]);
    const bool is_inside = std::strcmp(words[4], "inside") == 0;
    for (const auto &[face, depth] : depths(triangulation))
        face->set_in_domain(!triangulation.is_infinite(face) && (!is_inside || depth % 2 == 1));
    const size_t before = triangulation.number_of_vertices();
    const double sine = std::sin(std::atof(words[3]) * CGAL_PI / HALF_TURN);
    const auto start = std::chrono::steady_clock::now();
    CGAL::Delaunay_mesher_2<Triangulation, Criteria> mesher(triangulation, Criteria(sine * sine));
    mesher.init(true);
    mesher.refine_mesh();
    const auto took = std::chrono::duration_cast<std::chrono::nanoseconds>(std::chrono::steady_clock::now() - start);
    std::printf("%zu points added\n%.0f hundredths of a degree\n%lld nanoseconds to refine\n", triangulation.number_of_vertices() - before,
                100 * smallest_angle(triangulation), (long long)took.count());
}
