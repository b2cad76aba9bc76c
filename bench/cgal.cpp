/* cgal FILE FACES TIMES: brings the mesh of a file down to so many faces by CGAL's Garland-Heckbert, as its own example does: planes,
   and no fold after which a face looks the other way. Prints the least processor time in milliseconds and the number of faces left.
   Making CGAL's mesh from the arrays is timed too, as the others make theirs within the call. */
#include "timing.h"
#include <CGAL/Simple_cartesian.h>
#include <CGAL/Surface_mesh.h>
#include <CGAL/Surface_mesh_simplification/Policies/Edge_collapse/Bounded_normal_change_placement.h>
#include <CGAL/Surface_mesh_simplification/Policies/Edge_collapse/GarlandHeckbert_plane_policies.h>
#include <CGAL/Surface_mesh_simplification/edge_collapse.h>

namespace folding = CGAL::Surface_mesh_simplification;
typedef CGAL::Simple_cartesian<double> Kernel;
typedef CGAL::Surface_mesh<Kernel::Point_3> Surface;
typedef folding::GarlandHeckbert_plane_policies<Surface, Kernel> Policies;

/* Says that it is enough where so many faces are left. */
struct Enough {
    size_t faces;
    template <class Cost, class Profile> bool operator()(const Cost &, const Profile &profile, size_t, size_t) const {
        return profile.surface_mesh().number_of_faces() <= faces;
    }
};

/* The arrays as CGAL's mesh. */
static Surface surface_of(const mesh *m) {
    typedef Surface::Vertex_index Vertex;
    Surface surface;
    surface.reserve(m->points, 3 * m->faces / 2 + m->points, m->faces);
    for (size_t i = 0; i < m->points; i++) {
        const float *p = m->places + 3 * i;
        surface.add_vertex(Kernel::Point_3(p[0], p[1], p[2]));
    }
    for (size_t i = 0; i < m->faces; i++) {
        const uint32_t *c = m->corners + 3 * i;
        if (surface.add_face(Vertex(c[0]), Vertex(c[1]), Vertex(c[2])) == Surface::null_face()) fail("no surface");
    }
    return surface;
}

TIMED size_t timed_call(const mesh *m, size_t faces) {
    Surface surface = surface_of(m);
    Policies policies(surface);
    folding::Bounded_normal_change_placement<Policies::Get_placement> placement(policies.get_placement());
    folding::edge_collapse(surface, Enough{faces}, CGAL::parameters::get_cost(policies.get_cost()).get_placement(placement));
    return surface.number_of_faces();
}

int main(int words, char **word) {
    if (words != 4) fail("usage: cgal FILE FACES TIMES");
    mesh mesh = read_mesh(word[1]);
    size_t faces = strtoul(word[2], 0, 10), left = 0;
    double least = INFINITY;
    for (long times = strtol(word[3], 0, 10); times > 0; times--) {
        double start = processor_milliseconds();
        left = timed_call(&mesh, faces);
        least = fmin(least, processor_milliseconds() - start);
    }
    printf("%.4f %zu -\n", least, left);
    return 0;
}
