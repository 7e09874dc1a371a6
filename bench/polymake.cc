/* Times all four reports of a sheet by the library beside polymake's homology groups with their cycles, of the same cells, in turn in one process.
 * polymake's map of all faces is made before and not timed. Usage: polymake FILE.sheet .. */
#define POLYMAKE_DEBUG 0
#define POLYMAKE_APPNAME topaz
#include <polymake/client.h>
#include <polymake/Array.h>
#include <polymake/Set.h>
#include <polymake/SparseMatrix.h>
#include <polymake/topaz/HomologyComplex.h>
#include <polymake/topaz/SimplicialComplex_as_FaceMap.h>

extern "C" {
#include "library.h"
#include "timing.h"
}

using polymake::Array;
using polymake::Int;
using polymake::Set;
using Faces = polymake::topaz::SimplicialComplex_as_FaceMap<Int>;
using Homology = polymake::topaz::HomologyComplex<polymake::Integer, polymake::SparseMatrix<polymake::Integer>, Faces>;

static int top; /* the sheet's greatest dimension that has cells */
static const Faces *faces;
static long free_rank[4], orders[4], cycles; /* what polymake found, and how many cycles it lists in the last dimension */

/* The cells of the greatest dimension. polymake finds their faces. */
static Array<Set<Int>> greatest_cells() {
    Array<Set<Int>> list(count(top));
    for (unsigned i = 0; i < count(top); i++)
        for (unsigned j = 0; j <= (unsigned)top; j++)
            list[i] += Int(vertex(top, i, j));
    return list;
}

static void homology() {
    const Homology complex(*faces, -1, 0);
    const auto &groups = homologies_and_cycles(complex);
    for (auto group = groups.begin(); !group.at_end(); ++group) {
        free_rank[group.dim()] = (*group).betti_number;
        orders[group.dim()] = (long)(*group).torsion.size();
        cycles = group.cycle_coeffs().rows();
    }
}

/* Ends the program where polymake's ranks and numbers of orders are not those of the reports. Its group of dimension 0 is the reduced one. */
static void hold_groups() {
    for (int p = 0; p <= top; p++)
        if (report_by(fildwuk_library_report, p) == 0 && (report[0] != free_rank[p] + (p == 0) || report[1] != orders[p])) {
            fprintf(stderr, "dimension %d: polymake finds other ranks\n", p);
            exit(1);
        }
}

/* The line of the sheet that is loaded. */
static void compare(const char *name) {
    double now = INFINITY, theirs = INFINITY;
    for (top = 3; top > 0 && count(top) == 0;)
        top--;
    const Faces map(greatest_cells());
    faces = &map;
    for (int i = 0; i < 40; i++) {
        measure(&now, reports);
        measure(&theirs, homology);
    }
    hold_groups();
    printf("%-18s %5u %9.3f %11.3f %12.2f\n", name, cells(), now, theirs, theirs / now);
    fflush(stdout);
}

int main(int argc, char **argv) {
    printf("%-18s %5s %9s %11s %12s\n", "sheet", "cells", "now ms", "polymake ms", "polymake/now");
    for (int i = 1; i < argc; i++) {
        load(argv[i]);
        compare(name_of(argv[i]));
    }
    return 0;
}
