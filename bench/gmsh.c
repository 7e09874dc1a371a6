/* Times all four reports of a sheet by the library beside Gmsh's homology of the same cells, in turn in one process. Gmsh computes it at the end of
 * mesh.generate, where computeHomology has asked for it; the time of a generate without it is taken off, and the making of the model is not timed.
 * Usage: gmsh FILE.sheet .. */
#include <gmshc.h>

#include "library.h"
#include "timing.h"

static int top; /* the sheet's greatest dimension that has cells */

/* Ends the program where Gmsh tells an error. */
static void hold(int error) {
    if (error != 0) {
        fprintf(stderr, "Gmsh tells error %d\n", error);
        exit(1);
    }
}

/* The vertices, each at a place of its own. The places carry no meaning. */
static void add_nodes(void) {
    static size_t tags[CELLS];
    static double places[3 * CELLS];
    int error;
    for (unsigned i = 0; i < count(0); i++) {
        tags[i] = vertex(0, i, 0) + 1u;
        places[3 * i] = i % 3;
        places[3 * i + 1] = i / 3;
        places[3 * i + 2] = (double)i * i;
    }
    gmshModelMeshAddNodes(top, 1, tags, count(0), places, 3 * (size_t)count(0), NULL, 0, &error);
    hold(error);
}

/* The cells of the greatest dimension. Gmsh finds their faces. */
static void add_elements(void) {
    static const int KINDS[4] = {15, 1, 2, 4};
    static size_t corners[4 * CELLS];
    size_t width = (size_t)top + 1, n = width * count(top);
    int error;
    for (size_t i = 0; i < n; i++)
        corners[i] = vertex(top, (unsigned)(i / width), (unsigned)(i % width)) + 1u;
    gmshModelMeshAddElementsByType(1, KINDS[top], NULL, 0, corners, n, &error);
    hold(error);
}

static void make_model(void) {
    int error, entity = 1;
    gmshClear(&error);
    gmshModelAdd("sheet", &error);
    hold(error);
    gmshModelAddDiscreteEntity(top, entity, NULL, 0, &error);
    hold(error);
    add_nodes();
    add_elements();
    gmshModelAddPhysicalGroup(top, &entity, 1, 1, &error);
    hold(error);
}

static void generate(void) {
    int error;
    gmshModelMeshGenerate(top, &error);
    hold(error);
}

static void homology(void) {
    int error, domain = 1;
    gmshModelMeshComputeHomology(&domain, 1, NULL, 0, NULL, 0, &error);
    hold(error);
    generate();
}

/* Ends the program where Gmsh has added no generator of dimension 0 to the model. */
static void hold_generators(void) {
    int error, *groups;
    size_t n;
    gmshModelGetPhysicalGroups(&groups, &n, 0, &error);
    hold(error);
    hold(n == 0);
    gmshFree(groups);
}

/* The line of the sheet that is loaded. */
static void compare(const char *name) {
    double now = INFINITY, idle = INFINITY, whole = INFINITY;
    for (top = 3; top > 0 && count(top) == 0;)
        top--;
    for (int i = 0; i < 100; i++) {
        measure(&now, reports);
        make_model();
        measure(&idle, generate);
        measure(&whole, homology);
        hold_generators();
    }
    printf("%-18s %5u %9.3f %9.3f %9.2f\n", name, cells(), now, whole - idle, (whole - idle) / now);
    fflush(stdout);
}

int main(int argc, char **argv) {
    int error;
    gmshInitialize(0, NULL, 0, &error);
    hold(error);
    gmshOptionSetNumber("General.Terminal", 0, &error);
    printf("%-18s %5s %9s %9s %9s\n", "sheet", "cells", "now ms", "Gmsh ms", "Gmsh/now");
    for (int i = 1; i < argc; i++) {
        load(argv[i]);
        compare(name_of(argv[i]));
    }
    gmshFinalize(&error);
    return 0;
}
