/* The number of cells that the elements of a mesh have with all their faces. */
#ifndef CLOSURE_H
#define CLOSURE_H

#include <stddef.h>

#include "mesh.h"
#include "options.h"

/* Counts the cells of each dimension of the sound elements of a region, in time in proportion to the mesh. Answers 0 where there is no memory. */
int closure_counts(const struct mesh *mesh, const struct tags *region, size_t counts[4]);

#endif
