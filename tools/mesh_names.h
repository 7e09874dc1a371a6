/* The section $PhysicalNames of a mesh text, which the proved import passes over. */
#ifndef MESH_NAMES_H
#define MESH_NAMES_H

#include "mesh.h"

/* Reads the names between the line that opens the section and the line that closes it, and notes the section in the mesh. Answers 0 where there is no
 * memory. */
int mesh_names_read(const struct lines *opened, const struct lines *closed, struct mesh *mesh);

#endif
