/* Where a mesh text has the fault for which the proved import refuses it. */
#ifndef WHERE_MESH_H
#define WHERE_MESH_H

#include <stdint.h>
#include <stdio.h>

#include "input.h"
#include "options.h"

/* Writes where, for the refusals 14 to 16, as a sentence without a line feed; nothing where it is not sure. */
void where_mesh(const struct text *text, const struct options *options, uint32_t number, FILE *file);

/* Whether the first faulty element of a text that is refused with 15 is no point, line, triangle or tetrahedron of first order. */
int where_mesh_other_kind(const struct text *text, const struct options *options);

#endif
