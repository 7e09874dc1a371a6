/* Chains as views that Gmsh shows: a text of its post-processing format, .pos. */
#ifndef VIEW_H
#define VIEW_H

#include <stdio.h>

#include "chains.h"
#include "command.h"
#include "input.h"
#include "mesh.h"

/* Writes a view for each chain, named as its group: its cells with direction, as many units high as the coefficient. Coordinates are copied from the
 * lines of the nodes, of a node listed twice from the last. Answers STATUS_DONE, or says why not and writes nothing: STATUS_REFUSED for a coefficient
 * that chains_fit does not allow or a coordinate that is no plain number (Gmsh runs the words of a .pos as commands), STATUS_FAILED where there is no
 * memory. */
int view_write(FILE *file, const struct text *text, const struct mesh *mesh, const struct chains *chains, FILE *err);

/* Whether bytes are a plain number: digits with an optional sign, point and exponent. */
int view_is_number(const uint8_t *bytes, size_t length);

#endif
