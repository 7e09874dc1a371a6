/* A mesh text with chains as physical groups of oriented elements, as Gmsh writes its own. */
#ifndef GROUPS_H
#define GROUPS_H

#include <stdint.h>
#include <stdio.h>

#include "chains.h"
#include "input.h"
#include "mesh.h"

/* The numbers that the groups of a text get. Group k, that of chain k, has the physical tag first_tag + k, which is greater than every
 * physical tag of any dimension, and the elementary tag first_entity + k, which is new too. */
struct groups {
    uint32_t first_tag, first_entity, first_element;
    size_t elements; /* of all groups, copies counted */
};

/* Finds the numbers. Answers 1, or 0 where a chain cannot be written, there are no numbers for all groups, or the text has names or tags that are no
 * numbers; then it says why. */
int groups_plan(const struct text *text, const struct mesh *mesh, const struct chains *chains, struct groups *groups, FILE *err);

/* Writes the text with the groups: its bytes as they are, but for the counts of names and elements, with lines after the names and the elements. */
void groups_write(FILE *file, const struct text *text, const struct mesh *mesh, const struct chains *chains, const struct groups *groups);

/* Says the tag, name and elements of group k in words, the view's name and elements where there are no groups, which is where first_tag is 0. The line
 * starts with `before`. */
void groups_tell_one(FILE *file, const char *before, const struct chains *chains, const struct groups *groups, size_t k);

/* Says so of each group, and where there is no chain, that the files have none. */
void groups_tell(FILE *file, const char *before, const struct chains *chains, const struct groups *groups);

#endif
