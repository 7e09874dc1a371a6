/* The physical groups of one dimension in a mesh text, and the chains that they are. */
#ifndef PHYSICAL_H
#define PHYSICAL_H

#include <stddef.h>
#include <stdint.h>
#include <stdio.h>

#include "input.h"
#include "mesh.h"
#include "options.h"
#include "sheet.h"

/* The kind of the elements of a dimension, 0 to 3. */
uint32_t physical_kind(uint32_t dimension);

/* `point`, `line`, `triangle`, `tetrahedron`, or their plural where the number is not 1. */
const char *physical_element_name(uint32_t dimension, size_t number);

/* Lists the tags of the groups of a dimension, rising: those of its elements and of its names, but for 0. Answers 0 where there is no memory. The list is
 * to be given to free. */
int physical_tags(const struct mesh *mesh, uint32_t dimension, struct tags *found);

/* The name of a group, null where it has none. */
const struct mesh_name *physical_name(const struct mesh *mesh, uint32_t dimension, uint32_t tag);

/* Writes a name of the text in quotes with a space before it; nothing where it is null. */
void physical_write_name(FILE *file, const struct text *text, const struct mesh_name *name);

/* Writes the tags of groups of a dimension with their names, up to 20 of them, after these words; nothing where there are none. */
void physical_write_tags(FILE *file, const char *before, const struct text *text, const struct mesh *mesh, uint32_t dimension, const struct tags *tags);

/* Tags in rising order, each with its place in the list they come from, so that the group of an element is found quickly. */
struct physical_place {
    uint32_t tag;
    size_t place;
};

struct physical_index {
    struct physical_place *places;
    size_t total;
};

/* Makes the index of a list in which no tag stands twice. Answers 0 where there is no memory. The places are to be given to free. */
int physical_index(const struct tags *tags, struct physical_index *index);

/* The place of the group that an element of the dimension belongs to; SIZE_MAX where it belongs to none. */
size_t physical_group(const struct physical_index *index, const struct mesh_element *element, uint32_t dimension);

/* Adds an element to a chain of a sheet: 1 at its cell where its nodes are an even permutation of the rising ones, -1 where they are an odd one. Answers
 * 0 where the element is no cell of the sheet. */
int physical_add(const struct mesh *mesh, const struct mesh_element *element, const uint8_t *sheet, uint32_t dimension, int64_t *chain);

#endif
