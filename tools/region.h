/* The elements of a mesh text that --region names, by their first tag. Gmsh counts tags for each dimension apart, so that a curve and a surface may have
 * the same one: a tag names the elements of the highest dimension that has it. */
#ifndef REGION_H
#define REGION_H

#include "input.h"
#include "mesh.h"
#include "options.h"

/* A mark for each element, 1 where it belongs to the region; to no tags, every one does. An element of a kind that is not read belongs to the region of
 * its tag, so that the proved import tells it. Answers null where there is no memory. The marks are to be given to free. */
uint8_t *region_marks(const struct mesh *mesh, const struct tags *region);

/* Whether the elements of this dimension with this tag belong to a region. */
int region_takes(const struct mesh *mesh, const struct tags *region, uint32_t dimension, uint32_t tag);

/* Says that a word after --region is no tag, with the tags that there are where the text is of the form. Answers 0. */
int region_no_tag(const struct text *text, const char *word, FILE *err);

/* Makes the text without the lines of the other elements, with their count changed. A text that is not of the form is copied whole, so that the proved
 * import tells 14. Answers 1, or 0 where it says why not: a tag that no element has, or no memory. Give the chosen text to input_free afterwards. */
int region_choose(const struct text *text, const struct tags *region, struct text *chosen, FILE *err);

#endif
