/* Physical groups on a region as parts of a JSON object. */
#ifndef GROUP_JSON_H
#define GROUP_JSON_H

#include <stdio.h>

#include "classes.h"
#include "docket.h"

/* Writes the start of an object: that on the region's sheet, the dimension, its free rank and orders, and the start of the list of groups. */
void group_json_start(FILE *file, const struct docket *docket, const struct source *region, const struct homology *homology);

/* Writes the start of a group: its tag, its name, its elements, whether it is a cycle, and its verdict. `first` is 1 for the first of them. */
void group_json_group(FILE *file, const struct docket *docket, const struct group *group, int first);

/* Writes why a group is no cycle: the line of an element that is no cell, or a cell and the number there. */
void group_json_fault(FILE *file, const struct group *group);

/* Writes the coordinates of a cycle and the order of its twisted part. */
void group_json_coordinates(FILE *file, const struct homology *homology, const struct group *group);

/* Writes the end of the list of groups, and the groups that are part of the region, and so not taken. */
void group_json_left_out(FILE *file, const struct docket *docket);

#endif
