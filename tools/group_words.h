/* Physical groups on a region in words. */
#ifndef GROUP_WORDS_H
#define GROUP_WORDS_H

#include <stdio.h>

#include "classes.h"
#include "docket.h"

/* Writes the line on the region: its cells, and what is free and twisted of the dimension; and one on the nodes that are dropped, where some are. */
void group_write_region(FILE *file, const struct source *region, const struct homology *homology);

/* Writes what the line of a group starts with: its tag, its name and its elements, up to a colon. */
void group_write_start(FILE *file, const struct docket *docket, const struct group *group);

/* Writes why a group is no cycle of the region: VERDICT_OUTSIDE or VERDICT_OPEN. */
void group_write_fault(FILE *file, const struct docket *docket, const struct group *group);

/* Writes which coefficient is beyond what the proved call takes: VERDICT_LARGE. */
void group_write_large(FILE *file, const struct group *group, int64_t most);

/* Writes the coordinates of a cycle: residues with their orders, then the numbers of the free part. */
void group_write_coordinates(FILE *file, const struct homology *homology, const struct group *group);

/* Writes a line on each group that is part of the region, and so not taken. */
void group_write_left_out(FILE *file, const struct docket *docket);

/* Says what helps where a group is not in the region and the region was not named: without a name it is what is not taken. */
void group_write_hint(FILE *file, const struct docket *docket, const struct classes *classes);

#endif
