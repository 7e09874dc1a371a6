/* Loose nodes: the vertices of a sheet that are in no edge, where it has an edge. The proved calls refuse such a sheet with 18, and a sweep and an import
 * drop them. */
#ifndef LOOSE_H
#define LOOSE_H

#include <stddef.h>
#include <stdint.h>
#include <stdio.h>

#include "fildwuk_library.h"
#include "input.h"

/* Node numbers, in rising order, each once. No sheet within the limit of the proved calls has more. */
struct loose {
    uint16_t nodes[FILDWUK_LIBRARY_CELLS];
    size_t total;
};

/* The loose nodes of a sheet. */
void loose_find(const uint8_t *sheet, struct loose *loose);

/* The vertices of a sheet that its sweep does not have. */
void loose_dropped(const uint8_t *sheet, const uint8_t *swept, struct loose *loose);

/* The nodes of the points of a mesh text that the sheet which the proved import has written of it does not have. Answers 0 where there is no memory. */
int loose_imported(const struct text *text, const uint8_t *sheet, struct loose *loose);

/* Writes the numbers with commas between them, at most so many, and how many more there are. */
void loose_write(const struct loose *loose, size_t most, FILE *file);

/* Writes `1 node in no edge is dropped: 7` or `no node is dropped`. */
void loose_tell(const struct loose *loose, FILE *file);

#endif
