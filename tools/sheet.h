/* The cells of a sheet that a proved call has accepted or written. docs/FORMAT.md has the layout. */
#ifndef SHEET_H
#define SHEET_H

#include <stddef.h>
#include <stdint.h>
#include <stdio.h>

enum { SHEET_DIMENSIONS = 4, SHEET_HEADER = 16 };

/* The number of cells of a dimension; 0 outside 0 to 3. Needs the header alone. */
size_t sheet_count(const uint8_t *sheet, uint32_t dimension);

/* The length that the counts of the header ask for. */
size_t sheet_length(const uint8_t *sheet);

/* Puts the dimension + 1 vertex numbers of cell i into `vertices`. */
void sheet_cell(const uint8_t *sheet, uint32_t dimension, size_t i, uint16_t vertices[SHEET_DIMENSIONS]);

/* The place of the cell with these vertices, which rise, among those of its dimension; SIZE_MAX where it is none. */
size_t sheet_find(const uint8_t *sheet, uint32_t dimension, const uint16_t vertices[SHEET_DIMENSIONS]);

/* Below 0, 0 or above 0 as the first cell comes before the second, is the same, or comes after it. */
int sheet_compare(uint32_t dimension, const uint16_t *first, const uint16_t *second);

/* Writes a cell as (1,6). */
void sheet_write_cell(FILE *file, uint32_t dimension, const uint16_t vertices[SHEET_DIMENSIONS]);

/* `vertex`, `edge`, `triangle`, `tetrahedron`, or their plural where the number is not 1. */
const char *sheet_cell_name(uint32_t dimension, size_t number);

#endif
