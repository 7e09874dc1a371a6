/* The report in words. */
#ifndef WORDS_H
#define WORDS_H

#include <stdio.h>

#include "homology.h"

/* Writes a chain as `+1 (1,6) -1 (3,9)`, the cells with a coefficient other than 0; `0` where there is none. */
void words_chain(const uint8_t *sheet, uint32_t dimension, const int64_t *coefficients, FILE *file);

/* What the free and twisted generators of a dimension are called: `component`, `loop`, `cavity`, `closed volume`, or their plural. */
const char *words_name(uint32_t dimension, size_t number);

/* Writes the number of cells of each dimension, as one line. */
void words_counts(const uint8_t *sheet, FILE *file);

/* Writes the report of a dimension that the proved call has answered. */
void words_dimension(const uint8_t *sheet, const struct homology *homology, FILE *file);

#endif
