/* The report of one dimension of a sheet, by the proved calls. */
#ifndef HOMOLOGY_H
#define HOMOLOGY_H

#include <stddef.h>
#include <stdint.h>

#include "options.h"

/* What a proved call reports on a dimension. Generators are numbered from 0 in the report's order, the twisted ones first; a coordinate list has
 * the same order. */
struct homology {
    uint32_t answer; /* 0, or the refusal; the rest is 0 after a refusal */
    uint32_t dimension;
    size_t cells;        /* of the dimension */
    size_t rank;         /* the number of free generators */
    size_t order_total;  /* the number of twisted generators */
    int64_t *numbers;    /* the report as docs/FORMAT.md has it */
    int has_peak;        /* the host calls tell none */
    uint64_t peak;
    uint32_t bits;
};

/* The limit of cells in a dimension. */
size_t limit_cells(enum limit limit);

/* Asks the proved call about a dimension of a sheet, or of any bytes. Answers 1, or 0 where there is no memory. After 1 give it to homology_free. */
int homology_of(const uint8_t *sheet, size_t length, uint32_t dimension, enum limit limit, struct homology *homology);

void homology_free(struct homology *homology);

/* The number of generators. */
size_t homology_generators(const struct homology *homology);

/* The order of generator k, 0 where it is free. */
int64_t homology_order(const struct homology *homology, size_t k);

/* The coefficients of generator k, one for each cell of the dimension. */
const int64_t *homology_generator(const struct homology *homology, size_t k);

/* The number of slots that the library's calls ask for as work slice, by the counts of the header, each taken as at most the library's limit. */
size_t homology_work_slots(const uint8_t *sheet, size_t length, uint32_t dimension);

#endif
