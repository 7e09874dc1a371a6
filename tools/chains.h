/* Chains as something to write to files, each with its name and its cells as oriented elements: the generators of a report, or the surfaces of groups. */
#ifndef CHAINS_H
#define CHAINS_H

#include <stddef.h>
#include <stdint.h>
#include <stdio.h>

#include "homology.h"
#include "options.h"
#include "sheet.h"

/* The greatest absolute value of a coefficient that is written, as so many copies of an element. GetDP ends with a fault at some thousands. */
#define CHAINS_MOST 1000

struct chains {
    const uint8_t *sheet;
    uint32_t dimension;
    size_t cells, total;             /* the cells of the dimension, and the chains */
    const int64_t *coefficients;     /* one for each cell, chain after chain */
    const struct tags *region;       /* the tags of --region */
    const struct homology *homology; /* the report whose generators they are, null for surfaces */
    const uint32_t *tags;            /* of surfaces: the tag of the group that each has as its boundary; else null */
};

/* The generators of a report as chains. */
struct chains chains_of_report(const uint8_t *sheet, const struct homology *homology, const struct tags *region);

/* The coefficients of chain k, one for each cell. */
const int64_t *chains_chain(const struct chains *chains, size_t k);

/* `generator` or `surface`. */
const char *chains_word(const struct chains *chains);

/* Writes what chain k is: `free loop` or `twisted loop of order 2`, by the dimension `component`, `loop`, `cavity`, `closed volume`; `surface of group
 * 5`. */
void chains_write_kind(FILE *file, const struct chains *chains, size_t k);

/* Writes the name of chain k. A generator is named as Gmsh names its own: `H_1{2}1` for free loop 1 of the region of tag 2, where the tag is 0 for the
 * whole mesh. A twisted one is `T_1{2}1 order 2`, counted by themselves, so that nobody takes it for a free one by the first letter. A surface is
 * `S_2{2}5`, where 5 is the tag of the group that is its boundary. */
void chains_write_name(FILE *file, const struct chains *chains, size_t k);

/* The number of elements of chain k, copies counted. */
size_t chains_elements(const struct chains *chains, size_t k);

/* The nodes of cell i with the direction of its coefficient in chain k: rising where it is positive, the first two exchanged where it is negative.
 * Answers the number of copies, the coefficient's absolute value. */
uint64_t chains_element(const struct chains *chains, size_t k, size_t i, uint16_t nodes[SHEET_DIMENSIONS]);

/* Whether all chains can be written so; says on `err` where a coefficient exceeds CHAINS_MOST, or is negative at a point, which has no direction. */
int chains_fit(const struct chains *chains, FILE *err);

#endif
