/* The chain that a physical group is on a region, and whether it is a cycle. */
#ifndef GROUP_CHAIN_H
#define GROUP_CHAIN_H

#include <stddef.h>
#include <stdint.h>

#include "lattice.h"
#include "mesh.h"
#include "options.h"
#include "sheet.h"

/* What groups are held to: the mesh that has them, the sheet of the region and its length, the dimension and its number of cells, and the greatest
 * absolute value of a coefficient that the proved call takes. */
struct chain_region {
    const struct mesh *mesh;
    const uint8_t *sheet;
    size_t length, cells;
    uint32_t dimension;
    int64_t most;
};

/* What a group is. From VERDICT_BOUNDS on it is a cycle of the region. */
enum verdict {
    VERDICT_OUTSIDE, /* an element is no cell of the region */
    VERDICT_LARGE,   /* a coefficient is beyond what the proved call takes */
    VERDICT_OPEN,    /* its boundary is not zero */
    VERDICT_BOUNDS,  /* a boundary: all coordinates are 0 */
    VERDICT_TWISTED, /* not a boundary, but a multiple of it is */
    VERDICT_FREE     /* no multiple of it is a boundary */
};

/* A cell and the number that stands there. */
struct group_cell {
    uint32_t dimension;
    uint16_t vertices[SHEET_DIMENSIONS];
    int64_t number;
};

/* A group on the region. The last three are found by its coordinates (classes.h). */
struct group {
    uint32_t tag;
    const struct mesh_name *name; /* null where it has none */
    size_t elements;              /* copies counted */
    enum verdict verdict;
    size_t line;                /* VERDICT_OUTSIDE: the line of the first element that is no cell */
    struct group_cell cell;     /* VERDICT_LARGE: the first such coefficient; VERDICT_OPEN: the first cell of the boundary */
    const int64_t *coordinates; /* of a cycle: the residues, then the whole numbers of the free part */
    wide order;                 /* of a cycle: the order of its twisted part, 1 where there is none */
    wide divisor;               /* of a free cycle: the greatest number that divides its free part */
};

/* Whether a group is a cycle of the region. */
int group_is_cycle(const struct group *group);

/* Adds up the elements of the groups with these tags, in one pass over the mesh: `sums` has a chain of `cells` slots, all 0, for each group. Each group
 * gets its number of elements, and its verdict: VERDICT_OUTSIDE with the line of its first element that is no cell, else VERDICT_BOUNDS. Answers 0 where
 * there is no memory. */
int chain_sum(struct chain_region region, const struct tags *tags, struct group *groups, int64_t *sums);

/* Settles whether a chain within the region is a cycle: VERDICT_LARGE or VERDICT_OPEN, each with its place, else the verdict stays. The coefficients are
 * put into `chain` where the group is in the region; they are no more than the elements of a text, which 32 bits hold. `boundary` has
 * FILDWUK_LIBRARY_CELLS slots. */
void chain_settle(struct chain_region region, struct group *group, const int64_t *sum, int64_t *boundary, int32_t *chain);

#endif
