/* The surfaces that physical groups have as their boundary, by the proved call: chains of the next dimension. */
#ifndef SURFACES_H
#define SURFACES_H

#include <stddef.h>
#include <stdint.h>

#include "chains.h"
#include "classes.h"

/* What is found of the surface of a group. */
struct bounded {
    int asked;       /* whether the proved call was asked: it is where the group is in the region */
    uint32_t answer; /* what it answers: 0, or 11, 12, 13 or 17 */
    size_t place;    /* after 0: that of the surface among the chains */
};

struct surfaces {
    struct classes classes;
    struct bounded *bounded; /* one for each group */
    struct chains chains;    /* the surfaces, in the order of the groups that have one */
    uint32_t *tags;          /* these two are what the chains point to */
    int64_t *coefficients;
};

/* Finds the surfaces of the groups with these tags. `named` has the tags of --region. The answers are those of classes_find. Give the surfaces to
 * surfaces_free after any answer; until then the mesh, the sheet and the homology must stay. */
enum classes_answer surfaces_find(struct chain_region region, const struct homology *homology, const struct tags *tags, const struct tags *named,
                                  struct surfaces *surfaces);

void surfaces_free(struct surfaces *surfaces);

/* Whether group i has a surface. */
int surfaces_has(const struct surfaces *surfaces, size_t i);

#endif
