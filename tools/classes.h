/* Physical groups on a region: their chains, which of these are cycles, and what the cycles are by the proved coordinates. */
#ifndef CLASSES_H
#define CLASSES_H

#include <stddef.h>
#include <stdint.h>

#include "group_chain.h"
#include "homology.h"

struct classes {
    const struct homology *homology;
    struct group *groups;
    size_t total;
    int32_t *chains;      /* of the groups, one after another; zeros where a group is not in the region */
    int64_t *coordinates; /* of the cycles, one list after another */
};

enum classes_answer { CLASSES_DONE, CLASSES_NO_MEMORY, CLASSES_DISAGREE };

/* Finds what the groups with these tags are. CLASSES_DISAGREE is an error in this program: the proved call does not answer as the chains ask for. Give
 * the classes to classes_free after any answer; until then the mesh and the homology must stay. */
enum classes_answer classes_find(struct chain_region region, const struct homology *homology, const struct tags *tags, struct classes *classes);

void classes_free(struct classes *classes);

/* The orders of the twisted generators, and the free part of a cycle's coordinates. */
const int64_t *classes_orders(const struct homology *homology);
const int64_t *classes_free_part(const struct homology *homology, const struct group *group);

#endif
