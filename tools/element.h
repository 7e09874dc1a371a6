/* The faults of an element for which the proved import refuses with 15. */
#ifndef ELEMENT_H
#define ELEMENT_H

#include <stddef.h>
#include <stdint.h>

#include "mesh.h"
#include "options.h"

enum element_fault { ELEMENT_SOUND, ELEMENT_OTHER_KIND, ELEMENT_OTHER_COUNT, ELEMENT_UNLISTED_NODE, ELEMENT_NODE_TWICE };

/* The first faulty element: its place in mesh.elements, its fault, and for the last two faults the node. */
struct element_found {
    enum element_fault fault;
    size_t place;
    uint32_t node;
};

/* Finds the first faulty element of a region, of the whole mesh where the region has no tags. Answers 0 where there is no memory. */
int element_first_fault(const struct mesh *mesh, const struct tags *region, struct element_found *found);

#endif
