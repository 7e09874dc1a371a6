/* The faults of an element for which the proved import refuses with 15. */
#include "element.h"

#include <stdlib.h>

#include "region.h"

enum { NODE_NUMBERS = 65536 };

/* One mark for each node number: 1 where the node is listed. */
static uint8_t *listed_nodes(const struct mesh *mesh) {
    uint8_t *listed = calloc(NODE_NUMBERS, 1);
    for (size_t i = 0; listed != NULL && i < mesh->node_total; i++)
        listed[mesh->nodes[i].number] = 1;
    return listed;
}

/* Whether one of the nodes before place k is the same as that. */
static int stood_before(const uint32_t *nodes, size_t k) {
    for (size_t i = 0; i < k; i++)
        if (nodes[i] == nodes[k])
            return 1;
    return 0;
}

/* The fault of an element, and its node. */
static enum element_fault fault_of(const struct mesh *mesh, const struct mesh_element *element, const uint8_t *listed, uint32_t *node) {
    const uint32_t *nodes = mesh->numbers + element->nodes;
    size_t due = mesh_nodes_of_kind(element->kind);
    if (due == 0)
        return ELEMENT_OTHER_KIND;
    if (element->node_count != due)
        return ELEMENT_OTHER_COUNT;
    for (size_t k = 0; k < due; k++) {
        *node = nodes[k];
        if (!listed[nodes[k]])
            return ELEMENT_UNLISTED_NODE;
    }
    for (size_t k = 0; k < due; k++) {
        *node = nodes[k];
        if (stood_before(nodes, k))
            return ELEMENT_NODE_TWICE;
    }
    return ELEMENT_SOUND;
}

int element_first_fault(const struct mesh *mesh, const struct tags *region, struct element_found *found) {
    uint8_t *listed = listed_nodes(mesh), *marks = region_marks(mesh, region);
    int done = listed != NULL && marks != NULL;
    *found = (struct element_found){ELEMENT_SOUND, 0, 0};
    for (size_t i = 0; done && i < mesh->element_total && found->fault == ELEMENT_SOUND; i++) {
        if (!marks[i])
            continue;
        found->place = i;
        found->fault = fault_of(mesh, &mesh->elements[i], listed, &found->node);
    }
    free(listed);
    free(marks);
    return done;
}
