/* The chain that a physical group is on a region. */
#include "group_chain.h"

#include <stdlib.h>
#include <string.h>

#include "physical.h"

int group_is_cycle(const struct group *group) { return group->verdict >= VERDICT_BOUNDS; }

/* Adds an element to the chain of its group. */
static void add_element(struct chain_region region, const struct mesh_element *element, struct group *group, int64_t *sum) {
    group->elements++;
    if (physical_add(region.mesh, element, region.sheet, region.dimension, sum) || group->verdict == VERDICT_OUTSIDE)
        return;
    group->verdict = VERDICT_OUTSIDE;
    group->line = element->line;
}

int chain_sum(struct chain_region region, const struct tags *tags, struct group *groups, int64_t *sums) {
    struct physical_index index;
    if (!physical_index(tags, &index))
        return 0;
    for (size_t i = 0; i < tags->total; i++)
        groups[i].verdict = VERDICT_BOUNDS;
    for (size_t i = 0; i < region.mesh->element_total; i++) {
        const struct mesh_element *element = &region.mesh->elements[i];
        size_t place = physical_group(&index, element, region.dimension);
        if (place != SIZE_MAX)
            add_element(region, element, &groups[place], sums + place * region.cells);
    }
    free(index.places);
    return 1;
}

/* Tells the first cell of a dimension where a number is beyond the limit either way. Answers 0 where there is none. */
static int find_beyond(struct chain_region region, uint32_t dimension, const int64_t *numbers, int64_t limit, struct group_cell *cell) {
    for (size_t i = 0; i < sheet_count(region.sheet, dimension); i++)
        if (numbers[i] > limit || numbers[i] < -limit) {
            cell->dimension = dimension;
            cell->number = numbers[i];
            sheet_cell(region.sheet, dimension, i, cell->vertices);
            return 1;
        }
    return 0;
}

/* Adds to the boundary the faces of a cell, with signs that take turns, times its coefficient. */
static void add_faces(struct chain_region region, size_t i, int64_t coefficient, int64_t *boundary) {
    uint16_t vertices[SHEET_DIMENSIONS];
    sheet_cell(region.sheet, region.dimension, i, vertices);
    for (uint32_t left_out = 0; left_out <= region.dimension; left_out++) {
        uint16_t face[SHEET_DIMENSIONS] = {0, 0, 0, 0};
        for (uint32_t k = 0; k < region.dimension; k++)
            face[k] = vertices[k < left_out ? k : k + 1];
        boundary[sheet_find(region.sheet, region.dimension - 1, face)] += left_out % 2 == 0 ? coefficient : -coefficient;
    }
}

/* Whether the chain's boundary is zero; where it is not, its first cell. */
static int is_closed(struct chain_region region, const int64_t *chain, int64_t *boundary, struct group_cell *cell) {
    if (region.dimension == 0)
        return 1;
    memset(boundary, 0, sheet_count(region.sheet, region.dimension - 1) * sizeof *boundary);
    for (size_t i = 0; i < region.cells; i++)
        if (chain[i] != 0)
            add_faces(region, i, chain[i], boundary);
    return !find_beyond(region, region.dimension - 1, boundary, 0, cell);
}

void chain_settle(struct chain_region region, struct group *group, const int64_t *sum, int64_t *boundary, int32_t *chain) {
    if (group->verdict == VERDICT_OUTSIDE)
        return;
    for (size_t i = 0; i < region.cells; i++)
        chain[i] = (int32_t)sum[i];
    if (find_beyond(region, region.dimension, sum, region.most, &group->cell))
        group->verdict = VERDICT_LARGE;
    else if (!is_closed(region, sum, boundary, &group->cell))
        group->verdict = VERDICT_OPEN;
}
