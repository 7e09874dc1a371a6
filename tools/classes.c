/* Physical groups on a region, and what they are by the proved coordinates. */
#include "classes.h"

#include <stdlib.h>
#include <string.h>

#include "fildwuk.h"
#include "fildwuk_library.h"
#include "physical.h"

const int64_t *classes_orders(const struct homology *homology) { return homology->numbers + 2; }

const int64_t *classes_free_part(const struct homology *homology, const struct group *group) { return group->coordinates + homology->order_total; }

/* Lends the slices of the classes. Answers 0 where there is no memory. */
static int lend(const struct tags *tags, size_t cells, struct classes *classes) {
    classes->groups = calloc(tags->total + 1, sizeof *classes->groups);
    classes->chains = calloc(tags->total * cells + 1, sizeof *classes->chains);
    classes->coordinates = calloc((tags->total + 1) * cells + 1, sizeof *classes->coordinates);
    classes->total = tags->total;
    return classes->groups != NULL && classes->chains != NULL && classes->coordinates != NULL;
}

/* Finds the chains of the groups, and which are cycles. Answers 0 where there is no memory. */
static int find_chains(struct chain_region region, const struct tags *tags, struct classes *classes) {
    int64_t boundary[FILDWUK_LIBRARY_CELLS], *sums = calloc(tags->total * region.cells + 1, sizeof *sums);
    int done = sums != NULL && chain_sum(region, tags, classes->groups, sums);
    for (size_t i = 0; done && i < tags->total; i++) {
        classes->groups[i].tag = tags->list[i];
        classes->groups[i].name = physical_name(region.mesh, region.dimension, tags->list[i]);
        chain_settle(region, &classes->groups[i], sums + i * region.cells, boundary, classes->chains + i * region.cells);
    }
    free(sums);
    return done;
}

/* Asks the proved call for the lists of chains, and 12 of each chain that is not closed. */
static int ask(struct chain_region region, const struct classes *classes, int32_t *cycles, int32_t *work, size_t slots) {
    size_t number = 0, cells = region.cells;
    for (size_t i = 0; i < classes->total; i++) {
        const int32_t *chain = classes->chains + i * cells;
        int64_t *lists = classes->coordinates + number * cells;
        if (classes->groups[i].verdict == VERDICT_OPEN &&
            fildwuk_library_coordinate_lists(region.sheet, region.length, region.dimension, 1, chain, cells, lists, cells, work, slots) !=
                FILDWUK_BOUNDARY_NOT_ZERO)
            return 0;
        if (!group_is_cycle(&classes->groups[i]))
            continue;
        if (cells > 0)
            memcpy(cycles + number * cells, chain, cells * sizeof *chain);
        number++;
    }
    return fildwuk_library_coordinate_lists(region.sheet, region.length, region.dimension, number, cycles, number * cells, classes->coordinates,
                                            number * cells, work, slots) == FILDWUK_DONE;
}

static enum classes_answer find_coordinates(struct chain_region region, struct classes *classes) {
    size_t slots = homology_work_slots(region.sheet, region.length, region.dimension), next = 0;
    int32_t *work = calloc(slots + 1, sizeof *work), *cycles = calloc(classes->total * region.cells + 1, sizeof *cycles);
    enum classes_answer answer = CLASSES_NO_MEMORY;
    if (work != NULL && cycles != NULL)
        answer = ask(region, classes, cycles, work, slots) ? CLASSES_DONE : CLASSES_DISAGREE;
    for (size_t i = 0; i < classes->total; i++)
        if (group_is_cycle(&classes->groups[i]))
            classes->groups[i].coordinates = classes->coordinates + region.cells * next++;
    free(work);
    free(cycles);
    return answer;
}

static void classify(const struct homology *homology, struct group *group) {
    if (!group_is_cycle(group))
        return;
    group->order = lattice_order(group->coordinates, classes_orders(homology), homology->order_total);
    group->divisor = lattice_content(classes_free_part(homology, group), homology->rank);
    group->verdict = group->divisor != 0 ? VERDICT_FREE : group->order != 1 ? VERDICT_TWISTED : VERDICT_BOUNDS;
}

enum classes_answer classes_find(struct chain_region region, const struct homology *homology, const struct tags *tags, struct classes *classes) {
    *classes = (struct classes){.homology = homology};
    if (!lend(tags, region.cells, classes) || !find_chains(region, tags, classes))
        return CLASSES_NO_MEMORY;
    enum classes_answer answer = find_coordinates(region, classes);
    for (size_t i = 0; answer == CLASSES_DONE && i < classes->total; i++)
        classify(homology, &classes->groups[i]);
    return answer;
}

void classes_free(struct classes *classes) {
    free(classes->groups);
    free(classes->chains);
    free(classes->coordinates);
    *classes = (struct classes){.homology = NULL};
}
