/* The surfaces that physical groups have as their boundary. */
#include "surfaces.h"

#include <stdlib.h>

#include "fildwuk.h"
#include "fildwuk_library.h"

int surfaces_has(const struct surfaces *surfaces, size_t i) { return surfaces->bounded[i].asked && surfaces->bounded[i].answer == FILDWUK_DONE; }

/* Whether the proved call may answer so to a group with this verdict, which its chain and its coordinates have given. */
static int agrees(enum verdict verdict, uint32_t answer) {
    switch (verdict) {
    case VERDICT_LARGE: return answer == FILDWUK_COEFFICIENT_EXCEEDS;
    case VERDICT_OPEN: return answer == FILDWUK_BOUNDARY_NOT_ZERO;
    case VERDICT_BOUNDS: return answer == FILDWUK_DONE || answer == FILDWUK_TOO_WIDE;
    case VERDICT_TWISTED:
    case VERDICT_FREE: return answer == FILDWUK_BOUNDS_NOTHING || answer == FILDWUK_TOO_WIDE;
    default: return 0;
    }
}

/* Asks the proved call about group i. A surface is put behind those that there are. Answers whether it agrees. */
static int ask(struct chain_region region, struct surfaces *surfaces, size_t i, int32_t *work, size_t slots) {
    struct chains *chains = &surfaces->chains;
    struct bounded *bounded = &surfaces->bounded[i];
    const struct group *group = &surfaces->classes.groups[i];
    const int32_t *chain = surfaces->classes.chains + i * region.cells;
    int64_t *surface = surfaces->coefficients + chains->total * chains->cells;
    if (group->verdict == VERDICT_OUTSIDE)
        return 1;
    bounded->asked = 1;
    bounded->answer =
        fildwuk_library_surface(region.sheet, region.length, region.dimension, chain, region.cells, surface, chains->cells, work, slots);
    if (bounded->answer == FILDWUK_DONE) {
        bounded->place = chains->total;
        surfaces->tags[chains->total++] = group->tag;
    }
    return agrees(group->verdict, bounded->answer);
}

/* Asks about all groups. */
static enum classes_answer ask_all(struct chain_region region, struct surfaces *surfaces) {
    size_t below = sheet_count(region.sheet, region.dimension - 1);
    size_t slots = FILDWUK_LIBRARY_SURFACE_WORK_SLOTS(region.cells, below, surfaces->chains.cells);
    int32_t *work = calloc(slots + 1, sizeof *work);
    enum classes_answer answer = work == NULL ? CLASSES_NO_MEMORY : CLASSES_DONE;
    for (size_t i = 0; answer == CLASSES_DONE && i < surfaces->classes.total; i++)
        if (!ask(region, surfaces, i, work, slots))
            answer = CLASSES_DISAGREE;
    free(work);
    return answer;
}

enum classes_answer surfaces_find(struct chain_region region, const struct homology *homology, const struct tags *tags, const struct tags *named,
                                  struct surfaces *surfaces) {
    size_t above = sheet_count(region.sheet, region.dimension + 1);
    *surfaces = (struct surfaces){.bounded = NULL};
    enum classes_answer answer = classes_find(region, homology, tags, &surfaces->classes);
    if (answer != CLASSES_DONE)
        return answer;
    surfaces->bounded = calloc(tags->total + 1, sizeof *surfaces->bounded);
    surfaces->tags = calloc(tags->total + 1, sizeof *surfaces->tags);
    surfaces->coefficients = calloc(tags->total * above + 1, sizeof *surfaces->coefficients);
    surfaces->chains = (struct chains){region.sheet, region.dimension + 1, above, 0, surfaces->coefficients, named, NULL, surfaces->tags};
    if (surfaces->bounded == NULL || surfaces->tags == NULL || surfaces->coefficients == NULL)
        return CLASSES_NO_MEMORY;
    return ask_all(region, surfaces);
}

void surfaces_free(struct surfaces *surfaces) {
    classes_free(&surfaces->classes);
    free(surfaces->bounded);
    free(surfaces->tags);
    free(surfaces->coefficients);
    *surfaces = (struct surfaces){.bounded = NULL};
}
