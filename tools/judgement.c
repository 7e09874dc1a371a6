/* Physical groups of a mesh, held to the homology of a region. */
#include "judgement.h"

#include <stdlib.h>
#include <string.h>

size_t judgement_cycles(const struct judgement *judgement) {
    size_t count = 0;
    for (size_t i = 0; i < judgement->classes.total; i++)
        count += (size_t)group_is_cycle(&judgement->classes.groups[i]);
    return count;
}

wide judgement_relation(const struct judgement *judgement, size_t i, size_t j) { return judgement->relations[i * judgement->classes.total + j]; }

/* Whether the residues of a cycle are its divisor times some residues. */
static int residues_divide(const struct homology *homology, const struct group *group) {
    for (size_t i = 0; i < homology->order_total; i++) {
        int64_t order = classes_orders(homology)[i], both[] = {order, (int64_t)(group->divisor % order)};
        if (group->coordinates[i] % lattice_content(both, 2) != 0)
            return 0;
    }
    return 1;
}

/* Whether the residues of one cycle are a number times those of another. */
static int residues_agree(const struct homology *homology, const struct group *one, const struct group *other, int64_t times) {
    for (size_t i = 0; i < homology->order_total; i++)
        if (((wide)times * other->coordinates[i] - one->coordinates[i]) % classes_orders(homology)[i] != 0)
            return 0;
    return 1;
}

/* Finds the first group whose multiple this one is. Of two that are each other's, the later one is told. */
static void find_like(const struct classes *classes, size_t i, struct multiple *multiple) {
    const struct homology *homology = classes->homology;
    const struct group *group = &classes->groups[i];
    multiple->like = i;
    for (size_t j = 0; j < classes->total && group->verdict == VERDICT_FREE; j++) {
        const struct group *other = &classes->groups[j];
        int64_t times;
        if (j == i || other->verdict != VERDICT_FREE ||
            !lattice_multiple(classes_free_part(homology, group), classes_free_part(homology, other), homology->rank, &times))
            continue;
        if (j > i && (times == 1 || times == -1))
            continue;
        multiple->like = j;
        multiple->times = times;
        multiple->exactly = residues_agree(homology, group, other, times);
        return;
    }
}

static void find_multiples(struct judgement *judgement) {
    const struct classes *classes = &judgement->classes;
    for (size_t i = 0; i < classes->total; i++) {
        judgement->multiples[i].divides = group_is_cycle(&classes->groups[i]) && residues_divide(classes->homology, &classes->groups[i]);
        find_like(classes, i, &judgement->multiples[i]);
    }
}

/* Finds the relations of the dependent groups; none are kept where they are too wide. */
static enum classes_answer relate(struct judgement *judgement, struct lattice_rows rows) {
    judgement->relations = calloc(rows.number * rows.number + 1, sizeof *judgement->relations);
    enum lattice_answer answer =
        judgement->relations == NULL ? LATTICE_NO_MEMORY : lattice_relations(rows, judgement->span.independent, judgement->relations);
    if (answer == LATTICE_DONE)
        return CLASSES_DONE;
    free(judgement->relations);
    judgement->relations = NULL;
    return answer == LATTICE_TOO_WIDE ? CLASSES_DONE : CLASSES_NO_MEMORY;
}

/* Settles what the groups are together, from the span of the rows of their free parts. */
static enum classes_answer settle(struct judgement *judgement, struct lattice_rows rows) {
    size_t rank = judgement->classes.homology->rank, total = judgement->classes.total;
    int may_be = judgement_cycles(judgement) == total && total == rank;
    enum lattice_answer answer = lattice_span(rows, &judgement->span);
    if (answer == LATTICE_NO_MEMORY)
        return CLASSES_NO_MEMORY;
    judgement->has_span = answer == LATTICE_DONE;
    if (!judgement->has_span) {
        judgement->together = may_be ? TOGETHER_TOO_WIDE : TOGETHER_NO_BASIS;
        return CLASSES_DONE;
    }
    judgement->together = may_be && judgement->span.rank == rank && judgement->span.index == 1 ? TOGETHER_BASIS : TOGETHER_NO_BASIS;
    return judgement->span.rank < total ? relate(judgement, rows) : CLASSES_DONE;
}

/* Makes the rows of the free parts, zeros for what is no cycle. */
static enum classes_answer find_together(struct judgement *judgement) {
    const struct classes *classes = &judgement->classes;
    size_t width = classes->homology->rank;
    int64_t *numbers = calloc(classes->total * width + 1, sizeof *numbers);
    enum classes_answer answer = CLASSES_NO_MEMORY;
    for (size_t i = 0; numbers != NULL && width > 0 && i < classes->total; i++)
        if (group_is_cycle(&classes->groups[i]))
            memcpy(numbers + i * width, classes_free_part(classes->homology, &classes->groups[i]), width * sizeof *numbers);
    if (numbers != NULL)
        answer = settle(judgement, (struct lattice_rows){numbers, classes->total, width});
    free(numbers);
    return answer;
}

enum classes_answer judgement_make(struct chain_region region, const struct homology *homology, const struct tags *tags, struct judgement *judgement) {
    *judgement = (struct judgement){.multiples = NULL};
    enum classes_answer answer = classes_find(region, homology, tags, &judgement->classes);
    if (answer != CLASSES_DONE)
        return answer;
    judgement->multiples = calloc(tags->total + 1, sizeof *judgement->multiples);
    judgement->span.independent = calloc(tags->total + 1, 1);
    if (judgement->multiples == NULL || judgement->span.independent == NULL)
        return CLASSES_NO_MEMORY;
    find_multiples(judgement);
    return find_together(judgement);
}

void judgement_free(struct judgement *judgement) {
    classes_free(&judgement->classes);
    free(judgement->multiples);
    free(judgement->span.independent);
    free(judgement->relations);
    *judgement = (struct judgement){.multiples = NULL};
}
