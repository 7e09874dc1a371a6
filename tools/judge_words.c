/* A judgement in words. */
#include "judge_words.h"

#include <inttypes.h>

#include "fildwuk.h"
#include "group_words.h"
#include "words.h"

static const char *thing(const struct judgement *judgement, size_t number) { return words_name(judgement->classes.homology->dimension, number); }

/* Says which group this one is a multiple of, or that it is a multiple. */
static void write_multiple(FILE *file, const struct judgement *judgement, size_t i) {
    const struct group *groups = judgement->classes.groups;
    const struct multiple *multiple = &judgement->multiples[i];
    if (multiple->like != i) {
        if (multiple->times == 1 || multiple->times == -1)
            fputs(multiple->times == 1 ? ", the same as" : ", the opposite of", file);
        else
            fprintf(file, ", %" PRId64 " times", multiple->times);
        fprintf(file, " group %" PRIu32 "%s", groups[multiple->like].tag, multiple->exactly ? "" : " up to a twisted part");
    } else if (groups[i].divisor > 1) {
        fputs(", ", file);
        lattice_write(file, groups[i].divisor);
        fprintf(file, " times a %s%s", thing(judgement, 1), multiple->divides ? "" : " up to a twisted part");
    }
}

static void write_free(FILE *file, const struct judgement *judgement, size_t i) {
    fputs("free", file);
    write_multiple(file, judgement, i);
    if (judgement->classes.groups[i].order != 1) {
        fputs(", with a twisted part of order ", file);
        lattice_write(file, judgement->classes.groups[i].order);
    }
}

static void write_verdict(FILE *file, const struct docket *docket, const struct judgement *judgement, size_t i) {
    const struct group *group = &judgement->classes.groups[i];
    if (group->verdict == VERDICT_LARGE) {
        fputs("not judged: ", file);
        group_write_large(file, group, FILDWUK_COEFFICIENT_MOST);
    } else if (!group_is_cycle(group)) {
        group_write_fault(file, docket, group);
    } else if (group->verdict == VERDICT_FREE) {
        write_free(file, judgement, i);
    } else if (group->verdict == VERDICT_TWISTED) {
        fputs("twisted of order ", file);
        lattice_write(file, group->order);
    } else {
        fputs("bounds", file);
    }
    if (group_is_cycle(group))
        group_write_coordinates(file, judgement->classes.homology, group);
    fputc('\n', file);
}

/* Writes a sum of groups with coefficients, of one sign of the relation, the other sign being on the other side of an equation. */
static void write_side(FILE *file, const struct judgement *judgement, size_t i, int own) {
    int first = 1;
    for (size_t j = 0; j < judgement->classes.total; j++) {
        wide number = judgement_relation(judgement, i, j);
        if (number == 0 || (j == i) != own)
            continue;
        number = own ? number : -number;
        if (!first || number < 0)
            fputs(first ? "-" : number < 0 ? " - " : " + ", file);
        if (number != 1 && number != -1) {
            lattice_write(file, number < 0 ? -number : number);
            fputs(" times ", file);
        }
        fprintf(file, "group %" PRIu32, judgement->classes.groups[j].tag);
        first = 0;
    }
    if (first)
        fputs("0", file);
}

/* Says how the groups depend on those before them. Bounding and twisted groups have no free part to depend on. */
static void write_dependence(FILE *file, const struct judgement *judgement, size_t i) {
    const struct group *group = &judgement->classes.groups[i];
    if (group->verdict != VERDICT_FREE) {
        fprintf(file, "  group %" PRIu32 " %s\n", group->tag, group->verdict == VERDICT_BOUNDS ? "bounds" : "is twisted: it has no free part");
        return;
    }
    if (judgement->relations == NULL) {
        fprintf(file, "  group %" PRIu32 " depends on those before it by numbers beyond 128 bits\n", group->tag);
        return;
    }
    fputs("  ", file);
    write_side(file, judgement, i, 1);
    fputs(" = ", file);
    write_side(file, judgement, i, 0);
    fputs(judgement->classes.homology->order_total > 0 ? ", twisted parts aside\n" : "\n", file);
}

/* Says what the span lacks, or that it is not known. */
static void write_span(FILE *file, const struct judgement *judgement) {
    size_t due = judgement->classes.homology->rank, rank = judgement->span.rank;
    if (!judgement->has_span) {
        if (judgement->classes.total != due)
            fprintf(file, "  they are %zu, and a basis of the free %s has %zu\n", judgement->classes.total, thing(judgement, 2), due);
        fputs("  their numbers exceed 128 bits, so that nothing is said of what they span; judge fewer at once\n", file);
        return;
    }
    if (rank < due)
        fprintf(file, "  they have rank %zu, the free %s have rank %zu\n", rank, thing(judgement, 2), due);
    if (judgement->span.index != 1) {
        fputs("  they have index ", file);
        lattice_write(file, judgement->span.index);
        fprintf(file, " in the free %s%s\n", thing(judgement, 2), rank < due ? " that are rational combinations of them" : "");
    }
}

static void write_reasons(FILE *file, const struct judgement *judgement) {
    for (size_t i = 0; i < judgement->classes.total; i++) {
        const struct group *group = &judgement->classes.groups[i];
        if (!group_is_cycle(group))
            fprintf(file, "  group %" PRIu32 " is no cycle of the region\n", group->tag);
        else if (judgement->has_span && !judgement->span.independent[i])
            write_dependence(file, judgement, i);
    }
    write_span(file, judgement);
}

void judge_write_words(FILE *file, const struct docket *docket, const struct source *region, const struct judgement *judgement) {
    const struct classes *classes = &judgement->classes;
    group_write_region(file, region, classes->homology);
    for (size_t i = 0; i < classes->total; i++) {
        group_write_start(file, docket, &classes->groups[i]);
        write_verdict(file, docket, judgement, i);
    }
    group_write_left_out(file, docket);
    if (judgement->together == TOGETHER_BASIS) {
        fprintf(file, "together: a basis of the free %s%s\n", thing(judgement, 2), classes->total == 0 ? ", of which there are none" : "");
        return;
    }
    fprintf(file, "together: %s the free %s\n", judgement->together == TOGETHER_NO_BASIS ? "no basis of" : "not settled whether a basis of", thing(judgement, 2));
    write_reasons(file, judgement);
    group_write_hint(file, docket, classes);
}
