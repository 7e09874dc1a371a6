/* A judgement as a JSON object. */
#include <inttypes.h>

#include "group_json.h"
#include "judge_words.h"

static void write_cycle(FILE *file, const struct judgement *judgement, size_t i) {
    const struct group *groups = judgement->classes.groups;
    const struct multiple *multiple = &judgement->multiples[i];
    group_json_coordinates(file, judgement->classes.homology, &groups[i]);
    fputs(", \"divisor\": ", file);
    lattice_write(file, groups[i].divisor);
    if (groups[i].verdict == VERDICT_FREE)
        fprintf(file, ", \"divides\": %s", multiple->divides ? "true" : "false");
    if (groups[i].verdict == VERDICT_FREE && multiple->like != i)
        fprintf(file, ", \"times\": %" PRId64 ", \"of\": %" PRIu32 ", \"exactly\": %s", multiple->times, groups[multiple->like].tag,
                multiple->exactly ? "true" : "false");
}

/* Writes a relation as pairs of a coefficient and a tag. */
static void write_relation(FILE *file, const struct judgement *judgement, size_t i) {
    const char *before = "";
    fputc('[', file);
    for (size_t j = 0; j < judgement->classes.total; j++) {
        wide number = judgement_relation(judgement, i, j);
        if (number == 0)
            continue;
        fprintf(file, "%s[", before);
        lattice_write(file, number);
        fprintf(file, ", %" PRIu32 "]", judgement->classes.groups[j].tag);
        before = ", ";
    }
    fputc(']', file);
}

/* Writes the relations of the cycles that depend on those before them, null where there are such but their numbers exceed 128 bits. */
static void write_relations(FILE *file, const struct judgement *judgement) {
    const char *before = "";
    if (!judgement->has_span || (judgement->relations == NULL && judgement->span.rank < judgement->classes.total)) {
        fputs("null", file);
        return;
    }
    fputc('[', file);
    for (size_t i = 0; i < judgement->classes.total; i++) {
        if (judgement->span.independent[i] || !group_is_cycle(&judgement->classes.groups[i]))
            continue;
        fputs(before, file);
        write_relation(file, judgement, i);
        before = ", ";
    }
    fputc(']', file);
}

static void write_together(FILE *file, const struct judgement *judgement) {
    static const char *const BASIS[] = {"true", "false", "null"};
    if (judgement->has_span) {
        fprintf(file, ",\n\"rank\": %zu, \"index\": ", judgement->span.rank);
        lattice_write(file, judgement->span.index);
    } else {
        fputs(",\n\"rank\": null, \"index\": null", file);
    }
    fputs(", \"relations\": ", file);
    write_relations(file, judgement);
    fprintf(file, ", \"basis\": %s}\n", BASIS[judgement->together]);
}

void judge_write_json(FILE *file, const struct docket *docket, const struct source *region, const struct judgement *judgement) {
    const struct classes *classes = &judgement->classes;
    group_json_start(file, docket, region, classes->homology);
    for (size_t i = 0; i < classes->total; i++) {
        group_json_group(file, docket, &classes->groups[i], i == 0);
        if (group_is_cycle(&classes->groups[i]))
            write_cycle(file, judgement, i);
        else
            group_json_fault(file, &classes->groups[i]);
        fputc('}', file);
    }
    group_json_left_out(file, docket);
    write_together(file, judgement);
}
