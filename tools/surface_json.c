/* The surfaces of groups as a JSON object. */
#include <inttypes.h>

#include "group_json.h"
#include "json.h"
#include "surface_words.h"

/* Writes what is found of group i after what every group starts with. */
static void write_found(FILE *file, const struct surfaces *surfaces, const struct groups *groups, size_t i) {
    const struct bounded *bounded = &surfaces->bounded[i];
    const struct group *group = &surfaces->classes.groups[i];
    if (bounded->asked)
        fprintf(file, ", \"refusal\": %" PRIu32, bounded->answer);
    else
        fputs(", \"refusal\": null", file);
    if (group_is_cycle(group))
        group_json_coordinates(file, surfaces->classes.homology, group);
    else
        group_json_fault(file, group);
    if (surfaces_has(surfaces, i)) {
        fputs(", \"surface\": {", file);
        json_chain(&surfaces->chains, groups, bounded->place, file);
    }
    fputc('}', file);
}

void surface_write_json(FILE *file, const struct docket *docket, const struct source *region, const struct surfaces *surfaces,
                        const struct groups *groups) {
    const struct classes *classes = &surfaces->classes;
    group_json_start(file, docket, region, classes->homology);
    for (size_t i = 0; i < classes->total; i++) {
        group_json_group(file, docket, &classes->groups[i], i == 0);
        write_found(file, surfaces, groups, i);
    }
    group_json_left_out(file, docket);
    fputs("}\n", file);
}
