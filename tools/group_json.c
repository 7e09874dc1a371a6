/* Physical groups on a region as parts of a JSON object. */
#include "group_json.h"

#include <inttypes.h>
#include <stdlib.h>

#include "escape.h"
#include "json.h"
#include "physical.h"

enum { NAME_MOST = 1000 };

/* Writes a group's name as a string, with what a terminal would obey escaped first; null where it has none. */
static void write_name_of(FILE *file, const struct text *text, const struct mesh_name *found) {
    char *bytes = NULL;
    size_t length = 0;
    FILE *name = found == NULL ? NULL : open_memstream(&bytes, &length);
    if (name != NULL)
        write_escaped(name, text->bytes + found->name.start, found->name.end - found->name.start, NAME_MOST);
    if (name != NULL && fclose(name) == 0)
        json_string(bytes, file);
    else
        fputs("null", file);
    free(bytes);
}

void group_json_start(FILE *file, const struct docket *docket, const struct source *region, const struct homology *homology) {
    json_start(region, docket->options, file);
    fprintf(file, ", \"dimension\": %u, \"free\": %zu, \"orders\": [", (unsigned)homology->dimension, homology->rank);
    for (size_t k = 0; k < homology->order_total; k++)
        fprintf(file, "%s%" PRId64, k == 0 ? "" : ", ", homology_order(homology, k));
    fputs("], \"groups\": [", file);
}

void group_json_group(FILE *file, const struct docket *docket, const struct group *group, int first) {
    static const char *const VERDICTS[] = {"outside", "large", "open", "bounds", "twisted", "free"};
    fprintf(file, "%s\n{\"tag\": %" PRIu32 ", \"name\": ", first ? "" : ",", group->tag);
    write_name_of(file, docket->text, group->name);
    fprintf(file, ", \"elements\": %zu, \"cycle\": %s, \"verdict\": \"%s\"", group->elements, group_is_cycle(group) ? "true" : "false",
            VERDICTS[group->verdict]);
}

void group_json_fault(FILE *file, const struct group *group) {
    if (group->verdict == VERDICT_OUTSIDE) {
        fprintf(file, ", \"line\": %zu", group->line);
        return;
    }
    fprintf(file, ", \"number\": %" PRId64 ", \"cell\": [", group->cell.number);
    for (uint32_t k = 0; k <= group->cell.dimension; k++)
        fprintf(file, "%s%u", k == 0 ? "" : ", ", (unsigned)group->cell.vertices[k]);
    fputc(']', file);
}

void group_json_coordinates(FILE *file, const struct homology *homology, const struct group *group) {
    fputs(", \"coordinates\": [", file);
    for (size_t k = 0; k < homology_generators(homology); k++)
        fprintf(file, "%s%" PRId64, k == 0 ? "" : ", ", group->coordinates[k]);
    fputs("], \"order\": ", file);
    lattice_write(file, group->order);
}

void group_json_left_out(FILE *file, const struct docket *docket) {
    fputs("],\n\"left_out\": [", file);
    for (size_t i = 0; i < docket->left_out.total; i++) {
        uint32_t tag = docket->left_out.list[i];
        fprintf(file, "%s{\"tag\": %" PRIu32 ", \"name\": ", i == 0 ? "" : ", ", tag);
        write_name_of(file, docket->text, physical_name(docket->mesh, docket->dimension, tag));
        fputc('}', file);
    }
    fputc(']', file);
}
