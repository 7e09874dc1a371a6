/* Physical groups on a region in words. */
#include "group_words.h"

#include <inttypes.h>

#include "physical.h"
#include "words.h"

void group_write_region(FILE *file, const struct source *region, const struct homology *homology) {
    uint32_t dimension = homology->dimension;
    fputs("region: ", file);
    for (uint32_t p = 0; p < SHEET_DIMENSIONS; p++) {
        size_t count = sheet_count(region->sheet.bytes, p);
        fprintf(file, "%s%zu %s", p == 0 ? "" : ", ", count, sheet_cell_name(p, count));
    }
    if (homology->rank == 0)
        fprintf(file, "; no free %s", words_name(dimension, 2));
    else
        fprintf(file, "; %zu free %s", homology->rank, words_name(dimension, homology->rank));
    if (homology->order_total > 0)
        fprintf(file, ", %zu twisted %s of order", homology->order_total, words_name(dimension, homology->order_total));
    for (size_t k = 0; k < homology->order_total; k++)
        fprintf(file, "%s %" PRId64, k == 0 ? "" : ",", homology_order(homology, k));
    fputc('\n', file);
    if (region->dropped.total > 0) {
        loose_tell(&region->dropped, file);
        fputc('\n', file);
    }
}

void group_write_start(FILE *file, const struct docket *docket, const struct group *group) {
    fprintf(file, "group %" PRIu32, group->tag);
    physical_write_name(file, docket->text, group->name);
    fprintf(file, ", %zu %s: ", group->elements, physical_element_name(docket->dimension, group->elements));
}

void group_write_fault(FILE *file, const struct docket *docket, const struct group *group) {
    uint32_t dimension = docket->dimension;
    if (group->verdict == VERDICT_OUTSIDE) {
        fprintf(file, "not in the region: the %s in line %zu of the file is no %s of it", physical_element_name(dimension, 1), group->line,
                sheet_cell_name(dimension, 1));
        return;
    }
    fprintf(file, "no cycle: its boundary has %" PRId64 " at ", group->cell.number);
    sheet_write_cell(file, group->cell.dimension, group->cell.vertices);
}

void group_write_large(FILE *file, const struct group *group, int64_t most) {
    fprintf(file, "its coefficient %" PRId64 " at ", group->cell.number);
    sheet_write_cell(file, group->cell.dimension, group->cell.vertices);
    fprintf(file, " is beyond %" PRId64, most);
}

void group_write_coordinates(FILE *file, const struct homology *homology, const struct group *group) {
    size_t total = homology_generators(homology);
    fputs(total == 0 ? "; no coordinates" : "; coordinates ", file);
    for (size_t i = 0; i < total; i++) {
        fprintf(file, "%s%" PRId64, i == 0 ? "" : ", ", group->coordinates[i]);
        if (i < homology->order_total)
            fprintf(file, " mod %" PRId64, homology_order(homology, i));
    }
}

void group_write_left_out(FILE *file, const struct docket *docket) {
    for (size_t i = 0; i < docket->left_out.total; i++) {
        uint32_t tag = docket->left_out.list[i];
        fprintf(file, "group %" PRIu32, tag);
        physical_write_name(file, docket->text, physical_name(docket->mesh, docket->dimension, tag));
        fputs(": left out, it is part of the region\n", file);
    }
}

void group_write_hint(FILE *file, const struct docket *docket, const struct classes *classes) {
    int outside = 0;
    for (size_t i = 0; i < classes->total; i++)
        outside |= classes->groups[i].verdict == VERDICT_OUTSIDE;
    if (outside && docket->options->region.total == 0)
        fprintf(file, "the region is all elements but those of the groups taken: name %sthe region by --region\n",
                docket->options->tags.total == 0 ? "the groups by their tags, or " : "");
}
