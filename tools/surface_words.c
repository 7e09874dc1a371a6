/* The surfaces of groups in words. */
#include "surface_words.h"

#include "fildwuk.h"
#include "group_words.h"
#include "words.h"

/* Says why a cycle has no surface: what it is by its coordinates, or that none is found of one that bounds. */
static void write_class(FILE *file, const struct homology *homology, const struct group *group) {
    if (group->verdict == VERDICT_BOUNDS) {
        fputs("bounds, but its surface is not found: the reduction that finds it makes an entry beyond 1048575 (refusal 13)", file);
        return;
    }
    fputs(group->verdict == VERDICT_FREE ? "no surface, free" : "no surface, twisted of order ", file);
    if (group->verdict == VERDICT_TWISTED) {
        lattice_write(file, group->order);
        fputs(": ", file);
        lattice_write(file, group->order);
        fputs(" times it bounds", file);
    }
    group_write_coordinates(file, homology, group);
}

/* Writes the surface of group i, or why there is none. */
static void write_surface(FILE *file, const struct docket *docket, const struct surfaces *surfaces, size_t i) {
    const struct group *group = &surfaces->classes.groups[i];
    const struct chains *chains = &surfaces->chains;
    if (surfaces_has(surfaces, i)) {
        fputs("bounds ", file);
        words_chain(chains->sheet, chains->dimension, chains_chain(chains, surfaces->bounded[i].place), file);
    } else if (group->verdict == VERDICT_LARGE) {
        fputs("no surface is looked for: ", file);
        group_write_large(file, group, FILDWUK_SURFACE_COEFFICIENT_MOST);
    } else if (!group_is_cycle(group)) {
        fputs("no surface, ", file);
        group_write_fault(file, docket, group);
    } else {
        write_class(file, surfaces->classes.homology, group);
    }
    fputc('\n', file);
}

/* Says what helps where a surface is not found of a group that bounds. */
static void write_wide_hint(FILE *file, const struct surfaces *surfaces) {
    int wide_met = 0;
    for (size_t i = 0; i < surfaces->classes.total; i++)
        wide_met |= surfaces->classes.groups[i].verdict == VERDICT_BOUNDS && !surfaces_has(surfaces, i);
    if (wide_met)
        fputs("a part of the region that has the group (--region TAG), or another numbering of the nodes, may stay within 1048575\n", file);
}

void surface_write_words(FILE *file, const struct docket *docket, const struct source *region, const struct surfaces *surfaces,
                         const struct groups *groups) {
    const struct classes *classes = &surfaces->classes;
    group_write_region(file, region, classes->homology);
    for (size_t i = 0; i < classes->total; i++) {
        group_write_start(file, docket, &classes->groups[i]);
        write_surface(file, docket, surfaces, i);
        if (groups != NULL && surfaces_has(surfaces, i))
            groups_tell_one(file, "  ", &surfaces->chains, groups, surfaces->bounded[i].place);
    }
    group_write_left_out(file, docket);
    if (groups != NULL && surfaces->chains.total == 0)
        groups_tell(file, "", &surfaces->chains, groups);
    group_write_hint(file, docket, classes);
    write_wide_hint(file, surfaces);
}
