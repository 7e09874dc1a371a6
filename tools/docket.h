/* The physical groups of a mesh that a command is asked about, and the region that they are held to: what `judge` and `surface` share. */
#ifndef DOCKET_H
#define DOCKET_H

#include <stdint.h>

#include "classes.h"
#include "command.h"
#include "homology.h"
#include "input.h"
#include "mesh.h"
#include "options.h"
#include "source.h"

/* The most groups that are taken at once. No more than 256 can be independent. */
#define DOCKET_MOST 1000

/* The mesh, the tags of the groups that are taken, those of groups that are left out as part of the region, and their dimension. */
struct docket {
    const struct options *options;
    const struct text *text;
    const struct mesh *mesh;
    struct tags tags, left_out;
    uint32_t dimension;
};

/* What a command does with the groups on the region, which is imported and has a report of the dimension. Answers the exit status. */
typedef int docket_work(const struct docket *docket, const struct source *region, const struct homology *homology, const struct console *console);

/* Finds the groups that the options name and the region, and does the work on them. Answers the exit status; where the work is not done, it has said
 * why. */
int docket_run(docket_work *work, const struct options *options, const struct text *text, const struct console *console);

/* What groups are held to, with coefficients up to `most`. */
struct chain_region docket_region(const struct docket *docket, const struct source *region, int64_t most);

/* Says why classes were not found, which are not done. Answers STATUS_FAILED. */
int docket_failed(enum classes_answer answer, FILE *err);

#endif
