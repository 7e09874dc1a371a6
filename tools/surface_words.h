/* The surfaces of groups in words, and as a JSON object. */
#ifndef SURFACE_WORDS_H
#define SURFACE_WORDS_H

#include <stdio.h>

#include "docket.h"
#include "groups.h"
#include "surfaces.h"

/* Writes a line on the region, one on each group, with the group or view of its surface below it where `groups` is not null, and what helps. */
void surface_write_words(FILE *file, const struct docket *docket, const struct source *region, const struct surfaces *surfaces,
                         const struct groups *groups);

/* Writes one object. docs/COMMAND.md says what it holds. */
void surface_write_json(FILE *file, const struct docket *docket, const struct source *region, const struct surfaces *surfaces,
                        const struct groups *groups);

#endif
