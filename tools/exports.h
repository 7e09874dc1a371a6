/* The files of --groups and --view. */
#ifndef EXPORTS_H
#define EXPORTS_H

#include "chains.h"
#include "command.h"
#include "groups.h"
#include "options.h"
#include "source.h"

/* The dimension whose generators are written: that of --dimension, else 1. */
uint32_t exports_dimension(const struct options *options);

/* Whether the files that the options name can be written, as far as that is known before: they are of a mesh, are two files and neither is the input or a
 * folder. Says why where it is not so. */
int exports_check(const struct options *options, const struct source *source, FILE *err);

/* Writes the files that the options name, of chains of the text's mesh. Answers STATUS_DONE, STATUS_REFUSED where the chains cannot be written so, or
 * STATUS_FAILED; after these two it has said why and left the files as they were. `groups` gets the numbers of the groups, for groups_tell; they are 0
 * where --groups is not given. */
int exports_write(const struct options *options, const struct text *text, const struct chains *chains, struct groups *groups,
                  const struct console *console);

/* Whether the options name a file to write. */
int exports_asked(const struct options *options);

#endif
