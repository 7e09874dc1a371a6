/* The report as one JSON object. docs/COMMAND.md describes it. */
#ifndef JSON_H
#define JSON_H

#include <stdio.h>

#include "chains.h"
#include "groups.h"
#include "refusal.h"

/* Writes text as a JSON string: bytes below 32, quotes and backslashes escaped. The text is UTF-8. */
void json_string(const char *text, FILE *file);

/* Writes the object of an input that is refused as a whole. */
void json_refusal(const struct refusal *refusal, FILE *file);

/* Writes the start of an object on a sheet: the limit, the region, the counts and the nodes that are dropped. */
void json_start(const struct source *source, const struct options *options, FILE *file);

/* Writes the start of the object of a report. */
void json_begin(const struct source *source, const struct options *options, FILE *file);

/* Writes a dimension, also one that is refused, whose generators are these chains; `first` is 1 for the first of them. `groups` has the tags of its
 * generators, where they are written as groups or views, else it is null. */
void json_dimension(const struct chains *chains, const struct groups *groups, int first, FILE *file);

/* Writes the tag and the name under which chain k is written, where `groups` is not null, and its cells, the last part of an object. */
void json_chain(const struct chains *chains, const struct groups *groups, size_t k, FILE *file);

/* Writes the end of the object. */
void json_end(FILE *file);

#endif
