/* The sheet that a command works on: an input that is a mesh text (input_is_mesh) is imported by the proved call, any other is the sheet itself. */
#ifndef SOURCE_H
#define SOURCE_H

#include "input.h"
#include "loose.h"
#include "options.h"

struct source {
    const struct text *text; /* the input */
    int is_mesh;
    uint32_t answer;   /* 0, or the refusal of the import; a sheet as input is not looked at here */
    struct text sheet; /* empty after a refusal */
    struct loose dropped; /* of a mesh: the nodes that the import has left out */
};

/* Finds the sheet of an input, for a mesh by the elements that --region names. Answers 1, or 0 where it fails and says why on `err`. After 1 give it to
 * source_free. */
int source_find(const struct options *options, const struct text *text, struct source *source, FILE *err);

/* The same of an input that is taken as a mesh text, whatever it starts with. */
int source_import(const struct options *options, const struct text *text, struct source *source, FILE *err);

void source_free(struct source *source);

#endif
