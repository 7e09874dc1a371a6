/* What an input is, told by its first bytes, where it is neither a mesh text of the form that is read nor a sheet. */
#ifndef HINT_H
#define HINT_H

#include <stdio.h>

#include "input.h"

/* Whether the input is text and no mesh: its first bytes are printable, or ends of lines, and the first is no `$`. No sheet starts so. */
int hint_is_text(const struct text *text);

/* Whether the input starts as a mesh text does, with `$MeshFormat`. */
int hint_is_mesh(const struct text *text);

/* Writes what the input is, as a sentence without a line feed; nothing where its first bytes do not tell. */
void hint_format(const struct text *text, FILE *file);

#endif
