/* The command `surface`: what physical groups of a mesh bound. */
#ifndef SURFACE_H
#define SURFACE_H

#include "command.h"
#include "input.h"

extern const char SURFACE_HELP[];

/* The command on a text. */
int surface_text(const struct options *options, const struct text *text, const struct console *console);

#endif
