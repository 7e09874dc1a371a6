/* The command `sweep`: a sheet without its loose nodes. */
#ifndef SWEEP_H
#define SWEEP_H

#include "command.h"

extern const char SWEEP_HELP[];

/* The command on a text, which is taken as a sheet. */
int sweep_text(const struct options *options, const struct text *text, const struct console *console);

#endif
