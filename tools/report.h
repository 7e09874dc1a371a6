/* The command `report`: the homology of a mesh or a sheet. */
#ifndef REPORT_H
#define REPORT_H

#include "command.h"

extern const char REPORT_HELP[];

/* The command on a text. */
int report_text(const struct options *options, const struct text *text, const struct console *console);

#endif
