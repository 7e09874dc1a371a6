/* The command `import`: the sheet of a mesh. */
#ifndef IMPORT_H
#define IMPORT_H

#include "command.h"

extern const char IMPORT_HELP[];

/* The command on a text. */
int import_text(const struct options *options, const struct text *text, const struct console *console);

#endif
