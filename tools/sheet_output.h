/* The sheet that `import` and `sweep` write, and what they say beside it. */
#ifndef SHEET_OUTPUT_H
#define SHEET_OUTPUT_H

#include "command.h"
#include "loose.h"

/* Whether the sheet goes to standard output: -o is not given, or names it by `-`. */
int sheet_output_is_standard(const struct options *options);

/* Whether the sheet has a place to go: without -o, standard output is no terminal. Says so where it has none. */
int sheet_output_can_begin(const struct options *options, FILE *err);

/* Writes the sheet to the file of -o, or to standard output. Answers the exit status. */
int sheet_output_write(const struct options *options, const struct text *sheet, const struct console *console);

/* Says which nodes are dropped: as a message where standard output has the sheet, else on standard output. */
void sheet_output_tell(const struct options *options, const struct loose *dropped, const struct console *console);

#endif
