/* The command `judge`: what a mesh file tells as loops, held to the proved coordinates. */
#ifndef JUDGE_H
#define JUDGE_H

#include "command.h"
#include "input.h"

extern const char JUDGE_HELP[];

/* The command on a text. */
int judge_text(const struct options *options, const struct text *text, const struct console *console);

#endif
