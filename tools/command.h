/* What the commands of fildwuk share: their exit statuses, where they write, and what a row of the table of commands holds. */
#ifndef COMMAND_H
#define COMMAND_H

#include <stdint.h>
#include <stdio.h>

#include "input.h"
#include "options.h"

/* Exit statuses: done; refused by a proved call, judged wrong or without a surface; unreadable, unwritable or misused. */
enum status { STATUS_DONE = 0, STATUS_REFUSED = 1, STATUS_FAILED = 2 };

/* Where a command writes: what was asked for, and messages. */
struct console {
    FILE *out, *err;
};

/* A command: its name, one line about it, the text of its --help, what it reads (as "a mesh"), the options it takes (bits of enum option), what it
 * does with the text that it has read, which answers the exit status, and whether it can begin at all, asked before anything is read: null where it always
 * can, else it says why not and answers 0. */
struct command {
    const char *name, *line, *help, *what;
    uint32_t takes;
    int (*run)(const struct options *options, const struct text *text, const struct console *console);
    int (*can_begin)(const struct options *options, FILE *err);
};

#endif
