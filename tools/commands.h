/* The table of commands. */
#ifndef COMMANDS_H
#define COMMANDS_H

#include <stddef.h>

#include "command.h"

/* The command of this place, from 0, in the order of --help; null after the last. The first is taken where the first word of a command line is none. */
const struct command *command_at(size_t place);

/* The command of this name, null where there is none. */
const struct command *command_find(const char *name);

#endif
