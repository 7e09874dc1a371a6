/* The table of commands. */
#include "commands.h"

#include <string.h>

#include "import.h"
#include "judge.h"
#include "report.h"
#include "sheet_output.h"
#include "surface.h"
#include "sweep.h"

static const struct command COMMANDS[] = {
    {"report", "the components, loops and cavities of a mesh or a sheet", REPORT_HELP, "a mesh or a sheet",
     OPTION_DIMENSION | OPTION_PLAIN | OPTION_JSON | OPTION_REGION | OPTION_LIMIT | OPTION_GROUPS | OPTION_VIEW, report_text, NULL},
    {"judge", "whether physical groups of a mesh are a basis of its free loops", JUDGE_HELP, "a mesh",
     OPTION_DIMENSION | OPTION_JSON | OPTION_REGION | OPTION_TAGS, judge_text, NULL},
    {"surface", "the surfaces that physical groups of a mesh bound", SURFACE_HELP, "a mesh",
     OPTION_DIMENSION | OPTION_JSON | OPTION_REGION | OPTION_TAGS | OPTION_GROUPS | OPTION_VIEW, surface_text, NULL},
    {"import", "the sheet of a mesh, for the proved calls", IMPORT_HELP, "a mesh", OPTION_OUTPUT | OPTION_REGION | OPTION_LIMIT, import_text,
     sheet_output_can_begin},
    {"sweep", "a stored sheet without its loose nodes", SWEEP_HELP, "a sheet", OPTION_OUTPUT | OPTION_JSON | OPTION_LIMIT, sweep_text,
     sheet_output_can_begin},
};

enum { COMMAND_TOTAL = sizeof COMMANDS / sizeof *COMMANDS };

const struct command *command_at(size_t place) { return place < COMMAND_TOTAL ? &COMMANDS[place] : NULL; }

const struct command *command_find(const char *name) {
    for (size_t i = 0; i < COMMAND_TOTAL; i++)
        if (strcmp(name, COMMANDS[i].name) == 0)
            return &COMMANDS[i];
    return NULL;
}
