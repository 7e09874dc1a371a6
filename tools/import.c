/* The command `import`: the sheet of a mesh. */
#include "import.h"

#include "fildwuk.h"
#include "refusal.h"
#include "sheet_output.h"
#include "source.h"

const char IMPORT_HELP[] =
    "usage: fildwuk import [FILE.msh] [-o FILE.sheet] [--region TAG ..]\n"
    "                      [--limit host|library]\n"
    "\n"
    "Reads a mesh in MSH 2.2 ASCII, as `gmsh -format msh22` writes it, and writes the\n"
    "sheet of its cells and all their faces. Points in no edge are dropped, where\n"
    "there is an edge, and it says which they are. Without FILE.msh, or where it is\n"
    "-, standard input is read; without -o, standard output is written, where it is\n"
    "no terminal.\n"
    "\n"
    "  -o FILE.sheet    the file to write; it gets its name when it is complete\n"
    "  --region TAG ..  only the elements with these physical tags, of the highest\n"
    "                   dimension that has the tag\n"
    "  --limit host     at most 48 cells in a dimension, not 256\n"
    "\n"
    "Exit status: 0 the sheet is written, 1 the mesh is refused, 2 a file cannot be\n"
    "read or written, or a word is wrong. After 1 and 2 standard error has the\n"
    "reason.\n";

/* Writes the sheet of a source, and says which nodes are dropped, where some are. */
static int write_sheet(const struct options *options, const struct source *source, const struct console *console) {
    int status = sheet_output_write(options, &source->sheet, console);
    if (status == STATUS_DONE && source->dropped.total > 0)
        sheet_output_tell(options, &source->dropped, console);
    return status;
}

int import_text(const struct options *options, const struct text *text, const struct console *console) {
    struct source source;
    if (!source_import(options, text, &source, console->err))
        return STATUS_FAILED;
    struct refusal refusal = {.number = source.answer, .options = options, .source = &source};
    int status = source.answer == FILDWUK_DONE ? write_sheet(options, &source, console) : refusal_tell(&refusal, console->err);
    source_free(&source);
    return status;
}
