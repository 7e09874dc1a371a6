/* The command `sweep`: a sheet without its loose nodes. */
#include "sweep.h"

#include <errno.h>
#include <stdlib.h>
#include <string.h>

#include "fildwuk_library.h"
#include "json.h"
#include "refusal.h"
#include "sheet.h"
#include "sheet_output.h"

const char SWEEP_HELP[] =
    "usage: fildwuk sweep [OLD.sheet] [-o NEW.sheet] [--json]\n"
    "                     [--limit host|library]\n"
    "\n"
    "Writes a sheet without its loose nodes, the vertices in no edge, where it has an\n"
    "edge, and says which they are. Sheets that were stored before release 1.8 pass\n"
    "through it, since a sheet with loose nodes is refused with 18; one without is\n"
    "written unchanged. Without OLD.sheet, or where it is -, standard input is read;\n"
    "without -o, standard output is written, where it is no terminal, and standard\n"
    "error has the nodes.\n"
    "\n"
    "  -o NEW.sheet     the file to write; it gets its name when it is complete\n"
    "  --json           one JSON object on standard output, beside -o NEW.sheet\n"
    "  --limit host     at most 48 cells in a dimension, not 256\n"
    "\n"
    "Exit status: 0 the sheet is written, 1 it is refused, 2 a file cannot be read or\n"
    "written, or a word is wrong. After 1 and 2 no sheet is written, and standard\n"
    "error has the reason.\n";

/* Asks the proved call, and puts its length with the sheet that it writes, which has room for the longest. */
static uint32_t sweep(const struct text *sheet, enum limit limit, struct text *swept) {
    uint32_t answer = limit == LIMIT_HOST ? fildwuk_sweep(sheet->bytes, sheet->length, swept->bytes, FILDWUK_SHEET_BYTES)
                                          : fildwuk_library_sweep(sheet->bytes, sheet->length, swept->bytes, FILDWUK_LIBRARY_SHEET_BYTES);
    swept->length = answer == FILDWUK_DONE ? sheet_length(swept->bytes) : 0;
    return answer;
}

static int refuse(const struct options *options, const struct source *source, const struct console *console) {
    struct refusal refusal = {.number = source->answer, .options = options, .source = source};
    if (options->form == FORM_JSON)
        json_refusal(&refusal, console->out);
    return refusal_tell(&refusal, console->err);
}

/* Writes the swept sheet, and says which nodes of the input are dropped. Nothing is said of none beside a sheet on standard output. */
static int write_swept(const struct options *options, const struct text *sheet, struct source *swept, const struct console *console) {
    loose_dropped(sheet->bytes, swept->sheet.bytes, &swept->dropped);
    int status = sheet_output_write(options, &swept->sheet, console);
    if (status != STATUS_DONE)
        return status;
    if (options->form == FORM_JSON) {
        json_start(swept, options, console->out);
        fprintf(console->out, ", \"length\": %zu}\n", swept->sheet.length);
    } else if (swept->dropped.total > 0 || !sheet_output_is_standard(options)) {
        sheet_output_tell(options, &swept->dropped, console);
    }
    return STATUS_DONE;
}

int sweep_text(const struct options *options, const struct text *text, const struct console *console) {
    if (options->form == FORM_JSON && sheet_output_is_standard(options)) {
        fputs("fildwuk: standard output has the sheet: a file is wanted after -o (fildwuk sweep --help)\n", console->err);
        return STATUS_FAILED;
    }
    struct source old = {.text = text, .sheet = *text}, swept = {.text = text, .sheet = {calloc(1, FILDWUK_LIBRARY_SHEET_BYTES), 0}};
    if (swept.sheet.bytes == NULL) {
        fprintf(console->err, "fildwuk: %s\n", strerror(ENOMEM));
        return STATUS_FAILED;
    }
    old.answer = sweep(text, options->limit, &swept.sheet);
    int status = old.answer == FILDWUK_DONE ? write_swept(options, text, &swept, console) : refuse(options, &old, console);
    source_free(&swept);
    return status;
}
