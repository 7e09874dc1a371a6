/* The sheet that `import` and `sweep` write. */
#include "sheet_output.h"

#include <unistd.h>

#include "escape.h"
#include "output.h"

int sheet_output_is_standard(const struct options *options) { return output_is_standard(options->output); }

int sheet_output_can_begin(const struct options *options, FILE *err) {
    if (options->output != NULL || !isatty(STDOUT_FILENO))
        return 1;
    fputs("fildwuk: a sheet is no text for a terminal: name a file after -o, or - (fildwuk --help)\n", err);
    return 0;
}

int sheet_output_write(const struct options *options, const struct text *sheet, const struct console *console) {
    struct output output;
    if (options->output == NULL) {
        fwrite(sheet->bytes, 1, sheet->length, console->out);
        return STATUS_DONE;
    }
    if (!output_begin(&output, options->output, options->input, console->err))
        return STATUS_FAILED;
    fwrite(sheet->bytes, 1, sheet->length, output.file);
    return output_end(&output, console->err) ? STATUS_DONE : STATUS_FAILED;
}

void sheet_output_tell(const struct options *options, const struct loose *dropped, const struct console *console) {
    FILE *file = sheet_output_is_standard(options) ? console->err : console->out;
    fputs(sheet_output_is_standard(options) ? "fildwuk: " : "", file);
    write_name(file, input_name(options->input));
    fputs(": ", file);
    loose_tell(dropped, file);
    fputs(".\n", file);
}
