/* The command `report`: the homology of a mesh or a sheet. */
#include "report.h"

#include <errno.h>
#include <string.h>

#include "chains.h"
#include "escape.h"
#include "exports.h"
#include "fildwuk.h"
#include "groups.h"
#include "homology.h"
#include "json.h"
#include "plain.h"
#include "refusal.h"
#include "sheet.h"
#include "source.h"
#include "words.h"

const char REPORT_HELP[] =
    "usage: fildwuk [report] [FILE] [--dimension P] [--region TAG ..]\n"
    "               [--plain | --json] [--limit host|library]\n"
    "               [--groups OUT.msh] [--view OUT.pos]\n"
    "\n"
    "Says for each dimension how many components, loops, cavities and closed volumes\n"
    "are free, which are twisted and of which order, and each of them as cells with\n"
    "coefficients. FILE is a mesh in MSH 2.2 ASCII, which starts with $, or a sheet;\n"
    "without it, or where it is -, standard input is read.\n"
    "\n"
    "  --dimension P    one dimension alone, 0 to 3\n"
    "  --region TAG ..  only the elements of the mesh with these physical tags, of\n"
    "                   the highest dimension that has the tag\n"
    "  --plain          the lines that the program homology prints\n"
    "  --json           one JSON object\n"
    "  --limit host     by the host calls: at most 48 cells in a dimension, not 256\n"
    "  --groups FILE    writes the mesh with each generator of one dimension, that of\n"
    "                   --dimension or 1, as a physical group\n"
    "  --view FILE      writes each of these generators as a view of Gmsh\n"
    "\n"
    "Exit status: 0 done, 1 the input is refused, 2 a file cannot be read or written,\n"
    "or a word is wrong. After 1 and 2 standard error has the reason.\n";

/* A report to be made. */
struct job {
    const struct options *options;
    const struct source *source;
    const struct console *console;
};

/* Says that the input as a whole is refused, in the form asked for. */
static int refuse(const struct job *job, uint32_t number) {
    struct refusal refusal = {.number = number, .options = job->options, .source = job->source};
    if (job->options->form == FORM_PLAIN)
        plain_refusal(number, job->console->out);
    if (job->options->form == FORM_JSON)
        json_refusal(&refusal, job->console->out);
    return refusal_tell(&refusal, job->console->err);
}

/* Writes a dimension in words. */
static void write_words(const struct job *job, const struct homology *homology) {
    if (homology->answer == FILDWUK_DONE)
        words_dimension(job->source->sheet.bytes, homology, job->console->out);
    else
        fprintf(job->console->out, "Dimension %u: refused with %u.\n", (unsigned)homology->dimension, (unsigned)homology->answer);
}

/* Writes a dimension in the form asked for, with the groups or views that were written of it, null where none were. */
static void write_dimension(const struct job *job, const struct chains *chains, const struct groups *groups, int first) {
    const struct console *console = job->console;
    if (job->options->form == FORM_PLAIN)
        plain_dimension(chains->homology, console->out);
    else if (job->options->form == FORM_JSON)
        json_dimension(chains, groups, first, console->out);
    else
        write_words(job, chains->homology);
    if (groups != NULL && job->options->form == FORM_WORDS)
        groups_tell(console->out, "  ", chains, groups);
    if (groups != NULL && job->options->form == FORM_PLAIN)
        groups_tell(console->err, "", chains, groups);
}

/* Reports on a dimension: writes the files that are asked for, then the dimension. Answers the status. */
static int report_dimension(const struct job *job, const struct homology *homology, int first) {
    struct chains chains = chains_of_report(job->source->sheet.bytes, homology, &job->options->region);
    struct groups groups;
    int status = STATUS_DONE, written = 0;
    if (homology->answer == FILDWUK_DONE && homology->dimension == exports_dimension(job->options)) {
        status = exports_write(job->options, job->source->text, &chains, &groups, job->console);
        written = status == STATUS_DONE && exports_asked(job->options);
    }
    write_dimension(job, &chains, written ? &groups : NULL, first);
    if (homology->answer == FILDWUK_DONE)
        return status;
    struct refusal refusal = {homology->answer, job->options, job->source, 1, homology->dimension};
    return refusal_tell(&refusal, job->console->err);
}

/* Says which nodes the import has dropped, where some are: plain lines have no place for them. JSON has them at its start. */
static void write_dropped(const struct job *job) {
    int is_plain = job->options->form == FORM_PLAIN;
    FILE *file = is_plain ? job->console->err : job->console->out;
    if (job->source->dropped.total == 0 || job->options->form == FORM_JSON)
        return;
    fputs(is_plain ? "fildwuk: " : "", file);
    loose_tell(&job->source->dropped, file);
    fputs(".\n", file);
}

/* Writes what stands before the dimensions. */
static void write_start(const struct job *job) {
    FILE *out = job->console->out;
    if (job->options->form == FORM_JSON)
        json_begin(job->source, job->options, out);
    if (job->options->form == FORM_WORDS) {
        write_name(out, input_name(job->options->input));
        for (size_t i = 0; i < job->options->region.total; i++)
            fprintf(out, "%s%u", i == 0 ? ", region " : " ", (unsigned)job->options->region.list[i]);
        fputs(": ", out);
        words_counts(job->source->sheet.bytes, out);
    }
    write_dropped(job);
}

/* Asks about a dimension. Answers 0 where there is no memory, and says so. */
static int ask(const struct job *job, uint32_t dimension, struct homology *homology) {
    const struct text *sheet = &job->source->sheet;
    if (homology_of(sheet->bytes, sheet->length, dimension, job->options->limit, homology))
        return 1;
    fprintf(job->console->err, "fildwuk: %s\n", strerror(ENOMEM));
    return 0;
}

/* Reports on a dimension that is known, and on those after it up to the last. Answers the first status that is not done. */
static int report_from(const struct job *job, const struct homology *known, uint32_t last) {
    int status = report_dimension(job, known, 1);
    for (uint32_t p = known->dimension + 1; p <= last; p++) {
        struct homology homology;
        if (!ask(job, p, &homology))
            return STATUS_FAILED;
        int next = report_dimension(job, &homology, 0);
        status = status == STATUS_DONE ? next : status;
        homology_free(&homology);
    }
    return status;
}

/* Whether a refusal is of the whole input, whatever the dimension: of the sheet, or of a dimension that there is none of. */
static int is_of_whole(uint32_t answer) {
    return (answer != FILDWUK_DONE && answer <= FILDWUK_DIMENSION_EXCEEDS_TOP) || answer == FILDWUK_LOOSE_NODE;
}

/* Reports on a sheet. The first call tells whether it is refused as a whole. */
static int report_sheet(const struct job *job) {
    struct homology homology;
    const struct options *options = job->options;
    uint32_t first = options->has_dimension ? options->dimension : 0, last = options->has_dimension ? first : SHEET_DIMENSIONS - 1;
    int status;
    if (!ask(job, first, &homology))
        return STATUS_FAILED;
    if (is_of_whole(homology.answer)) {
        status = refuse(job, homology.answer);
    } else {
        write_start(job);
        status = report_from(job, &homology, last);
        if (options->form == FORM_JSON)
            json_end(job->console->out);
    }
    homology_free(&homology);
    return status;
}

int report_text(const struct options *options, const struct text *text, const struct console *console) {
    struct source source;
    if (!source_find(options, text, &source, console->err))
        return STATUS_FAILED;
    struct job job = {options, &source, console};
    int status = STATUS_FAILED;
    if (exports_check(options, &source, console->err))
        status = source.answer == FILDWUK_DONE ? report_sheet(&job) : refuse(&job, source.answer);
    source_free(&source);
    return status;
}
