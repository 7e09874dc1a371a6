/* What is said of a refusal. */
#include "refusal.h"

#include <stdlib.h>

#include "command.h"
#include "escape.h"
#include "fildwuk.h"
#include "hint.h"
#include "homology.h"
#include "where_mesh.h"
#include "where_sheet.h"

/* The header speaks of slices in 16, which the command always lends long enough. */
const char *refusal_meaning(uint32_t number) {
    if (number == FILDWUK_SHEET_TOO_LONG)
        return "a count of cells would exceed the limit, the faces of the elements counted";
    return fildwuk_answer_text(number);
}

/* Whether a refusal is of a mesh text. */
static int is_of_mesh(uint32_t number) { return number >= FILDWUK_MESH_MALFORMED && number <= FILDWUK_SHEET_TOO_LONG; }

/* Whether an input that is taken as a sheet is a text, so that its counts mean nothing. */
static int is_no_sheet(const struct source *source) { return hint_is_text(source->text) || (!source->is_mesh && hint_is_mesh(source->text)); }

void refusal_where(const struct refusal *refusal, FILE *file) {
    if (is_of_mesh(refusal->number))
        where_mesh(refusal->source->text, refusal->options, refusal->number, file);
    else if (refusal->number == FILDWUK_SHEET_TOO_SHORT || !is_no_sheet(refusal->source))
        where_sheet(&refusal->source->sheet, limit_cells(refusal->options->limit), refusal->number, file);
}

/* Writes what helps against a refusal, as a sentence without a line feed; nothing where nothing is known. */
static void write_help(const struct refusal *refusal, FILE *file) {
    uint32_t number = refusal->number;
    int is_mesh = is_no_sheet(refusal->source) && hint_is_mesh(refusal->source->text);
    if (is_mesh)
        fputs("It is a mesh: `fildwuk import FILE.msh -o FILE.sheet` writes its sheet, which has no loose nodes", file);
    else if (number <= FILDWUK_LENGTH_DIFFERS || number == FILDWUK_MESH_MALFORMED)
        hint_format(refusal->source->text, file);
    if (number == FILDWUK_LOOSE_NODE)
        fputs("`fildwuk sweep OLD.sheet -o NEW.sheet` writes it without loose nodes", file);
    if (number == FILDWUK_TOO_WIDE)
        fprintf(file, "Parts that do not touch, asked for apart%s, or another numbering of the nodes may stay within it",
                refusal->source->is_mesh ? " (--region TAG)" : "");
    if (number == FILDWUK_ELEMENT_FAULTY && where_mesh_other_kind(refusal->source->text, refusal->options))
        fputs("Elements are points, lines, triangles and tetrahedra of first order: mesh without Recombine and Mesh.ElementOrder", file);
    if (number == FILDWUK_SHEET_TOO_LONG || (number == FILDWUK_COUNT_EXCEEDS_LIMIT && !is_no_sheet(refusal->source)))
        fputs(refusal->options->limit == LIMIT_HOST ? "Without --limit host the limit is 256" : "", file);
    if (number == FILDWUK_SHEET_TOO_LONG && refusal->options->limit == LIMIT_LIBRARY)
        fputs("Mesh more coarsely (`gmsh -clscale 30`, or -clmin with a length), or take a part (--region TAG)", file);
}

/* Writes a part of a message as a line of its own, where it is not empty. */
static void write_line(const struct refusal *refusal, void (*write)(const struct refusal *, FILE *), FILE *err) {
    char *bytes = NULL;
    size_t length = 0;
    FILE *part = open_memstream(&bytes, &length);
    if (part == NULL)
        return;
    write(refusal, part);
    if (fclose(part) == 0 && length > 0)
        fprintf(err, "%s.\n", bytes);
    free(bytes);
}

int refusal_tell(const struct refusal *refusal, FILE *err) {
    fputs("fildwuk: ", err);
    write_name(err, input_name(refusal->options->input));
    if (refusal->has_dimension)
        fprintf(err, ", dimension %u,", (unsigned)refusal->dimension);
    fprintf(err, " is refused with %u: %s.\n", (unsigned)refusal->number, refusal_meaning(refusal->number));
    write_line(refusal, refusal_where, err);
    write_line(refusal, write_help, err);
    return STATUS_REFUSED;
}
