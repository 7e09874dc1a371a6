/* Where a mesh text has the fault for which the proved import refuses it. */
#include "where_mesh.h"

#include "closure.h"
#include "element.h"
#include "escape.h"
#include "fildwuk.h"
#include "homology.h"
#include "mesh.h"
#include "sheet.h"

enum { SHOWN = 60 };

static void write_range(const struct text *text, struct range range, FILE *file) {
    if (range.start < range.end)
        write_quoted(file, text->bytes + range.start, range.end - range.start, SHOWN);
}

/* Writes the first line that is not of the form. */
static void write_malformed(const struct text *text, const struct mesh_fault *fault, FILE *file) {
    switch (fault->failing) {
    case MESH_LINE_DIFFERS:
        fprintf(file, "Line %zu is not of the form (wanted: %s): ", fault->line, fault->wanted);
        break;
    case MESH_LINE_WITHOUT_END:
        fprintf(file, "Line %zu does not end in a line feed: ", fault->line);
        break;
    case MESH_SECTION_OPEN:
        fprintf(file, "The section of line %zu is not closed: ", fault->line);
        break;
    case MESH_ENDS:
        fprintf(file, "The text ends after line %zu (wanted: %s)", fault->line, fault->wanted);
        return;
    }
    write_range(text, fault->bytes, file);
    if (fault->bytes.start == fault->bytes.end)
        fputs("(an empty line)", file);
}

/* Writes the fault of an element. */
static void write_fault(const struct mesh_element *element, const struct element_found *found, FILE *file) {
    switch (found->fault) {
    case ELEMENT_OTHER_KIND:
        fprintf(file, "kind %u is no point (15), line (1), triangle (2) or tetrahedron (4)", (unsigned)element->kind);
        break;
    case ELEMENT_OTHER_COUNT:
        fprintf(file, "kind %u has %zu nodes, not %zu", (unsigned)element->kind, mesh_nodes_of_kind(element->kind), element->node_count);
        break;
    case ELEMENT_UNLISTED_NODE:
        fprintf(file, "node %u is not listed in $Nodes", (unsigned)found->node);
        break;
    case ELEMENT_NODE_TWICE:
        fprintf(file, "node %u stands in it twice", (unsigned)found->node);
        break;
    case ELEMENT_SOUND:
        break;
    }
}

/* Writes the first faulty element. */
static void write_faulty(const struct text *text, const struct mesh *mesh, const struct tags *region, FILE *file) {
    struct element_found found;
    if (!element_first_fault(mesh, region, &found) || found.fault == ELEMENT_SOUND)
        return;
    const struct mesh_element *element = &mesh->elements[found.place];
    struct range line = {element->bytes.start, element->bytes.end - 1};
    line.end -= line.end > line.start && text->bytes[line.end - 1] == '\r';
    fprintf(file, "Line %zu, ", element->line);
    write_fault(element, &found, file);
    fputs(": ", file);
    write_range(text, line, file);
}

/* Writes the counts that exceed the limit. */
static void write_counts(const struct mesh *mesh, const struct options *options, FILE *file) {
    size_t counts[4], limit = limit_cells(options->limit);
    const char *before = "It has ";
    if (!closure_counts(mesh, &options->region, counts))
        return;
    for (uint32_t p = 0; p < SHEET_DIMENSIONS; p++)
        if (counts[p] > limit) {
            fprintf(file, "%s%zu %s", before, counts[p], sheet_cell_name(p, counts[p]));
            before = ", ";
        }
    if (before[0] == ',')
        fprintf(file, ", the limit is %zu", limit);
}

void where_mesh(const struct text *text, const struct options *options, uint32_t number, FILE *file) {
    struct mesh mesh;
    struct mesh_fault fault;
    enum mesh_answer answer = mesh_read(text, &mesh, &fault);
    if (number == FILDWUK_MESH_MALFORMED && answer == MESH_MALFORMED)
        write_malformed(text, &fault, file);
    if (number == FILDWUK_ELEMENT_FAULTY && answer == MESH_READ)
        write_faulty(text, &mesh, &options->region, file);
    if (number == FILDWUK_SHEET_TOO_LONG && answer == MESH_READ)
        write_counts(&mesh, options, file);
    mesh_free(&mesh);
}

int where_mesh_other_kind(const struct text *text, const struct options *options) {
    struct mesh mesh;
    struct mesh_fault fault;
    struct element_found found = {ELEMENT_SOUND, 0, 0};
    if (mesh_read(text, &mesh, &fault) != MESH_READ)
        return 0;
    int known = element_first_fault(&mesh, &options->region, &found);
    mesh_free(&mesh);
    return known && found.fault == ELEMENT_OTHER_KIND;
}
