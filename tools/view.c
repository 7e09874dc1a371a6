/* Chains as views that Gmsh shows. */
#include "view.h"

#include <errno.h>
#include <inttypes.h>
#include <stdlib.h>
#include <string.h>

#include "escape.h"

enum { NODE_NUMBERS = 65536, WORD_SHOWN = 40, WORD_MOST = 100 };

/* The line of each node by its number, null where there is none. The nodes of a sheet all have one: the proved import refuses others with 15. */
struct places {
    const struct mesh_node **nodes;
};

/* The number of digits at a place. */
static size_t digits_at(const uint8_t *bytes, size_t length, size_t at) {
    size_t count = 0;
    while (at + count < length && bytes[at + count] >= '0' && bytes[at + count] <= '9')
        count++;
    return count;
}

static size_t sign_at(const uint8_t *bytes, size_t length, size_t at) { return at < length && (bytes[at] == '+' || bytes[at] == '-'); }

int view_is_number(const uint8_t *bytes, size_t length) {
    size_t at = sign_at(bytes, length, 0), whole = digits_at(bytes, length, at), part = 0;
    at += whole;
    if (at < length && bytes[at] == '.') {
        part = digits_at(bytes, length, at + 1);
        at += 1 + part;
    }
    if (whole + part == 0 || length > WORD_MOST)
        return 0;
    if (at < length && (bytes[at] == 'e' || bytes[at] == 'E')) {
        at += 1 + sign_at(bytes, length, at + 1);
        size_t exponent = digits_at(bytes, length, at);
        return exponent > 0 && at + exponent == length;
    }
    return at == length;
}

/* Holds that the coordinates of a node are plain numbers. */
static int is_plain(const struct text *text, const struct mesh_node *node, FILE *err) {
    struct range words[3];
    mesh_coordinates(text, node, words);
    for (int i = 0; i < 3; i++) {
        size_t length = words[i].end - words[i].start;
        if (view_is_number(text->bytes + words[i].start, length))
            continue;
        fprintf(err, "fildwuk: no view is written: a coordinate of node %" PRIu32 " is no plain number: ", node->number);
        write_quoted(err, text->bytes + words[i].start, length, WORD_SHOWN);
        fputc('\n', err);
        return 0;
    }
    return 1;
}

/* Holds that the coordinates of all nodes of the sheet are plain numbers. */
static int all_plain(const struct text *text, struct places places, const uint8_t *sheet, FILE *err) {
    for (size_t i = 0; i < sheet_count(sheet, 0); i++) {
        uint16_t vertices[SHEET_DIMENSIONS];
        sheet_cell(sheet, 0, i, vertices);
        if (!is_plain(text, places.nodes[vertices[0]], err))
            return 0;
    }
    return 1;
}

static void write_node(FILE *file, const struct text *text, const struct mesh_node *node, const char *before) {
    struct range words[3];
    mesh_coordinates(text, node, words);
    for (int i = 0; i < 3; i++) {
        fputs(i == 0 ? before : ",", file);
        fwrite(text->bytes + words[i].start, 1, words[i].end - words[i].start, file);
    }
}

/* Writes a cell as SP, SL, ST or SS, the letters of a point, line, triangle and tetrahedron with one number at each node. */
static void write_cell(FILE *file, const struct text *text, struct places places, uint32_t dimension, const uint16_t *nodes, uint64_t value) {
    fprintf(file, "S%c(", "PLTS"[dimension]);
    for (uint32_t i = 0; i <= dimension; i++)
        write_node(file, text, places.nodes[nodes[i]], i == 0 ? "" : ",");
    fputs("){", file);
    for (uint32_t i = 0; i <= dimension; i++)
        fprintf(file, "%s%" PRIu64, i == 0 ? "" : ",", value);
    fputs("};\n", file);
}

static void write_chain(FILE *file, const struct text *text, struct places places, const struct chains *chains, size_t k) {
    for (size_t i = 0; i < chains->cells; i++) {
        uint16_t nodes[SHEET_DIMENSIONS];
        uint64_t copies = chains_element(chains, k, i, nodes);
        if (copies > 0)
            write_cell(file, text, places, chains->dimension, nodes, copies);
    }
}

int view_write(FILE *file, const struct text *text, const struct mesh *mesh, const struct chains *chains, FILE *err) {
    struct places places = {calloc(NODE_NUMBERS, sizeof *places.nodes)};
    if (places.nodes == NULL) {
        fprintf(err, "fildwuk: %s\n", strerror(ENOMEM));
        return STATUS_FAILED;
    }
    for (size_t i = 0; i < mesh->node_total; i++)
        places.nodes[mesh->nodes[i].number] = &mesh->nodes[i];
    int fits = chains_fit(chains, err) && all_plain(text, places, chains->sheet, err);
    for (size_t k = 0; fits && k < chains->total; k++) {
        fputs("View \"", file);
        chains_write_name(file, chains, k);
        fputs("\" {\n", file);
        write_chain(file, text, places, chains, k);
        fputs("};\n", file);
    }
    free(places.nodes);
    return fits ? STATUS_DONE : STATUS_REFUSED;
}
