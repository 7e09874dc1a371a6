/* Loose nodes. */
#include "loose.h"

#include "mesh.h"
#include "sheet.h"

/* Adds a node where it belongs, unless it is there or there is no room, which no input of these functions asks for. */
static void add(struct loose *loose, uint16_t node) {
    size_t place = loose->total;
    while (place > 0 && loose->nodes[place - 1] > node)
        place--;
    if ((place > 0 && loose->nodes[place - 1] == node) || loose->total == FILDWUK_LIBRARY_CELLS)
        return;
    for (size_t i = loose->total++; i > place; i--)
        loose->nodes[i] = loose->nodes[i - 1];
    loose->nodes[place] = node;
}

static int has_vertex(const uint8_t *sheet, uint16_t node) {
    uint16_t vertices[SHEET_DIMENSIONS] = {node, 0, 0, 0};
    return sheet_find(sheet, 0, vertices) != SIZE_MAX;
}

static int in_edge(const uint8_t *sheet, uint16_t node) {
    for (size_t i = 0; i < sheet_count(sheet, 1); i++) {
        uint16_t vertices[SHEET_DIMENSIONS];
        sheet_cell(sheet, 1, i, vertices);
        if (vertices[0] == node || vertices[1] == node)
            return 1;
    }
    return 0;
}

void loose_find(const uint8_t *sheet, struct loose *loose) {
    loose->total = 0;
    for (size_t i = 0; sheet_count(sheet, 1) > 0 && i < sheet_count(sheet, 0); i++) {
        uint16_t vertices[SHEET_DIMENSIONS];
        sheet_cell(sheet, 0, i, vertices);
        if (!in_edge(sheet, vertices[0]))
            add(loose, vertices[0]);
    }
}

void loose_dropped(const uint8_t *sheet, const uint8_t *swept, struct loose *loose) {
    loose->total = 0;
    for (size_t i = 0; i < sheet_count(sheet, 0); i++) {
        uint16_t vertices[SHEET_DIMENSIONS];
        sheet_cell(sheet, 0, i, vertices);
        if (!has_vertex(swept, vertices[0]))
            add(loose, vertices[0]);
    }
}

int loose_imported(const struct text *text, const uint8_t *sheet, struct loose *loose) {
    struct mesh mesh;
    struct mesh_fault fault;
    loose->total = 0;
    enum mesh_answer answer = mesh_read(text, &mesh, &fault);
    if (answer != MESH_READ)
        return answer != MESH_NO_MEMORY;
    for (size_t i = 0; i < mesh.element_total; i++) {
        const struct mesh_element *element = &mesh.elements[i];
        uint16_t node = element->kind == MESH_POINT ? (uint16_t)mesh.numbers[element->nodes] : 0;
        if (element->kind == MESH_POINT && !has_vertex(sheet, node))
            add(loose, node);
    }
    mesh_free(&mesh);
    return 1;
}

void loose_write(const struct loose *loose, size_t most, FILE *file) {
    for (size_t i = 0; i < loose->total && i < most; i++)
        fprintf(file, "%s%u", i == 0 ? "" : ", ", (unsigned)loose->nodes[i]);
    if (loose->total > most)
        fprintf(file, " and %zu more", loose->total - most);
}

void loose_tell(const struct loose *loose, FILE *file) {
    if (loose->total == 0) {
        fputs("no node is dropped", file);
        return;
    }
    fprintf(file, "%zu %s in no edge %s dropped: ", loose->total, loose->total == 1 ? "node" : "nodes", loose->total == 1 ? "is" : "are");
    loose_write(loose, loose->total, file);
}
