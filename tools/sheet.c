/* The cells of a sheet. */
#include "sheet.h"

#include "fildwuk.h"

size_t sheet_count(const uint8_t *sheet, uint32_t dimension) { return fildwuk_cell_count(sheet, dimension); }

size_t sheet_length(const uint8_t *sheet) {
    size_t length = SHEET_HEADER;
    for (uint32_t p = 0; p < SHEET_DIMENSIONS; p++)
        length += 2 * (p + 1) * sheet_count(sheet, p);
    return length;
}

void sheet_cell(const uint8_t *sheet, uint32_t dimension, size_t i, uint16_t vertices[SHEET_DIMENSIONS]) {
    for (uint32_t k = 0; k <= dimension; k++)
        vertices[k] = fildwuk_cell_vertex(sheet, dimension, i, k);
}

size_t sheet_find(const uint8_t *sheet, uint32_t dimension, const uint16_t vertices[SHEET_DIMENSIONS]) {
    return fildwuk_cell_place(sheet, dimension, vertices);
}

int sheet_compare(uint32_t dimension, const uint16_t *first, const uint16_t *second) {
    for (uint32_t k = 0; k <= dimension; k++)
        if (first[k] != second[k])
            return first[k] < second[k] ? -1 : 1;
    return 0;
}

void sheet_write_cell(FILE *file, uint32_t dimension, const uint16_t vertices[SHEET_DIMENSIONS]) {
    for (uint32_t k = 0; k <= dimension; k++)
        fprintf(file, "%c%u", k == 0 ? '(' : ',', (unsigned)vertices[k]);
    fputc(')', file);
}

const char *sheet_cell_name(uint32_t dimension, size_t number) {
    static const char *const ONE[] = {"vertex", "edge", "triangle", "tetrahedron"};
    static const char *const MANY[] = {"vertices", "edges", "triangles", "tetrahedra"};
    return number == 1 ? ONE[dimension] : MANY[dimension];
}
