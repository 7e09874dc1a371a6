/* Where a sheet has the fault for which a proved call refuses it. */
#include "where_sheet.h"

#include <string.h>

#include "fildwuk.h"
#include "loose.h"
#include "sheet.h"

enum { LOOSE_SHOWN = 20 };

/* Writes a cell as `triangle 3 of 4, (1,2,3)`. */
static void write_cell(const uint8_t *sheet, uint32_t p, size_t i, FILE *file) {
    uint16_t vertices[SHEET_DIMENSIONS];
    sheet_cell(sheet, p, i, vertices);
    fprintf(file, "%s %zu of %zu, ", sheet_cell_name(p, 1), i + 1, sheet_count(sheet, p));
    sheet_write_cell(file, p, vertices);
}

/* Writes the counts that exceed the limit. */
static void write_counts(const uint8_t *sheet, size_t limit, FILE *file) {
    const char *before = "Its header says ";
    for (uint32_t p = 0; p < SHEET_DIMENSIONS; p++)
        if (sheet_count(sheet, p) > limit) {
            fprintf(file, "%s%zu %s", before, sheet_count(sheet, p), sheet_cell_name(p, 2));
            before = ", ";
        }
    if (before[0] == ',')
        fprintf(file, ", the limit is %zu", limit);
}

/* Writes the first offset that differs from the one that the counts before it ask for. */
static void write_offset(const uint8_t *sheet, FILE *file) {
    size_t due = SHEET_HEADER;
    for (uint32_t p = 0; p < SHEET_DIMENSIONS; p++) {
        size_t given = sheet[4 * p + 2] + 256u * (size_t)sheet[4 * p + 3];
        if (given != due) {
            fprintf(file, "The offset of the %s is %zu, and %zu is due", sheet_cell_name(p, 2), given, due);
            return;
        }
        due += 2 * (p + 1) * sheet_count(sheet, p);
    }
}

/* Whether the vertices of a cell rise strictly. */
static int vertices_rise(const uint8_t *sheet, uint32_t p, size_t i) {
    uint16_t vertices[SHEET_DIMENSIONS];
    sheet_cell(sheet, p, i, vertices);
    for (uint32_t k = 1; k <= p; k++)
        if (vertices[k - 1] >= vertices[k])
            return 0;
    return 1;
}

/* Whether a cell comes after the one before it. */
static int rises(const uint8_t *sheet, uint32_t p, size_t i) {
    uint16_t before[SHEET_DIMENSIONS], vertices[SHEET_DIMENSIONS];
    if (i == 0)
        return 1;
    sheet_cell(sheet, p, i - 1, before);
    sheet_cell(sheet, p, i, vertices);
    return sheet_compare(p, before, vertices) < 0;
}

/* Puts the face without vertex k of a cell into `face`. */
static void face_without(const uint8_t *sheet, uint32_t p, size_t i, uint32_t k, uint16_t face[SHEET_DIMENSIONS]) {
    uint16_t vertices[SHEET_DIMENSIONS];
    sheet_cell(sheet, p, i, vertices);
    for (uint32_t from = 0, to = 0; from <= p; from++)
        if (from != k)
            face[to++] = vertices[from];
}

/* The number of the first vertex without which a cell's face is missing; p + 1 where none is. */
static uint32_t missing_face(const uint8_t *sheet, uint32_t p, size_t i) {
    for (uint32_t k = 0; p > 0 && k <= p; k++) {
        uint16_t face[SHEET_DIMENSIONS];
        face_without(sheet, p, i, k, face);
        if (sheet_find(sheet, p - 1, face) == SIZE_MAX)
            return k;
    }
    return p + 1;
}

/* Writes the fault of a cell, where it has the one of this refusal. Answers whether it has. */
static int write_fault(const uint8_t *sheet, uint32_t p, size_t i, uint32_t number, FILE *file) {
    uint16_t face[SHEET_DIMENSIONS];
    uint32_t k = number == FILDWUK_FACE_MISSING ? missing_face(sheet, p, i) : 0;
    if (number == FILDWUK_VERTICES_DO_NOT_RISE ? vertices_rise(sheet, p, i) : number == FILDWUK_CELLS_DO_NOT_RISE ? rises(sheet, p, i) : k > p)
        return 0;
    fputs("See ", file);
    write_cell(sheet, p, i, file);
    if (number == FILDWUK_CELLS_DO_NOT_RISE) {
        fputs(", which stands after ", file);
        write_cell(sheet, p, i - 1, file);
    }
    if (number == FILDWUK_FACE_MISSING) {
        face_without(sheet, p, i, k, face);
        fprintf(file, ", whose %s ", sheet_cell_name(p - 1, 1));
        sheet_write_cell(file, p - 1, face);
        fputs(" is missing", file);
    }
    return 1;
}

/* Writes the first cell with the fault of this refusal. */
static void write_first(const uint8_t *sheet, uint32_t number, FILE *file) {
    for (uint32_t p = 0; p < SHEET_DIMENSIONS; p++)
        for (size_t i = 0; i < sheet_count(sheet, p); i++)
            if (write_fault(sheet, p, i, number, file))
                return;
}

/* Writes the vertices in no edge, the first of them where they are many. */
static void write_loose(const uint8_t *sheet, FILE *file) {
    struct loose loose;
    loose_find(sheet, &loose);
    if (loose.total == 0)
        return;
    fprintf(file, "%zu of its %zu vertices %s in no edge: ", loose.total, sheet_count(sheet, 0), loose.total == 1 ? "is" : "are");
    loose_write(&loose, LOOSE_SHOWN, file);
}

void where_sheet(const struct text *sheet, size_t limit, uint32_t number, FILE *file) {
    if (number == FILDWUK_SHEET_TOO_SHORT)
        fprintf(file, "It has %zu bytes", sheet->length);
    if (sheet->length < SHEET_HEADER)
        return;
    if (number == FILDWUK_COUNT_EXCEEDS_LIMIT)
        write_counts(sheet->bytes, limit, file);
    if (number == FILDWUK_OFFSET_DIFFERS)
        write_offset(sheet->bytes, file);
    if (number == FILDWUK_LENGTH_DIFFERS)
        fprintf(file, "It has %s%zu bytes, and %zu are due", sheet->length > INPUT_MOST_SHEET ? "more than " : "",
                sheet->length > INPUT_MOST_SHEET ? INPUT_MOST_SHEET : sheet->length, sheet_length(sheet->bytes));
    if (number >= FILDWUK_VERTICES_DO_NOT_RISE && number <= FILDWUK_FACE_MISSING && sheet->length == sheet_length(sheet->bytes))
        write_first(sheet->bytes, number, file);
    if (number == FILDWUK_LOOSE_NODE && sheet->length == sheet_length(sheet->bytes))
        write_loose(sheet->bytes, file);
}
