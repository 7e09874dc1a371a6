/* The sheet under test: its counts, the entries of its boundary matrices, and the slots of the slices to lend. */
#ifndef SHEET_H
#define SHEET_H

#include <stdint.h>
#include <stdio.h>
#include <stdlib.h>
#include <string.h>

static uint8_t sheet[8192];
static size_t length;

/* Reads the sheet, or ends the program. */
static void load(const char *path) {
    FILE *file = fopen(path, "rb");
    if (file == NULL) {
        fprintf(stderr, "cannot read %s\n", path);
        exit(2);
    }
    length = fread(sheet, 1, sizeof sheet, file);
    fclose(file);
}

/* The file's name without folder and ending. */
static inline const char *name_of(const char *path) {
    static char name[64];
    const char *last = strrchr(path, '/');
    snprintf(name, sizeof name, "%s", last ? last + 1 : path);
    char *ending = strstr(name, ".sheet");
    if (ending != NULL)
        *ending = 0;
    return name;
}

static unsigned field(size_t i) { return sheet[i] + 256u * sheet[i + 1]; }

static unsigned count(int p) { return p < 0 || p > 3 ? 0 : field(4 * (size_t)p); }

/* The greatest count of a dimension. */
static inline unsigned cells(void) {
    unsigned most = 0;
    for (int p = 0; p < 4; p++)
        most = count(p) > most ? count(p) : most;
    return most;
}

/* Vertex j of cell i of section p. */
static unsigned vertex(int p, unsigned i, unsigned j) { return field(field(4 * (size_t)p + 2) + 2 * ((size_t)i * ((unsigned)p + 1) + j)); }

/* Whether cell r of section p - 1 is cell c of section p without vertex number t. */
static inline int is_face(int p, unsigned c, unsigned t, unsigned r) {
    for (unsigned j = 0, k = 0; j <= (unsigned)p; j++)
        if (j != t && vertex(p, c, j) != vertex(p - 1, r, k++))
            return 0;
    return 1;
}

/* The entry of the boundary matrix of dimension p. */
static inline int entry(int p, unsigned r, unsigned c) {
    for (unsigned t = 0; t <= (unsigned)p; t++)
        if (is_face(p, c, t, r))
            return t % 2 ? -1 : 1;
    return 0;
}

#endif
