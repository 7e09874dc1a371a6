/* Times the import of long texts beside Gmsh, which opens the same files, in turn in one process. The time of the whole has the reading of the file
 * into memory in it, as Gmsh's has; that of the call has not. Both are processor time, the least of several rounds, with the files in the system's
 * memory. Gmsh's start and the clearing of its model are not timed. The aims are ten times Gmsh's speed on a mesh, and 200 MB in a second by the call
 * on a text that is mostly a section passed over. Ends with an error where a text has another answer than the number before it, or an aim is missed.
 * Usage: import NUMBER FILE.msh .. */
#include <gmshc.h>
#include <stdint.h>
#include <stdio.h>
#include <stdlib.h>
#include <string.h>

#include "fildwuk.h"
#include "timing.h"

enum { AIM = 10, PASSED_OVER_AIM = 200, ROUNDS = 3 };

static const char *path;
static uint8_t *text, sheet[FILDWUK_SHEET_BYTES];
static size_t length;
static uint32_t answer;

static void hold(int error, const char *what) {
    if (error != 0) {
        fprintf(stderr, "%s: %s\n", path, what);
        exit(1);
    }
}

/* Reads the file into the text, which has room for it. */
static void read_file(void) {
    FILE *file = fopen(path, "rb");
    hold(file == NULL || fread(text, 1, length, file) != length, "cannot be read");
    fclose(file);
}

static void make_room(void) {
    FILE *file = fopen(path, "rb");
    hold(file == NULL || fseek(file, 0, SEEK_END) != 0, "cannot be read");
    length = (size_t)ftell(file);
    fclose(file);
    text = malloc(length + 1);
    hold(text == NULL, "has no room in memory");
}

static void call(void) { answer = fildwuk_import(text, length, sheet, sizeof sheet); }

static void read_and_call(void) {
    read_file();
    call();
}

static void open_by_gmsh(void) {
    int error;
    gmshOpen(path, &error);
    hold(error, "Gmsh tells an error");
}

/* Ends the program where Gmsh has read no nodes. */
static void hold_nodes(void) {
    int error;
    double most;
    gmshOptionGetNumber("Mesh.NbNodes", &most, &error);
    hold(error != 0 || !(most > 0), "Gmsh has read no nodes");
}

static void clear_gmsh(void) {
    int error;
    gmshClear(&error);
    hold(error, "Gmsh tells an error");
}

static double speed(double ms) { return (double)length / 1e3 / ms; }

static const char *name_of(const char *file) {
    const char *last = strrchr(file, '/');
    return last == NULL ? file : last + 1;
}

/* The line of the file. Answers whether an aim is missed. */
static int compare(uint32_t due) {
    double alone = INFINITY, whole = INFINITY, gmsh = INFINITY;
    make_room();
    for (int i = 0; i < ROUNDS; i++) {
        measure(&whole, read_and_call);
        measure(&alone, call);
        hold(answer != due, "has another answer");
        measure(&gmsh, open_by_gmsh);
        hold_nodes();
        clear_gmsh();
    }
    free(text);
    int passed_over = strstr(path, "passed_over") != NULL, missed = passed_over ? !(speed(alone) >= PASSED_OVER_AIM) : !(gmsh / whole >= AIM);
    printf("%-18s %6.1f %6u %9.1f %10.1f %9.1f %10.2f  ", name_of(path), (double)length / 1e6, (unsigned)due, speed(alone), speed(whole),
           speed(gmsh), gmsh / whole);
    printf(passed_over ? "call MB/s >= %d" : "whole/Gmsh >= %d", passed_over ? PASSED_OVER_AIM : AIM);
    printf("%s\n", missed ? " missed" : "");
    fflush(stdout);
    return missed;
}

int main(int argc, char **argv) {
    int error, missed = 0;
    gmshInitialize(0, NULL, 0, &error);
    hold(error, "Gmsh does not start");
    gmshOptionSetNumber("General.Terminal", 0, &error);
    printf("%-18s %6s %6s %9s %10s %9s %10s  aim\n", "text", "MB", "answer", "call MB/s", "whole MB/s", "Gmsh MB/s", "whole/Gmsh");
    for (int i = 1; i + 1 < argc; i += 2) {
        path = argv[i + 1];
        missed += compare((uint32_t)atoi(argv[i]));
    }
    gmshFinalize(&error);
    return missed > 0;
}
