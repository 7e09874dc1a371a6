/* Times what the calls on a sheet have in common and apart: checks 1 to 7 alone (a report of dimension 4, which is refused with 8), the four
 * reports, and the coordinates of one cycle in each dimension, by the library and by the library of an earlier commit, in turn in one process. For
 * a sheet of the same family as the one before, told by the name up to its first dash, the last column is the exponent with which the time of the
 * reports grew in the cells. Usage: parts FILE.sheet .. */
#include "library.h"
#include "timing.h"

static int32_t chain[4][CELLS];
static int64_t coordinates[CELLS];

/* In each dimension the boundary of the sum of all cells of the next. */
static void make_cycles(void) {
    memset(chain, 0, sizeof chain);
    for (int p = 0; p < 3; p++)
        for (unsigned r = 0; r < count(p); r++)
            for (unsigned c = 0; c < count(p + 1); c++)
                chain[p][r] += entry(p + 1, r, c);
}

static uint32_t coordinates_by(coordinate_call *call, int p) {
    return call(sheet, length, (uint32_t)p, chain[p], count(p), coordinates, CELLS, work, work_slots(p));
}

static void all_coordinates(void) {
    for (int p = 0; p < 4; p++)
        coordinates_by(fildwuk_library_coordinates, p);
}

static void earlier_all_coordinates(void) {
    for (int p = 0; p < 4; p++)
        coordinates_by(earlier_coordinates, p);
}

static void checks(void) { fildwuk_library_report(sheet, length, 4, report, REPORT, work, WORK); }

/* Ends the program where a call is not answered as the columns say. */
static void hold_answers(const char *name) {
    int held = fildwuk_library_report(sheet, length, 4, report, REPORT, work, WORK) == 8;
    for (int p = 0; p < 4; p++)
        held = held && report_by(fildwuk_library_report, p) == 0 && coordinates_by(fildwuk_library_coordinates, p) == 0 &&
               coordinates_by(earlier_coordinates, p) == 0;
    if (!held) {
        fprintf(stderr, "%s: a call is refused\n", name);
        exit(1);
    }
}

/* The line of the sheet that is loaded. */
static void show(const char *name) {
    static char family[64];
    static double last_time, last_cells;
    double check = INFINITY, whole = INFINITY, cycle = INFINITY, before = INFINITY;
    for (int i = 0; i < 100; i++) {
        measure(&check, checks);
        measure(&whole, reports);
        measure(&cycle, all_coordinates);
        measure(&before, earlier_all_coordinates);
    }
    printf("%-18s %5u %9.3f %10.3f %14.3f %9.3f %10.2f", name, cells(), check, whole, cycle, before, before / cycle);
    size_t n = strcspn(name, "-");
    if (strncmp(family, name, n) == 0 && family[n] == 0)
        printf(" %8.2f", log(whole / last_time) / log(cells() / last_cells));
    printf("\n");
    snprintf(family, sizeof family, "%.*s", (int)n, name);
    last_time = whole;
    last_cells = cells();
}

int main(int argc, char **argv) {
    printf("%-18s %5s %9s %10s %14s %9s %10s %8s\n", "sheet", "cells", "checks ms", "reports ms", "coordinates ms", "before ms", "before/now",
           "exponent");
    for (int i = 1; i < argc; i++) {
        load(argv[i]);
        make_cycles();
        hold_answers(name_of(argv[i]));
        show(name_of(argv[i]));
    }
    return 0;
}
