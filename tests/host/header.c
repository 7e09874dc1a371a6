/* The host calls in C and in C++, on the hollow triangle in dimension 1, whose only generator is 1, -1, 1. */
#include "fildwuk.h"

#include <string.h>

static const uint8_t SHEET[34] = {3, 0, 16, 0, 3, 0, 22, 0, 0, 0, 34, 0, 0, 0, 34, 0, 0, 0, 1, 0, 2, 0, 0, 0, 1, 0, 0, 0, 2, 0, 1, 0, 2, 0};
static const uint8_t CHAIN[FILDWUK_CHAIN_BYTES(3)] = {255, 255, 255, 255, 1, 0, 0, 0, 255, 255, 255, 255};
static const uint8_t REPORT[40] = {1, 0, 0, 0, 0, 0, 0, 0, 0,   0,   0,   0,   0,   0,   0,   0,   1, 0, 0, 0,
                                   0, 0, 0, 0, 255, 255, 255, 255, 255, 255, 255, 255, 1, 0, 0, 0, 0, 0, 0, 0};
static const uint8_t COORDINATES[8] = {255, 255, 255, 255, 255, 255, 255, 255};

/* Two chains, the generator taken 2 and -1 times, and their lists: a slot each, and two slots that stay 7. */
static const uint8_t CHAINS[FILDWUK_CHAINS_BYTES(2, 3)] = {2,   0,   0,   0,   254, 255, 255, 255, 2,   0,   0,   0,
                                                           255, 255, 255, 255, 1,   0,   0,   0,   255, 255, 255, 255};
static const uint8_t LISTS[FILDWUK_COORDINATE_LISTS_BYTES(2, 3)] = {
    2,   0,   0,   0,   0,   0,   0,   0,   7, 7, 7, 7, 7, 7, 7, 7, 7, 7, 7, 7, 7, 7, 7, 7,
    255, 255, 255, 255, 255, 255, 255, 255, 7, 7, 7, 7, 7, 7, 7, 7, 7, 7, 7, 7, 7, 7, 7, 7};

/* 0 where the call for both chains is refused and done as it must be and leaves the lists, else a number above 4. */
static int check_lists(void) {
    static uint8_t lists[FILDWUK_COORDINATE_LISTS_BYTES(2, 3)];
    memset(lists, 7, sizeof lists);
    if (fildwuk_coordinate_lists(SHEET, sizeof SHEET, 1, 3, CHAINS, sizeof CHAINS, lists, sizeof lists) != FILDWUK_SLICE_TOO_SHORT)
        return 5;
    if (fildwuk_coordinate_lists(SHEET, sizeof SHEET, 1, 1, CHAINS, sizeof CHAINS, lists, sizeof lists) != FILDWUK_CHAIN_LENGTH_DIFFERS)
        return 6;
    if (fildwuk_coordinate_lists(SHEET, sizeof SHEET, 1, 2, CHAINS, sizeof CHAINS, lists, sizeof lists) != FILDWUK_DONE)
        return 7;
    return memcmp(lists, LISTS, sizeof LISTS) == 0 ? 0 : 8;
}

/* 0 where the loop of the hollow triangle bounds nothing and two of its vertices bound the first edge, and coefficients are refused from 16 on, else a
 * number above 13. */
static int check_surface(void) {
    static const uint8_t ends[FILDWUK_CHAIN_BYTES(3)] = {255, 255, 255, 255, 1, 0, 0, 0, 0, 0, 0, 0};
    static const uint8_t large[FILDWUK_CHAIN_BYTES(3)] = {16, 0, 0, 0, 240, 255, 255, 255, 16, 0, 0, 0};
    static uint8_t surface[FILDWUK_SURFACE_BYTES(3)];
    if (fildwuk_surface(SHEET, sizeof SHEET, 1, CHAIN, sizeof CHAIN, surface, 0) != FILDWUK_BOUNDS_NOTHING)
        return 14;
    if (fildwuk_surface(SHEET, sizeof SHEET, 1, large, sizeof large, surface, 0) != FILDWUK_COEFFICIENT_EXCEEDS)
        return 15;
    if (fildwuk_surface(SHEET, sizeof SHEET, 0, ends, sizeof ends, surface, sizeof surface) != FILDWUK_DONE)
        return 16;
    return fildwuk_get_number(surface, 0) == 1 && fildwuk_get_number(surface, 1) == 0 && fildwuk_get_number(surface, 2) == 0 ? 0 : 17;
}

/* The hollow triangle with a loose node. 0 where its report is refused with 18 and its sweep leaves SHEET and what is past it, else a number above 17. */
static int check_sweep(void) {
    static const uint8_t loose[36] = {4, 0, 16, 0, 3, 0, 24, 0, 0, 0, 36, 0, 0, 0, 36, 0, 0, 0, 1, 0, 2, 0, 9, 0, 0, 0, 1, 0, 0, 0, 2, 0, 1, 0, 2, 0};
    static uint8_t swept[sizeof SHEET + 1];
    swept[sizeof SHEET] = 7;
    if (fildwuk_report(loose, sizeof loose, 4, swept, 0) != FILDWUK_LOOSE_NODE)
        return 18;
    if (fildwuk_sweep(loose, sizeof loose, swept, sizeof SHEET - 1) != FILDWUK_SHEET_TOO_LONG || swept[0] != 0)
        return 19;
    if (fildwuk_sweep(loose, sizeof loose, swept, sizeof swept) != FILDWUK_DONE || fildwuk_sheet_length(swept) != sizeof SHEET)
        return 20;
    return memcmp(swept, SHEET, sizeof SHEET) == 0 && swept[sizeof SHEET] == 7 ? 0 : 21;
}

/* The mesh text of the hollow triangle, whose sheet is SHEET. 0 where it is imported and refused as it must be, else a number above 9. */
static int check_import(void) {
    static const char text[] = "$MeshFormat\n2.2 0 8\n$EndMeshFormat\n$Nodes\n3\n0 0 0 0\n1 1 0 0\n2 0 1 0\n$EndNodes\n"
                               "$Elements\n3\n1 1 0 0 1\n2 1 0 2 0\n3 1 0 1 2\n$EndElements\n";
    static uint8_t sheet[FILDWUK_SHEET_BYTES];
    const uint8_t *bytes = (const uint8_t *)text;
    if (fildwuk_import(bytes, sizeof text - 2, sheet, sizeof sheet) != FILDWUK_MESH_MALFORMED || sheet[0] != 0)
        return 10;
    if (fildwuk_import(bytes, sizeof text - 1, sheet, sizeof SHEET - 1) != FILDWUK_SHEET_TOO_LONG || sheet[0] != 0)
        return 11;
    if (fildwuk_import(bytes, sizeof text - 1, sheet, sizeof sheet) != FILDWUK_DONE || fildwuk_sheet_length(sheet) != sizeof SHEET)
        return 12;
    return memcmp(sheet, SHEET, sizeof SHEET) == 0 ? 0 : 13;
}

int main(void) {
    static uint8_t report[FILDWUK_REPORT_BYTES(3)], coordinates[FILDWUK_COORDINATE_BYTES(3)];
    if (fildwuk_report(SHEET, sizeof SHEET, 1, report, sizeof report) != FILDWUK_DONE)
        return 1;
    if (fildwuk_coordinates(SHEET, sizeof SHEET, 1, CHAIN, sizeof CHAIN, coordinates, sizeof coordinates) != FILDWUK_DONE)
        return 2;
    if (memcmp(report, REPORT, sizeof REPORT) != 0)
        return 3;
    if (memcmp(coordinates, COORDINATES, sizeof COORDINATES) != 0)
        return 4;
    const int lists = check_lists();
    const int surface = check_surface();
    const int sweep = check_sweep();
    return lists != 0 ? lists : surface != 0 ? surface : sweep != 0 ? sweep : check_import();
}
