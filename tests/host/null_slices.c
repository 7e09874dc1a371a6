/* A null pointer with length 0 through every call, in C99 and C++: the answers are those due for a slice of length 0, and a refusal leaves the other
 * slices as they were. Every call is made with null pointers and with pointers to no bytes. The sheet is the hollow triangle, which has no triangles
 * and no tetrahedra, the text that of a mesh without elements. Ends with 1, and says where, on another answer. */
#include <stdio.h>
#include <string.h>

#include "fildwuk_library.h"

enum { SLOTS = 64, EDGES = 3 };

static const uint8_t SHEET[34] = {3, 0, 16, 0, 3, 0, 22, 0, 0, 0, 34, 0, 0, 0, 34, 0, 0, 0, 1, 0, 2, 0, 0, 0, 1, 0, 0, 0, 2, 0, 1, 0, 2, 0};
static const char TEXT[] = "$MeshFormat\n2.2 0 8\n$EndMeshFormat\n$Nodes\n0\n$EndNodes\n$Elements\n0\n$EndElements\n";
static const uint8_t CHAIN[4 * EDGES] = {0};
static const int32_t COEFFICIENTS[EDGES] = {0};

/* What is lent, and a copy of what it held. */
static struct slices {
    uint8_t bytes[8 * SLOTS];
    int64_t numbers[SLOTS];
    int32_t work[SLOTS];
    uint64_t peak;
    uint32_t bits;
} lent, before;

/* The slices of length 0: null, or pointers to no bytes. */
static struct empty {
    const uint8_t *sheet, *text, *chain;
    const int32_t *coefficients;
    uint8_t *bytes;
    int64_t *numbers;
    int32_t *work;
} no;

static int wrong;

static void hold(uint32_t answer, uint32_t due, int line) {
    int changed = due != FILDWUK_DONE && memcmp(&lent, &before, sizeof lent) != 0;
    if (answer != due || changed) {
        printf("line %d: answered %u, %u due%s\n", line, (unsigned)answer, (unsigned)due, changed ? ", and a slice has changed" : "");
        wrong = 1;
    }
    memset(&lent, 7, sizeof lent);
    before = lent;
}

#define DUE(due, call) hold(call, due, __LINE__)

static void host_calls(void) {
    DUE(1, fildwuk_report(no.sheet, 0, 1, lent.bytes, sizeof lent.bytes));
    DUE(1, fildwuk_report(no.sheet, 0, 1, no.bytes, 0));
    DUE(8, fildwuk_report(SHEET, sizeof SHEET, 4, no.bytes, 0));
    DUE(9, fildwuk_report(SHEET, sizeof SHEET, 1, no.bytes, 0));
    DUE(9, fildwuk_report(SHEET, sizeof SHEET, 2, no.bytes, 0));
    DUE(1, fildwuk_coordinates(no.sheet, 0, 1, CHAIN, sizeof CHAIN, lent.bytes, sizeof lent.bytes));
    DUE(1, fildwuk_coordinates(no.sheet, 0, 1, no.chain, 0, no.bytes, 0));
    DUE(9, fildwuk_coordinates(SHEET, sizeof SHEET, 1, CHAIN, sizeof CHAIN, no.bytes, 0));
    DUE(10, fildwuk_coordinates(SHEET, sizeof SHEET, 1, no.chain, 0, lent.bytes, sizeof lent.bytes));
    DUE(0, fildwuk_coordinates(SHEET, sizeof SHEET, 2, no.chain, 0, no.bytes, 0));
    DUE(1, fildwuk_coordinate_lists(no.sheet, 0, 1, 1, no.chain, 0, no.bytes, 0));
    DUE(9, fildwuk_coordinate_lists(SHEET, sizeof SHEET, 1, 1, CHAIN, sizeof CHAIN, no.bytes, 0));
    DUE(10, fildwuk_coordinate_lists(SHEET, sizeof SHEET, 1, 1, no.chain, 0, lent.bytes, sizeof lent.bytes));
    DUE(0, fildwuk_coordinate_lists(SHEET, sizeof SHEET, 1, 0, no.chain, 0, no.bytes, 0));
    DUE(0, fildwuk_coordinate_lists(SHEET, sizeof SHEET, 3, UINT32_MAX, no.chain, 0, no.bytes, 0));
    DUE(1, fildwuk_surface(no.sheet, 0, 1, CHAIN, sizeof CHAIN, lent.bytes, sizeof lent.bytes));
    DUE(1, fildwuk_surface(no.sheet, 0, 1, no.chain, 0, no.bytes, 0));
    DUE(9, fildwuk_surface(SHEET, sizeof SHEET, 0, CHAIN, sizeof CHAIN, no.bytes, 0));
    DUE(10, fildwuk_surface(SHEET, sizeof SHEET, 1, no.chain, 0, no.bytes, 0));
    DUE(0, fildwuk_surface(SHEET, sizeof SHEET, 1, CHAIN, sizeof CHAIN, no.bytes, 0));
    DUE(0, fildwuk_surface(SHEET, sizeof SHEET, 2, no.chain, 0, no.bytes, 0));
    DUE(14, fildwuk_import(no.text, 0, lent.bytes, sizeof lent.bytes));
    DUE(14, fildwuk_import(no.text, 0, no.bytes, 0));
    DUE(16, fildwuk_import((const uint8_t *)TEXT, sizeof TEXT - 1, no.bytes, 0));
    DUE(1, fildwuk_sweep(no.sheet, 0, lent.bytes, sizeof lent.bytes));
    DUE(1, fildwuk_sweep(no.sheet, 0, no.bytes, 0));
    DUE(16, fildwuk_sweep(SHEET, sizeof SHEET, no.bytes, 0));
}

static void library_calls(void) {
    DUE(1, fildwuk_library_report(no.sheet, 0, 1, lent.numbers, SLOTS, lent.work, SLOTS));
    DUE(1, fildwuk_library_report(no.sheet, 0, 1, no.numbers, 0, no.work, 0));
    DUE(9, fildwuk_library_report(SHEET, sizeof SHEET, 1, no.numbers, 0, lent.work, SLOTS));
    DUE(9, fildwuk_library_report(SHEET, sizeof SHEET, 1, lent.numbers, SLOTS, no.work, 0));
    DUE(0, fildwuk_library_report(SHEET, sizeof SHEET, 2, lent.numbers, SLOTS, no.work, 0));
    DUE(1, fildwuk_library_headroom(no.sheet, 0, 1, no.numbers, 0, no.work, 0, &lent.peak, &lent.bits));
    DUE(9, fildwuk_library_headroom(SHEET, sizeof SHEET, 1, no.numbers, 0, lent.work, SLOTS, &lent.peak, &lent.bits));
    DUE(9, fildwuk_library_headroom(SHEET, sizeof SHEET, 1, lent.numbers, SLOTS, no.work, 0, &lent.peak, &lent.bits));
    DUE(0, fildwuk_library_headroom(SHEET, sizeof SHEET, 2, lent.numbers, SLOTS, no.work, 0, &lent.peak, &lent.bits));
    DUE(1, fildwuk_library_coordinates(no.sheet, 0, 1, no.coefficients, 0, no.numbers, 0, no.work, 0));
    DUE(9, fildwuk_library_coordinates(SHEET, sizeof SHEET, 1, COEFFICIENTS, EDGES, no.numbers, 0, lent.work, SLOTS));
    DUE(9, fildwuk_library_coordinates(SHEET, sizeof SHEET, 1, COEFFICIENTS, EDGES, lent.numbers, SLOTS, no.work, 0));
    DUE(10, fildwuk_library_coordinates(SHEET, sizeof SHEET, 1, no.coefficients, 0, lent.numbers, SLOTS, lent.work, SLOTS));
    DUE(0, fildwuk_library_coordinates(SHEET, sizeof SHEET, 2, no.coefficients, 0, no.numbers, 0, no.work, 0));
    DUE(1, fildwuk_library_coordinate_lists(no.sheet, 0, 1, 1, no.coefficients, 0, no.numbers, 0, no.work, 0));
    DUE(9, fildwuk_library_coordinate_lists(SHEET, sizeof SHEET, 1, 1, COEFFICIENTS, EDGES, no.numbers, 0, lent.work, SLOTS));
    DUE(10, fildwuk_library_coordinate_lists(SHEET, sizeof SHEET, 1, 1, no.coefficients, 0, lent.numbers, SLOTS, lent.work, SLOTS));
    DUE(0, fildwuk_library_coordinate_lists(SHEET, sizeof SHEET, 1, 0, no.coefficients, 0, no.numbers, 0, lent.work, SLOTS));
    DUE(0, fildwuk_library_coordinate_lists(SHEET, sizeof SHEET, 3, SIZE_MAX, no.coefficients, 0, no.numbers, 0, no.work, 0));
    DUE(1, fildwuk_library_surface(no.sheet, 0, 1, no.coefficients, 0, no.numbers, 0, no.work, 0));
    DUE(9, fildwuk_library_surface(SHEET, sizeof SHEET, 0, COEFFICIENTS, EDGES, no.numbers, 0, lent.work, SLOTS));
    DUE(9, fildwuk_library_surface(SHEET, sizeof SHEET, 1, COEFFICIENTS, EDGES, no.numbers, 0, no.work, 0));
    DUE(10, fildwuk_library_surface(SHEET, sizeof SHEET, 1, no.coefficients, 0, no.numbers, 0, lent.work, SLOTS));
    DUE(0, fildwuk_library_surface(SHEET, sizeof SHEET, 1, COEFFICIENTS, EDGES, no.numbers, 0, lent.work, SLOTS));
    DUE(0, fildwuk_library_surface(SHEET, sizeof SHEET, 2, no.coefficients, 0, no.numbers, 0, no.work, 0));
    DUE(14, fildwuk_library_import(no.text, 0, lent.bytes, sizeof lent.bytes));
    DUE(14, fildwuk_library_import(no.text, 0, no.bytes, 0));
    DUE(16, fildwuk_library_import((const uint8_t *)TEXT, sizeof TEXT - 1, no.bytes, 0));
    DUE(1, fildwuk_library_sweep(no.sheet, 0, lent.bytes, sizeof lent.bytes));
    DUE(1, fildwuk_library_sweep(no.sheet, 0, no.bytes, 0));
    DUE(16, fildwuk_library_sweep(SHEET, sizeof SHEET, no.bytes, 0));
}

int main(void) {
    memset(&lent, 7, sizeof lent);
    before = lent;
    host_calls();
    library_calls();
    no.sheet = SHEET;
    no.text = (const uint8_t *)TEXT;
    no.chain = CHAIN;
    no.coefficients = COEFFICIENTS;
    no.bytes = lent.bytes;
    no.numbers = lent.numbers;
    no.work = lent.work;
    host_calls();
    library_calls();
    return wrong;
}
