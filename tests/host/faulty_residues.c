/* The coordinate calls of the host and of the library with coordinates in another range, to see that the comparisons with the model tell it. The
 * drivers are compiled to call these in place of the true ones. The environment's FAULT names the fault; none is the control. */
#include <stdlib.h>
#include <string.h>

#include "fildwuk_library.h"

static int is(const char *fault) { return strcmp(getenv("FAULT"), fault) == 0; }

/* The coordinate of order d that a call with the fault has for c. */
static int64_t misread(int64_t d, int64_t c, int in_lists) {
    if (c < 0 && (is("answers 0 to d - 1") || is(in_lists ? "answers 0 to d - 1 in lists" : "answers 0 to d - 1 in single calls")))
        return c + d;
    if (2 * c == d && is("answers -d/2 for d/2"))
        return -c;
    if (2 * c == d - 1 && is("answers -(d + 1)/2 for (d - 1)/2"))
        return c - d;
    if (c == 1 && d == 2 && is("answers -1 for order 2"))
        return -1;
    return d > 8 && c < 0 && is("answers 0 to d - 1 for orders above 8") ? c + d : c;
}

/* Misreads lists of coordinates, so many bytes apart. */
static void misread_lists(const uint8_t *sheet, size_t sheet_len, uint32_t dimension, size_t number, size_t apart, uint8_t *lists, int in_lists) {
    static int64_t report[FILDWUK_LIBRARY_REPORT_SLOTS(FILDWUK_LIBRARY_CELLS)];
    static int32_t work[FILDWUK_LIBRARY_WORK_SLOTS_MOST];
    if (fildwuk_library_report(sheet, sheet_len, dimension, report, sizeof report / 8, work, sizeof work / 4) != FILDWUK_DONE)
        exit(2);
    for (size_t i = 0; i < number; i++)
        for (size_t j = 0; j < (size_t)report[1]; j++) {
            uint8_t *slot = lists + i * apart + 8 * j;
            int64_t c;
            memcpy(&c, slot, 8);
            c = misread(report[2 + j], c, in_lists);
            memcpy(slot, &c, 8);
        }
}

uint32_t faulty_coordinates(const uint8_t *sheet, size_t sheet_len, uint32_t dimension, const uint8_t *chain, size_t chain_len,
                            uint8_t *coordinates, size_t coordinates_len) {
    uint32_t answer = fildwuk_coordinates(sheet, sheet_len, dimension, chain, chain_len, coordinates, coordinates_len);
    if (answer == FILDWUK_DONE)
        misread_lists(sheet, sheet_len, dimension, 1, 0, coordinates, 0);
    return answer;
}

uint32_t faulty_coordinate_lists(const uint8_t *sheet, size_t sheet_len, uint32_t dimension, uint32_t number, const uint8_t *chains,
                                 size_t chains_len, uint8_t *coordinates, size_t coordinates_len) {
    uint32_t answer = fildwuk_coordinate_lists(sheet, sheet_len, dimension, number, chains, chains_len, coordinates, coordinates_len);
    if (answer == FILDWUK_DONE && chains_len != 0)
        misread_lists(sheet, sheet_len, dimension, number, 2 * (chains_len / number), coordinates, 1);
    return answer;
}

uint32_t faulty_library_coordinates(const uint8_t *sheet, size_t sheet_len, uint32_t dimension, const int32_t *chain, size_t chain_len,
                                    int64_t *coordinates, size_t coordinates_len, int32_t *work, size_t work_len) {
    uint32_t answer = fildwuk_library_coordinates(sheet, sheet_len, dimension, chain, chain_len, coordinates, coordinates_len, work, work_len);
    if (answer == FILDWUK_DONE)
        misread_lists(sheet, sheet_len, dimension, 1, 0, (uint8_t *)coordinates, 0);
    return answer;
}

uint32_t faulty_library_coordinate_lists(const uint8_t *sheet, size_t sheet_len, uint32_t dimension, size_t number, const int32_t *chains,
                                         size_t chains_len, int64_t *coordinates, size_t coordinates_len, int32_t *work, size_t work_len) {
    uint32_t answer =
        fildwuk_library_coordinate_lists(sheet, sheet_len, dimension, number, chains, chains_len, coordinates, coordinates_len, work, work_len);
    if (answer == FILDWUK_DONE && chains_len != 0)
        misread_lists(sheet, sheet_len, dimension, number, 8 * (chains_len / number), (uint8_t *)coordinates, 1);
    return answer;
}
