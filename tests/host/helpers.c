/* Says what the helpers of fildwuk.h make of sheets, cells and bytes, for tests/compare_helpers.py. Standard input holds requests, one after another,
 * numbers low byte first; standard output gets a line for each.
 *
 *   S, the sheet's length in 4 bytes, the sheet    its length by the helper, its counts, and all its cells
 *   P, a dimension in 4 bytes, four vertices       the place of the cell with the first of these in the last sheet; for dimension 1 also of the
 *                                                  edge between them, either way
 *   N, 8 bytes, and K, 4 bytes                     the number, or the coefficient, in them, at place 0 and at place 1
 *   A, an answer in 4 bytes                        its text
 *
 * The sheet and the bytes lie against untouchable memory. The program ends with status 3 where a number that is written is not the bytes it was read
 * from, or other bytes have changed. */
#include "fenced.h"
#include "fildwuk.h"

#include <inttypes.h>

static struct fenced sheet;

static void show_sheet(void) {
    printf("%zu;", fildwuk_sheet_length(sheet.bytes));
    for (uint32_t p = UINT32_MAX; p != 5; p++)
        printf(" %zu", fildwuk_cell_count(sheet.bytes, p));
    for (uint32_t p = 0; p < 4; p++)
        for (size_t i = 0; i < fildwuk_cell_count(sheet.bytes, p); i++) {
            printf(";");
            for (uint32_t place = 0; place <= p; place++)
                printf(" %u", (unsigned)fildwuk_cell_vertex(sheet.bytes, p, i, place));
        }
    printf("\n");
}

static void read_sheet(void) {
    uint32_t length;
    if (!read_number(&length))
        exit(2);
    uint8_t *bytes = read_bytes(length);
    if (sheet.pages != NULL)
        release(sheet);
    sheet = fence_copy(bytes, length, AFTER);
    free(bytes);
    show_sheet();
}

static void show_place(size_t place) {
    if (place == FILDWUK_NO_CELL)
        printf(" none");
    else
        printf(" %zu", place);
}

static void find_place(void) {
    uint32_t dimension;
    if (!read_number(&dimension))
        exit(2);
    uint8_t *bytes = read_bytes(8);
    uint16_t v[4];
    for (size_t i = 0; i < 4; i++)
        v[i] = fildwuk_sheet_field(bytes, 2 * i);
    free(bytes);
    show_place(fildwuk_cell_place(sheet.bytes, dimension, v));
    if (dimension == 1) {
        show_place(fildwuk_edge_place(sheet.bytes, v[0], v[1]));
        show_place(fildwuk_edge_place(sheet.bytes, v[1], v[0]));
    }
    printf("\n");
}

/* The bytes twice, and as they are written from the number that they are read as. */
static void read_back(size_t width) {
    struct fenced two = fence(2 * width, AFTER), back = fence(2 * width, AFTER);
    uint8_t *bytes = read_bytes((uint32_t)width);
    for (size_t i = 0; i < 2; i++) {
        memcpy(two.bytes + i * width, bytes, width);
        if (width == 8) {
            fildwuk_put_number(back.bytes, i, fildwuk_get_number(two.bytes, i));
            printf(" %" PRId64, fildwuk_get_number(two.bytes, i));
        } else {
            fildwuk_put_coefficient(back.bytes, i, fildwuk_get_coefficient(two.bytes, i));
            printf(" %" PRId32, fildwuk_get_coefficient(two.bytes, i));
        }
    }
    printf("\n");
    if (!intact(back) || memcmp(two.bytes, back.bytes, 2 * width) != 0)
        exit(3);
    free(bytes);
    release(two);
    release(back);
}

int main(void) {
    int kind;
    uint32_t answer;
    while ((kind = getchar()) != EOF) {
        if (kind == 'S')
            read_sheet();
        else if (kind == 'P')
            find_place();
        else if (kind == 'N' || kind == 'K')
            read_back(kind == 'N' ? 8 : 4);
        else if (kind == 'A' && read_number(&answer))
            printf("%s\n", fildwuk_answer_text(answer));
        else
            return 2;
    }
    return 0;
}
