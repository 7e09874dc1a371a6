/* The report of one dimension of a sheet, by the proved calls. */
#include "homology.h"

#include <stdlib.h>

#include "fildwuk.h"
#include "fildwuk_library.h"
#include "sheet.h"

size_t limit_cells(enum limit limit) { return limit == LIMIT_HOST ? FILDWUK_CELLS : FILDWUK_LIBRARY_CELLS; }

/* The number of cells that a header tells, at most the limit; 0 where there is no such dimension or no header. */
static size_t cells_of(const uint8_t *sheet, size_t length, uint32_t dimension, enum limit limit) {
    size_t cells = length < SHEET_HEADER ? 0 : sheet_count(sheet, dimension);
    return cells < limit_cells(limit) ? cells : limit_cells(limit);
}

size_t homology_work_slots(const uint8_t *sheet, size_t length, uint32_t dimension) {
    size_t below = dimension == 0 ? 0 : cells_of(sheet, length, dimension - 1, LIMIT_LIBRARY);
    size_t above = cells_of(sheet, length, dimension + 1, LIMIT_LIBRARY);
    return FILDWUK_LIBRARY_WORK_SLOTS(cells_of(sheet, length, dimension, LIMIT_LIBRARY), below, above);
}

/* Asks the library's call, with the report slice. Answers 0 where there is no memory. */
static int ask_library(const uint8_t *sheet, size_t length, struct homology *homology, size_t slots) {
    size_t work_slots = homology_work_slots(sheet, length, homology->dimension);
    int32_t *work = calloc(work_slots + 1, sizeof *work);
    if (work == NULL)
        return 0;
    homology->answer =
        fildwuk_library_headroom(sheet, length, homology->dimension, homology->numbers, slots, work, work_slots, &homology->peak, &homology->bits);
    homology->has_peak = homology->answer == FILDWUK_DONE;
    free(work);
    return 1;
}

/* Asks the host call, and reads its bytes into the report slice. Answers 0 where there is no memory. */
static int ask_host(const uint8_t *sheet, size_t length, struct homology *homology, size_t slots) {
    uint8_t *bytes = calloc(slots, 8);
    if (bytes == NULL)
        return 0;
    homology->answer = fildwuk_report(sheet, length, homology->dimension, bytes, 8 * slots);
    for (size_t i = 0; i < slots; i++)
        homology->numbers[i] = fildwuk_get_number(bytes, i);
    free(bytes);
    return 1;
}

int homology_of(const uint8_t *sheet, size_t length, uint32_t dimension, enum limit limit, struct homology *homology) {
    *homology = (struct homology){.dimension = dimension, .cells = cells_of(sheet, length, dimension, limit)};
    size_t slots = FILDWUK_LIBRARY_REPORT_SLOTS(homology->cells);
    homology->numbers = calloc(slots, sizeof *homology->numbers);
    if (homology->numbers == NULL)
        return 0;
    if (!(limit == LIMIT_HOST ? ask_host(sheet, length, homology, slots) : ask_library(sheet, length, homology, slots))) {
        homology_free(homology);
        return 0;
    }
    if (homology->answer == FILDWUK_DONE) {
        homology->rank = (size_t)homology->numbers[0];
        homology->order_total = (size_t)homology->numbers[1];
    }
    return 1;
}

void homology_free(struct homology *homology) {
    free(homology->numbers);
    homology->numbers = NULL;
}

size_t homology_generators(const struct homology *homology) { return homology->order_total + homology->rank; }

int64_t homology_order(const struct homology *homology, size_t k) { return k < homology->order_total ? homology->numbers[2 + k] : 0; }

const int64_t *homology_generator(const struct homology *homology, size_t k) {
    return homology->numbers + 2 + homology->order_total + k * homology->cells;
}
