/* The library's calls on the sheet under test: today's, and under the names earlier_report and earlier_coordinates those of an earlier commit. The
 * work slice is lent at the length that check 9 wants. */
#ifndef LIBRARY_H
#define LIBRARY_H

#include "fildwuk_library.h"
#include "sheet.h"

typedef uint32_t report_call(const uint8_t *sheet, size_t sheet_len, uint32_t dimension, int64_t *report, size_t report_len, int32_t *work,
                             size_t work_len);
typedef uint32_t coordinate_call(const uint8_t *sheet, size_t sheet_len, uint32_t dimension, const int32_t *chain, size_t chain_len,
                                 int64_t *coordinates, size_t coordinates_len, int32_t *work, size_t work_len);

extern report_call earlier_report;
extern coordinate_call earlier_coordinates;

enum {
    CELLS = FILDWUK_LIBRARY_CELLS,
    REPORT = FILDWUK_LIBRARY_REPORT_SLOTS(FILDWUK_LIBRARY_CELLS),
    WORK = FILDWUK_LIBRARY_WORK_SLOTS_MOST
};

static int64_t report[REPORT];
static int32_t work[WORK];

/* The slots of the work slice that check 9 wants. */
static size_t work_slots(int p) {
    return FILDWUK_LIBRARY_WORK_SLOTS(count(p), count(p - 1), count(p + 1));
}

static uint32_t report_by(report_call *call, int p) { return call(sheet, length, (uint32_t)p, report, REPORT, work, work_slots(p)); }

/* All four reports of the sheet. */
static void reports_by(report_call *call) {
    for (int p = 0; p < 4; p++)
        report_by(call, p);
}

static inline void reports(void) { reports_by(fildwuk_library_report); }

#endif
