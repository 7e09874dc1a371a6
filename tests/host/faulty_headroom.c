/* The library's report call and the one with its peak, the latter with a fault, to see that the driver tells it. The environment's FAULT names it;
 * none is the control. These calls know no sheets: byte 15 of the sheet is the answer, and a finished call reports the order in byte 16 and a
 * generator with one coefficient, minus byte 17. The larger of the two is the peak, and the work slice reads 0. */
#include <stdint.h>
#include <stdlib.h>
#include <string.h>

#include "fildwuk_library.h"

static volatile uint8_t seen;

static int is(const char *fault) { return strcmp(getenv("FAULT"), fault) == 0; }

uint32_t fildwuk_library_report(const uint8_t *sheet, size_t sheet_len, uint32_t dimension, int64_t *report, size_t report_len, int32_t *work,
                        size_t work_len) {
    (void)sheet_len, (void)dimension, (void)report_len;
    if (sheet[15] == 0) {
        int64_t numbers[4] = {0, 1, sheet[16], -(int64_t)sheet[17]};
        memcpy(report, numbers, sizeof numbers);
        memset(work, 0, 4 * work_len);
    }
    return sheet[15];
}

static uint32_t bits_of(uint64_t n) { return n == 0 ? 0 : 64 - (uint32_t)__builtin_clzll(n); }

/* The faults of any call. */
static void touch(const uint8_t *sheet, size_t sheet_len, int64_t *report, size_t report_len, int32_t *work, size_t work_len, uint64_t *peak,
                  uint32_t *bits) {
    if (is("reads past the sheet"))
        seen = sheet[sheet_len];
    if (is("reads before the sheet"))
        seen = sheet[-1];
    if (is("writes to the sheet"))
        ((uint8_t *)(uintptr_t)sheet)[0] = 0;
    if (is("writes past the report"))
        report[report_len] = 0;
    if (is("writes before the report"))
        report[-1] = 0;
    if (is("writes past the work slice"))
        work[work_len] = 0;
    if (is("writes before the work slice"))
        work[-1] = 0;
    if (is("writes past the peak"))
        peak[1] = 0;
    if (is("writes before the peak"))
        peak[-1] = 0;
    if (is("writes past the bits"))
        bits[1] = 0;
    if (is("writes before the bits"))
        bits[-1] = 0;
    if (is("leaves another report"))
        report[report_len - 1] = 1;
    if (is("leaves another work slice"))
        work[work_len - 1] = 1;
}

/* What a refused call answers. */
static uint32_t refused(uint32_t number, uint64_t *peak, uint32_t *bits) {
    static uint32_t calls;
    if (is("writes a peak and refuses"))
        *peak = 0;
    if (is("writes bits and refuses"))
        *bits = 0;
    if (is("answers another refusal than the report"))
        number++;
    return is("answers another number the second time") ? number + calls++ : number;
}

uint32_t fildwuk_library_headroom(const uint8_t *sheet, size_t sheet_len, uint32_t dimension, int64_t *report, size_t report_len, int32_t *work,
                          size_t work_len, uint64_t *peak, uint32_t *bits) {
    static uint64_t calls;
    uint32_t number = fildwuk_library_report(sheet, sheet_len, dimension, report, report_len, work, work_len);
    uint64_t largest = sheet[16] > sheet[17] ? sheet[16] : sheet[17];
    touch(sheet, sheet_len, report, report_len, work, work_len, peak, bits);
    if (number != 0)
        return refused(number, peak, bits);
    if (is("tells a peak below an order or a coefficient"))
        largest--;
    if (is("tells a larger peak"))
        largest++;
    if (is("tells a peak beyond the limit"))
        largest = 1048576;
    if (is("tells another peak the second time"))
        largest += calls++;
    if (!is("writes no peak"))
        *peak = largest;
    *bits = is("tells the bits of another peak") ? bits_of(largest) + 1 : bits_of(largest);
    return is("refuses where the report is done") ? 13 : 0;
}
