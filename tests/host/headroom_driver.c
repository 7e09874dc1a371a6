/* Answers the library's report call with its peak, at the count limit of 256, for a test harness. Standard input holds requests, one after another:
 * 4-byte numbers, low byte first, for the sheet's bytes, the dimension, the slots of the report and of the work slice; then the sheet. The peak, its
 * bits, the report and the work slice are lent with every byte at PATTERN. For each request standard output gets the answer as 4 bytes, the peak as 8
 * and its bits as 4, then the report and the work slice, all as the call left them.
 *
 * Each call is made twice, with untouchable memory after and before every block. The program ends with status 3 where the two differ, bytes outside
 * the lent blocks have changed, the answer or a slice is not that of fildwuk_library_report, a refusal has changed the peak or its bits, the bits are
 * not those of the peak, or the peak is beyond the entry limit or less than an order or a coefficient in the report; and by a signal where a call
 * touches that memory or takes half a second. */
#include "fenced.h"
#include "fildwuk_library.h"

enum { DIMENSIONS = 4, ENTRY_LIMIT = 1048575 };

/* Lengths are those of the slices: bytes of the sheet, slots. */
struct request {
    uint32_t sheet_len, dimension, report_len, work_len;
    uint8_t *sheet;
};

/* What a call answers and leaves. */
struct left {
    uint32_t number;
    struct fenced peak, bits, report, work;
};

static struct left lend(const struct request *r, enum side side) {
    return (struct left){0, fence(8, side), fence(4, side), fence(8 * (size_t)r->report_len, side), fence(4 * (size_t)r->work_len, side)};
}

/* Makes the call for the peak, or fildwuk_library_report, which is lent no peak. */
static struct left call_fenced(const struct request *r, enum side side, int with_peak) {
    struct fenced sheet = fence_copy(r->sheet, r->sheet_len, side);
    struct left left = lend(r, side);
    int64_t *report = (int64_t *)(void *)left.report.bytes;
    int32_t *work = (int32_t *)(void *)left.work.bytes;
    limit_time();
    left.number = with_peak ? fildwuk_library_headroom(sheet.bytes, r->sheet_len, r->dimension, report, r->report_len, work, r->work_len,
                                                       (uint64_t *)(void *)left.peak.bytes, (uint32_t *)(void *)left.bits.bytes)
                            : fildwuk_library_report(sheet.bytes, r->sheet_len, r->dimension, report, r->report_len, work, r->work_len);
    if (!intact(left.peak) || !intact(left.bits) || !intact(left.report) || !intact(left.work))
        exit(3);
    release(sheet);
    return left;
}

static void release_left(struct left left) {
    release(left.peak);
    release(left.bits);
    release(left.report);
    release(left.work);
}

static int same(struct fenced a, struct fenced b) { return memcmp(a.bytes, b.bytes, a.length) == 0; }

static int same_report(struct left a, struct left b) { return a.number == b.number && same(a.report, b.report) && same(a.work, b.work); }

static int same_peak(struct left a, struct left b) { return same(a.peak, b.peak) && same(a.bits, b.bits); }

static uint64_t size_of(int64_t n) { return n < 0 ? -(uint64_t)n : (uint64_t)n; }

/* The largest absolute value of the orders and the coefficients in the report of a finished call. */
static uint64_t largest_reported(const struct request *r, const int64_t *report) {
    size_t cells = (size_t)r->sheet[4 * r->dimension] + 256 * (size_t)r->sheet[4 * r->dimension + 1];
    size_t end = 2 + (size_t)report[1] + (size_t)(report[0] + report[1]) * cells;
    uint64_t largest = 0;
    if (end > r->report_len)
        exit(3);
    for (size_t i = 2; i < end; i++)
        if (size_of(report[i]) > largest)
            largest = size_of(report[i]);
    return largest;
}

static uint32_t bits_of(uint64_t n) {
    uint32_t bits = 0;
    for (; n != 0; n >>= 1)
        bits++;
    return bits;
}

/* Whether the peak of a finished call has its bits, is within the limit, and not less than what the report holds. */
static int peak_can_be(const struct request *r, struct left left) {
    uint64_t peak;
    uint32_t bits;
    memcpy(&peak, left.peak.bytes, 8);
    memcpy(&bits, left.bits.bytes, 4);
    return r->dimension < DIMENSIONS && bits == bits_of(peak) && peak <= ENTRY_LIMIT &&
           peak >= largest_reported(r, (const int64_t *)(const void *)left.report.bytes);
}

static void answer(const struct request *r) {
    struct left after = call_fenced(r, AFTER, 1), before = call_fenced(r, BEFORE, 1), plain = call_fenced(r, AFTER, 0);
    if (!same_report(after, before) || !same_peak(after, before) || !same_report(after, plain))
        exit(3);
    /* The plain call leaves the peak as it was lent. */
    if (after.number != 0 ? !same_peak(after, plain) : !peak_can_be(r, after))
        exit(3);
    write_number(after.number);
    fwrite(after.peak.bytes, 1, after.peak.length, stdout);
    fwrite(after.bits.bytes, 1, after.bits.length, stdout);
    fwrite(after.report.bytes, 1, after.report.length, stdout);
    fwrite(after.work.bytes, 1, after.work.length, stdout);
    fflush(stdout);
    release_left(after);
    release_left(before);
    release_left(plain);
}

int main(void) {
    struct request r;
    while (read_number(&r.sheet_len)) {
        if (!read_number(&r.dimension) || !read_number(&r.report_len) || !read_number(&r.work_len))
            return 2;
        r.sheet = read_bytes(r.sheet_len);
        answer(&r);
        free(r.sheet);
    }
    return 0;
}
