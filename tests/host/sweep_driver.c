/* Answers sweeps for a test harness. Standard input holds requests, one after another: a byte `H` or `L` for the host call, with its limit of 48
 * cells, or the library's call, with its limit of 256; then two 4-byte numbers, low byte first: the lengths of the sheet and of the slice; then the
 * bytes of the sheet and of the slice as lent. For each request standard output gets, as 4 bytes each, the answer and that of the report on the given
 * sheet in dimension 4, and then the slice as the call left it.
 *
 * Each call is made twice, with untouchable memory after and before both blocks. The program ends with status 3 where the two differ, bytes outside
 * the slice have changed, a refusal has changed the slice, done has changed bytes past the sheet that is written, or that sheet is not accepted; and
 * by a signal where a call touches that memory, writes to the given sheet, or takes half a second. */
#include "fenced.h"
#include "fildwuk_library.h"

enum { BEYOND_TOP = 4, HEADER = 16 };

struct request {
    int kind;
    uint32_t sheet_len, swept_len;
    uint8_t *sheet, *lent;
};

static uint32_t call(int kind, struct fenced sheet, struct fenced swept) {
    limit_time();
    if (kind == 'H')
        return fildwuk_sweep(sheet.bytes, sheet.length, swept.bytes, swept.length);
    return fildwuk_library_sweep(sheet.bytes, sheet.length, swept.bytes, swept.length);
}

/* The report's answer in a dimension above 3: 8 where the sheet is accepted. */
static uint32_t report(int kind, const uint8_t *sheet, size_t length) {
    limit_time();
    if (kind == 'H')
        return fildwuk_report(sheet, length, BEYOND_TOP, NULL, 0);
    return fildwuk_library_report(sheet, length, BEYOND_TOP, NULL, 0, NULL, 0);
}

/* The bytes that the call has written, by the header; 0 after a refusal, and more than the slice has where there is no header. */
static size_t written(uint32_t number, struct fenced swept) {
    if (number != FILDWUK_DONE)
        return 0;
    return swept.length < HEADER ? swept.length + 1 : fildwuk_sheet_length(swept.bytes);
}

/* Whether the slice holds what it held before the call, apart from an accepted sheet at its start after done. */
static int slice_is_right(const struct request *r, uint32_t number, struct fenced swept) {
    size_t length = written(number, swept);
    if (length > swept.length || memcmp(swept.bytes + length, r->lent + length, swept.length - length) != 0)
        return 0;
    return number != FILDWUK_DONE || report(r->kind, swept.bytes, length) == FILDWUK_DIMENSION_EXCEEDS_TOP;
}

/* Makes the call with the slice in the block. */
static uint32_t call_fenced(const struct request *r, enum side side, struct fenced swept) {
    struct fenced sheet = fence_copy(r->sheet, r->sheet_len, side);
    memcpy(swept.bytes, r->lent, r->swept_len);
    uint32_t number = call(r->kind, sheet, swept);
    if (!intact(swept) || !slice_is_right(r, number, swept))
        exit(3);
    release(sheet);
    return number;
}

static void answer(const struct request *r) {
    struct fenced after = fence(r->swept_len, AFTER), before = fence(r->swept_len, BEFORE);
    uint32_t number = call_fenced(r, AFTER, after), again = call_fenced(r, BEFORE, before);
    if (number != again || memcmp(after.bytes, before.bytes, r->swept_len) != 0)
        exit(3);
    write_number(number);
    write_number(report(r->kind, r->sheet, r->sheet_len));
    fwrite(after.bytes, 1, r->swept_len, stdout);
    fflush(stdout);
    release(after);
    release(before);
}

int main(void) {
    struct request r;
    while ((r.kind = getchar()) != EOF) {
        if ((r.kind != 'H' && r.kind != 'L') || !read_number(&r.sheet_len) || !read_number(&r.swept_len))
            return 2;
        r.sheet = read_bytes(r.sheet_len);
        r.lent = read_bytes(r.swept_len);
        answer(&r);
        free(r.sheet);
        free(r.lent);
    }
    return 0;
}
