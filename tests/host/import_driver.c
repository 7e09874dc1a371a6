/* Answers imports for a test harness. Standard input holds requests, one after another: a byte `H` or `L` for the host call, with its limit of 48
 * cells, or the library's call, with its limit of 256; then two 4-byte numbers, low byte first: the lengths of the text and of the sheet's slice;
 * then the bytes of the text and of the slice as lent. For each request standard output gets the answer as 4 bytes and the slice as the call left it.
 *
 * Each call is made twice, with untouchable memory after and before both blocks. The program ends with status 3 where the two differ, bytes outside
 * the slice have changed, a refusal has changed the slice, or done has changed bytes past the sheet; and by a signal where a call touches that
 * memory, writes to the text, or takes half a second, or a twentieth of a second on a text of at most 64 KiB. */
#include "fenced.h"
#include "fildwuk_library.h"

enum { SHORT_TEXT = 65536 };

struct request {
    int kind;
    uint32_t text_len, sheet_len;
    uint8_t *text, *lent;
};

/* A walk over 999,999,999 lines that are not there may take less than half a second. */
static void limit_call(size_t text_len) {
    struct itimerval brief = {{0, 0}, {0, 50000}};
    limit_time();
    if (text_len <= SHORT_TEXT && setitimer(ITIMER_VIRTUAL, &brief, NULL) != 0)
        exit(2);
}

static uint32_t call(int kind, struct fenced text, struct fenced sheet) {
    limit_call(text.length);
    if (kind == 'H')
        return fildwuk_import(text.bytes, text.length, sheet.bytes, sheet.length);
    return fildwuk_library_import(text.bytes, text.length, sheet.bytes, sheet.length);
}

/* Whether the slice holds what it held before the call, apart from a sheet at its start after done. */
static int rest_untouched(const struct request *r, uint32_t number, struct fenced sheet) {
    size_t written = 0;
    if (number == FILDWUK_DONE) {
        if (sheet.length < 16)
            return 0;
        written = fildwuk_sheet_length(sheet.bytes);
    }
    return written <= sheet.length && memcmp(sheet.bytes + written, r->lent + written, sheet.length - written) == 0;
}

/* Makes the call with the slice in the block. */
static uint32_t call_fenced(const struct request *r, enum side side, struct fenced sheet) {
    struct fenced text = fence_copy(r->text, r->text_len, side);
    memcpy(sheet.bytes, r->lent, r->sheet_len);
    uint32_t number = call(r->kind, text, sheet);
    if (!intact(sheet) || !rest_untouched(r, number, sheet))
        exit(3);
    release(text);
    return number;
}

static void answer(const struct request *r) {
    struct fenced after = fence(r->sheet_len, AFTER), before = fence(r->sheet_len, BEFORE);
    uint32_t number = call_fenced(r, AFTER, after), again = call_fenced(r, BEFORE, before);
    if (number != again || memcmp(after.bytes, before.bytes, r->sheet_len) != 0)
        exit(3);
    write_number(number);
    fwrite(after.bytes, 1, r->sheet_len, stdout);
    fflush(stdout);
    release(after);
    release(before);
}

int main(void) {
    struct request r;
    while ((r.kind = getchar()) != EOF) {
        if ((r.kind != 'H' && r.kind != 'L') || !read_number(&r.text_len) || !read_number(&r.sheet_len))
            return 2;
        r.text = read_bytes(r.text_len);
        r.lent = read_bytes(r.sheet_len);
        answer(&r);
        free(r.text);
        free(r.lent);
    }
    return 0;
}
