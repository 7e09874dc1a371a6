/* Answers the library's calls, at its count limit of 256, for a test harness. Standard input holds requests, one after another: a byte `R`,
 * `C`, `L` or `S` for the report, the coordinates, the coordinate lists or the surface, then 4-byte numbers, low byte first: the sheet's bytes, the
 * dimension, the low and the high half of the number of chains, which `L` alone uses, the coefficients of the chains, the slots of the output and
 * of the work slice, and the byte that these two are lent with throughout; then the sheet and the coefficients, 4 bytes each. For each request
 * standard output gets the answer as 4 bytes, the output and the work slice as the call left them.
 *
 * Each call is made twice, with untouchable memory after and before every block. The program ends with status 3 where the two differ, bytes
 * outside the lent slices have changed, or lists are not those of single calls; and by a signal where a call touches that memory or takes half a
 * second. */
#include "fenced.h"
#include "fildwuk_library.h"

/* Lengths are those of the slices: bytes of the sheet, coefficients, slots. */
struct request {
    int kind;
    uint32_t sheet_len, dimension, chains_len, output_len, work_len, fill;
    uint64_t number;
    uint8_t *sheet, *chains;
};

/* What a call answers and leaves. */
struct left {
    uint32_t number;
    struct fenced output, work;
};

static uint32_t call(const struct request *r, struct fenced sheet, struct fenced chains, struct fenced output, struct fenced work) {
    const int32_t *coefficients = (const int32_t *)(const void *)chains.bytes;
    int64_t *slots = (int64_t *)(void *)output.bytes;
    int32_t *room = (int32_t *)(void *)work.bytes;
    limit_time();
    if (r->kind == 'R')
        return fildwuk_library_report(sheet.bytes, r->sheet_len, r->dimension, slots, r->output_len, room, r->work_len);
    if (r->kind == 'C')
        return fildwuk_library_coordinates(sheet.bytes, r->sheet_len, r->dimension, coefficients, r->chains_len, slots, r->output_len,
                                           room, r->work_len);
    if (r->kind == 'S')
        return fildwuk_library_surface(sheet.bytes, r->sheet_len, r->dimension, coefficients, r->chains_len, slots, r->output_len, room,
                                       r->work_len);
    return fildwuk_library_coordinate_lists(sheet.bytes, r->sheet_len, r->dimension, r->number, coefficients, r->chains_len, slots,
                                            r->output_len, room, r->work_len);
}

static struct left call_fenced(const struct request *r, enum side side) {
    struct fenced sheet = fence_copy(r->sheet, r->sheet_len, side), chains = fence_copy(r->chains, 4 * (size_t)r->chains_len, side);
    struct left left = {0, fence(8 * (size_t)r->output_len, side), fence(4 * (size_t)r->work_len, side)};
    memset(left.output.bytes, (int)r->fill, left.output.length);
    memset(left.work.bytes, (int)r->fill, left.work.length);
    left.number = call(r, sheet, chains, left.output, left.work);
    if (!intact(left.output) || !intact(left.work))
        exit(3);
    release(sheet);
    release(chains);
    return left;
}

static void release_left(struct left left) {
    release(left.output);
    release(left.work);
}

static int equal(struct left a, struct left b) {
    return a.number == b.number && memcmp(a.output.bytes, b.output.bytes, a.output.length) == 0 &&
           memcmp(a.work.bytes, b.work.bytes, a.work.length) == 0;
}

/* Chain i of the request as one of a single call, with the slots of its list. */
static struct request single(const struct request *r, size_t i) {
    struct request one = *r;
    one.kind = 'C';
    one.chains_len = one.output_len = (uint32_t)(r->chains_len / r->number);
    one.chains = r->chains + 4 * i * one.chains_len;
    return one;
}

/* Whether the answer is that of single calls: with done, that each is done and leaves the list that the call left; with 13, that each says
 * so; with 11 or 12, that the first with one of these does. */
static int as_single_calls(const struct request *r, struct left lists) {
    uint32_t due = 0;
    for (size_t i = 0; (due == 0 || due == 13) && i < r->number; i++) {
        struct request one = single(r, i);
        struct left left = call_fenced(&one, AFTER);
        int same = memcmp(left.output.bytes, lists.output.bytes + 8 * i * one.output_len, left.output.length) == 0;
        due = left.number;
        release_left(left);
        if (lists.number == 0 && !same)
            return 0;
    }
    return due == lists.number;
}

/* Whether lists, or the refusal of a chain, are those of single calls. Without coefficients, and with a refusal tried before 11, there are none. */
static int lists_are_right(const struct request *r, struct left lists) {
    const int chains_were_tried = lists.number == FILDWUK_DONE || lists.number == FILDWUK_COEFFICIENT_EXCEEDS ||
                                  lists.number == FILDWUK_BOUNDARY_NOT_ZERO || lists.number == FILDWUK_TOO_WIDE;
    if (!chains_were_tried || r->chains_len == 0)
        return 1;
    return r->number <= r->chains_len && r->chains_len <= r->output_len && as_single_calls(r, lists);
}

static void answer(const struct request *r) {
    struct left after = call_fenced(r, AFTER), before = call_fenced(r, BEFORE);
    if (!equal(after, before) || (r->kind == 'L' && !lists_are_right(r, after)))
        exit(3);
    write_number(after.number);
    fwrite(after.output.bytes, 1, after.output.length, stdout);
    fwrite(after.work.bytes, 1, after.work.length, stdout);
    fflush(stdout);
    release_left(after);
    release_left(before);
}

int main(void) {
    struct request r;
    while ((r.kind = getchar()) != EOF) {
        uint32_t low, high;
        if (!read_number(&r.sheet_len) || !read_number(&r.dimension) || !read_number(&low) || !read_number(&high) ||
            !read_number(&r.chains_len) || !read_number(&r.output_len) || !read_number(&r.work_len) || !read_number(&r.fill))
            return 2;
        r.number = (uint64_t)high << 32 | low;
        r.sheet = read_bytes(r.sheet_len);
        r.chains = read_bytes(4 * (size_t)r.chains_len);
        answer(&r);
        free(r.sheet);
        free(r.chains);
    }
    return 0;
}
