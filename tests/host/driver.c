/* Answers host calls for a test harness. Standard input holds requests, one after another: a byte `R`, `C`, `L` or `S` for the report, the
 * coordinates, the coordinate lists or the surface, then 4-byte numbers, low byte first: the sheet's length, the dimension, the number of chains,
 * which `L` alone uses, the length of the chains and of the output; then the bytes of the sheet, of the chains and of the output as lent. For each
 * request standard output gets the answer as 4 bytes and the output's bytes as the call left them.
 *
 * Each call is made twice, with untouchable memory after and before every block. The program ends with status 3 where the two differ, bytes
 * outside the output have changed, a refusal has changed the output, or lists are not those of single calls; and by a signal where a call touches
 * that memory or takes half a second. */
#include "fenced.h"
#include "fildwuk.h"

struct request {
    int kind;
    uint32_t sheet_len, dimension, number, chains_len, output_len;
    uint8_t *sheet, *chains, *lent;
};

static uint32_t call(const struct request *r, struct fenced sheet, struct fenced chains, struct fenced output) {
    limit_time();
    if (r->kind == 'R')
        return fildwuk_report(sheet.bytes, sheet.length, r->dimension, output.bytes, output.length);
    if (r->kind == 'C')
        return fildwuk_coordinates(sheet.bytes, sheet.length, r->dimension, chains.bytes, chains.length, output.bytes, output.length);
    if (r->kind == 'S')
        return fildwuk_surface(sheet.bytes, sheet.length, r->dimension, chains.bytes, chains.length, output.bytes, output.length);
    return fildwuk_coordinate_lists(sheet.bytes, sheet.length, r->dimension, r->number, chains.bytes, chains.length, output.bytes,
                                    output.length);
}

/* Makes the call with the output in the block. */
static uint32_t call_fenced(const struct request *r, enum side side, struct fenced output) {
    struct fenced sheet = fence_copy(r->sheet, r->sheet_len, side), chains = fence_copy(r->chains, r->chains_len, side);
    memcpy(output.bytes, r->lent, r->output_len);
    uint32_t number = call(r, sheet, chains, output);
    if (!intact(output) || (number != FILDWUK_DONE && memcmp(output.bytes, r->lent, r->output_len) != 0))
        exit(3);
    release(sheet);
    release(chains);
    return number;
}

/* Chain i of the request as one of a single call, with the slots of its list. */
static struct request single(const struct request *r, size_t i) {
    uint32_t chain_len = r->chains_len / r->number, list_len = 2 * chain_len;
    struct request one = *r;
    one.kind = 'C';
    one.chains_len = chain_len;
    one.output_len = list_len;
    one.chains = r->chains + i * chain_len;
    one.lent = r->lent + i * list_len;
    return one;
}

/* Whether the answer is that of single calls: with done, that each is done and leaves the list that the call left; with 11 or 12, that the
 * first refused one says so. */
static int as_single_calls(const struct request *r, uint32_t number, const uint8_t *lists) {
    uint32_t due = FILDWUK_DONE;
    for (size_t i = 0; due == FILDWUK_DONE && i < r->number; i++) {
        struct request one = single(r, i);
        struct fenced output = fence(one.output_len, AFTER);
        due = call_fenced(&one, AFTER, output);
        int same = memcmp(output.bytes, lists + i * one.output_len, one.output_len) == 0;
        release(output);
        if (number == FILDWUK_DONE && !same)
            return 0;
    }
    return due == number;
}

/* Whether lists, or the refusal of a chain, are those of single calls, and bytes past the lists as lent. Without coefficients, and with another
 * refusal, there are no single calls. */
static int lists_are_right(const struct request *r, uint32_t number, const uint8_t *lists) {
    size_t written = 2 * (size_t)r->chains_len;
    if (number != FILDWUK_DONE && number != FILDWUK_COEFFICIENT_EXCEEDS && number != FILDWUK_BOUNDARY_NOT_ZERO)
        return 1;
    if (written > r->output_len || memcmp(lists + written, r->lent + written, r->output_len - written) != 0)
        return 0;
    return r->chains_len == 0 || (r->number <= r->chains_len / 4 && as_single_calls(r, number, lists));
}

static void answer(const struct request *r) {
    struct fenced after = fence(r->output_len, AFTER), before = fence(r->output_len, BEFORE);
    uint32_t number = call_fenced(r, AFTER, after), again = call_fenced(r, BEFORE, before);
    if (number != again || memcmp(after.bytes, before.bytes, r->output_len) != 0)
        exit(3);
    if (r->kind == 'L' && !lists_are_right(r, number, after.bytes))
        exit(3);
    write_number(number);
    fwrite(after.bytes, 1, r->output_len, stdout);
    fflush(stdout);
    release(after);
    release(before);
}

int main(void) {
    struct request r;
    while ((r.kind = getchar()) != EOF) {
        if (!read_number(&r.sheet_len) || !read_number(&r.dimension) || !read_number(&r.number) || !read_number(&r.chains_len) ||
            !read_number(&r.output_len))
            return 2;
        r.sheet = read_bytes(r.sheet_len);
        r.chains = read_bytes(r.chains_len);
        r.lent = read_bytes(r.output_len);
        answer(&r);
        free(r.sheet);
        free(r.chains);
        free(r.lent);
    }
    return 0;
}
