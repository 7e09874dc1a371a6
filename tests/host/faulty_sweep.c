/* The sweep and report calls of the host and of the library with a fault, to see that the comparison with the model tells it. The driver is compiled
 * to call these in place of the true ones. The environment's FAULT names the fault; none is the control. */
#include <stdlib.h>
#include <string.h>

#include "fildwuk_library.h"

enum { HEADER = 16 };

typedef uint32_t (*sweep_call)(const uint8_t *, size_t, uint8_t *, size_t);

struct asked {
    sweep_call call;
    size_t limit;
    const uint8_t *sheet;
    size_t sheet_len;
    uint8_t *swept;
    size_t swept_len;
};

static uint8_t room[FILDWUK_LIBRARY_SHEET_BYTES];
static volatile uint8_t seen;
static uint8_t calls;

static int is(const char *fault) { return strcmp(getenv("FAULT"), fault) == 0; }

static void put_field(uint8_t *sheet, size_t at, size_t field) {
    sheet[at] = (uint8_t)field;
    sheet[at + 1] = (uint8_t)(field >> 8);
}

/* Whether a cell of a dimension has the vertex at a place, 0 to that dimension, or at any for `ANY`; `mask` picks the bits that are compared. */
enum { ANY = 4 };

static int in_cell(const uint8_t *sheet, uint32_t dimension, uint32_t place, unsigned v, unsigned mask) {
    for (size_t i = 0; i < fildwuk_cell_count(sheet, dimension); i++)
        for (uint32_t k = 0; k <= dimension; k++)
            if ((place == ANY || place == k) && (fildwuk_cell_vertex(sheet, dimension, i, k) & mask) == (v & mask))
                return 1;
    return 0;
}

/* Whether a call with the fault keeps vertex i of the sheet. */
static int keeps(const uint8_t *sheet, size_t i) {
    const unsigned v = fildwuk_cell_vertex(sheet, 0, i, 0);
    const int used = fildwuk_cell_count(sheet, 1) == 0 || in_cell(sheet, 1, ANY, v, 0xffff);
    if (is("keeps loose nodes"))
        return 1;
    if (is("drops the first loose node alone"))
        for (size_t j = 0; j < i; j++)
            if (!in_cell(sheet, 1, ANY, fildwuk_cell_vertex(sheet, 0, j, 0), 0xffff))
                return 1;
    if (is("drops the last vertex"))
        return used && i + 1 < fildwuk_cell_count(sheet, 0);
    if (is("keeps the last vertex"))
        return used || i + 1 == fildwuk_cell_count(sheet, 0);
    if (is("keeps the first vertex"))
        return used || i == 0;
    if (is("drops what no edge starts with"))
        return fildwuk_cell_count(sheet, 1) == 0 || in_cell(sheet, 1, 0, v, 0xffff);
    if (is("drops what no edge ends with"))
        return fildwuk_cell_count(sheet, 1) == 0 || in_cell(sheet, 1, 1, v, 0xffff);
    if (is("compares the low bytes alone"))
        return fildwuk_cell_count(sheet, 1) == 0 || in_cell(sheet, 1, ANY, v, 0x00ff);
    if (is("compares the high bytes alone"))
        return fildwuk_cell_count(sheet, 1) == 0 || in_cell(sheet, 1, ANY, v, 0xff00);
    if (is("drops vertices of a sheet without edges"))
        return in_cell(sheet, 1, ANY, v, 0xffff);
    if (is("drops what no triangle has"))
        return fildwuk_cell_count(sheet, 2) == 0 ? used : in_cell(sheet, 2, ANY, v, 0xffff);
    return used;
}

/* Writes the sheet with the vertices that the fault keeps. */
static uint32_t write_kept(const struct asked *a) {
    const size_t vertices = fildwuk_cell_count(a->sheet, 0), length = fildwuk_sheet_length(a->sheet);
    size_t kept = 0;
    memcpy(room, a->sheet, HEADER);
    for (size_t i = 0; i < vertices; i++)
        if (keeps(a->sheet, i))
            put_field(room, HEADER + 2 * kept++, fildwuk_cell_vertex(a->sheet, 0, i, 0));
    const size_t less = 2 * (vertices - kept), rest = length - HEADER - 2 * vertices;
    memcpy(room + HEADER + 2 * kept, a->sheet + HEADER + 2 * vertices, rest);
    put_field(room, 0, kept);
    for (size_t p = 1; p < 4; p++)
        put_field(room, 4 * p + 2, fildwuk_sheet_field(a->sheet, 4 * p + 2) - less);
    if (a->swept_len < length - less)
        return FILDWUK_SHEET_TOO_LONG;
    memcpy(a->swept, room, length - less);
    return FILDWUK_DONE;
}

/* Whether a dimension has so many cells, or more. */
static int has(const uint8_t *sheet, size_t count) {
    for (uint32_t p = 0; p < 4; p++)
        if (fildwuk_cell_count(sheet, p) >= count)
            return 1;
    return 0;
}

/* The answer to a sheet that 1 to 7 refuse with `number`. */
static uint32_t refuse(const struct asked *a, uint32_t number) {
    if (is("tells 16 before 1 to 7") && a->swept_len < a->sheet_len)
        return FILDWUK_SHEET_TOO_LONG;
    if ((is("lets 4 pass") && number == 4 && a->sheet_len > fildwuk_sheet_length(a->sheet)) || (is("lets 5 pass") && number == 5) ||
        (is("lets 6 pass") && number == 6) || (is("lets 7 pass") && number == 7))
        return write_kept(a);
    if (number == FILDWUK_COUNT_EXCEEDS_LIMIT && is("takes a cell more than the limit") && !has(a->sheet, a->limit + 2))
        return fildwuk_library_sweep(a->sheet, a->sheet_len, a->swept, a->swept_len);
    if (number == FILDWUK_COUNT_EXCEEDS_LIMIT && is("counts what is left") &&
        fildwuk_library_sweep(a->sheet, a->sheet_len, room, sizeof room) == FILDWUK_DONE && !has(room, a->limit + 1))
        return fildwuk_library_sweep(a->sheet, a->sheet_len, a->swept, a->swept_len);
    if (number == FILDWUK_FACE_MISSING && is("writes and refuses with 7") && a->swept_len > 0)
        a->swept[0]++;
    return number;
}

/* Faults in what is written: the sheet of so many bytes. */
static void miswrite(const struct asked *a, size_t length) {
    if (is("keeps the old count"))
        put_field(a->swept, 0, fildwuk_cell_count(a->sheet, 0));
    if (is("keeps the old offsets"))
        for (size_t p = 0; p < 4; p++)
            put_field(a->swept, 4 * p + 2, fildwuk_sheet_field(a->sheet, 4 * p + 2));
    if (is("leaves out the last cell") && length > HEADER)
        put_field(a->swept, length - 2, 0);
    if (is("writes a byte past the sheet") && length < a->swept_len)
        a->swept[length]++;
    if (is("clears the rest of the slice"))
        memset(a->swept + length, 0, a->swept_len - length);
    if (is("writes another sheet the second time") && length > HEADER)
        a->swept[HEADER] = calls++;
}

/* The answer to a sheet that 1 to 7 let pass, of which the sweep leaves so many bytes. */
static uint32_t sweep(const struct asked *a, size_t length) {
    const uint8_t first = a->swept_len > 0 ? a->swept[0] : 0;
    if (is("tells 18") && length < a->sheet_len)
        return FILDWUK_LOOSE_NODE;
    if ((is("asks for the room of the given sheet") && a->swept_len < a->sheet_len) || (is("asks for a byte more") && a->swept_len == length))
        return FILDWUK_SHEET_TOO_LONG;
    if (is("takes a byte less") && a->swept_len + 1 == length)
        return FILDWUK_DONE;
    if (is("takes a cell less than the limit") && has(a->sheet, a->limit))
        return FILDWUK_COUNT_EXCEEDS_LIMIT;
    const uint32_t number = write_kept(a);
    if (number == FILDWUK_SHEET_TOO_LONG && is("writes and refuses with 16") && a->swept_len > 0)
        a->swept[0]++;
    if (number == FILDWUK_DONE)
        miswrite(a, length);
    if (number == FILDWUK_DONE && is("reads the slice") && first % 2 == 1)
        a->swept[HEADER - 1]++;
    return number;
}

/* Faults in the memory that the call is not lent, and in its time. */
static void stray(const struct asked *a) {
    if (is("reads past the sheet"))
        seen = a->sheet[a->sheet_len];
    if (is("reads before the sheet"))
        seen = a->sheet[-1];
    if (is("writes to the sheet") && a->sheet_len > 0)
        ((uint8_t *)(uintptr_t)a->sheet)[0] = 0;
    if (is("reads past the slice"))
        seen = a->swept[a->swept_len];
    if (is("writes past the slice"))
        a->swept[a->swept_len] = 0;
    if (is("writes before the slice"))
        a->swept[-1] = 0;
    if (is("takes long"))
        for (volatile uint32_t i = 0; i < 2000000000; i++)
            seen = 0;
}

static uint32_t faulty(sweep_call call, size_t limit, const uint8_t *sheet, size_t sheet_len, uint8_t *swept, size_t swept_len) {
    const struct asked a = {call, limit, sheet, sheet_len, swept, swept_len};
    stray(&a);
    if (is("none"))
        return call(sheet, sheet_len, swept, swept_len);
    const uint32_t number = call(sheet, sheet_len, room, sizeof room);
    if (is("answers another number the second time"))
        return number + (calls++ & 1);
    return number == FILDWUK_DONE ? sweep(&a, fildwuk_sheet_length(room)) : refuse(&a, number);
}

/* The report's answer with a fault in refusal 18, where the true answer is `number`. */
static uint32_t misjudge(const uint8_t *sheet, uint32_t number) {
    if (is("the report never tells 18") && number == FILDWUK_LOOSE_NODE)
        return FILDWUK_DIMENSION_EXCEEDS_TOP;
    if (is("the report tells 18 without edges") && number == FILDWUK_DIMENSION_EXCEEDS_TOP && fildwuk_cell_count(sheet, 0) > 0 &&
        fildwuk_cell_count(sheet, 1) == 0)
        return FILDWUK_LOOSE_NODE;
    for (size_t i = 0; is("the report tells 18 before 7") && number == FILDWUK_FACE_MISSING && i < fildwuk_cell_count(sheet, 0); i++)
        if (!in_cell(sheet, 1, ANY, fildwuk_cell_vertex(sheet, 0, i, 0), 0xffff))
            return FILDWUK_LOOSE_NODE;
    return number;
}

uint32_t faulty_report(const uint8_t *sheet, size_t sheet_len, uint32_t dimension, uint8_t *report, size_t report_len) {
    return misjudge(sheet, fildwuk_report(sheet, sheet_len, dimension, report, report_len));
}

uint32_t faulty_library_report(const uint8_t *sheet, size_t sheet_len, uint32_t dimension, int64_t *report, size_t report_len, int32_t *work,
                               size_t work_len) {
    return misjudge(sheet, fildwuk_library_report(sheet, sheet_len, dimension, report, report_len, work, work_len));
}

uint32_t faulty_sweep(const uint8_t *sheet, size_t sheet_len, uint8_t *swept, size_t swept_len) {
    return faulty(fildwuk_sweep, FILDWUK_CELLS, sheet, sheet_len, swept, swept_len);
}

uint32_t faulty_library_sweep(const uint8_t *sheet, size_t sheet_len, uint8_t *swept, size_t swept_len) {
    return faulty(fildwuk_library_sweep, FILDWUK_LIBRARY_CELLS, sheet, sheet_len, swept, swept_len);
}
