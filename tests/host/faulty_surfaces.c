/* The surface calls of the host and of the library with a fault, to see that the comparisons with the model tell it. The drivers are compiled to call
 * these in place of the true ones. The environment's FAULT names the fault; none is the control. */
#include <stdlib.h>
#include <string.h>

#include "fildwuk_library.h"

enum { MOST = FILDWUK_LIBRARY_CELLS };

/* A call in numbers: the chain, and the surface's slots. */
struct asked {
    const uint8_t *sheet;
    size_t sheet_len;
    uint32_t dimension;
    const int32_t *chain;
    size_t chain_len;
    int64_t *surface;
    size_t slots;
};

/* What the coordinates say of the chain: the answer, and whether a residue and a free coordinate differ from 0. */
struct class {
    uint32_t answer;
    int twisted, free;
};

static int32_t room[FILDWUK_LIBRARY_SURFACE_WORK_SLOTS_MOST];
static volatile int32_t seen;

static int is(const char *fault) { return strcmp(getenv("FAULT"), fault) == 0; }

static size_t cells(const struct asked *a) { return fildwuk_cell_count(a->sheet, a->dimension); }

static size_t cells_above(const struct asked *a) { return fildwuk_cell_count(a->sheet, a->dimension + 1); }

static struct class class_of(const struct asked *a) {
    static int64_t report[FILDWUK_LIBRARY_REPORT_SLOTS(MOST)], coordinates[MOST];
    struct class found = {fildwuk_library_report(a->sheet, a->sheet_len, a->dimension, report, sizeof report / 8, room, sizeof room / 4), 0, 0};
    if (found.answer == FILDWUK_DONE)
        found.answer = fildwuk_library_coordinates(a->sheet, a->sheet_len, a->dimension, a->chain, a->chain_len, coordinates, MOST, room,
                                                   sizeof room / 4);
    for (size_t i = 0; found.answer == FILDWUK_DONE && i < (size_t)(report[0] + report[1]); i++)
        *(i < (size_t)report[1] ? &found.twisted : &found.free) |= coordinates[i] != 0;
    return found;
}

/* The largest absolute value of a coefficient. */
static int64_t largest(const struct asked *a) {
    int64_t most = 0;
    for (size_t i = 0; i < a->chain_len; i++)
        most = llabs((long long)a->chain[i]) > most ? llabs((long long)a->chain[i]) : most;
    return most;
}

/* Whether a coefficient is -15. */
static int has_least(const struct asked *a) {
    for (size_t i = 0; i < a->chain_len; i++)
        if (a->chain[i] == -FILDWUK_SURFACE_COEFFICIENT_MOST)
            return 1;
    return 0;
}

/* The answer with a fault in a check of the chain or of its class, where the true answer is `number`. */
static uint32_t misjudge(const struct asked *a, uint32_t number) {
    const int64_t most = largest(a);
    if (number == FILDWUK_COEFFICIENT_EXCEEDS) {
        if ((is("takes coefficients up to 32767") && most <= 32767) || (is("takes 16") && most == 16))
            return FILDWUK_DONE;
        return is("tells 12 before 11") && class_of(a).answer == FILDWUK_BOUNDARY_NOT_ZERO ? FILDWUK_BOUNDARY_NOT_ZERO : number;
    }
    if (number == FILDWUK_DONE && most == FILDWUK_SURFACE_COEFFICIENT_MOST && (is("refuses 15") || (is("refuses -15") && has_least(a))))
        return FILDWUK_COEFFICIENT_EXCEEDS;
    if (number == FILDWUK_BOUNDS_NOTHING) {
        struct class of = class_of(a);
        return (is("lets twisted cycles pass") && !of.free) || (is("lets free cycles pass") && !of.twisted) ? FILDWUK_DONE : number;
    }
    if (number == FILDWUK_TOO_WIDE) {
        struct class of = class_of(a);
        if (is("tells 17 before 13") && (of.twisted || of.free))
            return FILDWUK_BOUNDS_NOTHING;
        return is("keeps the tracked columns out of the limit") && of.answer == FILDWUK_DONE ? FILDWUK_DONE : number;
    }
    if (is("tells 10 before 9") && number == FILDWUK_SLICE_TOO_SHORT && a->chain_len != cells(a))
        return FILDWUK_CHAIN_LENGTH_DIFFERS;
    if (is("asks for a slot for each cell of the chain") && (number == FILDWUK_DONE || number == FILDWUK_BOUNDS_NOTHING) && a->slots < cells(a))
        return FILDWUK_SLICE_TOO_SHORT;
    return number;
}

/* Adds a cycle of the next dimension, where there is one. */
static void add_cycle(const struct asked *a) {
    static int64_t report[FILDWUK_LIBRARY_REPORT_SLOTS(MOST)];
    size_t n = cells_above(a);
    uint32_t answer = fildwuk_library_report(a->sheet, a->sheet_len, a->dimension + 1, report, sizeof report / 8, room, sizeof room / 4);
    for (size_t i = 0; answer == FILDWUK_DONE && report[0] > 0 && i < n; i++)
        a->surface[i] += report[2 + report[1] + report[1] * (int64_t)n + (int64_t)i];
}

/* Faults in what is written. */
static void miswrite(const struct asked *a, uint32_t number) {
    size_t n = number == FILDWUK_DONE || number == FILDWUK_BOUNDS_NOTHING ? cells_above(a) : 0;
    if (number == FILDWUK_BOUNDS_NOTHING && is("writes a surface and answers 17"))
        memset(a->surface, 0, 8 * n);
    if (number != FILDWUK_DONE)
        return;
    if (is("writes the slot past the surface") && n < a->slots)
        a->surface[n] = 0;
    if (is("leaves out the last coefficient") && n > 0)
        a->surface[n - 1] = 0;
    for (size_t i = 0; i < n && is("answers the surface the other way round"); i++)
        a->surface[i] = -a->surface[i];
    if (is("answers another surface"))
        add_cycle(a);
}

/* Faults in what is left in the work slice, which held `before`. */
static void miswork(const struct asked *a, uint32_t number, int32_t *work, size_t work_len, const int32_t *before) {
    int cleared = number == FILDWUK_DONE || number == FILDWUK_TOO_WIDE || number == FILDWUK_BOUNDS_NOTHING;
    size_t used = cleared ? FILDWUK_LIBRARY_SURFACE_WORK_SLOTS(cells(a), fildwuk_cell_count(a->sheet, a->dimension - 1), cells_above(a)) : 0;
    if ((is("leaves the work slice after 17") && number == FILDWUK_BOUNDS_NOTHING) ||
        (is("leaves the work slice after 13") && number == FILDWUK_TOO_WIDE))
        memcpy(work, before, 4 * work_len);
    if (is("clears the work slice after an early refusal") && !cleared)
        memset(work, 0, 4 * work_len);
    if (is("leaves the tracked columns in the work slice") && number == FILDWUK_DONE && cells_above(a) > 0)
        work[used - 1] = 1;
    if (is("clears no more of the work slice than it uses") && cleared)
        memcpy(work + used, before + used, 4 * (work_len - used));
}

/* Faults of the library's call in the memory that it is not lent. */
static void stray(const struct asked *a, int32_t *work, size_t work_len) {
    if (is("reads past the sheet"))
        seen = a->sheet[a->sheet_len];
    if (is("reads past the chain"))
        seen = a->chain[a->chain_len];
    if (is("writes to the chain") && a->chain_len > 0)
        ((int32_t *)(uintptr_t)a->chain)[0] = 0;
    if (is("writes past the lent surface"))
        a->surface[a->slots] = 0;
    if (is("writes before the lent surface"))
        a->surface[-1] = 0;
    if (is("writes past the work slice"))
        work[work_len] = 0;
    if (is("writes before the work slice"))
        work[-1] = 0;
}

/* The host's call, with the fault in it by way of numbers. */
uint32_t faulty_surface(const uint8_t *sheet, size_t sheet_len, uint32_t dimension, const uint8_t *chain, size_t chain_len, uint8_t *surface,
                        size_t surface_len) {
    static int32_t coefficients[4 * MOST];
    static int64_t numbers[4 * MOST];
    struct asked a = {sheet, sheet_len, dimension, coefficients, chain_len / 4, numbers, surface_len / 8};
    uint32_t number = fildwuk_surface(sheet, sheet_len, dimension, chain, chain_len, surface, surface_len);
    if (a.chain_len > 4 * MOST || a.slots > 4 * MOST)
        return number;
    for (size_t i = 0; i < a.chain_len; i++)
        coefficients[i] = fildwuk_get_coefficient(chain, i);
    for (size_t i = 0; i < a.slots; i++)
        numbers[i] = fildwuk_get_number(surface, i);
    if (is("takes an incomplete coefficient") && number == FILDWUK_CHAIN_LENGTH_DIFFERS && a.chain_len == cells(&a))
        return FILDWUK_DONE;
    if (is("takes an incomplete slot") && number == FILDWUK_SLICE_TOO_SHORT && surface_len % 8 != 0 && a.slots + 1 == cells_above(&a))
        return FILDWUK_DONE;
    miswrite(&a, number);
    for (size_t i = 0; i < a.slots; i++)
        fildwuk_put_number(surface, i, numbers[i]);
    return misjudge(&a, number);
}

uint32_t faulty_library_surface(const uint8_t *sheet, size_t sheet_len, uint32_t dimension, const int32_t *chain, size_t chain_len,
                                int64_t *surface, size_t surface_len, int32_t *work, size_t work_len) {
    struct asked a = {sheet, sheet_len, dimension, chain, chain_len, surface, surface_len};
    int32_t *before = malloc(4 * work_len + 4);
    if (before == NULL)
        exit(2);
    memcpy(before, work, 4 * work_len);
    uint32_t number = fildwuk_library_surface(sheet, sheet_len, dimension, chain, chain_len, surface, surface_len, work, work_len);
    if (is("asks for the work slots of the coordinates") && number == FILDWUK_SLICE_TOO_SHORT && surface_len >= cells_above(&a) &&
        work_len >= FILDWUK_LIBRARY_WORK_SLOTS(cells(&a), fildwuk_cell_count(sheet, dimension - 1), cells_above(&a)))
        number = fildwuk_library_surface(sheet, sheet_len, dimension, chain, chain_len, surface, surface_len, room, sizeof room / 4);
    miswrite(&a, number);
    if (is("reads the work slice") && number == FILDWUK_DONE && work_len > 0 && before[0] != 0 && cells_above(&a) > 0)
        surface[0]++;
    miswork(&a, number, work, work_len, before);
    stray(&a, work, work_len);
    free(before);
    return misjudge(&a, number);
}
