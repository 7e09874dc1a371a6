/* Host calls with a fault, to see that the driver tells it. The environment's FAULT names it; none is the control. These calls know no sheets: a
 * chain is refused with the number in its first byte, and otherwise has one coordinate, its second byte, which is its surface too. */
#include <stdlib.h>
#include <string.h>

#include "fildwuk.h"

static volatile uint8_t seen;

static int is(const char *fault) { return strcmp(getenv("FAULT"), fault) == 0; }

/* The faults that any call may have. */
static void touch(const uint8_t *sheet, size_t sheet_len, const uint8_t *chains, size_t chains_len, uint8_t *output, size_t output_len) {
    if (is("reads past the sheet"))
        seen = sheet[sheet_len];
    if (is("reads before the sheet"))
        seen = sheet[-1];
    if (is("writes to the sheet"))
        ((uint8_t *)(uintptr_t)sheet)[0] = 0;
    if (is("reads past the chains"))
        seen = chains[chains_len];
    if (is("reads before the chains"))
        seen = chains[-1];
    if (is("writes to the chains"))
        ((uint8_t *)(uintptr_t)chains)[0] = 0;
    if (is("writes past the output"))
        output[output_len] = 0;
    if (is("writes before the output"))
        output[-1] = 0;
}

/* What a refused call answers. */
static uint32_t refused(uint32_t number, uint8_t *output) {
    static uint32_t calls;
    if (is("writes to the output and refuses"))
        output[0] = (uint8_t)(output[0] + 1);
    return is("answers another number the second time") ? number + calls++ : number;
}

static void write_list(uint8_t *list, uint8_t coordinate) {
    static uint8_t calls;
    memset(list, 0, 8);
    list[0] = is("writes another output the second time") ? calls++ : coordinate;
}

uint32_t fildwuk_report(const uint8_t *sheet, size_t sheet_len, uint32_t dimension, uint8_t *report, size_t report_len) {
    touch(sheet, sheet_len, sheet, sheet_len, report, report_len);
    return dimension == 0 ? FILDWUK_DONE : refused(dimension, report);
}

uint32_t fildwuk_coordinates(const uint8_t *sheet, size_t sheet_len, uint32_t dimension, const uint8_t *chain, size_t chain_len,
                             uint8_t *coordinates, size_t coordinates_len) {
    touch(sheet, sheet_len, chain, chain_len, coordinates, coordinates_len);
    if (dimension != 0 || chain[0] != 0)
        return refused(dimension != 0 ? dimension : chain[0], coordinates);
    write_list(coordinates, chain[1]);
    return FILDWUK_DONE;
}

uint32_t fildwuk_surface(const uint8_t *sheet, size_t sheet_len, uint32_t dimension, const uint8_t *chain, size_t chain_len, uint8_t *surface,
                         size_t surface_len) {
    return fildwuk_coordinates(sheet, sheet_len, dimension, chain, chain_len, surface, surface_len);
}

/* The answer that the chains decide, each of so many bytes. */
static uint32_t check_chains(uint32_t number, const uint8_t *chains, size_t chain_len, uint8_t *coordinates) {
    uint32_t told = 0;
    for (size_t i = 0; i < number; i++) {
        const uint8_t *chain = chains + i * chain_len;
        if (chain[0] != 0 && (told == 0 || is("lets the last faulty chain decide")))
            told = chain[0];
        if (told == 0 && is("writes lists before all chains are checked"))
            write_list(coordinates + 2 * i * chain_len, chain[1]);
    }
    return told;
}

static void write_lists(uint32_t number, const uint8_t *chains, size_t chain_len, uint8_t *coordinates) {
    size_t apart = is("writes the lists without the slots between") ? 8 : 2 * chain_len;
    for (size_t i = 0; i < number; i++)
        write_list(coordinates + i * apart, is("writes the first list for all") ? chains[1] : chains[i * chain_len + 1]);
    if (is("writes between the lists"))
        coordinates[8] = 1;
    if (is("writes past the last list"))
        coordinates[2 * number * chain_len] = 1;
}

uint32_t fildwuk_coordinate_lists(const uint8_t *sheet, size_t sheet_len, uint32_t dimension, uint32_t number, const uint8_t *chains,
                                  size_t chains_len, uint8_t *coordinates, size_t coordinates_len) {
    touch(sheet, sheet_len, chains, chains_len, coordinates, coordinates_len);
    if (is("walks over the number of chains"))
        for (volatile uint32_t i = 0; i < number; i++)
            seen = 0;
    if (dimension != 0)
        return refused(dimension, coordinates);
    if (chains_len == 0)
        return FILDWUK_DONE;
    uint32_t told = check_chains(number, chains, chains_len / number, coordinates);
    if (told != 0)
        return refused(told, coordinates);
    write_lists(number, chains, chains_len / number, coordinates);
    return FILDWUK_DONE;
}
