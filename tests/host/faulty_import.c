/* Imports with a fault, to see that the driver tells it. The environment's FAULT names it; none is the control. These calls know no meshes: a text
 * is refused with the number in its first byte, and after 0 gives the sheet with no cells. */
#include <stdlib.h>
#include <string.h>

#include "fildwuk_library.h"

enum { SHEET = 16 };

static volatile uint8_t seen;
static uint8_t calls;

static int is(const char *fault) { return strcmp(getenv("FAULT"), fault) == 0; }

/* The faults that any call may have. */
static void touch(const uint8_t *text, size_t text_len, uint8_t *sheet, size_t sheet_len) {
    if (is("reads past the text"))
        seen = text[text_len];
    if (is("reads before the text"))
        seen = text[-1];
    if (is("writes to the text"))
        ((uint8_t *)(uintptr_t)text)[0] = 0;
    if (is("reads past the slice"))
        seen = sheet[sheet_len];
    if (is("writes past the slice"))
        sheet[sheet_len] = 0;
    if (is("writes before the slice"))
        sheet[-1] = 0;
    if (is("walks over 999,999,999 lines"))
        for (volatile uint32_t i = 0; i < 999999999; i++)
            seen = 0;
}

static void write_sheet(uint8_t *sheet) {
    memset(sheet, 0, SHEET);
    for (int p = 0; p < 4; p++)
        sheet[4 * p + 2] = SHEET;
    if (is("writes past the sheet"))
        sheet[SHEET]++;
    if (is("writes another sheet the second time"))
        sheet[0] = calls++;
    if (is("tells more bytes than the slice has"))
        sheet[15] = 1;
}

static uint32_t import(const uint8_t *text, size_t text_len, uint8_t *sheet, size_t sheet_len) {
    uint32_t number = text[0];
    touch(text, text_len, sheet, sheet_len);
    if (number == FILDWUK_DONE && (sheet_len >= SHEET || is("is done without room for a header"))) {
        if (sheet_len >= SHEET)
            write_sheet(sheet);
        return FILDWUK_DONE;
    }
    if (is("writes to the slice and refuses"))
        sheet[0]++;
    return is("answers another number the second time") ? number + calls++ : number + (number == 0);
}

uint32_t fildwuk_import(const uint8_t *text, size_t text_len, uint8_t *sheet, size_t sheet_len) { return import(text, text_len, sheet, sheet_len); }

uint32_t fildwuk_library_import(const uint8_t *text, size_t text_len, uint8_t *sheet, size_t sheet_len) {
    return import(text, text_len, sheet, sheet_len);
}
