/* Bytes of files and names for a terminal. */
#include "escape.h"

#include <string.h>

/* The length that the first byte of a character in UTF-8 tells, 0 where it tells none. */
static size_t told_length(uint8_t first) {
    if (first < 0x80)
        return 1;
    if (first >= 0xc2 && first < 0xe0)
        return 2;
    if (first >= 0xe0 && first < 0xf0)
        return 3;
    return first >= 0xf0 && first < 0xf5 ? 4 : 0;
}

/* The number of the character of so many bytes, 0 where a byte after the first is none of UTF-8. */
static uint32_t character(const uint8_t *bytes, size_t length) {
    static const uint8_t FIRST_BITS[] = {0, 0x7f, 0x1f, 0x0f, 0x07};
    uint32_t found = bytes[0] & FIRST_BITS[length];
    for (size_t i = 1; i < length; i++) {
        if ((bytes[i] & 0xc0) != 0x80)
            return 0;
        found = found << 6 | (bytes[i] & 0x3f);
    }
    return found;
}

/* Whether a character may be shown: no control character, no surrogate, none that turns the direction, not written longer than due. */
static int shown(uint32_t found, size_t length) {
    static const uint32_t LEAST[] = {0, 0x20, 0xa0, 0x800, 0x10000};
    if (found < LEAST[length] || found == 0x7f || found > 0x10ffff || (found >= 0xd800 && found < 0xe000))
        return 0;
    return found != 0x61c && !(found >= 0x200b && found < 0x2010) && !(found >= 0x2028 && found < 0x2030) && !(found >= 0x2060 && found < 0x2070) &&
           found != 0xfeff;
}

/* The length of the character that the bytes start with, 0 where it is not to be shown. */
static size_t shown_length(const uint8_t *bytes, size_t left) {
    size_t length = told_length(bytes[0]);
    return length > 0 && length <= left && shown(character(bytes, length), length) ? length : 0;
}

/* Writes the bytes up to the end of the character that reaches a place. */
static void write_up_to(FILE *file, const uint8_t *bytes, size_t length, size_t end) {
    for (size_t at = 0; at < end;) {
        size_t step = shown_length(bytes + at, length - at);
        if (step > 0)
            fwrite(bytes + at, 1, step, file);
        else
            fprintf(file, "\\x%02x", bytes[at]);
        at += step > 0 ? step : 1;
    }
}

void write_escaped(FILE *file, const uint8_t *bytes, size_t length, size_t most) {
    write_up_to(file, bytes, length, length < most ? length : most);
    fputs(length > most ? " .." : "", file);
}

void write_quoted(FILE *file, const uint8_t *bytes, size_t length, size_t most) {
    fputc('"', file);
    write_up_to(file, bytes, length, length < most ? length : most);
    fputs(length > most ? "\" .." : "\"", file);
}

void write_name(FILE *file, const char *name) { write_escaped(file, (const uint8_t *)name, strlen(name), SIZE_MAX); }
