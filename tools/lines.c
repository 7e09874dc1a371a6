/* The lines of a mesh text and their words. */
#include "lines.h"

#include <string.h>

enum { MOST_DIGITS = 9 };

enum line_answer lines_take(struct lines *lines) {
    const struct text *text = lines->text;
    size_t start = lines->bytes.end;
    if (start == text->length)
        return LINE_NONE;
    const uint8_t *feed = memchr(text->bytes + start, '\n', text->length - start);
    size_t end = feed == NULL ? text->length : (size_t)(feed - text->bytes);
    lines->number++;
    lines->bytes = (struct range){start, feed == NULL ? end : end + 1};
    int returned = feed != NULL && end > start && text->bytes[end - 1] == '\r';
    lines->content = (struct range){start, returned ? end - 1 : end};
    return feed == NULL ? LINE_WITHOUT_END : LINE_TAKEN;
}

int lines_has_words(const struct lines *lines) {
    const uint8_t *bytes = lines->text->bytes;
    struct range line = lines->content;
    if (line.start == line.end || bytes[line.start] == ' ' || bytes[line.end - 1] == ' ')
        return 0;
    return memchr(bytes + line.start, '\r', line.end - line.start) == NULL;
}

struct range lines_word(const struct text *text, struct range within, size_t from) {
    struct range word = {from, from};
    while (word.start < within.end && text->bytes[word.start] == ' ')
        word.start++;
    for (word.end = word.start; word.end < within.end && text->bytes[word.end] != ' ';)
        word.end++;
    return word;
}

int lines_word_is(const struct text *text, struct range word, const char *wanted) {
    size_t length = strlen(wanted);
    return word.end - word.start == length && memcmp(text->bytes + word.start, wanted, length) == 0;
}

int lines_number(const struct text *text, struct range word, uint32_t *number) {
    uint32_t found = 0;
    if (word.end == word.start || word.end - word.start > MOST_DIGITS)
        return 0;
    for (size_t at = word.start; at < word.end; at++) {
        uint8_t digit = text->bytes[at];
        if (digit < '0' || digit > '9')
            return 0;
        found = 10 * found + (uint32_t)(digit - '0');
    }
    *number = found;
    return 1;
}
