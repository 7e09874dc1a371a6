/* The lines of a mesh text and their words, as docs/FORMAT.md has them: a line feed, with or without a carriage return before it, ends a line; one or
 * more spaces part words and stand nowhere else. */
#ifndef LINES_H
#define LINES_H

#include <stddef.h>
#include <stdint.h>

#include "input.h"

/* Bytes of a text, from the first one to before the end. */
struct range {
    size_t start, end;
};

/* The lines of a text, taken one after another. */
struct lines {
    const struct text *text;
    size_t number;        /* of the line taken last, from 1; 0 before the first */
    struct range bytes;   /* of that line, with its end */
    struct range content; /* of that line, without its end */
};

enum line_answer { LINE_TAKEN, LINE_NONE, LINE_WITHOUT_END };

/* Takes the next line. After LINE_WITHOUT_END it is the last line, which no line feed ends. */
enum line_answer lines_take(struct lines *lines);

/* Whether the line taken last has words, parted by spaces, with none before the first and after the last. */
int lines_has_words(const struct lines *lines);

/* The first word at or after a place in a range, empty at the range's end where there is none. */
struct range lines_word(const struct text *text, struct range within, size_t from);

/* Whether a word is this one. */
int lines_word_is(const struct text *text, struct range word, const char *wanted);

/* Whether a word is a number of one to nine decimal digits, which is then put into `number`. */
int lines_number(const struct text *text, struct range word, uint32_t *number);

#endif
