/* The input of a command, read whole from a file or from standard input. */
#ifndef INPUT_H
#define INPUT_H

#include <stddef.h>
#include <stdint.h>
#include <stdio.h>

/* The most bytes that are read of a mesh text. A longer input is a failure, so that an endless one ends. */
#define INPUT_MOST_TEXT ((size_t)512 << 20)

/* The most bytes that are read of an input that is no mesh: more than any sheet has, so that they settle the answer. */
#define INPUT_MOST_SHEET ((size_t)1 << 20)

/* Bytes that are held until input_free. They may be null where there are none. */
struct text {
    uint8_t *bytes;
    size_t length;
};

/* Whether a name stands for standard input: none, or `-`. */
int input_is_standard(const char *name);

/* The name for messages. */
const char *input_name(const char *name);

/* Whether the text is to be read as a mesh: it starts with `$`, and no 0 follows. A sheet with 36 vertices starts with the bytes 36, which is `$`,
 * and 0. */
int input_is_mesh(const struct text *text);

/* Reads the input of this name. Answers 1, or 0 where that fails, says why and holds nothing. Where standard input is a terminal, says what it
 * waits for (`what`, as "a mesh or a sheet"). */
int input_read(const char *name, const char *what, struct text *text, FILE *err);

void input_free(struct text *text);

#endif
