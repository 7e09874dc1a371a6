/* Bytes of files and names for a terminal. Printable ASCII and valid UTF-8 are written as they are. Control characters, characters that turn the
 * direction of writing, and bytes that are no UTF-8 are written as \xNN, and so is no byte that a terminal would obey. */
#ifndef ESCAPE_H
#define ESCAPE_H

#include <stddef.h>
#include <stdint.h>
#include <stdio.h>

/* Writes the first `most` bytes, and ` ..` where there are more. */
void write_escaped(FILE *file, const uint8_t *bytes, size_t length, size_t most);

/* The same in quotes, with ` ..` after them. */
void write_quoted(FILE *file, const uint8_t *bytes, size_t length, size_t most);

/* Writes a name in full. */
void write_name(FILE *file, const char *name);

#endif
