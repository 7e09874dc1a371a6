/* The input of a command. */
#include "input.h"

#include <errno.h>
#include <stdlib.h>
#include <string.h>
#include <unistd.h>

#include "escape.h"

enum { FIRST_ROOM = 65536 };

int input_is_standard(const char *name) { return name == NULL || strcmp(name, "-") == 0; }

const char *input_name(const char *name) { return input_is_standard(name) ? "standard input" : name; }

int input_is_mesh(const struct text *text) {
    return text->length > 0 && text->bytes[0] == '$' && (text->length == 1 || text->bytes[1] != 0);
}

void input_free(struct text *text) {
    free(text->bytes);
    *text = (struct text){NULL, 0};
}

/* Says why the input cannot be read. */
static int failed(const char *name, const char *why, FILE *err) {
    fputs("fildwuk: cannot read ", err);
    write_name(err, input_name(name));
    fprintf(err, ": %s\n", why);
    return 0;
}

/* The most bytes that are wanted of an input that starts like this one. */
static size_t most_of(const struct text *text) { return input_is_mesh(text) ? INPUT_MOST_TEXT : INPUT_MOST_SHEET; }

/* Doubles the room of a text. Answers 0 where there is no memory. */
static int make_room(struct text *text, size_t *room) {
    uint8_t *more = realloc(text->bytes, *room == 0 ? FIRST_ROOM : 2 * *room);
    if (more == NULL)
        return 0;
    *room = *room == 0 ? FIRST_ROOM : 2 * *room;
    text->bytes = more;
    return 1;
}

/* Reads to the end, or until more bytes stand there than are wanted. Answers why it fails, or null. */
static const char *read_all(FILE *file, struct text *text) {
    size_t room = 0;
    for (;;) {
        if (text->length == room && !make_room(text, &room))
            return strerror(ENOMEM);
        size_t wanted = room - text->length, found = fread(text->bytes + text->length, 1, wanted, file);
        text->length += found;
        if (text->length > most_of(text))
            return input_is_mesh(text) ? "it has more than 512 MiB" : NULL;
        if (found < wanted)
            return ferror(file) ? strerror(errno) : NULL;
    }
}

/* Says on a terminal what is waited for. */
static void tell_wait(const char *what, FILE *err) {
    if (isatty(STDIN_FILENO))
        fprintf(err, "fildwuk: waiting for %s on the terminal; Ctrl-D ends it (fildwuk --help)\n", what);
}

int input_read(const char *name, const char *what, struct text *text, FILE *err) {
    *text = (struct text){NULL, 0};
    int standard = input_is_standard(name);
    if (standard)
        tell_wait(what, err);
    FILE *file = standard ? stdin : fopen(name, "rb");
    if (file == NULL)
        return failed(name, strerror(errno), err);
    const char *why = read_all(file, text);
    if (!standard)
        fclose(file);
    if (why == NULL)
        return 1;
    input_free(text);
    return failed(name, why, err);
}
