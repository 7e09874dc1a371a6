/* Runs commands of fildwuk in process, for a test harness. Standard input holds requests, one after another: the number of words, the words and a text,
 * each with its length before it, all numbers as 4 bytes, low byte first. The first word is the command. For each request standard output gets the exit
 * status, and what the command wrote to its output and as messages, each with its length before it. */
#include <stdlib.h>
#include <string.h>

#include "commands.h"

enum { MOST_WORDS = 64 };

/* A 4-byte number of standard input; 0 where the input ends. */
static int read_number(uint32_t *number) {
    uint8_t bytes[4];
    if (fread(bytes, 1, 4, stdin) != 4)
        return 0;
    *number = (uint32_t)bytes[0] | (uint32_t)bytes[1] << 8 | (uint32_t)bytes[2] << 16 | (uint32_t)bytes[3] << 24;
    return 1;
}

static void write_number(uint32_t number) {
    uint8_t bytes[4] = {(uint8_t)number, (uint8_t)(number >> 8), (uint8_t)(number >> 16), (uint8_t)(number >> 24)};
    fwrite(bytes, 1, 4, stdout);
}

/* Bytes of standard input with their length before them, exactly as many, so that a sanitizer sees one read beyond them. */
static uint8_t *read_bytes(size_t *length, int ended) {
    uint32_t number;
    if (!read_number(&number))
        exit(2);
    uint8_t *bytes = malloc((size_t)number + (size_t)ended);
    if ((bytes == NULL && number > 0) || fread(bytes, 1, number, stdin) != number)
        exit(2);
    if (ended)
        bytes[number] = 0;
    *length = number;
    return bytes;
}

static void write_bytes(char *bytes, size_t length) {
    write_number((uint32_t)length);
    fwrite(bytes, 1, length, stdout);
    free(bytes);
}

/* Runs a command on the text with the words after its name. */
static int run(uint32_t count, char **words, const struct text *text, const struct console *console) {
    const struct command *command = command_find(words[0]);
    struct options options;
    if (command == NULL)
        exit(2);
    int status = STATUS_FAILED;
    if (options_read((int)count - 1, words + 1, command->takes, command->name, &options, console->err) == OPTIONS_READ)
        status = command->run(&options, text, console);
    options_free(&options);
    return status;
}

/* Runs a request and writes what it gave. */
static void answer(uint32_t count, char **words, const struct text *text) {
    char *out, *err;
    size_t out_length, err_length;
    struct console console = {open_memstream(&out, &out_length), open_memstream(&err, &err_length)};
    if (console.out == NULL || console.err == NULL)
        exit(2);
    int status = run(count, words, text, &console);
    fclose(console.out);
    fclose(console.err);
    write_number((uint32_t)status);
    write_bytes(out, out_length);
    write_bytes(err, err_length);
    fflush(stdout);
}

int main(void) {
    uint32_t count;
    while (read_number(&count)) {
        char *words[MOST_WORDS];
        struct text text;
        size_t length;
        if (count == 0 || count > MOST_WORDS)
            return 2;
        for (uint32_t i = 0; i < count; i++)
            words[i] = (char *)read_bytes(&length, 1);
        text.bytes = read_bytes(&text.length, 0);
        answer(count, words, &text);
        for (uint32_t i = 0; i < count; i++)
            free(words[i]);
        free(text.bytes);
    }
    return 0;
}
