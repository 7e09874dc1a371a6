/* Runs a command of fildwuk on a file again and again, each time with another of its allocations failing, and once with none: malloc, calloc and realloc
 * of tools/ are wrapped by the linker (-Wl,--wrap). Usage: command_memory FILE COMMAND [WORD ..]. The words are those of the command line without the
 * file's name, for which the file is read. Where an allocation fails, the command must say so and end with status 2, or still say a refusal, whose place
 * it may leave out; a sanitizer tells what it leaks. Ends with 0 where all do, and prints how many allocations failed and the status without a
 * failure. */
#include <errno.h>
#include <stdio.h>
#include <stdlib.h>
#include <string.h>

#include "commands.h"

void *__real_malloc(size_t size);
void *__real_calloc(size_t number, size_t size);
void *__real_realloc(void *room, size_t size);
void *__wrap_malloc(size_t size);
void *__wrap_calloc(size_t number, size_t size);
void *__wrap_realloc(void *room, size_t size);

/* The allocations to go until one fails, and whether it has failed. */
static long left;
static int has_failed;

static int fails(void) {
    if (left-- != 0)
        return 0;
    errno = ENOMEM;
    return has_failed = 1;
}

void *__wrap_malloc(size_t size) { return fails() ? NULL : __real_malloc(size); }

void *__wrap_calloc(size_t number, size_t size) { return fails() ? NULL : __real_calloc(number, size); }

void *__wrap_realloc(void *room, size_t size) { return fails() ? NULL : __real_realloc(room, size); }

/* Runs the command with the allocation of this number failing. Answers its status, or -1 where one failed and was not told. */
static int run(const struct command *command, int count, char **words, const struct text *text, long number) {
    char *said = NULL;
    size_t length = 0;
    FILE *out = fopen("/dev/null", "w"), *err = open_memstream(&said, &length);
    struct console console = {out, err};
    struct options options;
    int status = STATUS_FAILED;
    if (out == NULL || err == NULL)
        exit(2);
    left = number;
    has_failed = 0;
    if (options_read(count, words, command->takes, command->name, &options, err) == OPTIONS_READ)
        status = command->run(&options, text, &console);
    options_free(&options);
    left = -1;
    fclose(out);
    fclose(err);
    const char *due = status == STATUS_REFUSED ? "is refused with" : strerror(ENOMEM);
    int told = status != STATUS_DONE && strstr(said, due) != NULL;
    if (has_failed && !told)
        printf("allocation %ld fails, status %d, told: %s\n", number, status, said);
    free(said);
    return has_failed && !told ? -1 : status;
}

/* Reads a file into a text of exactly its length. */
static struct text read_file(const char *name) {
    FILE *file = fopen(name, "rb");
    struct text text = {NULL, 0};
    if (file == NULL || fseek(file, 0, SEEK_END) != 0)
        exit(2);
    text.length = (size_t)ftell(file);
    text.bytes = __real_malloc(text.length + 1);
    rewind(file);
    if (text.bytes == NULL || fread(text.bytes, 1, text.length, file) != text.length)
        exit(2);
    fclose(file);
    return text;
}

int main(int argc, char **argv) {
    const struct command *command = argc < 3 ? NULL : command_find(argv[2]);
    if (command == NULL)
        return 2;
    struct text text = read_file(argv[1]);
    argv[2] = argv[1];
    int status = 0, wrong = 0;
    long number = 0;
    for (;; number++) {
        status = run(command, argc - 2, argv + 2, &text, number);
        wrong += status == -1;
        if (!has_failed)
            break;
    }
    printf("%ld allocations, %d not told, then status %d\n", number, wrong, status);
    free(text.bytes);
    return wrong > 0;
}
