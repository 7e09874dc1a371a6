/* fildwuk: the command for people, over the proved calls. commands.c has the table of its commands. */
#include <string.h>
#include <unistd.h>

#include "commands.h"
#include "escape.h"
#include "fildwuk.h"
#include "input.h"
#include "output.h"

static void write_help(FILE *out) {
    fputs("usage: fildwuk [COMMAND] [FILE] [OPTION ..]\n"
          "\n"
          "Verified homology of conductor meshes. FILE is a mesh in MSH 2.2 ASCII, as\n"
          "`gmsh -format msh22` writes it, or a sheet; without FILE, or where it is -,\n"
          "standard input is read. Where the first word is no command, it is a file to\n"
          "report on.\n"
          "\n",
          out);
    for (size_t i = 0; command_at(i) != NULL; i++)
        fprintf(out, "  %-8s %s\n", command_at(i)->name, command_at(i)->line);
    fputs("\n"
          "`fildwuk COMMAND --help` says more, `fildwuk --version` which release this is.\n"
          "Exit status: 0 done, 1 refused, judged wrong or without a surface, 2 unreadable,\n"
          "unwritable or misused.\n",
          out);
}

/* Runs a command on the input that its options name. */
static int run_on_input(const struct command *command, const struct options *options, const struct console *console) {
    struct text text;
    if (command->can_begin != NULL && !command->can_begin(options, console->err))
        return STATUS_FAILED;
    if (!input_read(options->input, command->what, &text, console->err))
        return STATUS_FAILED;
    int status = command->run(options, &text, console);
    input_free(&text);
    return status;
}

/* Runs a command with the words after it. */
static int run(const struct command *command, int count, char **words, const struct console *console) {
    struct options options;
    int status = STATUS_FAILED;
    if (options_read(count, words, command->takes, command->name, &options, console->err) == OPTIONS_READ) {
        status = options.help ? STATUS_DONE : run_on_input(command, &options, console);
        if (options.help)
            fputs(command->help, console->out);
    }
    options_free(&options);
    return status;
}

/* Whether a word can only have been meant as a command: no file has this name, and it has no full stop, no slash and no dash. */
static int is_mistyped(const char *word) { return strpbrk(word, "./-") == NULL && access(word, F_OK) != 0; }

static int mistyped(const char *word, FILE *err) {
    fputs("fildwuk: there is neither a command nor a file ", err);
    write_name(err, word);
    fputs(" (fildwuk --help)\n", err);
    return STATUS_FAILED;
}

/* Runs what the words ask for. */
static int run_words(int count, char **words, const struct console *console) {
    const char *first = count > 0 ? words[0] : "-";
    const struct command *command = command_find(first);
    if (command != NULL)
        return run(command, count - 1, words + 1, console);
    if (strcmp(first, "--version") == 0) {
        fprintf(console->out, "fildwuk %s\n", FILDWUK_VERSION);
        return STATUS_DONE;
    }
    if (strcmp(first, "--help") == 0 || strcmp(first, "-h") == 0) {
        write_help(console->out);
        return STATUS_DONE;
    }
    return is_mistyped(first) ? mistyped(first, console->err) : run(command_at(0), count, words, console);
}

int main(int argc, char **argv) {
    struct output output;
    if (!output_begin(&output, NULL, NULL, stderr))
        return STATUS_FAILED;
    struct console console = {output.file, stderr};
    int status = run_words(argc > 0 ? argc - 1 : 0, argv + 1, &console);
    return output_end(&output, stderr) ? status : STATUS_FAILED;
}
