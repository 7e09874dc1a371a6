/* The words of a command line after the command. */
#include "options.h"

#include <errno.h>
#include <stdlib.h>
#include <string.h>

#include "escape.h"

enum { MOST_DIGITS = 9, MOST_TAGS = 1000 };

/* The words that are still to be read, for which command, and where to say what is wrong. */
struct words {
    char **next, **end;
    const char *command;
    uint32_t takes;
    FILE *err;
};

/* A row of the table of options: what it is called, the bit a command must take, what is wanted after it, and what it does. */
struct row {
    const char *name;
    uint32_t bit;
    int (*set)(struct words *words, struct options *options);
};

static int misused(const struct words *words, const char *what, const char *word) {
    fprintf(words->err, "fildwuk: %s", what);
    write_name(words->err, word);
    fprintf(words->err, " (fildwuk %s --help)\n", words->command);
    return 0;
}

/* Reads a word as a number of one to nine digits. Answers 0 where it is none. */
static int read_number(const char *word, uint32_t *number) {
    size_t digits = strspn(word, "0123456789");
    if (digits == 0 || digits > MOST_DIGITS || word[digits] != 0)
        return 0;
    *number = (uint32_t)strtoul(word, NULL, 10);
    return 1;
}

/* Adds a tag to a list. */
static int add_tag(const struct words *words, struct tags *tags, uint32_t tag) {
    uint32_t *moved = tags->total == MOST_TAGS ? NULL : realloc(tags->list, (tags->total + 1) * sizeof *moved);
    if (moved == NULL)
        return misused(words, tags->total == MOST_TAGS ? "there are more than 1000 tags" : strerror(ENOMEM), "");
    tags->list = moved;
    tags->list[tags->total++] = tag;
    return 1;
}

/* Puts the word after an option into its place, which may hold none yet. */
static int set_file(struct words *words, const char **place, const char *what, const char *option) {
    if (words->next == words->end || *place != NULL)
        return misused(words, what, option);
    *place = *words->next++;
    return 1;
}

static int set_output(struct words *words, struct options *options) { return set_file(words, &options->output, "one file is wanted after ", "-o"); }

/* The same of a file that is written beside the report, which standard output has. */
static int set_beside(struct words *words, const char **place, const char *option) {
    if (!set_file(words, place, "one file is wanted after ", option))
        return 0;
    return strcmp(*place, "-") != 0 || misused(words, "standard output has the report: a file is wanted after ", option);
}

static int set_groups(struct words *words, struct options *options) { return set_beside(words, &options->groups, "--groups"); }

static int set_view(struct words *words, struct options *options) { return set_beside(words, &options->view, "--view"); }

static int set_dimension(struct words *words, struct options *options) {
    if (options->has_dimension || words->next == words->end || !read_number(*words->next, &options->dimension))
        return misused(words, "one number is wanted after ", "--dimension");
    words->next++;
    return options->has_dimension = 1;
}

static int set_form(struct words *words, struct options *options, enum form form) {
    if (options->form != FORM_WORDS)
        return misused(words, "one of --plain and --json is wanted, ", "once");
    options->form = form;
    return 1;
}

static int set_plain(struct words *words, struct options *options) { return set_form(words, options, FORM_PLAIN); }

static int set_json(struct words *words, struct options *options) { return set_form(words, options, FORM_JSON); }

static int set_limit(struct words *words, struct options *options) {
    const char *word = words->next == words->end ? "" : *words->next;
    if (strcmp(word, "host") != 0 && strcmp(word, "library") != 0)
        return misused(words, "host or library is wanted after ", "--limit");
    options->limit = strcmp(word, "host") == 0 ? LIMIT_HOST : LIMIT_LIBRARY;
    words->next++;
    return 1;
}

/* Takes the numbers that follow as tags, one at least. Another word after the file is kept, so that the tags of the file can be told. */
static int set_region(struct words *words, struct options *options) {
    uint32_t tag;
    int none = words->next == words->end || !read_number(*words->next, &tag);
    if (none && words->next < words->end && words->next[0][0] != '-' && options->input != NULL && options->no_tag == NULL) {
        options->no_tag = *words->next++;
        return 1;
    }
    if (none)
        return misused(words, "physical tags are wanted after ", "--region");
    for (; words->next < words->end && read_number(*words->next, &tag); words->next++)
        if (!add_tag(words, &options->region, tag))
            return 0;
    return 1;
}

static int set_help(struct words *words, struct options *options) {
    words->next = words->end;
    return options->help = 1;
}

static const struct row TABLE[] = {
    {"-o", OPTION_OUTPUT, set_output},       {"--dimension", OPTION_DIMENSION, set_dimension}, {"--plain", OPTION_PLAIN, set_plain},
    {"--json", OPTION_JSON, set_json},       {"--region", OPTION_REGION, set_region},          {"--limit", OPTION_LIMIT, set_limit},
    {"--groups", OPTION_GROUPS, set_groups}, {"--view", OPTION_VIEW, set_view},                {"--help", 0, set_help},
    {"-h", 0, set_help},
};

/* Reads an option, whose word has been taken. */
static int read_option(struct words *words, const char *word, struct options *options) {
    for (size_t i = 0; i < sizeof TABLE / sizeof *TABLE; i++)
        if (strcmp(word, TABLE[i].name) == 0 && (TABLE[i].bit == 0 || (words->takes & TABLE[i].bit) != 0))
            return TABLE[i].set(words, options);
    return misused(words, "there is no option ", word);
}

/* Reads a word that is no option: the file, or after it a tag. */
static int read_operand(struct words *words, const char *word, struct options *options) {
    uint32_t tag;
    if (options->input == NULL) {
        options->input = word;
        return 1;
    }
    if ((words->takes & OPTION_TAGS) == 0)
        return misused(words, "one file is wanted, not also ", word);
    if (!read_number(word, &tag))
        return misused(words, "a physical tag is a number, not ", word);
    return add_tag(words, &options->tags, tag);
}

enum options_answer options_read(int count, char **given, uint32_t takes, const char *command, struct options *options, FILE *err) {
    struct words words = {given, given + count, command, takes, err};
    int only_operands = 0;
    *options = (struct options){.input = NULL};
    while (words.next < words.end) {
        const char *word = *words.next++;
        int is_option = !only_operands && word[0] == '-' && word[1] != 0;
        if (is_option && strcmp(word, "--") == 0)
            only_operands = 1;
        else if (!(is_option ? read_option(&words, word, options) : read_operand(&words, word, options)))
            return OPTIONS_MISUSED;
    }
    return OPTIONS_READ;
}

void options_free(struct options *options) {
    free(options->region.list);
    free(options->tags.list);
    options->region = options->tags = (struct tags){NULL, 0};
}

int tags_have(const struct tags *tags, uint32_t tag) {
    for (size_t i = 0; i < tags->total; i++)
        if (tags->list[i] == tag)
            return 1;
    return 0;
}
