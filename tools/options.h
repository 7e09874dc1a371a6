/* The words of a command line after the command: one table has every option of every command. */
#ifndef OPTIONS_H
#define OPTIONS_H

#include <stddef.h>
#include <stdint.h>
#include <stdio.h>

/* What a command takes besides a file, as bits. */
enum option {
    OPTION_OUTPUT = 1,     /* -o FILE */
    OPTION_DIMENSION = 2,  /* --dimension P */
    OPTION_PLAIN = 4,      /* --plain */
    OPTION_REGION = 8,     /* --region TAG .. */
    OPTION_LIMIT = 16,     /* --limit host|library */
    OPTION_GROUPS = 32,    /* --groups FILE */
    OPTION_VIEW = 64,      /* --view FILE */
    OPTION_TAGS = 128,     /* numbers after the file */
    OPTION_JSON = 256      /* --json */
};

enum form { FORM_WORDS, FORM_PLAIN, FORM_JSON };

/* The limit of cells in a dimension: the library's calls or the host calls. */
enum limit { LIMIT_LIBRARY, LIMIT_HOST };

/* A list of physical tags. */
struct tags {
    uint32_t *list;
    size_t total;
};

struct options {
    const char *input;   /* null where no file is named; input.h has what stands for standard input */
    const char *output;  /* null where -o is not given */
    const char *groups, *view;
    int has_dimension;
    uint32_t dimension;
    enum form form;
    enum limit limit;
    struct tags region;  /* empty where --region is not given */
    const char *no_tag;  /* the word after --region that is no number; null where there is none */
    struct tags tags;    /* the numbers after the file */
    int help;
};

enum options_answer { OPTIONS_READ, OPTIONS_MISUSED };

/* Reads the words of a command that takes these options. After OPTIONS_MISUSED it has said why on `err`. Give the options to options_free after
 * either. */
enum options_answer options_read(int count, char **words, uint32_t takes, const char *command, struct options *options, FILE *err);

void options_free(struct options *options);

/* Whether a tag is in the list. */
int tags_have(const struct tags *tags, uint32_t tag);

#endif
