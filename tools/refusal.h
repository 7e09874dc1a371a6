/* What is said of a refusal: its number, its meaning in words, and where the fault stands, found in C after the proved call has refused. */
#ifndef REFUSAL_H
#define REFUSAL_H

#include <stddef.h>
#include <stdint.h>
#include <stdio.h>

#include "options.h"
#include "source.h"

/* A refusal of a proved call on a source. */
struct refusal {
    uint32_t number;
    const struct options *options;
    const struct source *source;
    int has_dimension; /* whether the call was about one dimension, which its message names */
    uint32_t dimension;
};

/* The meaning of a refusal's number in words, without a full stop. */
const char *refusal_meaning(uint32_t number);

/* Writes where the fault stands, as whole sentences in one line without its end; nothing where it is not sure. */
void refusal_where(const struct refusal *refusal, FILE *file);

/* Says a refusal on the stream for messages: the input's name, the number, the meaning, where, and what helps. Answers STATUS_REFUSED. */
int refusal_tell(const struct refusal *refusal, FILE *err);

#endif
