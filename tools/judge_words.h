/* A judgement in words, and as a JSON object. */
#ifndef JUDGE_WORDS_H
#define JUDGE_WORDS_H

#include <stdio.h>

#include "docket.h"
#include "judgement.h"

/* Writes a line on the region, one on each group, also on those left out, one on all together with the reasons, and what helps. */
void judge_write_words(FILE *file, const struct docket *docket, const struct source *region, const struct judgement *judgement);

/* Writes one object. docs/COMMAND.md says what it holds. */
void judge_write_json(FILE *file, const struct docket *docket, const struct source *region, const struct judgement *judgement);

#endif
