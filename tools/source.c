/* The sheet that a command works on. */
#include "source.h"

#include <errno.h>
#include <stdlib.h>
#include <string.h>

#include "fildwuk.h"
#include "fildwuk_library.h"
#include "hint.h"
#include "region.h"
#include "sheet.h"

static int failed(const char *why, FILE *err) {
    fprintf(err, "fildwuk: %s\n", why);
    return 0;
}

/* Imports a text into the source's sheet, which has room for the longest. Answers 0 where there is no memory to find the nodes that are dropped. */
static int import(const struct text *text, enum limit limit, struct source *source) {
    uint8_t *sheet = source->sheet.bytes;
    source->answer = limit == LIMIT_HOST ? fildwuk_import(text->bytes, text->length, sheet, FILDWUK_SHEET_BYTES)
                                         : fildwuk_library_import(text->bytes, text->length, sheet, FILDWUK_LIBRARY_SHEET_BYTES);
    source->sheet.length = source->answer == FILDWUK_DONE ? sheet_length(sheet) : 0;
    return source->answer != FILDWUK_DONE || loose_imported(text, sheet, &source->dropped);
}

int source_import(const struct options *options, const struct text *text, struct source *source, FILE *err) {
    struct text chosen = {NULL, 0};
    *source = (struct source){.text = text, .is_mesh = 1};
    if (options->no_tag != NULL)
        return region_no_tag(text, options->no_tag, err);
    if (options->region.total > 0 && !region_choose(text, &options->region, &chosen, err))
        return 0;
    source->sheet.bytes = calloc(1, FILDWUK_LIBRARY_SHEET_BYTES);
    int done = source->sheet.bytes != NULL && import(options->region.total > 0 ? &chosen : text, options->limit, source);
    input_free(&chosen);
    if (!done)
        source_free(source);
    return done || failed(strerror(ENOMEM), err);
}

int source_find(const struct options *options, const struct text *text, struct source *source, FILE *err) {
    if (input_is_mesh(text))
        return source_import(options, text, source, err);
    if ((options->region.total > 0 || options->no_tag != NULL) && !hint_is_text(text))
        return failed("--region is for a mesh, and the input is a sheet, which has no tags", err);
    *source = (struct source){.text = text, .sheet = {malloc(text->length + 1), text->length}};
    if (source->sheet.bytes == NULL)
        return failed(strerror(ENOMEM), err);
    if (text->length > 0)
        memcpy(source->sheet.bytes, text->bytes, text->length);
    return 1;
}

void source_free(struct source *source) { input_free(&source->sheet); }
