/* A mesh text with some of its elements. */
#include "chosen.h"

#include <stdio.h>
#include <stdlib.h>
#include <string.h>

enum { COUNT_DIGITS = 10 };

static void add(struct text *chosen, const struct text *text, size_t start, size_t end) {
    if (end > start)
        memcpy(chosen->bytes + chosen->length, text->bytes + start, end - start);
    chosen->length += end - start;
}

int chosen_text(const struct text *text, const struct mesh *mesh, const uint8_t *keep, struct text *chosen) {
    size_t count = 0, first = mesh->element_total > 0 ? mesh->elements[0].bytes.start : mesh->elements_end;
    *chosen = (struct text){malloc(text->length + COUNT_DIGITS + 1), 0};
    if (chosen->bytes == NULL)
        return 0;
    for (size_t i = 0; i < mesh->element_total; i++)
        count += keep[i] != 0;
    add(chosen, text, 0, mesh->element_count.start);
    chosen->length += (size_t)snprintf((char *)chosen->bytes + chosen->length, COUNT_DIGITS + 1, "%zu", count);
    add(chosen, text, mesh->element_count.end, first);
    for (size_t i = 0; i < mesh->element_total; i++)
        if (keep[i])
            add(chosen, text, mesh->elements[i].bytes.start, mesh->elements[i].bytes.end);
    add(chosen, text, mesh->elements_end, text->length);
    return 1;
}
