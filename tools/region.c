/* The elements of a mesh text that --region names. */
#include "region.h"

#include <errno.h>
#include <stdlib.h>
#include <string.h>

#include "chosen.h"
#include "escape.h"

enum { NAME_SHOWN = 40, TAGS_SHOWN = 20 };

/* The place of an element's tag in the region, SIZE_MAX where it has none there. */
static size_t place_of(const struct tags *region, const struct mesh_element *element) {
    for (size_t i = 0; element->has_physical && i < region->total; i++)
        if (region->list[i] == element->physical)
            return i;
    return SIZE_MAX;
}

/* The most nodes that an element with this tag has, of the kinds that are read: one more than the highest dimension; 0 where there is none. */
static size_t most_nodes(const struct mesh *mesh, uint32_t tag) {
    size_t most = 0;
    for (size_t i = 0; i < mesh->element_total; i++) {
        const struct mesh_element *element = &mesh->elements[i];
        size_t nodes = mesh_nodes_of_kind(element->kind);
        if (element->has_physical && element->physical == tag && nodes > most)
            most = nodes;
    }
    return most;
}

/* Marks the elements of the region, whose tags have these most nodes. */
static void mark(const struct mesh *mesh, const struct tags *region, const size_t *most, uint8_t *marks) {
    for (size_t i = 0; i < mesh->element_total; i++) {
        size_t place = place_of(region, &mesh->elements[i]), nodes = mesh_nodes_of_kind(mesh->elements[i].kind);
        marks[i] = region->total == 0 || (place != SIZE_MAX && (nodes == 0 || nodes == most[place]));
    }
}

uint8_t *region_marks(const struct mesh *mesh, const struct tags *region) {
    size_t *most = calloc(region->total + 1, sizeof *most);
    uint8_t *marks = most == NULL ? NULL : calloc(mesh->element_total + 1, 1);
    for (size_t i = 0; marks != NULL && i < region->total; i++)
        most[i] = most_nodes(mesh, region->list[i]);
    if (marks != NULL)
        mark(mesh, region, most, marks);
    free(most);
    return marks;
}

int region_takes(const struct mesh *mesh, const struct tags *region, uint32_t dimension, uint32_t tag) {
    return tags_have(region, tag) && most_nodes(mesh, tag) == dimension + 1;
}

static int no_memory(FILE *err) {
    fprintf(err, "fildwuk: %s\n", strerror(ENOMEM));
    return 0;
}

/* Makes the text with the elements of the region alone. Answers 0 where there is no memory. */
static int choose(const struct text *text, const struct mesh *mesh, const struct tags *region, struct text *chosen) {
    uint8_t *keep = region_marks(mesh, region);
    int done = keep != NULL && chosen_text(text, mesh, keep, chosen);
    free(keep);
    return done;
}

/* Copies a text. Answers 0 where there is no memory. */
static int copy(const struct text *text, struct text *chosen) {
    *chosen = (struct text){malloc(text->length + 1), text->length};
    if (chosen->bytes != NULL && text->length > 0)
        memcpy(chosen->bytes, text->bytes, text->length);
    return chosen->bytes != NULL;
}

/* Whether an element has this tag. */
static int is_met(const struct mesh *mesh, uint32_t tag) {
    for (size_t i = 0; i < mesh->element_total; i++)
        if (mesh->elements[i].has_physical && mesh->elements[i].physical == tag)
            return 1;
    return 0;
}

/* The least tag of an element that is greater than the last one told; 0 where there is none. */
static int next_tag(const struct mesh *mesh, const uint32_t *last, uint32_t *next) {
    int found = 0;
    for (size_t i = 0; i < mesh->element_total; i++) {
        const struct mesh_element *element = &mesh->elements[i];
        if (!element->has_physical || (last != NULL && element->physical <= *last) || (found && element->physical >= *next))
            continue;
        *next = element->physical;
        found = 1;
    }
    return found;
}

/* Writes the names of a tag, each in quotes. */
static void write_names(const struct text *text, const struct mesh *mesh, uint32_t tag, FILE *err) {
    for (size_t i = 0; i < mesh->name_total; i++)
        if (mesh->names_list[i].tag == tag) {
            struct range name = mesh->names_list[i].name;
            fputs(" \"", err);
            write_escaped(err, text->bytes + name.start, name.end - name.start, NAME_SHOWN);
            fputc('"', err);
        }
}

/* Writes the tags of the elements with their names, and ends the line. */
static void write_tags(const struct text *text, const struct mesh *mesh, FILE *err) {
    uint32_t last = 0, next = 0;
    for (int told = 0; next_tag(mesh, told == 0 ? NULL : &last, &next); told++, last = next) {
        if (told == TAGS_SHOWN) {
            fputs(", ..", err);
            break;
        }
        fprintf(err, "%s%u", told == 0 ? "; the tags are " : ", ", (unsigned)next);
        write_names(text, mesh, next, err);
    }
    fputs("\n", err);
}

/* Says that no element has a tag, and which tags there are. */
static int missing(const struct text *text, const struct mesh *mesh, uint32_t tag, FILE *err) {
    fprintf(err, "fildwuk: no element has the physical tag %u", (unsigned)tag);
    write_tags(text, mesh, err);
    return 0;
}

int region_no_tag(const struct text *text, const char *word, FILE *err) {
    struct mesh mesh;
    struct mesh_fault fault;
    fputs("fildwuk: physical tags are wanted after --region, numbers, not ", err);
    write_name(err, word);
    if (mesh_read(text, &mesh, &fault) == MESH_READ) {
        write_tags(text, &mesh, err);
        mesh_free(&mesh);
    } else {
        fputs("\n", err);
    }
    return 0;
}

/* Holds that every tag is that of an element. Tags are few beside elements: each is looked for by itself. */
static int all_met(const struct text *text, const struct mesh *mesh, const struct tags *region, FILE *err) {
    for (size_t i = 0; i < region->total; i++)
        if (!is_met(mesh, region->list[i]))
            return missing(text, mesh, region->list[i], err);
    return 1;
}

int region_choose(const struct text *text, const struct tags *region, struct text *chosen, FILE *err) {
    struct mesh mesh;
    struct mesh_fault fault;
    enum mesh_answer answer = mesh_read(text, &mesh, &fault);
    *chosen = (struct text){NULL, 0};
    if (answer == MESH_MALFORMED)
        return copy(text, chosen) || no_memory(err);
    if (answer == MESH_NO_MEMORY)
        return no_memory(err);
    int met = all_met(text, &mesh, region, err), done = met && choose(text, &mesh, region, chosen);
    mesh_free(&mesh);
    return done || (met && no_memory(err));
}
