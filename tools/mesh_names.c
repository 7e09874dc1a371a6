/* The section $PhysicalNames of a mesh text. */
#include "mesh_names.h"

#include <stdlib.h>

/* Reads the line taken last as a name: a dimension, a tag, and a name in quotes. Answers 0 where it is none. */
static int read_name(const struct lines *lines, struct mesh_name *name) {
    const struct text *text = lines->text;
    struct range line = lines->content, dimension = lines_word(text, line, line.start), tag = lines_word(text, line, dimension.end);
    if (!lines_number(text, dimension, &name->dimension) || !lines_number(text, tag, &name->tag))
        return 0;
    struct range word = lines_word(text, line, tag.end);
    size_t end = line.end;
    while (end > word.start && text->bytes[end - 1] == ' ')
        end--;
    if (end < word.start + 2 || text->bytes[word.start] != '"' || text->bytes[end - 1] != '"')
        return 0;
    name->name = (struct range){word.start + 1, end - 1};
    return 1;
}

/* Adds a name to the list. Answers 0 where there is no memory. */
static int add_name(struct mesh *mesh, size_t *room, const struct mesh_name *name) {
    if (mesh->name_total == *room) {
        size_t more = *room == 0 ? mesh->name_total + 16 : 2 * *room;
        struct mesh_name *moved = realloc(mesh->names_list, more * sizeof *moved);
        if (moved == NULL)
            return 0;
        mesh->names_list = moved;
        *room = more;
    }
    mesh->names_list[mesh->name_total++] = *name;
    return 1;
}

/* Reads the line after the opening one as the count of names. Answers 0 where it is none. */
static int read_count(struct lines *lines, struct range *word, uint32_t *count) {
    if (lines_take(lines) != LINE_TAKEN)
        return 0;
    *word = lines_word(lines->text, lines->content, lines->content.start);
    return lines_number(lines->text, *word, count) && lines_word(lines->text, lines->content, word->end).start == lines->content.end;
}

int mesh_names_read(const struct lines *opened, const struct lines *closed, struct mesh *mesh) {
    struct lines lines = *opened;
    struct range count_word;
    uint32_t count, found = 0;
    size_t room = mesh->name_total;
    if (mesh->has_names || !read_count(&lines, &count_word, &count) || lines.number >= closed->number) {
        mesh->names_odd = 1;
        return 1;
    }
    while (lines_take(&lines) == LINE_TAKEN && lines.number < closed->number) {
        struct mesh_name name;
        if (!read_name(&lines, &name))
            mesh->names_odd = 1;
        else if (!add_name(mesh, &room, &name))
            return 0;
        else
            found++;
    }
    if (found != count)
        mesh->names_odd = 1;
    mesh->has_names = 1;
    mesh->names = (struct range){opened->bytes.start, closed->bytes.end};
    mesh->names_count = count_word;
    mesh->names_end = closed->bytes.start;
    return 1;
}
