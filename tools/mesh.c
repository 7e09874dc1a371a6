/* A mesh text, found again in C beside the proved import. */
#include "mesh.h"

#include <stdlib.h>
#include <string.h>

#include "mesh_names.h"

enum { LAST_NODE = 65535 };

/* A text while it is read: what is found so far, and the room of its lists. */
struct reading {
    struct lines lines;
    struct mesh *mesh;
    struct mesh_fault *fault;
    size_t node_room, element_room, number_room;
    int no_memory;
};

/* Notes the line taken last as the first that is not of the form. */
static int fails(struct reading *reading, enum mesh_failing failing, const char *wanted) {
    *reading->fault = (struct mesh_fault){failing, reading->lines.number, reading->lines.content, wanted};
    return 0;
}

static int faulty(struct reading *reading, const char *wanted) { return fails(reading, MESH_LINE_DIFFERS, wanted); }

/* Takes the next line, which must be there, have an end and be of words. */
static int take_words(struct reading *reading, const char *wanted) {
    enum line_answer answer = lines_take(&reading->lines);
    if (answer != LINE_TAKEN)
        return fails(reading, answer == LINE_NONE ? MESH_ENDS : MESH_LINE_WITHOUT_END, wanted);
    return lines_has_words(&reading->lines) || faulty(reading, wanted);
}

/* Takes the next line, which must be one word. */
static int take_word(struct reading *reading, struct range *word, const char *wanted) {
    if (!take_words(reading, wanted))
        return 0;
    *word = lines_word(reading->lines.text, reading->lines.content, reading->lines.content.start);
    return word->end == reading->lines.content.end || faulty(reading, wanted);
}

/* Takes the next line, which must be this word. */
static int take_this(struct reading *reading, const char *wanted) {
    struct range word;
    return take_word(reading, &word, wanted) && (lines_word_is(reading->lines.text, word, wanted) || faulty(reading, wanted));
}

/* Takes the next line, which must be a number. */
static int take_count(struct reading *reading, struct range *word, uint32_t *count, const char *wanted) {
    return take_word(reading, word, wanted) && (lines_number(reading->lines.text, *word, count) || faulty(reading, wanted));
}

/* Makes room for one more item of a list. */
static int make_room(struct reading *reading, void **items, size_t count, size_t *room, size_t size) {
    if (count < *room)
        return 1;
    size_t more = *room == 0 ? 64 : 2 * *room;
    void *moved = more > SIZE_MAX / size ? NULL : realloc(*items, more * size);
    reading->no_memory = moved == NULL;
    if (moved == NULL)
        return 0;
    *items = moved;
    *room = more;
    return 1;
}

/* The next word of the line taken last, after a word. */
static struct range next_word(const struct reading *reading, struct range word) {
    return lines_word(reading->lines.text, reading->lines.content, word.end);
}

/* The first word of the line taken last. */
static struct range first_word(const struct reading *reading) {
    struct range content = reading->lines.content;
    return lines_word(reading->lines.text, content, content.start);
}

static int is_empty(struct range word) { return word.start == word.end; }

static int read_format(struct reading *reading) {
    static const char WANTED[] = "2.2 0 and a number";
    uint32_t size;
    if (!take_this(reading, "$MeshFormat") || !take_words(reading, WANTED))
        return 0;
    const struct text *text = reading->lines.text;
    struct range version = first_word(reading), kind = next_word(reading, version), last = next_word(reading, kind);
    if (!lines_word_is(text, version, "2.2") || !lines_word_is(text, kind, "0") || !lines_number(text, last, &size) ||
        !is_empty(next_word(reading, last)))
        return faulty(reading, WANTED);
    return take_this(reading, "$EndMeshFormat");
}

/* Whether the line taken last ends the section that this word opens. */
static int closes(const struct reading *reading, struct range opening) {
    static const char END[] = "$End";
    const uint8_t *bytes = reading->lines.text->bytes;
    struct range line = reading->lines.content;
    size_t name = opening.end - opening.start - 1;
    return line.end - line.start == name + 4 && memcmp(bytes + line.start, END, 4) == 0 &&
           memcmp(bytes + line.start + 4, bytes + opening.start + 1, name) == 0;
}

/* Passes over a section that this word opens. */
static int pass_section(struct reading *reading, struct range opening) {
    struct lines opened = reading->lines;
    while (lines_take(&reading->lines) == LINE_TAKEN)
        if (closes(reading, opening)) {
            if (lines_word_is(reading->lines.text, opening, "$PhysicalNames"))
                reading->no_memory = !mesh_names_read(&opened, &reading->lines, reading->mesh);
            return !reading->no_memory;
        }
    reading->lines = opened;
    return fails(reading, MESH_SECTION_OPEN, "a line that closes it");
}

/* Passes over the sections before $Nodes, and that line. */
static int pass_sections(struct reading *reading) {
    static const char WANTED[] = "a section, or $Nodes";
    const struct text *text = reading->lines.text;
    struct range opening;
    reading->mesh->names.start = reading->mesh->names.end = reading->lines.bytes.end;
    while (take_word(reading, &opening, WANTED)) {
        reading->mesh->nodes_start = opening.start;
        if (lines_word_is(text, opening, "$Nodes"))
            return 1;
        if (text->bytes[opening.start] != '$' || opening.end - opening.start == 1 || lines_word_is(text, opening, "$MeshFormat") ||
            lines_word_is(text, opening, "$Elements"))
            return faulty(reading, WANTED);
        if (!pass_section(reading, opening))
            return 0;
    }
    return 0;
}

static int read_node(struct reading *reading) {
    static const char WANTED[] = "a node number up to 65535 and three words";
    struct mesh *mesh = reading->mesh;
    uint32_t number;
    if (!take_words(reading, WANTED))
        return 0;
    struct range first = first_word(reading), word = first;
    for (int i = 0; i < 3; i++)
        if (is_empty(word = next_word(reading, word)))
            return faulty(reading, WANTED);
    if (!is_empty(next_word(reading, word)) || !lines_number(reading->lines.text, first, &number) || number > LAST_NODE)
        return faulty(reading, WANTED);
    if (!make_room(reading, (void **)&mesh->nodes, mesh->node_total, &reading->node_room, sizeof *mesh->nodes))
        return 0;
    mesh->nodes[mesh->node_total++] = (struct mesh_node){number, reading->lines.bytes};
    return 1;
}

static int read_nodes(struct reading *reading) {
    uint32_t count;
    if (!take_count(reading, &reading->mesh->node_count, &count, "the number of nodes"))
        return 0;
    for (uint32_t i = 0; i < count; i++)
        if (!read_node(reading))
            return 0;
    reading->mesh->nodes_end = reading->lines.bytes.end;
    return take_this(reading, "$EndNodes");
}

/* Reads the node numbers of an element, which follow its tags. */
static int read_element_nodes(struct reading *reading, struct mesh_element *element, struct range word) {
    struct mesh *mesh = reading->mesh;
    element->nodes = mesh->number_total;
    while (!is_empty(word = next_word(reading, word))) {
        uint32_t number;
        if (!lines_number(reading->lines.text, word, &number) || number > LAST_NODE)
            return faulty(reading, "node numbers up to 65535 after the tags");
        if (!make_room(reading, (void **)&mesh->numbers, mesh->number_total, &reading->number_room, sizeof *mesh->numbers))
            return 0;
        mesh->numbers[mesh->number_total++] = number;
        element->node_count++;
    }
    return 1;
}

/* Reads the tags of an element, and then its nodes. */
static int read_tags(struct reading *reading, struct mesh_element *element, struct range word) {
    for (uint32_t i = 0; i < element->tag_count; i++) {
        if (is_empty(word = next_word(reading, word)))
            return faulty(reading, "as many tags as its third word says");
        if (i == 0)
            element->has_physical = lines_number(reading->lines.text, word, &element->physical);
    }
    return read_element_nodes(reading, element, word);
}

static int read_element(struct reading *reading) {
    static const char WANTED[] = "an element: its number, kind, number of tags, tags and nodes";
    struct mesh *mesh = reading->mesh;
    const struct text *text = reading->lines.text;
    if (!take_words(reading, WANTED))
        return 0;
    struct mesh_element element = {.line = reading->lines.number, .bytes = reading->lines.bytes};
    struct range number = first_word(reading), kind = next_word(reading, number), tags = next_word(reading, kind);
    if (!lines_number(text, number, &element.number) || !lines_number(text, kind, &element.kind) || !lines_number(text, tags, &element.tag_count))
        return faulty(reading, WANTED);
    if (!read_tags(reading, &element, tags))
        return 0;
    if (!make_room(reading, (void **)&mesh->elements, mesh->element_total, &reading->element_room, sizeof *mesh->elements))
        return 0;
    mesh->elements[mesh->element_total++] = element;
    return 1;
}

static int read_elements(struct reading *reading) {
    uint32_t count;
    reading->mesh->elements_start = reading->lines.bytes.end;
    if (!take_this(reading, "$Elements") ||
        !take_count(reading, &reading->mesh->element_count, &count, "the number of elements"))
        return 0;
    for (uint32_t i = 0; i < count; i++)
        if (!read_element(reading))
            return 0;
    reading->mesh->elements_end = reading->lines.bytes.end;
    return take_this(reading, "$EndElements");
}

/* Holds that no line is left. */
static int read_end(struct reading *reading) {
    reading->mesh->line_total = reading->lines.number;
    return lines_take(&reading->lines) == LINE_NONE || faulty(reading, "the end of the text");
}

enum mesh_answer mesh_read(const struct text *text, struct mesh *mesh, struct mesh_fault *fault) {
    struct reading reading = {.lines = {.text = text}, .mesh = mesh, .fault = fault};
    *mesh = (struct mesh){.line_end = "\n"};
    *fault = (struct mesh_fault){.line = 0};
    if (read_format(&reading) && pass_sections(&reading) && read_nodes(&reading) && read_elements(&reading) && read_end(&reading)) {
        const uint8_t *feed = memchr(text->bytes, '\n', text->length);
        mesh->line_end = feed > text->bytes && feed[-1] == '\r' ? "\r\n" : "\n";
        return MESH_READ;
    }
    mesh_free(mesh);
    return reading.no_memory ? MESH_NO_MEMORY : MESH_MALFORMED;
}

void mesh_free(struct mesh *mesh) {
    free(mesh->nodes);
    free(mesh->elements);
    free(mesh->numbers);
    free(mesh->names_list);
    *mesh = (struct mesh){.line_end = "\n"};
}

/* Word k of a line, k from 0. */
static struct range word_of(const struct text *text, struct range line, uint32_t k) {
    struct range word = lines_word(text, line, line.start);
    while (k-- > 0)
        word = lines_word(text, line, word.end);
    return word;
}

/* A line without its end. */
static struct range without_end(const struct text *text, struct range line) {
    line.end--;
    line.end -= line.end > line.start && text->bytes[line.end - 1] == '\r';
    return line;
}

void mesh_coordinates(const struct text *text, const struct mesh_node *node, struct range words[3]) {
    struct range line = without_end(text, node->bytes);
    for (uint32_t k = 0; k < 3; k++)
        words[k] = word_of(text, line, k + 1);
}

struct range mesh_tag(const struct text *text, const struct mesh_element *element, uint32_t k) {
    return word_of(text, without_end(text, element->bytes), 3 + k);
}

size_t mesh_nodes_of_kind(uint32_t kind) {
    switch (kind) {
    case MESH_POINT: return 1;
    case MESH_LINE: return 2;
    case MESH_TRIANGLE: return 3;
    case MESH_TETRAHEDRON: return 4;
    default: return 0;
    }
}
