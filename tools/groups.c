/* Chains as physical groups in a mesh text. */
#include "groups.h"

#include <inttypes.h>

#include "physical.h"

/* Numbers of elements have nine digits, tags are those of a C int of Gmsh's. Elementary tags start high, since low ones meet the curves of a geometry
 * where files are merged. */
enum { MOST_NUMBER = 999999999, FIRST_ENTITY = 1000000 };

static int refuse(FILE *err, const char *why) {
    fprintf(err, "fildwuk: no groups can be added: %s\n", why);
    return 0;
}

/* The value of a word of one to nine digits. Answers 0 where it is none. */
static int number_of(const struct text *text, struct range word, uint32_t *number) {
    *number = 0;
    for (size_t i = word.start; i < word.end; i++) {
        if (text->bytes[i] < '0' || text->bytes[i] > '9')
            return 0;
        *number = *number * 10 + (text->bytes[i] - '0');
    }
    return word.end > word.start && word.end - word.start <= 9;
}

static void raise(uint32_t *greatest, uint32_t number) {
    if (number > *greatest)
        *greatest = number;
}

/* The greatest numbers that a text has of each kind. */
struct greatest {
    uint32_t tag, entity, element;
};

/* Takes the numbers of an element. Answers 0 where a tag is no number. */
static int take_element(const struct text *text, const struct mesh_element *element, struct greatest *greatest) {
    uint32_t entity;
    raise(&greatest->element, element->number);
    if (element->tag_count >= 1 && !element->has_physical)
        return 0;
    raise(&greatest->tag, element->physical);
    if (element->tag_count >= 2) {
        if (!number_of(text, mesh_tag(text, element, 1), &entity))
            return 0;
        raise(&greatest->entity, entity);
    }
    return 1;
}

static int take_numbers(const struct text *text, const struct mesh *mesh, struct greatest *greatest, FILE *err) {
    for (size_t i = 0; i < mesh->name_total; i++)
        raise(&greatest->tag, mesh->names_list[i].tag);
    for (size_t i = 0; i < mesh->element_total; i++)
        if (!take_element(text, &mesh->elements[i], greatest)) {
            fprintf(err, "fildwuk: no groups can be added: a tag of line %zu is no number of one to nine digits\n", mesh->elements[i].line);
            return 0;
        }
    return 1;
}

int groups_plan(const struct text *text, const struct mesh *mesh, const struct chains *chains, struct groups *groups, FILE *err) {
    struct greatest greatest = {0, FIRST_ENTITY, 0};
    size_t total = chains->total;
    if (!chains_fit(chains, err) || !take_numbers(text, mesh, &greatest, err))
        return 0;
    if (mesh->names_odd)
        return refuse(err, "its section $PhysicalNames is not a count and that many lines of a dimension, a tag and a name in quotes");
    groups->elements = 0;
    for (size_t k = 0; k < total; k++)
        groups->elements += chains_elements(chains, k);
    if (total > MOST_NUMBER - greatest.tag || greatest.tag + total > MOST_NUMBER - greatest.entity)
        return refuse(err, "its tags are too great for new ones of nine digits");
    if (groups->elements > MOST_NUMBER - greatest.element || groups->elements > MOST_NUMBER - mesh->element_total)
        return refuse(err, "its element numbers are too great for new ones of nine digits");
    groups->first_tag = greatest.tag + 1;
    groups->first_entity = greatest.entity + groups->first_tag;
    groups->first_element = greatest.element + 1;
    return 1;
}

static void copy(FILE *file, const struct text *text, size_t start, size_t end) {
    if (end > start)
        fwrite(text->bytes + start, 1, end - start, file);
}

/* What the lines of the groups are made of. */
struct content {
    const struct mesh *mesh;
    const struct chains *chains;
    const struct groups *groups;
};

static void write_names(FILE *file, struct content content) {
    for (size_t k = 0; k < content.chains->total; k++) {
        fprintf(file, "%" PRIu32 " %zu \"", content.chains->dimension, content.groups->first_tag + k);
        chains_write_name(file, content.chains, k);
        fprintf(file, "\"%s", content.mesh->line_end);
    }
}

/* Writes the copies of one element, numbered on from `number`. Answers the next number. */
static size_t write_copies(FILE *file, struct content content, size_t k, size_t i, size_t number) {
    uint16_t nodes[SHEET_DIMENSIONS];
    uint32_t dimension = content.chains->dimension;
    uint64_t copies = chains_element(content.chains, k, i, nodes);
    for (; copies > 0; copies--, number++) {
        fprintf(file, "%zu %" PRIu32 " 2 %zu %zu", number, physical_kind(dimension), content.groups->first_tag + k, content.groups->first_entity + k);
        for (uint32_t j = 0; j <= dimension; j++)
            fprintf(file, " %u", nodes[j]);
        fputs(content.mesh->line_end, file);
    }
    return number;
}

static void write_elements(FILE *file, struct content content) {
    size_t number = content.groups->first_element;
    for (size_t k = 0; k < content.chains->total; k++)
        for (size_t i = 0; i < content.chains->cells; i++)
            number = write_copies(file, content, k, i, number);
}

/* Writes the text up to the count of elements, with the names. */
static void write_head(FILE *file, const struct text *text, struct content content) {
    const struct mesh *mesh = content.mesh;
    size_t total = content.chains->total;
    copy(file, text, 0, mesh->names.start);
    if (mesh->has_names && total > 0) {
        copy(file, text, mesh->names.start, mesh->names_count.start);
        fprintf(file, "%zu", mesh->name_total + total);
        copy(file, text, mesh->names_count.end, mesh->names_end);
        write_names(file, content);
        copy(file, text, mesh->names_end, mesh->element_count.start);
        return;
    }
    if (total > 0) {
        fprintf(file, "$PhysicalNames%s%zu%s", mesh->line_end, total, mesh->line_end);
        write_names(file, content);
        fprintf(file, "$EndPhysicalNames%s", mesh->line_end);
    }
    copy(file, text, mesh->names.start, mesh->element_count.start);
}

void groups_write(FILE *file, const struct text *text, const struct mesh *mesh, const struct chains *chains, const struct groups *groups) {
    struct content content = {mesh, chains, groups};
    write_head(file, text, content);
    if (groups->elements > 0)
        fprintf(file, "%zu", mesh->element_total + groups->elements);
    else
        copy(file, text, mesh->element_count.start, mesh->element_count.end);
    copy(file, text, mesh->element_count.end, mesh->elements_end);
    write_elements(file, content);
    copy(file, text, mesh->elements_end, text->length);
}

void groups_tell_one(FILE *file, const char *before, const struct chains *chains, const struct groups *groups, size_t k) {
    size_t elements = chains_elements(chains, k);
    if (groups->first_tag > 0)
        fprintf(file, "%sgroup %zu \"", before, groups->first_tag + k);
    else
        fprintf(file, "%sview \"", before);
    chains_write_name(file, chains, k);
    fputs("\": ", file);
    chains_write_kind(file, chains, k);
    fprintf(file, ", %zu %s\n", elements, physical_element_name(chains->dimension, elements));
}

void groups_tell(FILE *file, const char *before, const struct chains *chains, const struct groups *groups) {
    if (chains->total == 0)
        fprintf(file, "%sno %s, and so no group and no view\n", before, chains_word(chains));
    for (size_t k = 0; k < chains->total; k++)
        groups_tell_one(file, before, chains, groups, k);
}
