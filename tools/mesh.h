/* A mesh text, MSH 2.2 ASCII, found again in C beside the proved import: where its lines, nodes, elements and physical names stand.
 *
 * mesh_read takes exactly the texts that the proved import does not refuse with 14 (the tests hold the two to each other). Elements may still be
 * faulty, as the import refuses with 15: element_first_fault (element.h) finds that. All places are bytes from the start of the text, and a range goes
 * from its first byte to before its end (struct range, lines.h). The mesh keeps no pointer into the text: give the same text to the functions that ask
 * for it. Lines are numbered from 1.
 *
 * To write a text again with elements and names added, copy
 *     [0, names.start)          and put a section of names here where has_names is 0, else copy
 *     [names.start, names_count.start), the new count for names_count, [names_count.end, names_end), new lines of names, and then
 *     [names_end, element_count.start)       (with has_names 0: [names.start, element_count.start)), the new count for element_count,
 *     [element_count.end, elements_end), new lines of elements, [elements_end, length of the text).
 * A new line ends in line_end. names.start without names is the place after `$EndMeshFormat`.
 */
#ifndef MESH_H
#define MESH_H

#include <stddef.h>
#include <stdint.h>

#include "input.h"
#include "lines.h"

enum { MESH_POINT = 15, MESH_LINE = 1, MESH_TRIANGLE = 2, MESH_TETRAHEDRON = 4 };

/* A line of $Nodes: the node's number, and where its line starts and ends (with its line feed). mesh_coordinates gives its words. */
struct mesh_node {
    uint32_t number;
    struct range bytes;
};

/* A line of $Elements. */
struct mesh_element {
    size_t line;           /* the number of its line */
    struct range bytes;    /* its line, with its line feed */
    uint32_t number, kind; /* its first two words */
    uint32_t tag_count;    /* its third */
    int has_physical;      /* whether its first tag is a number of one to nine digits */
    uint32_t physical;     /* that number, 0 where there is none */
    size_t nodes;          /* its node numbers, in the order written, are mesh.numbers[nodes] and on */
    size_t node_count;
};

/* A line of $PhysicalNames: `1 10 "loop 1"`. */
struct mesh_name {
    uint32_t dimension, tag;
    struct range name; /* without the quotes */
};

struct mesh {
    struct mesh_node *nodes;
    size_t node_total;
    struct mesh_element *elements;
    size_t element_total;
    uint32_t *numbers;
    size_t number_total;
    struct mesh_name *names_list;
    size_t name_total;
    size_t line_total;
    const char *line_end; /* "\n", or "\r\n" where the first line ends so */

    /* The first section $PhysicalNames, where its lines are a count and that many names. has_names is 0 where there is none; names_odd is 1 where there
     * is one that is not so, or a second one: then names_list has what could be read, and lines of names cannot be added. */
    int has_names, names_odd;
    struct range names;       /* the whole section, with its last line feed */
    struct range names_count; /* the word of its count */
    size_t names_end;         /* the first byte of $EndPhysicalNames */

    size_t nodes_start;         /* the first byte of $Nodes */
    struct range node_count;    /* the word of the count of nodes */
    size_t nodes_end;           /* the first byte of $EndNodes */
    size_t elements_start;      /* the first byte of $Elements */
    struct range element_count; /* the word of the count of elements */
    size_t elements_end;        /* the first byte of $EndElements */
};

/* How a text fails to be of the form. */
enum mesh_failing { MESH_LINE_DIFFERS, MESH_LINE_WITHOUT_END, MESH_SECTION_OPEN, MESH_ENDS };

/* The first line of a text that is not of the form, and what is wanted. Where the text ends too early (MESH_ENDS) it is the last line, or 0 where
 * there is none; of a section that no line closes it is the first. */
struct mesh_fault {
    enum mesh_failing failing;
    size_t line;
    struct range bytes; /* the line without its end */
    const char *wanted;
};

enum mesh_answer { MESH_READ, MESH_MALFORMED, MESH_NO_MEMORY };

/* Reads a text. After MESH_READ the mesh is filled, to be given to mesh_free; after MESH_MALFORMED the fault is. */
enum mesh_answer mesh_read(const struct text *text, struct mesh *mesh, struct mesh_fault *fault);

void mesh_free(struct mesh *mesh);

/* The three coordinate words of a node. */
void mesh_coordinates(const struct text *text, const struct mesh_node *node, struct range words[3]);

/* The k-th tag of an element as a word, k from 0 and below tag_count. */
struct range mesh_tag(const struct text *text, const struct mesh_element *element, uint32_t k);

/* The number of nodes that a kind asks for; 0 where it is no point, line, triangle or tetrahedron. */
size_t mesh_nodes_of_kind(uint32_t kind);

#endif
