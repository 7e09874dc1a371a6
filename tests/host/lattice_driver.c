/* Answers tools/lattice.c for tests/compare_lattice.py. Standard input holds matrices: two numbers, rows and columns, then the numbers row by row. For
 * each, standard output gets one line: the answer of the span (0, or 1 where it is refused) and, where it is 0, rank, index, for each row 1 where it
 * is independent, the answer of the relations and, where it is 0, the relations row by row; then the content of each row, and for each two rows
 * the number that makes the first of the second, 0 where there is none. A matrix of orders and residues has a minus before its columns: its
 * first row holds the orders, and the order of each further row is written. */
#include <inttypes.h>
#include <stdio.h>
#include <stdlib.h>

#include "lattice.h"

static void write_wide(wide number) {
    putchar(' ');
    lattice_write(stdout, number);
}

static void *lend(size_t number, size_t size) {
    void *room = calloc(number + 1, size);
    if (room == NULL)
        exit(2);
    return room;
}

static void write_relations(struct lattice_rows rows, const uint8_t *independent) {
    wide *relations = lend(rows.number * rows.number, sizeof(wide));
    enum lattice_answer answer = lattice_relations(rows, independent, relations);
    printf(" %d", (int)answer);
    for (size_t i = 0; answer == LATTICE_DONE && i < rows.number * rows.number; i++)
        write_wide(relations[i]);
    free(relations);
}

static void write_span(struct lattice_rows rows) {
    struct lattice_span span = {0, 0, lend(rows.number, 1)};
    enum lattice_answer answer = lattice_span(rows, &span);
    printf("%d", (int)answer);
    if (answer == LATTICE_DONE) {
        printf(" %zu", span.rank);
        write_wide(span.index);
        for (size_t i = 0; i < rows.number; i++)
            printf(" %d", span.independent[i]);
        write_relations(rows, span.independent);
    }
    free(span.independent);
}

static void write_rows(struct lattice_rows rows) {
    for (size_t i = 0; i < rows.number; i++)
        write_wide(lattice_content(rows.numbers + i * rows.width, rows.width));
    for (size_t i = 0; i < rows.number; i++)
        for (size_t j = 0; j < rows.number; j++) {
            int64_t times = 0;
            int found = lattice_multiple(rows.numbers + i * rows.width, rows.numbers + j * rows.width, rows.width, &times);
            write_wide(found ? times : 0);
        }
}

static void write_orders(struct lattice_rows rows) {
    for (size_t i = 1; i < rows.number; i++)
        write_wide(lattice_order(rows.numbers + i * rows.width, rows.numbers, rows.width));
}

int main(void) {
    size_t number;
    long width;
    while (scanf("%zu %ld", &number, &width) == 2) {
        struct lattice_rows rows = {NULL, number, (size_t)labs(width)};
        int64_t *numbers = lend(rows.number * rows.width, sizeof *numbers);
        for (size_t i = 0; i < rows.number * rows.width; i++)
            if (scanf("%" SCNd64, &numbers[i]) != 1)
                return 2;
        rows.numbers = numbers;
        if (width < 0) {
            write_orders(rows);
        } else {
            write_span(rows);
            write_rows(rows);
        }
        putchar('\n');
        free(numbers);
    }
    return 0;
}
