/* Whole-number arithmetic on the coordinate lists of loops: what they span, and which of them depend on others. Exact in 128 bits, or refused. */
#ifndef LATTICE_H
#define LATTICE_H

#include <stddef.h>
#include <stdint.h>
#include <stdio.h>

__extension__ typedef __int128 wide;

enum lattice_answer { LATTICE_DONE, LATTICE_TOO_WIDE, LATTICE_NO_MEMORY };

/* Rows of whole numbers, `width` numbers each, one after another. */
struct lattice_rows {
    const int64_t *numbers;
    size_t number, width;
};

/* The rank of the rows, and the index of their whole combinations among the whole rows that are rational combinations of them: the product of the
 * nonzero numbers of Smith's form, 1 where the rank is 0. `independent` is lent, a byte for each row: 1 where the row is no rational combination of
 * those before it, else 0. */
struct lattice_span {
    size_t rank;
    wide index;
    uint8_t *independent;
};

enum lattice_answer lattice_span(struct lattice_rows rows, struct lattice_span *span);

/* Writes the relation of each dependent row, `number` numbers for each row: relation i gives 0 as the sum of its numbers times the rows. Its number
 * at i is positive, those at other rows are 0 unless the row is independent and stands before i, and they have no common divisor. The relation of an
 * independent row is zeros. */
enum lattice_answer lattice_relations(struct lattice_rows rows, const uint8_t *independent, wide *relations);

/* The greatest common divisor of the numbers, 0 where all are 0. */
wide lattice_content(const int64_t *numbers, size_t width);

/* Whether the first row is a nonzero whole number times the second, which is not zero; that number. */
int lattice_multiple(const int64_t *row, const int64_t *of, size_t width, int64_t *times);

/* The order of residues modulo `orders`, each at least 1: the least positive number that times all of them gives 0. Answers 0 where it exceeds 128
 * bits. */
wide lattice_order(const int64_t *residues, const int64_t *orders, size_t width);

/* Writes the number in decimal digits. */
void lattice_write(FILE *file, wide number);

#endif
