/* The report as the program `homology` prints it. */
#include "plain.h"

#include <inttypes.h>

void plain_refusal(uint32_t number, FILE *file) { fprintf(file, "R %u\n", (unsigned)number); }

/* Writes a line of numbers after its first word. */
static void write_numbers(const int64_t *numbers, size_t total, FILE *file) {
    for (size_t i = 0; i < total; i++)
        fprintf(file, " %" PRId64, numbers[i]);
    fputc('\n', file);
}

void plain_dimension(const struct homology *homology, FILE *file) {
    if (homology->answer != 0) {
        plain_refusal(homology->answer, file);
        return;
    }
    fprintf(file, "H %u", (unsigned)homology->dimension);
    write_numbers(homology->numbers, 2 + homology->order_total, file);
    for (size_t k = 0; k < homology_generators(homology); k++) {
        fputc('G', file);
        write_numbers(homology_generator(homology, k), homology->cells, file);
    }
}
