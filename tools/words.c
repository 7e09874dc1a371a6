/* The report in words. */
#include "words.h"

#include <inttypes.h>

#include "sheet.h"

enum { ENTRY_BITS = 20 };

const char *words_name(uint32_t dimension, size_t number) {
    static const char *const ONE[] = {"component", "loop", "cavity", "closed volume"};
    static const char *const MANY[] = {"components", "loops", "cavities", "closed volumes"};
    return number == 1 ? ONE[dimension] : MANY[dimension];
}

void words_chain(const uint8_t *sheet, uint32_t dimension, const int64_t *coefficients, FILE *file) {
    const char *before = "";
    for (size_t i = 0; i < sheet_count(sheet, dimension); i++) {
        uint16_t vertices[SHEET_DIMENSIONS];
        if (coefficients[i] == 0)
            continue;
        sheet_cell(sheet, dimension, i, vertices);
        fprintf(file, "%s%+" PRId64 " ", before, coefficients[i]);
        sheet_write_cell(file, dimension, vertices);
        before = " ";
    }
    if (before[0] == 0)
        fputc('0', file);
}

void words_counts(const uint8_t *sheet, FILE *file) {
    for (uint32_t p = 0; p < SHEET_DIMENSIONS; p++)
        fprintf(file, "%s%zu %s", p == 0 ? "" : ", ", sheet_count(sheet, p), sheet_cell_name(p, sheet_count(sheet, p)));
    fputs(".\n", file);
}

/* Writes how many generators are free, and the orders of those that are twisted. */
static void write_totals(const struct homology *homology, FILE *file) {
    uint32_t p = homology->dimension;
    fprintf(file, "Dimension %u: ", (unsigned)p);
    if (homology_generators(homology) == 0)
        fprintf(file, "no %s", words_name(p, 0));
    if (homology->rank > 0)
        fprintf(file, "%zu free %s", homology->rank, words_name(p, homology->rank));
    if (homology->order_total > 0)
        fprintf(file, "%s%zu twisted %s of order", homology->rank > 0 ? ", " : "", homology->order_total, words_name(p, homology->order_total));
    for (size_t k = 0; k < homology->order_total; k++)
        fprintf(file, "%s %" PRId64, k == 0 ? "" : ",", homology_order(homology, k));
    fputs(".\n", file);
}

/* Writes generator k as a line: `free loop 1: ` or `twisted loop 1, order 2: ` and its chain. */
static void write_generator(const uint8_t *sheet, const struct homology *homology, size_t k, FILE *file) {
    int64_t order = homology_order(homology, k);
    size_t number = order == 0 ? k - homology->order_total : k;
    fprintf(file, "  %s %s %zu", order == 0 ? "free" : "twisted", words_name(homology->dimension, 1), number + 1);
    if (order != 0)
        fprintf(file, ", order %" PRId64, order);
    fputs(": ", file);
    words_chain(sheet, homology->dimension, homology_generator(homology, k), file);
    fputc('\n', file);
}

void words_dimension(const uint8_t *sheet, const struct homology *homology, FILE *file) {
    write_totals(homology, file);
    for (size_t k = 0; k < homology_generators(homology); k++)
        write_generator(sheet, homology, k, file);
    if (homology->has_peak)
        fprintf(file, "  headroom: peak %" PRIu64 ", %u of %u bits\n", homology->peak, (unsigned)homology->bits, (unsigned)ENTRY_BITS);
}
