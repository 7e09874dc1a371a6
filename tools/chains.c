/* The names and oriented elements of chains. */
#include "chains.h"

#include <inttypes.h>

#include "words.h"

/* The most tags of a region that a name has: Gmsh reads names of some 100 characters. */
enum { MOST_TAGS = 8 };

struct chains chains_of_report(const uint8_t *sheet, const struct homology *homology, const struct tags *region) {
    return (struct chains){sheet, homology->dimension, homology->cells, homology_generators(homology), homology_generator(homology, 0), region, homology,
                           NULL};
}

const int64_t *chains_chain(const struct chains *chains, size_t k) { return chains->coefficients + k * chains->cells; }

const char *chains_word(const struct chains *chains) { return chains->homology != NULL ? "generator" : "surface"; }

void chains_write_kind(FILE *file, const struct chains *chains, size_t k) {
    const char *word = words_name(chains->dimension, 1);
    int64_t order = chains->homology == NULL ? 0 : homology_order(chains->homology, k);
    if (chains->homology == NULL)
        fprintf(file, "surface of group %" PRIu32, chains->tags[k]);
    else if (order == 0)
        fprintf(file, "free %s", word);
    else
        fprintf(file, "twisted %s of order %" PRId64, word, order);
}

static void write_region(FILE *file, const struct tags *region) {
    fputs(region->total == 0 ? "{0" : "{", file);
    for (size_t i = 0; i < region->total && i < MOST_TAGS; i++)
        fprintf(file, "%s%" PRIu32, i == 0 ? "" : ",", region->list[i]);
    fputs(region->total > MOST_TAGS ? ",..}" : "}", file);
}

/* Writes a letter, the dimension, the region and a number. */
static void write_parts(FILE *file, const struct chains *chains, char letter, size_t number) {
    fprintf(file, "%c_%" PRIu32, letter, chains->dimension);
    write_region(file, chains->region);
    fprintf(file, "%zu", number);
}

void chains_write_name(FILE *file, const struct chains *chains, size_t k) {
    int64_t order = chains->homology == NULL ? 0 : homology_order(chains->homology, k);
    if (chains->homology == NULL) {
        write_parts(file, chains, 'S', chains->tags[k]);
    } else if (order == 0) {
        write_parts(file, chains, 'H', k - chains->homology->order_total + 1);
    } else {
        write_parts(file, chains, 'T', k + 1);
        fprintf(file, " order %" PRId64, order);
    }
}

size_t chains_elements(const struct chains *chains, size_t k) {
    const int64_t *coefficients = chains_chain(chains, k);
    size_t total = 0;
    for (size_t i = 0; i < chains->cells; i++)
        total += (size_t)(coefficients[i] < 0 ? -coefficients[i] : coefficients[i]);
    return total;
}

uint64_t chains_element(const struct chains *chains, size_t k, size_t i, uint16_t nodes[SHEET_DIMENSIONS]) {
    int64_t coefficient = chains_chain(chains, k)[i];
    sheet_cell(chains->sheet, chains->dimension, i, nodes);
    if (coefficient < 0 && chains->dimension > 0) {
        uint16_t first = nodes[0];
        nodes[0] = nodes[1];
        nodes[1] = first;
    }
    return coefficient < 0 ? -(uint64_t)coefficient : (uint64_t)coefficient;
}

/* What is wrong with a coefficient, null where nothing is. */
static const char *fault_of(const struct chains *chains, int64_t coefficient) {
    if (coefficient > CHAINS_MOST || coefficient < -CHAINS_MOST)
        return "more than 1000 copies of an element are not written, since GetDP ends with a fault at some thousands";
    return coefficient < 0 && chains->dimension == 0 ? "a point has no direction, so that it cannot be written" : NULL;
}

static int tell(const struct chains *chains, size_t k, size_t i, const char *why, FILE *err) {
    uint16_t nodes[SHEET_DIMENSIONS];
    sheet_cell(chains->sheet, chains->dimension, i, nodes);
    if (chains->homology != NULL)
        fprintf(err, "fildwuk: generator %zu", k + 1);
    else
        fprintf(err, "fildwuk: the surface of group %" PRIu32, chains->tags[k]);
    fprintf(err, " has the coefficient %" PRId64 " at ", chains_chain(chains, k)[i]);
    sheet_write_cell(err, chains->dimension, nodes);
    fprintf(err, ": %s\n", why);
    return 0;
}

int chains_fit(const struct chains *chains, FILE *err) {
    for (size_t k = 0; k < chains->total; k++)
        for (size_t i = 0; i < chains->cells; i++) {
            const char *why = fault_of(chains, chains_chain(chains, k)[i]);
            if (why != NULL)
                return tell(chains, k, i, why, err);
        }
    return 1;
}
