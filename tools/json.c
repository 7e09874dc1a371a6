/* The report as one JSON object. */
#include "json.h"

#include <inttypes.h>
#include <stdlib.h>

#include "fildwuk.h"
#include "sheet.h"
#include "words.h"

void json_string(const char *text, FILE *file) {
    fputc('"', file);
    for (; *text != 0; text++) {
        unsigned char byte = (unsigned char)*text;
        if (byte < 32)
            fprintf(file, "\\u%04x", byte);
        else
            fprintf(file, byte == '"' || byte == '\\' ? "\\%c" : "%c", byte);
    }
    fputc('"', file);
}

/* Writes where the fault stands as a string, or null where it is not told. */
static void write_where(const struct refusal *refusal, FILE *file) {
    char *bytes = NULL;
    size_t length = 0;
    FILE *where = open_memstream(&bytes, &length);
    if (where != NULL)
        refusal_where(refusal, where);
    if (where != NULL && fclose(where) == 0 && length > 0)
        json_string(bytes, file);
    else
        fputs("null", file);
    free(bytes);
}

/* Writes what every object starts with. */
static void write_head(const struct options *options, FILE *file) {
    fputs("{\"fildwuk\": ", file);
    json_string(FILDWUK_VERSION, file);
    fprintf(file, ", \"limit\": %zu, \"region\": [", limit_cells(options->limit));
    for (size_t i = 0; i < options->region.total; i++)
        fprintf(file, "%s%u", i == 0 ? "" : ", ", (unsigned)options->region.list[i]);
    fputc(']', file);
}

void json_refusal(const struct refusal *refusal, FILE *file) {
    write_head(refusal->options, file);
    fprintf(file, ", \"refusal\": %u, \"meaning\": ", (unsigned)refusal->number);
    json_string(refusal_meaning(refusal->number), file);
    fputs(", \"where\": ", file);
    write_where(refusal, file);
    fputs("}\n", file);
}

void json_start(const struct source *source, const struct options *options, FILE *file) {
    write_head(options, file);
    fputs(", \"refusal\": 0, \"counts\": [", file);
    for (uint32_t p = 0; p < SHEET_DIMENSIONS; p++)
        fprintf(file, "%s%zu", p == 0 ? "" : ", ", sheet_count(source->sheet.bytes, p));
    fputs("], \"dropped\": [", file);
    loose_write(&source->dropped, source->dropped.total, file);
    fputc(']', file);
}

void json_begin(const struct source *source, const struct options *options, FILE *file) {
    json_start(source, options, file);
    fputs(", \"dimensions\": [", file);
}

/* Writes a cell as a list of its vertices. */
static void write_cell(const uint8_t *sheet, uint32_t dimension, size_t i, FILE *file) {
    uint16_t vertices[SHEET_DIMENSIONS];
    sheet_cell(sheet, dimension, i, vertices);
    for (uint32_t k = 0; k <= dimension; k++)
        fprintf(file, "%s%u", k == 0 ? "[" : ", ", (unsigned)vertices[k]);
    fputc(']', file);
}

/* Writes the tag of a chain's group, where it has one, and its name, of which every byte stands for itself. */
static void write_names(const struct chains *chains, const struct groups *groups, size_t k, FILE *file) {
    if (groups->first_tag > 0)
        fprintf(file, "\"tag\": %zu, ", groups->first_tag + k);
    fputs("\"name\": \"", file);
    chains_write_name(file, chains, k);
    fputs("\", ", file);
}

void json_chain(const struct chains *chains, const struct groups *groups, size_t k, FILE *file) {
    const int64_t *coefficients = chains_chain(chains, k);
    const char *before = "";
    if (groups != NULL)
        write_names(chains, groups, k, file);
    fputs("\"chain\": [", file);
    for (size_t i = 0; i < chains->cells; i++) {
        if (coefficients[i] == 0)
            continue;
        fprintf(file, "%s[%" PRId64 ", ", before, coefficients[i]);
        write_cell(chains->sheet, chains->dimension, i, file);
        fputc(']', file);
        before = ", ";
    }
    fputs("]}", file);
}

/* Writes the free rank, the orders, the generators, each with its order, 0 where it is free, and the headroom. */
static void write_report(const struct chains *chains, const struct groups *groups, FILE *file) {
    const struct homology *homology = chains->homology;
    fprintf(file, ", \"free\": %zu, \"orders\": [", homology->rank);
    for (size_t k = 0; k < homology->order_total; k++)
        fprintf(file, "%s%" PRId64, k == 0 ? "" : ", ", homology_order(homology, k));
    fputs("], \"generators\": [", file);
    for (size_t k = 0; k < chains->total; k++) {
        fprintf(file, "%s{\"order\": %" PRId64 ", ", k == 0 ? "" : ", ", homology_order(homology, k));
        json_chain(chains, groups, k, file);
    }
    fputc(']', file);
    if (homology->has_peak)
        fprintf(file, ", \"peak\": %" PRIu64 ", \"bits\": %u", homology->peak, (unsigned)homology->bits);
}

void json_dimension(const struct chains *chains, const struct groups *groups, int first, FILE *file) {
    const struct homology *homology = chains->homology;
    fprintf(file, "%s\n{\"dimension\": %u, \"refusal\": %u", first ? "" : ",", (unsigned)homology->dimension, (unsigned)homology->answer);
    if (homology->answer == FILDWUK_DONE)
        write_report(chains, groups, file);
    fputc('}', file);
}

void json_end(FILE *file) { fputs("]}\n", file); }
