/* What a magnetic solver does with Fildwuk: it imports a mesh in MSH 2.2 ASCII or sweeps a sheet from its store, gives each free loop of dimension 1 an
 * unknown current and none to a twisted one, of which it asks what surface the loop bounds when run as often as its order says, and asks for the coordinates of
 * all its loops in one call. Usage: solver FILE.msh, or solver FILE.sheet */
#include <inttypes.h>
#include <stdio.h>

#include "fildwuk.h"

/* The file. A text of 48 cells in a dimension is far shorter. */
static uint8_t text[1 << 20];

static uint8_t sheet[FILDWUK_SHEET_BYTES];
static uint8_t report[FILDWUK_REPORT_BYTES(FILDWUK_CELLS)];

/* A report has at most as many loops as the dimension has cells. */
static uint8_t chains[FILDWUK_CHAINS_BYTES(FILDWUK_CELLS, FILDWUK_CELLS)];
static uint8_t lists[FILDWUK_COORDINATE_LISTS_BYTES(FILDWUK_CELLS, FILDWUK_CELLS)];
static uint8_t surface[FILDWUK_SURFACE_BYTES(FILDWUK_CELLS)];

static int refused(const char *call, uint32_t answer) {
    printf("%s refused with %" PRIu32 ": %s\n", call, answer, fildwuk_answer_text(answer));
    return 1;
}

/* Whether the file is a mesh: it starts with $, and no 0 follows, as it would in a sheet of 36 vertices. */
static int is_mesh(size_t given) { return given > 0 && text[0] == '$' && (given == 1 || text[1] != 0); }

/* Puts the sheet of the file into its place, without loose nodes: an import leaves them out, and a sheet that is given may have been stored with them. */
static uint32_t take_sheet(size_t given) {
    return is_mesh(given) ? fildwuk_import(text, given, sheet, sizeof sheet) : fildwuk_sweep(text, given, sheet, sizeof sheet);
}

/* The loops of a report with t orders, each with n coefficients, as chains one after another. */
static void take_loops(size_t t, size_t loops, size_t n) {
    for (size_t i = 0; i < loops * n; i++)
        fildwuk_put_coefficient(chains, i, (int32_t)fildwuk_get_number(report, 2 + t + i));
}

/* Prints the coordinates of all loops; the list of each has n slots, of which the first are its coordinates, one for each loop. */
static void print_lists(size_t loops, size_t n) {
    for (size_t j = 0; j < loops; j++) {
        printf("coordinates of loop %zu:", j);
        for (size_t i = 0; i < loops; i++)
            printf(" %" PRId64, fildwuk_get_number(lists, j * n + i));
        printf("\n");
    }
}

/* Reads the file into `text`. Answers 0 where that fails, and says why. */
static int read_file(const char *name, size_t *given) {
    FILE *file = fopen(name, "rb");
    *given = file == NULL ? 0 : fread(text, 1, sizeof text, file);
    int failed = file == NULL || ferror(file);
    if (failed)
        perror(name);
    else if (*given == sizeof text)
        fprintf(stderr, "%s: too long for this example\n", name);
    if (file != NULL)
        fclose(file);
    return !failed && *given < sizeof text;
}

/* A coefficient, and what is beyond the limit of a surface call as the next number beyond it: the call then tells 11. */
static int32_t narrowed(int64_t x) {
    int32_t most = FILDWUK_SURFACE_COEFFICIENT_MOST + 1;
    return x > most ? most : x < -most ? -most : (int32_t)x;
}

/* Says which triangles are in the surface that loop j, of n coefficients and order d, bounds when run d times: their places in the sheet, each with its
 * coefficient. A loop of an order above 15 is refused with 11. */
static void print_surface(size_t length, size_t t, size_t j, size_t n) {
    int64_t d = fildwuk_get_number(report, 2 + j);
    for (size_t i = 0; i < n; i++)
        fildwuk_put_coefficient(chains, i, narrowed(d * fildwuk_get_number(report, 2 + t + j * n + i)));
    uint32_t answer = fildwuk_surface(sheet, length, 1, chains, FILDWUK_CHAIN_BYTES(n), surface, sizeof surface);
    if (answer != FILDWUK_DONE) {
        refused("  surface", answer);
        return;
    }
    printf("  then it bounds the triangles");
    for (size_t i = 0; i < fildwuk_cell_count(sheet, 2); i++)
        if (fildwuk_get_number(surface, i) != 0)
            printf(" %+" PRId64 " (%zu)", fildwuk_get_number(surface, i), i);
    printf("\n");
}

/* Says what each loop of the sheet is for the solver, and the coordinates of all. */
static int solve(size_t length) {
    uint32_t answer = fildwuk_report(sheet, length, 1, report, sizeof report);
    if (answer != FILDWUK_DONE)
        return refused("report", answer);
    size_t edges = fildwuk_cell_count(sheet, 1);
    size_t b = (size_t)fildwuk_get_number(report, 0), t = (size_t)fildwuk_get_number(report, 1);
    for (size_t j = 0; j < t; j++) {
        printf("loop %zu closes off when run %" PRId64 " times: no unknown\n", j, fildwuk_get_number(report, 2 + j));
        print_surface(length, t, j, edges);
    }
    for (size_t j = t; j < t + b; j++)
        printf("loop %zu is free: unknown current I%zu\n", j, j - t);
    take_loops(t, t + b, edges);
    answer = fildwuk_coordinate_lists(sheet, length, 1, (uint32_t)(t + b), chains, FILDWUK_CHAINS_BYTES(t + b, edges), lists, sizeof lists);
    if (answer != FILDWUK_DONE)
        return refused("coordinates", answer);
    print_lists(t + b, edges);
    return 0;
}

int main(int argc, char **argv) {
    size_t given;
    if (argc != 2) {
        fprintf(stderr, "usage: solver FILE.msh, or solver FILE.sheet\n");
        return 2;
    }
    if (!read_file(argv[1], &given))
        return 2;
    uint32_t answer = take_sheet(given);
    return answer == FILDWUK_DONE ? solve(fildwuk_sheet_length(sheet)) : refused(is_mesh(given) ? "import" : "sweep", answer);
}
