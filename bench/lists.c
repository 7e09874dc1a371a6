/* Times the coordinate lists of 40 loops in one call beside single calls, in turn in one process: by the library, then by the host calls on sheets
 * of up to 48 cells. Of a further loop it tells the time of its checks, 11 and 12, and the rest, beside the number of its products, n_1 * (t + b).
 * The aims are 40 loops for less than 3 single calls at about 250 cells, and for less than 6 below. Ends with an error where a list is not that of
 * the single call, or an aim is missed on a sheet with cells of dimension 2. On a graph, which has none, the second reduction has no columns, and
 * the products of 40 loops may take longer than a single call: a missed aim is told, and is no error. Usage: lists FILE.sheet .. */
#include "fildwuk_library.h"
#include "library.h"
#include "timing.h"

enum { LOOPS = 40, HALF = LOOPS / 2, CASES = 4, SLOTS = (LOOPS + 1) * CELLS };

/* The numbers of loops that a call is timed with. */
static const size_t NUMBERS[CASES] = {0, 1, HALF, LOOPS};

/* A single call for loop i, and a call for the first so many loops. */
typedef struct {
    const char *name;
    unsigned limit;
    uint32_t (*single)(size_t i);
    uint32_t (*many)(size_t number);
} calls;

/* The least times in milliseconds: of a single call, on the average over the loops; of a call for many; of its checks alone. */
typedef struct {
    double single, many[CASES], checks[CASES];
} times;

static int32_t loops[SLOTS];
static int64_t lists[SLOTS];
static const calls *by;
static size_t loop, number; /* what the next measurement is made of */
static int missed;          /* whether an aim is missed on a sheet with cells of dimension 2 */

static size_t edges(void) { return count(1); }

static uint32_t library_single(size_t i) {
    size_t n = edges();
    return fildwuk_library_coordinates(sheet, length, 1, loops + i * n, n, lists + i * n, n, work, work_slots(1));
}

static uint32_t library_many(size_t many) {
    size_t slots = many * edges();
    return fildwuk_library_coordinate_lists(sheet, length, 1, many, loops, slots, lists, slots, work, work_slots(1));
}

/* The host calls take bytes, low byte first, as the numbers stand in memory here. */
static uint32_t host_single(size_t i) {
    size_t n = edges();
    return fildwuk_coordinates(sheet, length, 1, (const uint8_t *)(loops + i * n), FILDWUK_CHAIN_BYTES(n), (uint8_t *)(lists + i * n),
                               FILDWUK_COORDINATE_BYTES(n));
}

static uint32_t host_many(size_t many) {
    size_t n = edges();
    return fildwuk_coordinate_lists(sheet, length, 1, (uint32_t)many, (const uint8_t *)loops, FILDWUK_CHAINS_BYTES(many, n), (uint8_t *)lists,
                                    FILDWUK_COORDINATE_LISTS_BYTES(many, n));
}

/* Makes the checks of the first so many loops alone: the chain after them gets a coefficient that is refused with 11, before the reductions. */
static uint32_t checks_of(size_t many) {
    int32_t *after = loops + many * edges(), kept = *after;
    *after = 32768;
    uint32_t answer = by->many(many + 1);
    *after = kept;
    return answer;
}

static void call_single(void) { by->single(loop); }

static void call_many(void) { by->many(number); }

static void call_checks(void) { checks_of(number); }

/* t + b of the report. */
static size_t generators(void) { return (size_t)(report[0] + report[1]); }

/* How many of so many things loop i is made of. In each half of the loops it rises from one to all, so that there are short loops and long ones. */
static size_t share(size_t i, size_t all) { return all == 0 ? 0 : 1 + i % HALF * (all - 1) / (HALF - 1); }

/* Adds some of the reported generators, each 1 to 3 times. */
static void add_generators(int32_t *chain, size_t i) {
    const int64_t *columns = report + 2 + report[1];
    for (size_t k = i; k < i + share(i, generators()); k++)
        for (size_t r = 0; r < edges(); r++)
            chain[r] += (int32_t)(1 + k % 3) * (int32_t)columns[k % generators() * edges() + r];
}

/* Adds the boundaries of some cells of dimension 2 that follow each other in the sheet. */
static void add_boundaries(int32_t *chain, size_t i) {
    size_t all = count(2);
    for (size_t k = 7 * i; k < 7 * i + share(i, all); k++)
        for (unsigned r = 0; r < edges(); r++)
            chain[r] += entry(2, r, (unsigned)(k % all));
}

/* The loops, one after another, from the report that was made last. On the average about half of their coefficients are not zero. */
static void make_loops(void) {
    memset(loops, 0, sizeof loops);
    for (size_t i = 0; i < LOOPS; i++) {
        add_generators(loops + i * edges(), i);
        add_boundaries(loops + i * edges(), i);
    }
}

/* How many coefficients of a loop are not zero, on the average. */
static double nonzero(void) {
    size_t found = 0;
    for (size_t i = 0; i < LOOPS * edges(); i++)
        found += loops[i] != 0;
    return (double)found / LOOPS;
}

/* Ends the program where a call has another answer than this one, or a list is not that of the single call. */
static void hold_lists(const char *name, uint32_t answer) {
    static int64_t singles[SLOTS];
    int held = 1;
    memset(lists, 0x5a, sizeof lists);
    for (size_t i = 0; i < LOOPS; i++)
        held = held && by->single(i) == answer;
    memcpy(singles, lists, sizeof lists);
    for (int k = 0; k < CASES; k++) {
        memset(lists, 0x5a, sizeof lists);
        held = held && by->many(NUMBERS[k]) == answer && memcmp(lists, singles, 8 * NUMBERS[k] * edges()) == 0;
        held = held && checks_of(NUMBERS[k]) == FILDWUK_COEFFICIENT_EXCEEDS;
    }
    if (!held) {
        fprintf(stderr, "%s, %s: a call has another answer, or a list is not that of the single call\n", by->name, name);
        exit(1);
    }
}

static times take_times(void) {
    times t = {.single = 0};
    double singles[LOOPS];
    for (int i = 0; i < LOOPS; i++)
        singles[i] = INFINITY;
    for (int k = 0; k < CASES; k++)
        t.many[k] = t.checks[k] = INFINITY;
    for (int rounds = cells() > 100 ? 100 : 400; rounds > 0; rounds--) {
        for (loop = 0; loop < LOOPS; loop++)
            measure(&singles[loop], call_single);
        for (int k = 0; k < CASES; k++) {
            number = NUMBERS[k];
            measure(&t.many[k], call_many);
            measure(&t.checks[k], call_checks);
        }
    }
    for (int i = 0; i < LOOPS; i++)
        t.single += singles[i] / LOOPS;
    return t;
}

/* How much a further loop adds to the time of one, in microseconds. It is the average over all of them: at 250 cells the first twenty take longer
 * than the last. */
static double further(const double *least) { return 1e3 * (least[CASES - 1] - least[1]) / (LOOPS - 1); }

/* The ratio of 40 loops in one call to a single call, its aim, and whether that is missed. */
static void show_ratio(double ratio) {
    int aim = cells() > 200 ? 3 : 6, over = !(ratio < aim);
    printf(" %9.2f < %d %-6s", ratio, aim, over ? "missed" : "");
    missed = missed || (over && count(2) > 0);
}

/* The line of the sheet that is loaded. The time of a product is told where there are enough for it to stand out from the error of the times. */
static void show(const char *name) {
    times t = take_times();
    size_t products = edges() * generators();
    double loop_us = further(t.many), check_us = further(t.checks), rest_us = loop_us - check_us;
    printf("%-18s %4zu %4zu %7.0f", name, edges(), generators(), nonzero());
    for (int k = 0; k < CASES; k++)
        printf(" %7.4f", t.many[k]);
    printf(" %9.4f", t.single);
    show_ratio(t.many[CASES - 1] / t.single);
    printf(" %10.2f %8.2f %7.2f %8zu", loop_us, check_us, rest_us, products);
    if (products >= 500)
        printf(" %10.2f", 1e3 * rest_us / (double)products);
    printf("\n");
    fflush(stdout);
}

/* A line for each sheet that the calls take. */
static void show_all(const calls *those, char **files) {
    by = those;
    printf("%-18s %4s %4s %7s %7s %7s %7s %7s %9s %9s %-10s %10s %8s %7s %8s %10s\n", by->name, "n_1", "t+b", "nonzero", "0 ms", "1 ms", "20 ms",
           "40 ms", "single ms", "40/single", "aim", "further us", "check us", "rest us", "products", "ns/product");
    for (; *files != NULL; files++) {
        load(*files);
        if (cells() > by->limit)
            continue;
        memset(report, 0, 2 * sizeof *report);
        uint32_t answer = report_by(fildwuk_library_report, 1);
        make_loops();
        hold_lists(name_of(*files), answer);
        if (answer == 0)
            show(name_of(*files));
        else
            printf("%-18s is refused with %u\n", name_of(*files), (unsigned)answer);
    }
}

int main(int argc, char **argv) {
    static const calls library = {"library", CELLS, library_single, library_many}, host = {"host calls", FILDWUK_CELLS, host_single, host_many};
    if (argc < 2)
        return 2;
    show_all(&library, argv + 1);
    show_all(&host, argv + 1);
    if (missed)
        fprintf(stderr, "an aim is missed on a sheet with cells of dimension 2\n");
    return missed;
}
