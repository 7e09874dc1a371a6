/* Times the reading of a sheet alone: checks 1 to 7, by a report of dimension 4, which is refused with 8; by the library and by the library of an
 * earlier commit, in one process. All sheets take turns, so that the processor has read many others since it read one last and cannot predict its
 * branches from that. The aim is to be at least twice as fast on a sheet with 256 cells in every dimension. Ends with an error where a call is
 * answered otherwise, or the aim is missed. Usage: reading FILE.sheet .. */
#include "library.h"
#include "timing.h"

enum { AIM = 2, SHEETS = 64, ROUNDS = 1000 };

/* A sheet, and the least times of reading it in milliseconds. */
typedef struct {
    const char *path;
    uint8_t bytes[sizeof sheet];
    size_t length;
    double now, before;
} timed;

static timed sheets[SHEETS];

static uint32_t read_by(report_call *call) { return call(sheet, length, 4, report, REPORT, work, WORK); }

static void now(void) { read_by(fildwuk_library_report); }

static void before(void) { read_by(earlier_report); }

/* Makes it the sheet under test. */
static void use(const timed *s) {
    memcpy(sheet, s->bytes, s->length);
    length = s->length;
}

/* Reads the file, or ends the program. */
static void add(timed *s, const char *path) {
    load(path);
    if (read_by(fildwuk_library_report) != 8 || read_by(earlier_report) != 8) {
        fprintf(stderr, "%s: a call is not refused with 8\n", path);
        exit(1);
    }
    s->path = path;
    s->length = length;
    memcpy(s->bytes, sheet, length);
    s->now = s->before = INFINITY;
}

/* The least count of a dimension. */
static unsigned least_cells(void) {
    unsigned least = count(0);
    for (int p = 1; p < 4; p++)
        least = count(p) < least ? count(p) : least;
    return least;
}

/* The line of a sheet. Answers whether its aim is missed. */
static int show(const timed *s) {
    use(s);
    double ratio = s->before / s->now;
    int aimed = least_cells() == CELLS, missed = aimed && !(ratio >= AIM);
    printf("%-18s %5u %5u %9.2f %9.2f %10.2f", name_of(s->path), least_cells(), cells(), 1e3 * s->now, 1e3 * s->before, ratio);
    if (aimed)
        printf(" >= %d%s", AIM, missed ? " missed" : "");
    printf("\n");
    return missed;
}

int main(int argc, char **argv) {
    int number = argc - 1 < SHEETS ? argc - 1 : SHEETS, missed = 0;
    for (int i = 0; i < number; i++)
        add(&sheets[i], argv[i + 1]);
    for (int round = 0; round < ROUNDS; round++)
        for (int i = 0; i < number; i++) {
            use(&sheets[i]);
            measure(&sheets[i].now, now);
            measure(&sheets[i].before, before);
        }
    printf("%-18s %5s %5s %9s %9s %10s\n", "sheet", "least", "most", "now us", "before us", "before/now");
    for (int i = 0; i < number; i++)
        missed += show(&sheets[i]);
    return missed > 0;
}
