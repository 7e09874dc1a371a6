/* Times all four reports of a sheet by the library, by the library of an earlier commit, by FLINT's fmpz_mat_snf (ranks and orders alone) and by
 * PARI's matsnf with transforms, the last two on the three boundary matrices, in turn in one process. Usage: compare FILE.sheet .. */
#include <flint/fmpz_mat.h>
#include <pari/pari.h>

#include "library.h"
#include "timing.h"

static fmpz_mat_t flint_matrix[4], flint_form[4];
static GEN pari_matrix[4];

static void earlier_reports(void) { reports_by(earlier_report); }

static void make_matrices(void) {
    for (int p = 1; p < 4; p++) {
        fmpz_mat_init(flint_matrix[p], count(p - 1), count(p));
        fmpz_mat_init(flint_form[p], count(p - 1), count(p));
        pari_matrix[p] = zeromatcopy(count(p - 1), count(p));
        for (unsigned r = 0; r < count(p - 1); r++)
            for (unsigned c = 0; c < count(p); c++) {
                fmpz_set_si(fmpz_mat_entry(flint_matrix[p], r, c), entry(p, r, c));
                gcoeff(pari_matrix[p], r + 1, c + 1) = stoi(entry(p, r, c));
            }
    }
}

static void clear_matrices(void) {
    for (int p = 1; p < 4; p++) {
        fmpz_mat_clear(flint_matrix[p]);
        fmpz_mat_clear(flint_form[p]);
    }
}

static void flint_forms(void) {
    for (int p = 1; p < 4; p++)
        if (count(p) > 0)
            fmpz_mat_snf(flint_form[p], flint_matrix[p]);
}

static void pari_forms(void) {
    for (int p = 1; p < 4; p++)
        if (count(p) > 0) {
            pari_sp before = avma;
            matsnf0(pari_matrix[p], 1);
            avma = before;
        }
}

/* The dimensions that are refused, and those in which the two libraries answer or report otherwise. */
static void show_answers(void) {
    static int64_t earlier[REPORT];
    for (int p = 0; p < 4; p++) {
        memset(report, 0, sizeof report);
        uint32_t before = report_by(earlier_report, p);
        memcpy(earlier, report, sizeof report);
        memset(report, 0, sizeof report);
        uint32_t answer = report_by(fildwuk_library_report, p);
        if (answer != 0)
            printf("  dimension %d is refused with %u\n", p, (unsigned)answer);
        if (answer != before || memcmp(report, earlier, sizeof report) != 0)
            printf("  dimension %d: the earlier library gives another report\n", p);
    }
}

/* The line of the sheet that is loaded. */
static void compare(const char *name) {
    double now = INFINITY, before = INFINITY, flint = INFINITY, pari = INFINITY;
    int rounds = cells() > 100 ? 100 : 400, others = cells() > 100 ? 3 : 40;
    for (int i = 0; i < rounds; i++) {
        measure(&now, reports);
        measure(&before, earlier_reports);
        if (i < others) {
            measure(&flint, flint_forms);
            measure(&pari, pari_forms);
        }
    }
    printf("%-18s %5u %9.3f %9.3f %9.3f %9.3f %10.2f %9.1f %8.1f\n", name, cells(), now, before, flint, pari, before / now, flint / now, pari / now);
    fflush(stdout);
}

int main(int argc, char **argv) {
    pari_init(1ul << 30, 0);
    printf("%-18s %5s %9s %9s %9s %9s %10s %9s %8s\n", "sheet", "cells", "now ms", "before ms", "FLINT ms", "PARI ms", "before/now",
           "FLINT/now", "PARI/now");
    for (int i = 1; i < argc; i++) {
        pari_sp before = avma;
        load(argv[i]);
        make_matrices();
        show_answers();
        compare(name_of(argv[i]));
        clear_matrices();
        avma = before;
    }
    return 0;
}
