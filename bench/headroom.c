/* Prints the peak and its bits in each dimension of sheets, or the refusal, by the library's report call. Usage: headroom FILE.sheet .. */
#include <inttypes.h>

#include "library.h"

static void show(int p) {
    uint64_t peak = 0;
    uint32_t bits = 0;
    uint32_t answer = fildwuk_library_headroom(sheet, length, (uint32_t)p, report, REPORT, work, work_slots(p), &peak, &bits);
    if (answer != 0)
        printf("     R %2" PRIu32 "    ", answer);
    else
        printf(" %7" PRIu64 " (%2" PRIu32 ")", peak, bits);
}

int main(int argc, char **argv) {
    printf("%-18s %12s %12s %12s %12s\n", "sheet", "dimension 0", "1", "2", "3");
    for (int i = 1; i < argc; i++) {
        load(argv[i]);
        printf("%-18s", name_of(argv[i]));
        for (int p = 0; p < 4; p++)
            show(p);
        printf("\n");
    }
    return 0;
}
