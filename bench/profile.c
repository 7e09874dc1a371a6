/* Makes all four reports of a sheet again and again, for a profiler. Usage: profile FILE.sheet TIMES */
#include "library.h"

int main(int argc, char **argv) {
    if (argc != 3)
        return 2;
    load(argv[1]);
    for (long i = atol(argv[2]); i > 0; i--)
        reports();
    return 0;
}
