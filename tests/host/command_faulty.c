/* Answers of proved calls that cannot be, in place of the proved ones (-Wl,--wrap): the surface call finds no cycle in any chain, and the call on coordinate
 * lists is refused with 13 where it is given two cycles or more. The command must tell that they do not agree with what it has found. */
#include "fildwuk.h"
#include "fildwuk_library.h"

uint32_t __real_fildwuk_library_coordinate_lists(const uint8_t *sheet, size_t sheet_len, uint32_t dimension, size_t number, const int32_t *chains,
                                                 size_t chains_len, int64_t *coordinates, size_t coordinates_len, int32_t *work, size_t work_len);
uint32_t __wrap_fildwuk_library_coordinate_lists(const uint8_t *sheet, size_t sheet_len, uint32_t dimension, size_t number, const int32_t *chains,
                                                 size_t chains_len, int64_t *coordinates, size_t coordinates_len, int32_t *work, size_t work_len);
uint32_t __wrap_fildwuk_library_surface(const uint8_t *sheet, size_t sheet_len, uint32_t dimension, const int32_t *chain, size_t chain_len,
                                        int64_t *surface, size_t surface_len, int32_t *work, size_t work_len);

uint32_t __wrap_fildwuk_library_coordinate_lists(const uint8_t *sheet, size_t sheet_len, uint32_t dimension, size_t number, const int32_t *chains,
                                                 size_t chains_len, int64_t *coordinates, size_t coordinates_len, int32_t *work, size_t work_len) {
    if (number >= 2)
        return FILDWUK_TOO_WIDE;
    return __real_fildwuk_library_coordinate_lists(sheet, sheet_len, dimension, number, chains, chains_len, coordinates, coordinates_len, work, work_len);
}

uint32_t __wrap_fildwuk_library_surface(const uint8_t *sheet, size_t sheet_len, uint32_t dimension, const int32_t *chain, size_t chain_len,
                                        int64_t *surface, size_t surface_len, int32_t *work, size_t work_len) {
    (void)sheet, (void)sheet_len, (void)dimension, (void)chain, (void)chain_len, (void)surface, (void)surface_len, (void)work, (void)work_len;
    return FILDWUK_BOUNDARY_NOT_ZERO;
}
