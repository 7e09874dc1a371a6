/* Fildwuk: the library's calls for C, which take sheets with up to 256 cells in a dimension. Those of fildwuk.h take 48 and have work arrays of their
 * own; a caller of these lends a work slice too.
 *
 * Slices are of numbers as the machine has them, aligned as their type asks: a coefficient of a given chain is an int32_t, a number of a report, of
 * coordinates or of a surface an int64_t. A length counts the elements of its slice; for a sheet and a text these are bytes.
 *
 * Who owns what: the caller owns every slice and lends it for the time of the call; a call keeps none. A call reads `sheet`, `chain` or `chains` and
 * `text`, and writes its output and `work`, in the headroom call also `peak` and `bits`, and nothing else. What it writes must overlap nothing else
 * that it is lent, and nobody else may use it while the call runs. A pointer may be null where its length is 0; `peak` and `bits` may not. There is
 * no state: calls may run at the same time on several threads, each with its own output and work slice. They always return, use no heap, and take no
 * more stack than those of fildwuk.h.
 *
 * What is left in the slices (`output` is the report, the coordinates, the surface, or the sheet of an import or a sweep):
 *
 *   answer                 output                                           work          peak and bits
 *   0, done                what is written, then what was there before      all zeros     written
 *   13, 17                 as it was                                        all zeros     as they were
 *   any other refusal      as it was                                        as it was     as they were
 *
 * The work slice may hold anything before the call: what it holds does not change the answer. Slices may be longer than asked for: the work slice
 * then reads 0 over its whole length, and the output stays as it was past what is written.
 *
 * The refusals are those of fildwuk.h and are tried in the same order. 2 and an import's 16 are told of a count beyond FILDWUK_LIBRARY_CELLS, 9 of an
 * output or a work slice that is too short. Where a sheet has at most FILDWUK_CELLS cells in each dimension, both sets of calls give the same numbers.
 */
#ifndef FILDWUK_LIBRARY_H
#define FILDWUK_LIBRARY_H

#include "fildwuk.h"

#ifdef __cplusplus
extern "C" {
#endif

/* The most cells that a dimension may have. */
#define FILDWUK_LIBRARY_CELLS 256

/* The slots to lend for n cells in the dimension asked for. With n = FILDWUK_LIBRARY_CELLS they are enough for every sheet: 65,794 of 8 bytes for a
 * report, 256 of 8 bytes for coordinates. A chain has exactly n coefficients. */
#define FILDWUK_LIBRARY_REPORT_SLOTS(n) (2 + (size_t)(n) + (size_t)(n) * (size_t)(n))
#define FILDWUK_LIBRARY_COORDINATE_SLOTS(n) ((size_t)(n))

/* The coefficients of `number` chains, and the slots to lend for their coordinate lists. */
#define FILDWUK_LIBRARY_CHAINS_SLOTS(number, n) ((size_t)(number) * (size_t)(n))
#define FILDWUK_LIBRARY_COORDINATE_LISTS_SLOTS(number, n) ((size_t)(number) * (size_t)(n))

/* The slots of the work slice, 4 bytes each, for n cells in the dimension asked for, `below` in the one before it and `above` in the next: 0 for the
 * dimensions -1 and 4, which have no cells. The most that any sheet asks for, 196,608, are 768 KiB. A surface call asks for more, below. */
#define FILDWUK_LIBRARY_WORK_SLOTS(n, below, above) \
    ((size_t)(n) * (2 * (size_t)(n) + ((size_t)(below) > (size_t)(above) ? (size_t)(below) : (size_t)(above))))
#define FILDWUK_LIBRARY_WORK_SLOTS_MOST FILDWUK_LIBRARY_WORK_SLOTS(FILDWUK_LIBRARY_CELLS, FILDWUK_LIBRARY_CELLS, FILDWUK_LIBRARY_CELLS)

/* The slots to lend for the surface of a cycle, 8 bytes each, and the slots of the work slice of that call: `above` * `above` more than of the others.
 * The most that any sheet asks for, 262,144, are 1 MiB. */
#define FILDWUK_LIBRARY_SURFACE_SLOTS(above) ((size_t)(above))
#define FILDWUK_LIBRARY_SURFACE_WORK_SLOTS(n, below, above) (FILDWUK_LIBRARY_WORK_SLOTS(n, below, above) + (size_t)(above) * (size_t)(above))
#define FILDWUK_LIBRARY_SURFACE_WORK_SLOTS_MOST \
    FILDWUK_LIBRARY_SURFACE_WORK_SLOTS(FILDWUK_LIBRARY_CELLS, FILDWUK_LIBRARY_CELLS, FILDWUK_LIBRARY_CELLS)

/* The bytes to lend for the sheet of an import or a sweep: enough for every sheet that the calls accept. */
#define FILDWUK_LIBRARY_SHEET_BYTES (16 + 2 * (1 + 2 + 3 + 4) * (size_t)FILDWUK_LIBRARY_CELLS)

/* The report of a dimension: the free rank b, the number t of torsion orders, the t orders, then t + b generators of n coefficients each, first
 * those of the orders, then the free ones. `report_len` must be at least FILDWUK_LIBRARY_REPORT_SLOTS(n), `work_len` at least
 * FILDWUK_LIBRARY_WORK_SLOTS(n, below, above), in this call and in the next three. */
uint32_t fildwuk_library_report(const uint8_t *sheet, size_t sheet_len, uint32_t dimension, int64_t *report, size_t report_len, int32_t *work,
                                size_t work_len);

/* The report with its headroom: answer, report and work slice are those of fildwuk_library_report. Where it is done, `peak` is the largest absolute
 * value that any matrix of the two reductions has held, and `bits` the bits that it needs, 0 for 0. A surface call keeps one matrix more, whose entries
 * are not in this peak. The peak is at most 1048575, which needs 20 bits;
 * docs/PLANNER.md says how to read it. */
uint32_t fildwuk_library_headroom(const uint8_t *sheet, size_t sheet_len, uint32_t dimension, int64_t *report, size_t report_len, int32_t *work,
                                  size_t work_len, uint64_t *peak, uint32_t *bits);

/* The coordinates of a cycle: t residues, then b whole numbers, in the report's order. `chain_len` must be n, `coordinates_len` at least
 * FILDWUK_LIBRARY_COORDINATE_SLOTS(n). */
uint32_t fildwuk_library_coordinates(const uint8_t *sheet, size_t sheet_len, uint32_t dimension, const int32_t *chain, size_t chain_len,
                                     int64_t *coordinates, size_t coordinates_len, int32_t *work, size_t work_len);

/* The coordinate lists of several cycles of one dimension, with one reduction for all. `chains_len` must be FILDWUK_LIBRARY_CHAINS_SLOTS(number, n):
 * the chains stand one after another. `coordinates_len` must be at least FILDWUK_LIBRARY_COORDINATE_LISTS_SLOTS(number, n): list i starts at slot
 * i * n, its first t + b slots get the coordinates of chain i, its other slots stay as they were. */
uint32_t fildwuk_library_coordinate_lists(const uint8_t *sheet, size_t sheet_len, uint32_t dimension, size_t number, const int32_t *chains,
                                          size_t chains_len, int64_t *coordinates, size_t coordinates_len, int32_t *work, size_t work_len);

/* The surface that a cycle bounds: a chain of the next dimension whose boundary is the given chain exactly, as fildwuk_surface has it. `chain_len` must
 * be n, with coefficients within FILDWUK_SURFACE_COEFFICIENT_MOST, `surface_len` at least FILDWUK_LIBRARY_SURFACE_SLOTS(above) and `work_len` at least
 * FILDWUK_LIBRARY_SURFACE_WORK_SLOTS(n, below, above). */
uint32_t fildwuk_library_surface(const uint8_t *sheet, size_t sheet_len, uint32_t dimension, const int32_t *chain, size_t chain_len, int64_t *surface,
                                 size_t surface_len, int32_t *work, size_t work_len);

/* Reads a mesh text and writes its sheet, as fildwuk_import does, with up to FILDWUK_LIBRARY_CELLS cells in a dimension. No work slice is lent. */
uint32_t fildwuk_library_import(const uint8_t *text, size_t text_len, uint8_t *sheet, size_t sheet_len);

/* Writes the sheet without its loose nodes, as fildwuk_sweep does, with up to FILDWUK_LIBRARY_CELLS cells in a dimension. No work slice is lent. */
uint32_t fildwuk_library_sweep(const uint8_t *sheet, size_t sheet_len, uint8_t *swept, size_t swept_len);

#ifdef __cplusplus
}
#endif

#endif
