/* Fildwuk: verified homology of conductor meshes. The host calls of documents 01 and 02, and helpers to read and write what they take and give.
 * fildwuk_library.h has the same calls for larger sheets. docs/SOLVER.md says what the numbers mean for a solver, docs/FORMAT.md has the formats.
 *
 * Link with libfildwuk.a: `pkg-config --cflags --libs fildwuk`, or the target fildwuk::fildwuk of find_package(fildwuk) in CMake; or with the shared
 * library, libfildwuk.so. Both have the calls of both headers, and need nothing but memcpy and memset.
 *
 * Every pointer is lent for the time of the call and not kept. A call reads `text`, `sheet` and `chain` or `chains`, and writes nothing but its
 * output: the report, the coordinates, the surface, or the sheet of an import or a sweep. The output must not overlap what the call reads, and
 * nobody else may write to any of them while the call runs. A pointer may be null where its length is 0. The calls keep no state: they may run at
 * the same time on several threads, each with its own output. They always return.
 *
 * Each call has its own work arrays on the caller's stack. 256 KiB of stack are enough for any sheet or text: how deep the calls go is bounded by
 * proof, whatever they are given, and with the frames of the library as built they take about 60 KiB. docs/SOLVER.md, "Stack", has the figures.
 *
 * Numbers stand in bytes, low byte first: 4 bytes for a coefficient of a given chain, 8 for a number of a report, for a coordinate and for a
 * coefficient of a surface, all signed.
 *
 * Cells and coefficients. The cells of a dimension stand in the sheet in rising order, by their first vertex, then the next. A chain has one
 * coefficient for each cell of its dimension, in that order, and so has a generator of a report. A cell with the vertices v0 < v1 < .. < vp is
 * oriented in this order, and its boundary is the sum of (-1)^i times the face without vi: +1 for the face without an even-placed vertex, -1 for the
 * face without an odd-placed one. The boundary of the edge (a, b) is b - a, that of the triangle (a, b, c) is (b, c) - (a, c) + (a, b).
 *
 * Orders. Each order divides the next. Twists of order 2 and 3 therefore read as one order 6: t is the number of orders, and does not count twists.
 */
#ifndef FILDWUK_H
#define FILDWUK_H

#include <stddef.h>
#include <stdint.h>

#ifdef __cplusplus
extern "C" {
#endif

/* The release. docs/RELEASES.md names its pivot rule. */
#define FILDWUK_VERSION_MAJOR 1
#define FILDWUK_VERSION_MINOR 8
#define FILDWUK_VERSION "1.8"

/* What a call answers; fildwuk_answer_text has it in words. A refusal leaves the output untouched.
 *
 * The order of trial is not that of the numbers:
 *
 *   report, headroom          1 to 7, 18, 8, 9, 13
 *   coordinates, lists        1 to 7, 18, 8, 9, 10, 11, 12, 13
 *   surface                   1 to 7, 18, 8, 9, 10, 11, 12, 13, 17
 *   sweep                     1 to 7, 16
 *   import                    14, 15, 16
 *
 * Each is tried over the whole sheet before the next, 14 over the whole text, 15 over all elements. 11 and 12 are tried chain by chain, in each chain
 * 11 before 12; 13 while the reduction runs. A call tells no other number than those of its line.
 *
 * 18 says that the sheet has an edge and a vertex in no edge, a loose node, which would count as a component of its own. A sweep writes the sheet
 * without its loose nodes. Before release 1.8 such a sheet was accepted. A sheet without edges is never refused with 18.
 *
 * 13 says that the reduction of this dimension went too wide, and nothing against the sheet. Told by a report or a coordinate call, it says that this
 * dimension of this sheet has no report under this release; the other dimensions may be done. Told by a surface call, it says that the call found no
 * answer, neither that the cycle bounds nor that it does not: these calls keep one matrix more, so that the report and the coordinates of the same
 * dimension may be done.
 * What to do: ask for regions that do not touch apart, since orders without a common divisor are read as their product when they stand in one sheet;
 * or number the nodes otherwise, since how wide a reduction goes depends on the order of the cells. Both were seen to help; neither always does: an
 * order beyond 1048575 is refused under every numbering.
 *
 * 16 in fildwuk_import: a count would exceed FILDWUK_CELLS, or the slice is too short; where FILDWUK_SHEET_BYTES are lent it is the count, and
 * fildwuk_library_import takes larger meshes. 16 there: a count would exceed FILDWUK_LIBRARY_CELLS, or the slice is too short; where
 * FILDWUK_LIBRARY_SHEET_BYTES are lent it is the count, and the mesh has to be made more coarsely or saved in part. Both count and measure the sheet
 * before its loose nodes are dropped. 16 in a sweep: the slice is too short for the sheet that it would write; never where `sheet_len` bytes are lent. */
enum fildwuk_answer {
    FILDWUK_DONE = 0,
    FILDWUK_SHEET_TOO_SHORT = 1,       /* the sheet has fewer than 16 bytes */
    FILDWUK_COUNT_EXCEEDS_LIMIT = 2,   /* a count exceeds FILDWUK_CELLS, in the library's calls FILDWUK_LIBRARY_CELLS */
    FILDWUK_OFFSET_DIFFERS = 3,        /* an offset differs from the one required */
    FILDWUK_LENGTH_DIFFERS = 4,        /* the sheet's length differs from the one required */
    FILDWUK_VERTICES_DO_NOT_RISE = 5,  /* in some cell the vertices do not rise strictly */
    FILDWUK_CELLS_DO_NOT_RISE = 6,     /* in some section the cells do not rise strictly */
    FILDWUK_FACE_MISSING = 7,          /* a face is missing */
    FILDWUK_DIMENSION_EXCEEDS_TOP = 8, /* the dimension exceeds 3 */
    FILDWUK_SLICE_TOO_SHORT = 9,       /* the output is too short, or the work slice of a library's call */
    FILDWUK_CHAIN_LENGTH_DIFFERS = 10, /* the chain has other than n coefficients, or the chains have other than number * n */
    FILDWUK_COEFFICIENT_EXCEEDS = 11,  /* a coefficient lies outside -32767 to 32767, in the surface calls outside -15 to 15 */
    FILDWUK_BOUNDARY_NOT_ZERO = 12,    /* a chain is no cycle */
    FILDWUK_TOO_WIDE = 13,             /* the reduction makes an entry beyond 1048575 */
    FILDWUK_MESH_MALFORMED = 14,       /* the text is no MSH 2.2 ASCII of the form that is read, or a node number exceeds 65535 */
    FILDWUK_ELEMENT_FAULTY = 15,       /* an element has another kind, another number of nodes than its kind, an unlisted node or a node twice */
    FILDWUK_SHEET_TOO_LONG = 16,       /* a count of the sheet would exceed its limit, or the slice for the sheet is too short */
    FILDWUK_BOUNDS_NOTHING = 17,       /* the cycle is the boundary of no chain with whole coefficients */
    FILDWUK_LOOSE_NODE = 18            /* the sheet has an edge, and a vertex in no edge */
};

/* The most cells that a dimension may have. */
#define FILDWUK_CELLS 48

/* The bytes to lend for n cells in the dimension asked for. With n = FILDWUK_CELLS those of the output are enough for every sheet; a chain has exactly
 * FILDWUK_CHAIN_BYTES(n). */
#define FILDWUK_REPORT_BYTES(n) (8 * (2 + (size_t)(n) + (size_t)(n) * (size_t)(n)))
#define FILDWUK_COORDINATE_BYTES(n) (8 * (size_t)(n))
#define FILDWUK_CHAIN_BYTES(n) (4 * (size_t)(n))

/* The bytes to lend for the surface of a cycle, where the next dimension has `above` cells: fildwuk_cell_count(sheet, dimension + 1). With `above` =
 * FILDWUK_CELLS they are enough for every sheet. */
#define FILDWUK_SURFACE_BYTES(above) (8 * (size_t)(above))

/* The largest absolute value of a coefficient in a given chain, and in one given to a surface call. */
#define FILDWUK_COEFFICIENT_MOST 32767
#define FILDWUK_SURFACE_COEFFICIENT_MOST 15

/* The bytes to lend for `number` chains of n coefficients each, and for their coordinate lists. */
#define FILDWUK_CHAINS_BYTES(number, n) ((size_t)(number) * FILDWUK_CHAIN_BYTES(n))
#define FILDWUK_COORDINATE_LISTS_BYTES(number, n) ((size_t)(number) * FILDWUK_COORDINATE_BYTES(n))

/* The bytes to lend for the sheet of an import or a sweep: enough for every sheet that the calls accept. */
#define FILDWUK_SHEET_BYTES (16 + 2 * (1 + 2 + 3 + 4) * (size_t)FILDWUK_CELLS)

/* The report of a dimension: the free rank b, the number t of torsion orders, the t orders, then t + b generators of n coefficients each, first
 * those of the orders, then the free ones. `report_len` must be at least FILDWUK_REPORT_BYTES(n); an incomplete number at the end gives no slot.
 * Bytes past the report stay as they were. */
uint32_t fildwuk_report(const uint8_t *sheet, size_t sheet_len, uint32_t dimension, uint8_t *report, size_t report_len);

/* The coordinates of a cycle: t residues, then b whole numbers, in the report's order. A residue of order d lies above -d/2 and up to d/2: order 2
 * gives 0 or 1, order 3 gives -1, 0 or 1. (Before release 1.5 it was 0 to d - 1; docs/RELEASES.md says how to turn one into the other.) The chain
 * has exactly FILDWUK_CHAIN_BYTES(n) bytes. `coordinates_len` must be at least FILDWUK_COORDINATE_BYTES(n). Bytes past the t + b numbers stay as they
 * were. */
uint32_t fildwuk_coordinates(const uint8_t *sheet, size_t sheet_len, uint32_t dimension, const uint8_t *chain, size_t chain_len,
                             uint8_t *coordinates, size_t coordinates_len);

/* The coordinate lists of several cycles of one dimension, with one reduction for all. The chains stand one after another and have exactly
 * FILDWUK_CHAINS_BYTES(number, n) bytes. Each list has n slots of 8 bytes, list i from byte i * FILDWUK_COORDINATE_BYTES(n) on: its first t + b
 * slots get the numbers that fildwuk_coordinates gives for chain i, its other slots stay as they were. `coordinates_len` must be at least
 * FILDWUK_COORDINATE_LISTS_BYTES(number, n), also where t + b is less than n. Bytes past the lists stay as they were.
 *
 * The first faulty chain decides between the refusals 11 and 12, and in one chain 11 comes first. Like every refusal they leave all lists as they
 * were. With no chains, 1 to 10, 13 and 18 still apply. Where n is 0, any number of chains is right, with no bytes. */
uint32_t fildwuk_coordinate_lists(const uint8_t *sheet, size_t sheet_len, uint32_t dimension, uint32_t number, const uint8_t *chains,
                                  size_t chains_len, uint8_t *coordinates, size_t coordinates_len);

/* The surface that a cycle bounds: a chain of the next dimension, one coefficient for each of its cells, whose boundary is the given chain exactly.
 * In dimension 1 the cycle is a loop and its surface a sum of triangles; in dimension 0 the surface is a sum of edges, in dimension 2 one of
 * tetrahedra. There may be other chains with that boundary: any two differ by a cycle.
 *
 * The answer is 17 exactly where no earlier refusal applies and no chain with whole coefficients, however large, has that boundary. Where the
 * coordinates of the cycle are done, that is where one of them is not 0. In dimension 3 only the chain of zeros bounds, and nothing is written.
 *
 * The chain has exactly FILDWUK_CHAIN_BYTES(n) bytes and coefficients within FILDWUK_SURFACE_COEFFICIENT_MOST. The coefficients of the surface are less
 * than 2^60 either way, and may be beyond what a chain may have. `surface_len` must be at least FILDWUK_SURFACE_BYTES(above), where the next dimension
 * has `above` cells; an incomplete number at the end gives no slot. Bytes past the surface stay as they were. */
uint32_t fildwuk_surface(const uint8_t *sheet, size_t sheet_len, uint32_t dimension, const uint8_t *chain, size_t chain_len, uint8_t *surface,
                         size_t surface_len);

/* Reads a mesh text, MSH 2.2 ASCII, and writes the sheet of all its cells and their faces without loose nodes: the vertex sets of the elements (points,
 * lines, triangles, tetrahedra) and their nonempty subsets, and where one of these is an edge, no vertex that is in none. The other calls accept that
 * sheet. Vertex numbers are the node numbers of the text. docs/FORMAT.md, "The mesh text", has the form. The text may have any length, and the time is in
 * proportion to it. Bytes past the sheet stay as they were; fildwuk_sheet_length tells its length. */
uint32_t fildwuk_import(const uint8_t *text, size_t text_len, uint8_t *sheet, size_t sheet_len);

/* Writes the sheet without its loose nodes, for sheets that were stored before release 1.8: the vertices in no edge are dropped where there is an edge,
 * and every other cell stays. The other calls accept what is written; a sheet that they accept, and one without edges, is written unchanged, byte for
 * byte. What is written is no longer than `sheet`: `sheet_len` bytes are always enough, and so are FILDWUK_SHEET_BYTES. The slices must not overlap: a
 * sheet is not swept in its place. Bytes past the sheet that is written stay as they were; fildwuk_sheet_length tells its length. */
uint32_t fildwuk_sweep(const uint8_t *sheet, size_t sheet_len, uint8_t *swept, size_t swept_len);

/* The answer in words, without a full stop. The text is not to be freed. */
static inline const char *fildwuk_answer_text(uint32_t answer)
{
    switch (answer) {
    case FILDWUK_DONE: return "done";
    case FILDWUK_SHEET_TOO_SHORT: return "the sheet has fewer than 16 bytes";
    case FILDWUK_COUNT_EXCEEDS_LIMIT: return "a count of cells exceeds the limit";
    case FILDWUK_OFFSET_DIFFERS: return "an offset differs from the one required";
    case FILDWUK_LENGTH_DIFFERS: return "the length of the sheet differs from the one required";
    case FILDWUK_VERTICES_DO_NOT_RISE: return "the vertices of a cell do not rise strictly";
    case FILDWUK_CELLS_DO_NOT_RISE: return "the cells of a dimension do not rise strictly";
    case FILDWUK_FACE_MISSING: return "a face of a cell is missing";
    case FILDWUK_DIMENSION_EXCEEDS_TOP: return "the dimension exceeds 3";
    case FILDWUK_SLICE_TOO_SHORT: return "a slice lent for the output or the work is too short";
    case FILDWUK_CHAIN_LENGTH_DIFFERS: return "a chain does not have one coefficient for each cell";
    case FILDWUK_COEFFICIENT_EXCEEDS: return "a coefficient lies outside -32767 to 32767, in a surface call outside -15 to 15";
    case FILDWUK_BOUNDARY_NOT_ZERO: return "a chain is no cycle";
    case FILDWUK_TOO_WIDE: return "the reduction makes an entry beyond 1048575";
    case FILDWUK_MESH_MALFORMED: return "the text is no MSH 2.2 ASCII of the form that is read, or a node number exceeds 65535";
    case FILDWUK_ELEMENT_FAULTY: return "an element has another kind, another number of nodes than its kind, an unlisted node or a node twice";
    case FILDWUK_SHEET_TOO_LONG: return "a count of cells would exceed the limit, or the slice lent for the sheet is too short";
    case FILDWUK_BOUNDS_NOTHING: return "the cycle is the boundary of no chain with whole coefficients";
    case FILDWUK_LOOSE_NODE: return "the sheet has an edge, and a vertex in no edge";
    default: return "no answer of this release";
    }
}

/* Number i of a report, of coordinates or of a surface. */
static inline int64_t fildwuk_get_number(const uint8_t *bytes, size_t i)
{
    uint64_t bits = 0;
    int k;
    for (k = 7; k >= 0; k--)
        bits = bits << 8 | bytes[8 * i + (size_t)k];
    return bits > INT64_MAX ? -(int64_t)~bits - 1 : (int64_t)bits;
}

static inline void fildwuk_put_number(uint8_t *bytes, size_t i, int64_t number)
{
    int k;
    for (k = 0; k < 8; k++)
        bytes[8 * i + (size_t)k] = (uint8_t)((uint64_t)number >> (8 * k) & 255);
}

/* Coefficient i of a chain, or of chains one after another. */
static inline int32_t fildwuk_get_coefficient(const uint8_t *chain, size_t i)
{
    uint32_t bits = 0;
    int k;
    for (k = 3; k >= 0; k--)
        bits = bits << 8 | chain[4 * i + (size_t)k];
    return bits > INT32_MAX ? -(int32_t)~bits - 1 : (int32_t)bits;
}

static inline void fildwuk_put_coefficient(uint8_t *chain, size_t i, int32_t coefficient)
{
    int k;
    for (k = 0; k < 4; k++)
        chain[4 * i + (size_t)k] = (uint8_t)((uint32_t)coefficient >> (8 * k) & 255);
}

/* The helpers from here on read a sheet without looking for faults: ask them of a sheet that a call has not refused with 1 to 7, or that an import or a
 * sweep has written. Before that they may read outside it. */

/* The 16-bit field at a byte of the sheet. */
static inline uint16_t fildwuk_sheet_field(const uint8_t *sheet, size_t at)
{
    return (uint16_t)(sheet[at] | (unsigned)sheet[at + 1] << 8);
}

/* The number of cells of a dimension: 0 for one that a sheet does not have, as 4 above dimension 3 and (uint32_t)-1 below dimension 0. */
static inline size_t fildwuk_cell_count(const uint8_t *sheet, uint32_t dimension)
{
    return dimension > 3 ? 0 : fildwuk_sheet_field(sheet, 4 * (size_t)dimension);
}

/* The length of the sheet in bytes: section 3 starts at its offset and has 8 bytes for each cell. */
static inline size_t fildwuk_sheet_length(const uint8_t *sheet)
{
    return fildwuk_sheet_field(sheet, 14) + 8 * fildwuk_cell_count(sheet, 3);
}

/* The vertex at a place, 0 to `dimension`, of cell `cell`, 0 to the count less 1. Vertices rise with the place. */
static inline uint16_t fildwuk_cell_vertex(const uint8_t *sheet, uint32_t dimension, size_t cell, uint32_t place)
{
    size_t section = fildwuk_sheet_field(sheet, 4 * (size_t)dimension + 2);
    return fildwuk_sheet_field(sheet, section + 2 * (cell * ((size_t)dimension + 1) + place));
}

/* What fildwuk_cell_place answers where there is no such cell. */
#define FILDWUK_NO_CELL ((size_t)-1)

/* The cell, 0 to the count less 1, with `dimension` + 1 vertices, which rise; FILDWUK_NO_CELL where there is none. */
static inline size_t fildwuk_cell_place(const uint8_t *sheet, uint32_t dimension, const uint16_t *vertices)
{
    size_t low = 0, high = fildwuk_cell_count(sheet, dimension);
    while (low < high) {
        size_t middle = low + (high - low) / 2;
        uint32_t place = 0;
        while (place < dimension && fildwuk_cell_vertex(sheet, dimension, middle, place) == vertices[place])
            place++;
        if (fildwuk_cell_vertex(sheet, dimension, middle, place) == vertices[place])
            return middle;
        if (fildwuk_cell_vertex(sheet, dimension, middle, place) < vertices[place])
            low = middle + 1;
        else
            high = middle;
    }
    return FILDWUK_NO_CELL;
}

/* The edge between two nodes, in either order. An edge that is run from its higher node to its lower one counts with the opposite sign. */
static inline size_t fildwuk_edge_place(const uint8_t *sheet, uint16_t from, uint16_t to)
{
    uint16_t vertices[2];
    vertices[0] = from < to ? from : to;
    vertices[1] = from < to ? to : from;
    return fildwuk_cell_place(sheet, 1, vertices);
}

#ifdef __cplusplus
}
#endif

#endif
