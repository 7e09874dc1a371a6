#include "lattice.h"

#include <stdlib.h>
#include <string.h>

/* The digits of a number of 128 bits are 39 at most. */
enum { MOST_DIGITS = 40 };

/* The greatest absolute value that is held. Its negative is held too, so that every sign can change. */
static const wide WIDEST = (((wide)1 << 126) - 1) * 2 + 1;

static wide absolute(wide a) {
    return a < 0 ? -a : a;
}

static wide divisor(wide a, wide b) {
    while (b != 0) {
        wide rest = a % b;
        a = b;
        b = rest;
    }
    return absolute(a);
}

/* The product, where it is held. */
static int product(wide a, wide b, wide *result) {
    return !__builtin_mul_overflow(a, b, result) && *result >= -WIDEST;
}

/* target = a * target - b * row, where all of it is held. */
static int combine(wide *target, wide a, const wide *row, wide b, size_t width) {
    for (size_t i = 0; i < width; i++) {
        wide left, right;
        if (!product(a, target[i], &left) || !product(b, row[i], &right))
            return 0;
        if (__builtin_sub_overflow(left, right, &target[i]) || target[i] < -WIDEST)
            return 0;
    }
    return 1;
}

static void negate(wide *row, size_t width) {
    for (size_t i = 0; i < width; i++)
        row[i] = -row[i];
}

static void exchange(wide *one, wide *other, size_t width) {
    for (size_t i = 0; i < width; i++) {
        wide kept = one[i];
        one[i] = other[i];
        other[i] = kept;
    }
}

/* The whole number nearest a / b, b positive: the rest has at most half of b. */
static wide nearest(wide a, wide b) {
    wide quotient = a / b, rest = a % b;
    if (absolute(rest) <= b - absolute(rest))
        return quotient;
    return rest < 0 ? quotient - 1 : quotient + 1;
}

/* Rows in echelon form that span what was inserted: where a row starts at column c it is row c, its entry there is positive; the other rows are
 * zeros. */
struct echelon {
    wide *rows;
    size_t width, rank;
};

static wide *row_of(struct echelon e, size_t column) {
    return e.rows + column * e.width;
}

/* Makes the entries after a column small by the rows that start there. */
static int shorten(struct echelon e, wide *row, size_t column) {
    for (size_t c = column + 1; c < e.width; c++) {
        const wide *pivot = row_of(e, c);
        if (pivot[c] != 0 && !combine(row, 1, pivot, nearest(row[c], pivot[c]), e.width))
            return 0;
    }
    return 1;
}

/* Turns the pivot's row and this one into two with the same span, of which this one is 0 at the column (Euclid). */
static int clear_column(wide *pivot, wide *row, size_t column, size_t width) {
    while (row[column] != 0) {
        if (!combine(pivot, 1, row, pivot[column] / row[column], width))
            return 0;
        exchange(pivot, row, width);
    }
    if (pivot[column] < 0)
        negate(pivot, width);
    return 1;
}

/* Adds the row to the span and overwrites it. */
static int insert(struct echelon *e, wide *row) {
    for (size_t c = 0; c < e->width; c++) {
        wide *pivot = row_of(*e, c);
        if (row[c] == 0)
            continue;
        e->rank += pivot[c] == 0;
        if (!clear_column(pivot, row, c, e->width) || !shorten(*e, pivot, c) || !shorten(*e, row, c))
            return 0;
    }
    return 1;
}

/* The product of the entries that the rows start with. */
static int pivots(struct echelon e, wide *result) {
    *result = 1;
    for (size_t c = 0; c < e.width; c++) {
        wide pivot = row_of(e, c)[c];
        if (pivot != 0 && !product(*result, pivot, result))
            return 0;
    }
    return 1;
}

static struct echelon echelon_of(size_t width) {
    struct echelon e = {calloc(width * width + 1, sizeof(wide)), width, 0};
    return e;
}

/* Inserts the columns of the echelon's rows, whose own echelon has as many rows as columns and the index as the product of its pivots. */
static int insert_columns(struct echelon e, struct echelon *columns, wide *room) {
    for (size_t c = 0; c < e.width; c++) {
        size_t place = 0;
        for (size_t r = 0; r < e.width; r++)
            if (row_of(e, r)[r] != 0)
                room[place++] = row_of(e, r)[c];
        if (!insert(columns, room))
            return 0;
    }
    return 1;
}

static enum lattice_answer index_of(struct echelon e, wide *room, wide *index) {
    struct echelon columns = echelon_of(e.rank);
    enum lattice_answer answer = LATTICE_NO_MEMORY;
    if (columns.rows != NULL)
        answer = insert_columns(e, &columns, room) && pivots(columns, index) ? LATTICE_DONE : LATTICE_TOO_WIDE;
    free(columns.rows);
    return answer;
}

static int insert_rows(struct echelon *e, struct lattice_rows rows, wide *room, uint8_t *independent) {
    for (size_t i = 0; i < rows.number; i++) {
        size_t before = e->rank;
        for (size_t c = 0; c < rows.width; c++)
            room[c] = rows.numbers[i * rows.width + c];
        if (!insert(e, room))
            return 0;
        independent[i] = e->rank > before;
    }
    return 1;
}

enum lattice_answer lattice_span(struct lattice_rows rows, struct lattice_span *span) {
    struct echelon e = echelon_of(rows.width);
    wide *room = calloc(rows.width + 1, sizeof(wide));
    enum lattice_answer answer = LATTICE_NO_MEMORY;
    if (e.rows != NULL && room != NULL)
        answer = insert_rows(&e, rows, room, span->independent) ? index_of(e, room, &span->index) : LATTICE_TOO_WIDE;
    span->rank = e.rank;
    free(e.rows);
    free(room);
    return answer;
}

/* Divides the numbers by their greatest common divisor. */
static void reduce(wide *numbers, size_t width) {
    wide common = 0;
    for (size_t i = 0; i < width && common != 1; i++)
        common = divisor(numbers[i], common);
    for (size_t i = 0; i < width && common > 1; i++)
        numbers[i] /= common;
}

/* A row followed by the combination of all rows that it is. */
struct tracked {
    wide *numbers;
    size_t width, all;
};

/* Clears what the row has where those before it start, by multiples of these and of itself. */
static int clear_row(struct tracked row, const wide *before, const size_t *starts, size_t number) {
    for (size_t i = 0; i < number; i++) {
        const wide *pivot = before + i * row.all;
        wide entry = row.numbers[starts[i]], common = divisor(entry, pivot[starts[i]]);
        if (entry == 0)
            continue;
        if (!combine(row.numbers, pivot[starts[i]] / common, pivot, entry / common, row.all))
            return 0;
        reduce(row.numbers, row.all);
    }
    return 1;
}

/* Row i with the combination that it is, all by itself. */
static void start_row(struct lattice_rows rows, size_t i, struct tracked row) {
    memset(row.numbers, 0, row.all * sizeof(wide));
    for (size_t c = 0; c < rows.width; c++)
        row.numbers[c] = rows.numbers[i * rows.width + c];
    row.numbers[rows.width + i] = 1;
}

/* Clears the rows one after another. An independent one is kept for those after it, a dependent one has become zeros and its relation. */
static int relate(struct lattice_rows rows, const uint8_t *independent, wide *kept, size_t *starts, wide *relations) {
    size_t number = 0;
    for (size_t i = 0; i < rows.number; i++) {
        struct tracked row = {kept + number * (rows.width + rows.number), rows.width, rows.width + rows.number};
        start_row(rows, i, row);
        if (!clear_row(row, kept, starts, number))
            return 0;
        if (row.numbers[rows.width + i] < 0)
            negate(row.numbers, row.all);
        if (!independent[i]) {
            memcpy(relations + i * rows.number, row.numbers + rows.width, rows.number * sizeof(wide));
            continue;
        }
        for (starts[number] = 0; row.numbers[starts[number]] == 0;)
            starts[number]++;
        number++;
    }
    return 1;
}

enum lattice_answer lattice_relations(struct lattice_rows rows, const uint8_t *independent, wide *relations) {
    size_t places = 1 + (rows.number < rows.width ? rows.number : rows.width);
    wide *kept = calloc(places * (rows.width + rows.number) + 1, sizeof(wide));
    size_t *starts = calloc(places, sizeof *starts);
    enum lattice_answer answer = LATTICE_NO_MEMORY;
    memset(relations, 0, rows.number * rows.number * sizeof(wide));
    if (kept != NULL && starts != NULL)
        answer = relate(rows, independent, kept, starts, relations) ? LATTICE_DONE : LATTICE_TOO_WIDE;
    free(kept);
    free(starts);
    return answer;
}

wide lattice_content(const int64_t *numbers, size_t width) {
    wide common = 0;
    for (size_t i = 0; i < width; i++)
        common = divisor(numbers[i], common);
    return common;
}

int lattice_multiple(const int64_t *row, const int64_t *of, size_t width, int64_t *times) {
    size_t first = 0;
    while (first < width && of[first] == 0)
        first++;
    if (first == width || row[first] == 0 || (wide)row[first] % of[first] != 0)
        return 0;
    wide quotient = (wide)row[first] / of[first];
    for (size_t i = 0; i < width; i++)
        if ((wide)row[i] != quotient * of[i])
            return 0;
    *times = (int64_t)quotient;
    return (wide)*times == quotient;
}

wide lattice_order(const int64_t *residues, const int64_t *orders, size_t width) {
    wide order = 1;
    for (size_t i = 0; i < width; i++) {
        wide own = orders[i] / divisor(residues[i], orders[i]);
        if (!product(order / divisor(order, own), own, &order))
            return 0;
    }
    return order;
}

void lattice_write(FILE *file, wide number) {
    char digits[MOST_DIGITS];
    size_t count = 0;
    wide rest = number;
    do
        digits[count++] = (char)('0' + (int)absolute(rest % 10));
    while ((rest /= 10) != 0);
    if (number < 0)
        fputc('-', file);
    while (count > 0)
        fputc(digits[--count], file);
}
