/* Mutates mesh texts and sheets and runs every command of fildwuk on each, in process. Usage: command_mutations COUNT SEED FILE ..
 *
 * Each text is a file with one to four changes: of bytes, of numbers, of lines, of parts of other files, of a vertex added to a sheet. It is lent at its exact length, so that a
 * sanitizer sees a read beyond it. Held on each: a command answers 0, 1 or 2; import, sweep and report answer as the proved calls do, asked again here; the
 * reader of tools/mesh.c takes a text exactly where the import does not say 14, and finds a faulty element exactly where it says 15; a refusal with 14,
 * 15, 16 or 18 says where; a swept sheet is not refused, and is the sheet that was given where that is not; the proved calls agree with the chains that judge and surface find; and no message has a control byte but line feeds. The program
 * ends with status 3 where one of these fails, after writing the text to `failed_text` in the current folder. */
#include <stdlib.h>
#include <string.h>

#include "commands.h"
#include "element.h"
#include "fildwuk.h"
#include "fildwuk_library.h"
#include "mesh.h"

enum { MOST_FILES = 200, MOST_BYTES = 1 << 16, CHANGES = 4 };

static struct text files[MOST_FILES];
static size_t file_total;
static uint64_t state;

/* How many texts the proved import has answered with each number, how many runs of a command ended with each status, and how many sheets were swept, lost
 * a node by it, and were refused by the sweep. */
static size_t answers[FILDWUK_SHEET_TOO_LONG + 1], statuses[STATUS_FAILED + 1], swept_total, dropped_total, unswept_total;

/* A random number below a bound, by xorshift. */
static size_t below(size_t bound) {
    state ^= state << 13;
    state ^= state >> 7;
    state ^= state << 17;
    return (size_t)((state >> 11) % bound);
}

static void read_file(const char *name) {
    FILE *file = fopen(name, "rb");
    if (file == NULL || file_total == MOST_FILES)
        exit(2);
    struct text *text = &files[file_total++];
    text->bytes = malloc(MOST_BYTES);
    if (text->bytes == NULL)
        exit(2);
    text->length = fread(text->bytes, 1, MOST_BYTES, file);
    fclose(file);
}

/* Puts other bytes in place of a part of a text. */
static void replace(struct text *text, size_t start, size_t end, const void *bytes, size_t length) {
    if (text->length - (end - start) + length > MOST_BYTES)
        return;
    memmove(text->bytes + start + length, text->bytes + end, text->length - end);
    if (length > 0)
        memcpy(text->bytes + start, bytes, length);
    text->length = text->length - (end - start) + length;
}

/* The line that a place stands in, with its line feed. */
static void line_at(const struct text *text, size_t at, size_t *start, size_t *end) {
    for (*start = at; *start > 0 && text->bytes[*start - 1] != '\n';)
        --*start;
    for (*end = at; *end < text->length && text->bytes[*end] != '\n';)
        ++*end;
    *end += *end < text->length;
}

/* Changes a byte, puts one in, or takes some away. */
static void change_bytes(struct text *text) {
    static const uint8_t ODD[] = {0, 1, '\t', '\n', '\r', ' ', '"', '$', '-', '0', '1', '9', 27, 127, 128, 155, 255};
    uint8_t byte = below(2) == 0 ? ODD[below(sizeof ODD)] : (uint8_t)below(256);
    size_t at = below(text->length + 1), end = at + below(3);
    replace(text, at, end < text->length ? end : text->length, &byte, below(3) > 0);
}

/* Puts another number in place of a word of digits. */
static void change_number(struct text *text) {
    static const char *const NUMBERS[] = {"0",   "1",     "2",     "3",         "4",          "5",   "7",  "15",
                                          "256", "65535", "65536", "999999999", "1000000000", "007", "-1", "1e3"};
    size_t at = below(text->length + 1);
    while (at < text->length && (text->bytes[at] < '0' || text->bytes[at] > '9'))
        at++;
    size_t end = at;
    while (end < text->length && text->bytes[end] >= '0' && text->bytes[end] <= '9')
        end++;
    const char *number = NUMBERS[below(sizeof NUMBERS / sizeof *NUMBERS)];
    replace(text, at, end, number, strlen(number));
}

/* Takes a line away, doubles it, or puts one of another file there. */
static void change_line(struct text *text) {
    const struct text *other = &files[below(file_total)];
    size_t start, end, from, to;
    line_at(text, below(text->length + 1), &start, &end);
    line_at(other, below(other->length + 1), &from, &to);
    uint8_t *copy = malloc(to - from + end - start + 1);
    if (copy == NULL)
        exit(2);
    memcpy(copy, other->bytes + from, to - from);
    memcpy(copy + (to - from), text->bytes + start, end - start);
    switch (below(3)) {
    case 0: replace(text, start, end, NULL, 0); break;
    case 1: replace(text, start, start, copy + (to - from), end - start); break;
    default: replace(text, start, start, copy, to - from); break;
    }
    free(copy);
}

static void add_to_field(struct text *text, size_t at, size_t more) {
    size_t field = fildwuk_sheet_field(text->bytes, at) + more;
    text->bytes[at] = (uint8_t)field;
    text->bytes[at + 1] = (uint8_t)(field >> 8);
}

/* Adds a vertex to what may be a sheet, after its last one, with the count and the offsets that this asks for. */
static void add_vertex(struct text *text) {
    size_t end = text->length < 16 ? 0 : fildwuk_sheet_field(text->bytes, 6);
    if (end < 18 || end > text->length || text->length > MOST_BYTES - 2)
        return;
    size_t vertex = fildwuk_sheet_field(text->bytes, end - 2) + below(3);
    uint8_t bytes[] = {(uint8_t)vertex, (uint8_t)(vertex >> 8)};
    replace(text, end, end, bytes, sizeof bytes);
    add_to_field(text, 0, 1);
    for (size_t at = 6; at < 16; at += 4)
        add_to_field(text, at, sizeof bytes);
}

/* Cuts the end off. */
static void cut(struct text *text) { text->length = below(text->length + 1); }

static void mutate(struct text *text) {
    static void (*const CHANGE[])(struct text *) = {change_bytes, change_number, change_number, change_number,
                                                     change_line,  change_line,   add_vertex,    cut};
    const struct text *file = &files[below(file_total)];
    memcpy(text->bytes, file->bytes, file->length);
    text->length = file->length;
    for (size_t left = 1 + below(1 + below(CHANGES)); left > 0; left--)
        CHANGE[below(left > 1 ? 7 : 8)](text);
}

static void fail(const struct text *text, const char *what) {
    FILE *file = fopen("failed_text", "wb");
    if (file != NULL) {
        fwrite(text->bytes, 1, text->length, file);
        fclose(file);
    }
    fprintf(stderr, "command_mutations: %s\n", what);
    exit(3);
}

/* Whether a message has no control byte but line feeds. */
static int is_clean(const char *bytes, size_t length) {
    for (size_t i = 0; i < length; i++)
        if (((uint8_t)bytes[i] < 32 && bytes[i] != '\n') || (uint8_t)bytes[i] == 127)
            return 0;
    return 1;
}

/* What a run of a command gave. */
struct ran {
    int status;
    char *out, *err;
    size_t out_length, err_length;
};

/* Whether a message has these words. */
static int says(const struct ran *ran, const char *words) { return memmem(ran->err, ran->err_length, words, strlen(words)) != NULL; }

static struct ran run(const struct command *command, int count, char **words, const struct text *text) {
    struct ran ran = {STATUS_FAILED, NULL, NULL, 0, 0};
    struct console console = {open_memstream(&ran.out, &ran.out_length), open_memstream(&ran.err, &ran.err_length)};
    struct options options;
    if (console.out == NULL || console.err == NULL)
        exit(2);
    if (options_read(count, words, command->takes, command->name, &options, console.err) == OPTIONS_READ)
        ran.status = command->run(&options, text, &console);
    options_free(&options);
    fclose(console.out);
    fclose(console.err);
    if (ran.status < STATUS_DONE || ran.status > STATUS_FAILED)
        fail(text, "a command answers neither 0 nor 1 nor 2");
    statuses[ran.status]++;
    if ((ran.status != STATUS_DONE && ran.err_length == 0 && ran.out_length == 0) || !is_clean(ran.err, ran.err_length))
        fail(text, "a message is missing or has a control byte");
    if (says(&ran, "an error in this program"))
        fail(text, "the proved calls do not agree with what a command finds");
    return ran;
}

static void release(struct ran ran) {
    free(ran.out);
    free(ran.err);
}

/* Words of an option, with the bit that a command must take. */
struct choice {
    uint32_t bit;
    char *words[3];
};

/* Runs a command with up to two of its options. */
static void run_any(const struct command *command, const struct text *text) {
    static const struct choice CHOICES[] = {
        {OPTION_PLAIN, {"--plain"}},          {OPTION_JSON, {"--json"}},           {OPTION_DIMENSION, {"--dimension", "1"}},
        {OPTION_DIMENSION, {"--dimension", "2"}}, {OPTION_DIMENSION, {"--dimension", "9"}}, {OPTION_REGION, {"--region", "1"}},
        {OPTION_REGION, {"--region", "7", "8"}},  {OPTION_LIMIT, {"--limit", "host"}},      {OPTION_GROUPS, {"--groups", "/dev/null"}},
        {OPTION_VIEW, {"--view", "/dev/null"}},   {OPTION_TAGS, {"1", "2"}},                {OPTION_OUTPUT, {"-o", "/dev/null"}},
    };
    char *words[8] = {"a file"};
    int count = 1;
    for (int left = (int)below(3); left > 0; left--) {
        const struct choice *choice = &CHOICES[below(sizeof CHOICES / sizeof *CHOICES)];
        for (int i = 0; i < 3 && choice->words[i] != NULL && (command->takes & choice->bit) != 0; i++)
            words[count++] = choice->words[i];
    }
    release(run(command, count, words, text));
}

/* What the proved import answers. */
static uint32_t import(const struct text *text, uint8_t *sheet) {
    return fildwuk_library_import(text->bytes, text->length, sheet, FILDWUK_LIBRARY_SHEET_BYTES);
}

/* Holds the reader of meshes to the proved import. */
static void hold_reader(const struct text *text, uint32_t answer) {
    struct mesh mesh;
    struct mesh_fault fault;
    struct element_found found = {ELEMENT_SOUND, 0, 0};
    struct tags none = {NULL, 0};
    enum mesh_answer read = mesh_read(text, &mesh, &fault);
    if (read == MESH_NO_MEMORY || (read == MESH_MALFORMED) != (answer == FILDWUK_MESH_MALFORMED))
        fail(text, "the reader differs from the import over 14");
    if (read == MESH_READ && !element_first_fault(&mesh, &none, &found))
        exit(2);
    if ((found.fault != ELEMENT_SOUND) != (answer == FILDWUK_ELEMENT_FAULTY))
        fail(text, "the faults of elements differ from the import's over 15");
    mesh_free(&mesh);
}

/* Holds the command `import` to the proved import. */
static void hold_import(const struct text *text) {
    static uint8_t sheet[FILDWUK_LIBRARY_SHEET_BYTES];
    char *words[] = {"a file"};
    uint32_t answer = import(text, sheet);
    answers[answer]++;
    struct ran ran = run(command_find("import"), 1, words, text);
    hold_reader(text, answer);
    size_t due = answer == FILDWUK_DONE ? fildwuk_sheet_length(sheet) : 0;
    if (ran.status != (answer == FILDWUK_DONE ? STATUS_DONE : STATUS_REFUSED) || ran.out_length != due || memcmp(ran.out, sheet, due) != 0)
        fail(text, "import differs from the proved import");
    if ((answer == FILDWUK_MESH_MALFORMED || answer == FILDWUK_ELEMENT_FAULTY) && !says(&ran, "\nLine ") && !says(&ran, "\nThe "))
        fail(text, "14 or 15 does not say where");
    if (answer == FILDWUK_SHEET_TOO_LONG && !says(&ran, ", the limit is 256"))
        fail(text, "16 does not say the counts");
    release(ran);
}

/* What the proved calls answer to a text that is taken as a mesh or a sheet: the refusal of the whole, 0 where there is none. */
static uint32_t refusal_of(const struct text *text) {
    static uint8_t sheet[FILDWUK_LIBRARY_SHEET_BYTES];
    static int64_t report[FILDWUK_LIBRARY_REPORT_SLOTS(FILDWUK_LIBRARY_CELLS)];
    static int32_t work[FILDWUK_LIBRARY_WORK_SLOTS_MOST];
    if (input_is_mesh(text))
        return import(text, sheet);
    return fildwuk_library_report(text->bytes, text->length, 3, report, sizeof report / sizeof *report, work, sizeof work / sizeof *work);
}

/* Holds the plain lines of the command `report` to the proved calls: one line with the refusal of the whole, or lines of each dimension. */
static void hold_report(const struct text *text) {
    char *words[] = {"a file", "--plain"}, due[16];
    uint32_t refusal = refusal_of(text);
    struct ran ran = run(command_find("report"), 2, words, text);
    snprintf(due, sizeof due, "R %u\n", (unsigned)refusal);
    if (refusal == FILDWUK_DONE ? ran.status != STATUS_DONE || ran.out_length < 2 || memcmp(ran.out, "H ", 2) != 0
                                : ran.status != STATUS_REFUSED || ran.out_length != strlen(due) || memcmp(ran.out, due, ran.out_length) != 0)
        fail(text, "report differs from the proved calls");
    if (refusal == FILDWUK_LOOSE_NODE && !says(&ran, " in no edge: "))
        fail(text, "18 does not say where");
    release(ran);
}

/* Holds what a sweep has written to the report and to the sheet that was given. */
static void hold_swept(const struct text *text, const struct text *swept) {
    uint32_t refusal = refusal_of(text);
    int is_same = swept->length == text->length && memcmp(swept->bytes, text->bytes, text->length) == 0;
    if (refusal_of(swept) != FILDWUK_DONE || refusal != (is_same ? FILDWUK_DONE : FILDWUK_LOOSE_NODE))
        fail(text, "a swept sheet is refused, or is another where nothing is to be dropped");
    swept_total++;
    dropped_total += !is_same;
}

/* Holds the command `sweep` to the proved sweep, and both to the report. A mesh text is refused by both. */
static void hold_sweep(const struct text *text) {
    static uint8_t sheet[FILDWUK_LIBRARY_SHEET_BYTES];
    char *words[] = {"a file"};
    uint32_t answer = fildwuk_library_sweep(text->bytes, text->length, sheet, sizeof sheet);
    struct text swept = {sheet, answer == FILDWUK_DONE ? fildwuk_sheet_length(sheet) : 0};
    struct ran ran = run(command_find("sweep"), 1, words, text);
    if (ran.status != (answer == FILDWUK_DONE ? STATUS_DONE : STATUS_REFUSED) || ran.out_length != swept.length ||
        memcmp(ran.out, sheet, swept.length) != 0)
        fail(text, "sweep differs from the proved sweep");
    if (answer == FILDWUK_DONE)
        hold_swept(text, &swept);
    if (says(&ran, " dropped: ") != (answer == FILDWUK_DONE && swept.length < text->length))
        fail(text, "sweep does not say what it drops, or says it of nothing");
    unswept_total += answer != FILDWUK_DONE;
    release(ran);
}

/* Runs every command on a text. */
static void try(const struct text *text) {
    struct text exact = {malloc(text->length), text->length};
    if (exact.bytes == NULL && exact.length > 0)
        exit(2);
    if (exact.length > 0)
        memcpy(exact.bytes, text->bytes, text->length);
    hold_import(&exact);
    hold_report(&exact);
    hold_sweep(&exact);
    for (size_t i = 0; command_at(i) != NULL; i++)
        run_any(command_at(i), &exact);
    free(exact.bytes);
}

int main(int argc, char **argv) {
    static uint8_t room[MOST_BYTES];
    struct text text = {room, 0};
    if (argc < 4)
        return 2;
    state = strtoull(argv[2], NULL, 10) * 2654435761u + 88172645463325252u;
    for (int i = 3; i < argc; i++)
        read_file(argv[i]);
    long count = strtol(argv[1], NULL, 10);
    for (long i = 0; i < count; i++) {
        mutate(&text);
        try(&text);
    }
    for (size_t i = 0; i < file_total; i++)
        free(files[i].bytes);
    printf("%ld texts of %zu files through every command: %zu runs done, %zu refused, %zu misused\n", count, file_total, statuses[STATUS_DONE],
           statuses[STATUS_REFUSED], statuses[STATUS_FAILED]);
    printf("imports: %zu done, %zu with 14, %zu with 15, %zu with 16\n", answers[FILDWUK_DONE], answers[FILDWUK_MESH_MALFORMED],
           answers[FILDWUK_ELEMENT_FAULTY], answers[FILDWUK_SHEET_TOO_LONG]);
    printf("sweeps: %zu done, %zu of them with nodes dropped, %zu refused\n", swept_total, dropped_total, unswept_total);
    return 0;
}
