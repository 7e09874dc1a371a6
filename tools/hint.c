/* What an input is, told by its first bytes. */
#include "hint.h"

#include <string.h>

#include "lines.h"

enum { START_BYTES = 256, DELETE = 127 };

static const char SAVE[] = "`gmsh FILE -save -format msh22 -o NEW.msh` writes it as MSH 2.2 ASCII";

/* How files of a format start, what they are, and what helps. */
struct start {
    const char *bytes;
    size_t length;
    const char *what, *help;
};

static const struct start STARTS[] = {
    {"\x1f\x8b", 2, "It is compressed by gzip", "`gunzip` unpacks it"},
    {"BZh", 3, "It is compressed by bzip2", "`bunzip2` unpacks it"},
    {"\xfd" "7zXZ\0", 6, "It is compressed by xz", "`unxz` unpacks it"},
    {"PK\3\4", 4, "It is a zip archive", "`unzip` unpacks it"},
    {"\xef\xbb\xbf", 3, "It starts with a byte order mark", "`sed -i '1s/^...//'` in the locale C takes it away"},
    {"\xff\xfe", 2, "It is text in UTF-16", "`iconv -f UTF-16 -t ASCII` turns it into ASCII"},
    {"\xfe\xff", 2, "It is text in UTF-16", "`iconv -f UTF-16 -t ASCII` turns it into ASCII"},
    {"solid ", 6, "It is STL", SAVE},
    {"# vtk DataFile", 14, "It is VTK", SAVE},
    {"$NOD\n", 5, "It is MSH 1", SAVE},
    {"$NOD\r\n", 6, "It is MSH 1", SAVE},
    {"    -1\n", 7, "It is UNV", SAVE},
};

/* Whether these bytes stand in the text. */
static int has(const struct text *text, const char *wanted) { return memmem(text->bytes, text->length, wanted, strlen(wanted)) != NULL; }

/* Writes which section of MSH 2.2 the text has that is not read. */
static void write_section(const struct text *text, FILE *file) {
    if (has(text, "\n$ParametricNodes") && !has(text, "\n$Nodes"))
        fprintf(file, "It has parametric coordinates: %s without them", SAVE);
    else if (has(text, "$EndElements\n$Periodic") || has(text, "$EndElements\r\n$Periodic"))
        fprintf(file, "It has periodic sides: %s without them", SAVE);
}

/* The version of the format that a word names, where it is one of Gmsh's other than 2.2; null else. */
static const char *other_version(const struct text *text, struct range word) {
    static const char *const VERSIONS[] = {"2", "2.0", "2.1", "3", "3.0", "4", "4.0", "4.1"};
    for (size_t i = 0; i < sizeof VERSIONS / sizeof *VERSIONS; i++)
        if (lines_word_is(text, word, VERSIONS[i]))
            return VERSIONS[i];
    return NULL;
}

/* Writes what the second line tells: another version, or that the file is binary; else which section is not read. */
static void write_version(const struct text *text, FILE *file) {
    struct lines lines = {.text = text};
    lines_take(&lines);
    if (!lines_word_is(text, lines.content, "$MeshFormat") || lines_take(&lines) != LINE_TAKEN)
        return;
    struct range version = lines_word(text, lines.content, lines.content.start), kind = lines_word(text, lines.content, version.end);
    const char *other = other_version(text, version);
    int is_ascii = lines_word_is(text, kind, "0"), is_binary = lines_word_is(text, kind, "1"), is_2_2 = lines_word_is(text, version, "2.2");
    if (other != NULL && (is_ascii || is_binary))
        fprintf(file, "It is MSH %s: %s", other, SAVE);
    else if (is_2_2 && is_binary)
        fprintf(file, "It is a binary file: %s", SAVE);
    else if (is_2_2 && is_ascii)
        write_section(text, file);
}

int hint_is_text(const struct text *text) {
    size_t looked_at = text->length < START_BYTES ? text->length : START_BYTES;
    for (size_t i = 0; i < looked_at; i++)
        if (!(text->bytes[i] >= ' ' && text->bytes[i] != DELETE) && memchr("\t\r\n", text->bytes[i], 3) == NULL)
            return 0;
    return text->length > 0 && !input_is_mesh(text);
}

int hint_is_mesh(const struct text *text) {
    static const char START[] = "$MeshFormat";
    return text->length >= sizeof START - 1 && memcmp(text->bytes, START, sizeof START - 1) == 0;
}

/* Whether a text has a word that only a script of Gmsh has. */
static int is_script(const struct text *text) {
    static const char *const WORDS[] = {"SetFactory(", "Point(", "Point (", "Physical Point", "Physical Curve", "Physical Line", "Physical Surface",
                                        "Physical Volume", "Extrude {", "Extrude{", "Merge \"", "Box(", "Mesh.CharacteristicLength", "Mesh.MeshSize"};
    for (size_t i = 0; i < sizeof WORDS / sizeof *WORDS; i++)
        if (has(text, WORDS[i]))
            return 1;
    return 0;
}

void hint_format(const struct text *text, FILE *file) {
    for (size_t i = 0; i < sizeof STARTS / sizeof *STARTS; i++)
        if (text->length >= STARTS[i].length && memcmp(text->bytes, STARTS[i].bytes, STARTS[i].length) == 0) {
            fprintf(file, "%s: %s", STARTS[i].what, STARTS[i].help);
            return;
        }
    if (input_is_mesh(text))
        write_version(text, file);
    else if (hint_is_text(text))
        fputs(is_script(text) ? "It is a script of Gmsh: `gmsh -3 FILE -format msh22 -o NEW.msh` meshes it"
                              : "It is text; a mesh starts with $MeshFormat and nothing before it", file);
}
