/* The files of --groups and --view. */
#include "exports.h"

#include <errno.h>
#include <string.h>
#include <sys/stat.h>

#include "hint.h"
#include "output.h"
#include "view.h"

enum { DIMENSION = 1 };

uint32_t exports_dimension(const struct options *options) { return options->has_dimension ? options->dimension : DIMENSION; }

static int refused(const char *why, FILE *err) {
    fprintf(err, "fildwuk: %s\n", why);
    return 0;
}

/* Writes the file of --groups, whose numbers are found. */
static int write_groups(const struct options *options, const struct text *text, const struct mesh *mesh, const struct chains *chains,
                        const struct groups *groups, FILE *err) {
    struct output output;
    if (!output_begin(&output, options->groups, options->input, err))
        return STATUS_FAILED;
    groups_write(output.file, text, mesh, chains, groups);
    return output_end(&output, err) ? STATUS_DONE : STATUS_FAILED;
}

static int write_view(const struct options *options, const struct text *text, const struct mesh *mesh, const struct chains *chains, FILE *err) {
    struct output output;
    if (!output_begin(&output, options->view, options->input, err))
        return STATUS_FAILED;
    int status = view_write(output.file, text, mesh, chains, err);
    if (status == STATUS_DONE)
        return output_end(&output, err) ? STATUS_DONE : STATUS_FAILED;
    output_drop(&output);
    return status;
}

/* Writes the view first, which may be refused for a coordinate, and then the groups, whose numbers are found before either. */
static int write_both(const struct options *options, const struct text *text, const struct mesh *mesh, const struct chains *chains,
                      struct groups *groups, FILE *err) {
    if (options->groups != NULL && !groups_plan(text, mesh, chains, groups, err))
        return STATUS_REFUSED;
    int status = options->view == NULL ? STATUS_DONE : write_view(options, text, mesh, chains, err);
    return status != STATUS_DONE || options->groups == NULL ? status : write_groups(options, text, mesh, chains, groups, err);
}

/* Whether two names, which may be null, are those of one file. */
static int is_same(const char *one, const char *other) {
    struct stat first, second;
    if (one == NULL || other == NULL)
        return 0;
    if (strcmp(one, other) == 0)
        return 1;
    return stat(one, &first) == 0 && stat(other, &second) == 0 && S_ISREG(first.st_mode) && first.st_dev == second.st_dev && first.st_ino == second.st_ino;
}

int exports_asked(const struct options *options) { return options->groups != NULL || options->view != NULL; }

int exports_check(const struct options *options, const struct source *source, FILE *err) {
    if (!exports_asked(options))
        return 1;
    if (!source->is_mesh && !hint_is_text(source->text))
        return refused("--groups and --view are for a mesh, and the input is a sheet, which has no coordinates", err);
    if (is_same(options->groups, options->view))
        return refused("--groups and --view name the same file", err);
    return (options->groups == NULL || output_check(options->groups, options->input, err)) &&
           (options->view == NULL || output_check(options->view, options->input, err));
}

int exports_write(const struct options *options, const struct text *text, const struct chains *chains, struct groups *groups,
                  const struct console *console) {
    struct mesh mesh;
    struct mesh_fault fault;
    *groups = (struct groups){0, 0, 0, 0};
    if (!exports_asked(options))
        return STATUS_DONE;
    if (mesh_read(text, &mesh, &fault) != MESH_READ) {
        refused(strerror(ENOMEM), console->err);
        return STATUS_FAILED;
    }
    int status = write_both(options, text, &mesh, chains, groups, console->err);
    mesh_free(&mesh);
    return status;
}
