/* The physical groups of a mesh that a command is asked about, and the region that they are held to. */
#include "docket.h"

#include <errno.h>
#include <inttypes.h>
#include <stdlib.h>
#include <string.h>

#include "chosen.h"
#include "fildwuk.h"
#include "json.h"
#include "physical.h"
#include "refusal.h"
#include "region.h"

enum { DIMENSION = 1 };

static int failed(const char *why, FILE *err) {
    fprintf(err, "fildwuk: %s\n", why);
    return STATUS_FAILED;
}

int docket_failed(enum classes_answer answer, FILE *err) {
    return failed(answer == CLASSES_NO_MEMORY ? strerror(ENOMEM) : "an error in this program: the proved call does not agree with the chains", err);
}

struct chain_region docket_region(const struct docket *docket, const struct source *region, int64_t most) {
    const struct text *sheet = &region->sheet;
    return (struct chain_region){docket->mesh, sheet->bytes, sheet->length, sheet_count(sheet->bytes, docket->dimension), docket->dimension, most};
}

/* Says that a tag is none of a group, and which are. */
static int unknown(const struct docket *docket, const struct tags *all, uint32_t tag, FILE *err) {
    const char *elements = physical_element_name(docket->dimension, 2);
    fprintf(err, "fildwuk: no group of %s has the tag %" PRIu32, elements, tag);
    physical_write_tags(err, "; the tags are ", docket->text, docket->mesh, docket->dimension, all);
    if (all->total == 0)
        fprintf(err, "; the file has no physical group of %s", elements);
    fputc('\n', err);
    return STATUS_FAILED;
}

/* Takes the tags named, each once. */
static int take_named(struct docket *docket, const struct tags *all, FILE *err) {
    const struct tags *named = &docket->options->tags;
    for (size_t i = 0; i < named->total; i++) {
        if (!tags_have(all, named->list[i]))
            return unknown(docket, all, named->list[i], err);
        if (!tags_have(&docket->tags, named->list[i]))
            docket->tags.list[docket->tags.total++] = named->list[i];
    }
    return STATUS_DONE;
}

/* Takes all tags but those of groups that are part of the region, which are left out. Where none is left, that is said, and none are taken. */
static void take_all(struct docket *docket, const struct tags *all, FILE *err) {
    const char *elements = physical_element_name(docket->dimension, 2);
    for (size_t i = 0; i < all->total; i++) {
        int left_out = region_takes(docket->mesh, &docket->options->region, docket->dimension, all->list[i]);
        struct tags *taken = left_out ? &docket->left_out : &docket->tags;
        taken->list[taken->total++] = all->list[i];
    }
    if (docket->tags.total == 0) {
        fprintf(err, "fildwuk: the file has no physical group of %s", elements);
        physical_write_tags(err, " but those of the region, which are left out: ", docket->text, docket->mesh, docket->dimension, &docket->left_out);
        fputc('\n', err);
    }
}

/* Finds the tags to take: those named, else all but those of the region. */
static int find_tags(struct docket *docket, FILE *err) {
    struct tags all;
    size_t named = docket->options->tags.total;
    if (!physical_tags(docket->mesh, docket->dimension, &all))
        return failed(strerror(ENOMEM), err);
    docket->tags.list = calloc(all.total + named + 1, sizeof *docket->tags.list);
    docket->left_out.list = calloc(all.total + 1, sizeof *docket->left_out.list);
    int status = STATUS_FAILED;
    if (docket->tags.list == NULL || docket->left_out.list == NULL)
        failed(strerror(ENOMEM), err);
    else if (named > 0)
        status = take_named(docket, &all, err);
    else {
        take_all(docket, &all, err);
        status = STATUS_DONE;
    }
    free(all.list);
    if (status == STATUS_DONE && docket->tags.total > DOCKET_MOST) {
        fprintf(err, "fildwuk: %zu groups are more than are taken at once, which are %d: name their tags\n", docket->tags.total, DOCKET_MOST);
        return STATUS_REFUSED;
    }
    return status;
}

/* Finds the text of the region where --region is not given: with the elements that are not of the groups taken. Answers 0 where there is no memory. */
static int find_region(const struct docket *docket, struct text *chosen) {
    struct physical_index index = {NULL, 0};
    uint8_t *keep = calloc(docket->mesh->element_total + 1, 1);
    int done = keep != NULL && physical_index(&docket->tags, &index);
    for (size_t i = 0; done && i < docket->mesh->element_total; i++)
        keep[i] = physical_group(&index, &docket->mesh->elements[i], docket->dimension) == SIZE_MAX;
    done = done && chosen_text(docket->text, docket->mesh, keep, chosen);
    free(index.places);
    free(keep);
    return done;
}

/* Says a refusal, as an object too where that is asked for. */
static int refuse(const struct refusal *refusal, const struct console *console) {
    if (refusal->options->form == FORM_JSON)
        json_refusal(refusal, console->out);
    return refusal_tell(refusal, console->err);
}

/* Says a refusal of the region. Where an element is at fault, its line is looked for in the whole text, which is refused too. */
static int refuse_region(const struct docket *docket, const struct source *region, const struct homology *homology, const struct console *console) {
    struct source source = *region;
    uint32_t number = homology == NULL ? region->answer : homology->answer;
    if (number != FILDWUK_SHEET_TOO_LONG)
        source.text = docket->text;
    struct refusal refusal = {number, docket->options, &source, homology != NULL, docket->dimension};
    return refuse(&refusal, console);
}

static int work_on_region(const struct docket *docket, const struct source *region, docket_work *work, const struct console *console) {
    struct homology homology;
    if (region->answer != FILDWUK_DONE)
        return refuse_region(docket, region, NULL, console);
    if (!homology_of(region->sheet.bytes, region->sheet.length, docket->dimension, LIMIT_LIBRARY, &homology))
        return failed(strerror(ENOMEM), console->err);
    int status = homology.answer != FILDWUK_DONE ? refuse_region(docket, region, &homology, console) : work(docket, region, &homology, console);
    homology_free(&homology);
    return status;
}

/* Does the work on the groups of a text that has been read. */
static int work_on_mesh(struct docket *docket, docket_work *work, const struct console *console) {
    struct text chosen = {NULL, 0};
    struct source region;
    int status = find_tags(docket, console->err), all = docket->options->region.total == 0;
    if (status == STATUS_DONE && all && !find_region(docket, &chosen))
        status = failed(strerror(ENOMEM), console->err);
    if (status == STATUS_DONE && !source_import(docket->options, all ? &chosen : docket->text, &region, console->err))
        status = STATUS_FAILED;
    else if (status == STATUS_DONE) {
        status = work_on_region(docket, &region, work, console);
        source_free(&region);
    }
    input_free(&chosen);
    free(docket->tags.list);
    free(docket->left_out.list);
    return status;
}

/* Says that a dimension is refused, as the proved calls refuse it. */
static int refuse_dimension(const struct docket *docket, const struct console *console) {
    struct source source = {.text = docket->text, .is_mesh = 1};
    struct refusal refusal = {FILDWUK_DIMENSION_EXCEEDS_TOP, docket->options, &source, 0, 0};
    return refuse(&refusal, console);
}

/* Says why a text is refused that is not of the form. */
static int refuse_text(const struct options *options, const struct text *text, const struct console *console) {
    struct source source;
    if (!source_import(options, text, &source, console->err))
        return STATUS_FAILED;
    struct refusal refusal = {source.answer, options, &source, 0, 0};
    int status = refuse(&refusal, console);
    source_free(&source);
    return status;
}

int docket_run(docket_work *work, const struct options *options, const struct text *text, const struct console *console) {
    struct mesh mesh;
    struct mesh_fault fault;
    struct docket docket = {options, text, &mesh, {NULL, 0}, {NULL, 0}, options->has_dimension ? options->dimension : DIMENSION};
    if (options->no_tag != NULL) {
        region_no_tag(text, options->no_tag, console->err);
        return STATUS_FAILED;
    }
    enum mesh_answer answer = mesh_read(text, &mesh, &fault);
    if (answer == MESH_NO_MEMORY)
        return failed(strerror(ENOMEM), console->err);
    if (answer == MESH_MALFORMED)
        return refuse_text(options, text, console);
    int status = docket.dimension < SHEET_DIMENSIONS ? work_on_mesh(&docket, work, console) : refuse_dimension(&docket, console);
    mesh_free(&mesh);
    return status;
}
