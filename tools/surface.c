/* The command `surface`. */
#include "surface.h"

#include "docket.h"
#include "exports.h"
#include "fildwuk.h"
#include "surface_words.h"
#include "surfaces.h"

const char SURFACE_HELP[] =
    "usage: fildwuk surface FILE.msh [TAG ..] [--dimension P] [--region TAG ..]\n"
    "                       [--json] [--groups OUT.msh] [--view OUT.pos]\n"
    "\n"
    "Says for each physical group of lines, or for each of the tags named, which\n"
    "surface of the region it bounds: triangles with coefficients, whose boundary is\n"
    "the sum of the group's lines, each from its first node to its second. There may\n"
    "be other surfaces: any two differ by a closed one. Where there is none, it says\n"
    "why: a line is no edge of the region, a coefficient is beyond 15, the group is\n"
    "no cycle, or it is free, or twisted of an order: that many times it bounds.\n"
    "\n"
    "  --region TAG ..  the region is the elements with these physical tags, of the\n"
    "                   highest dimension that has the tag; without it, all elements\n"
    "                   but those of the groups taken\n"
    "  --dimension P    groups of lines (1, as without it), of triangles (2), which\n"
    "                   bound tetrahedra, or of points (0), which bound edges\n"
    "  --json           one object for a script\n"
    "  --groups FILE    writes the mesh with each surface as a physical group\n"
    "  --view FILE      writes each surface as a view of Gmsh\n"
    "\n"
    "Exit status: 0 where every group has a surface; 1 where one has none, the file\n"
    "has no such group, or the mesh is refused; 2 where a file cannot be read or\n"
    "written, or a tag is none of a group.\n";

/* Writes the files that are asked for, and then what is found. */
static int write_found(const struct docket *docket, const struct source *region, const struct surfaces *surfaces, const struct console *console) {
    struct groups groups;
    int status = exports_write(docket->options, docket->text, &surfaces->chains, &groups, console);
    const struct groups *written = status == STATUS_DONE && exports_asked(docket->options) ? &groups : NULL;
    if (docket->options->form == FORM_JSON)
        surface_write_json(console->out, docket, region, surfaces, written);
    else
        surface_write_words(console->out, docket, region, surfaces, written);
    if (status != STATUS_DONE)
        return status;
    return surfaces->classes.total > 0 && surfaces->chains.total == surfaces->classes.total ? STATUS_DONE : STATUS_REFUSED;
}

/* Finds the surfaces of the groups on the region's sheet. */
static int find_surfaces(const struct docket *docket, const struct source *region, const struct homology *homology, const struct console *console) {
    struct surfaces surfaces;
    struct chain_region held = docket_region(docket, region, FILDWUK_SURFACE_COEFFICIENT_MOST);
    enum classes_answer answer = surfaces_find(held, homology, &docket->tags, &docket->options->region, &surfaces);
    int status = answer == CLASSES_DONE ? write_found(docket, region, &surfaces, console) : docket_failed(answer, console->err);
    surfaces_free(&surfaces);
    return status;
}

int surface_text(const struct options *options, const struct text *text, const struct console *console) {
    struct source source = {.text = text, .is_mesh = 1};
    if (options->has_dimension && options->dimension == SHEET_DIMENSIONS - 1) {
        fputs("fildwuk: tetrahedra bound nothing in a mesh: 0, 1 or 2 is wanted after --dimension (fildwuk surface --help)\n", console->err);
        return STATUS_FAILED;
    }
    if (!exports_check(options, &source, console->err))
        return STATUS_FAILED;
    return docket_run(find_surfaces, options, text, console);
}
