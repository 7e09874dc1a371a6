/* The command `judge`. */
#include "judge.h"

#include "docket.h"
#include "fildwuk.h"
#include "judge_words.h"
#include "judgement.h"

const char JUDGE_HELP[] =
    "usage: fildwuk judge FILE.msh [TAG ..] [--dimension P] [--region TAG ..]\n"
    "                     [--json]\n"
    "\n"
    "Holds what a mesh file tells as loops to the proved coordinates. Each physical\n"
    "group of lines, or each of the tags named, is taken as a chain: the sum of its\n"
    "lines, each from its first node to its second. Told of each: whether it is a\n"
    "cycle of the region, its coordinates, whether it bounds, is twisted of an order,\n"
    "is free, is a number times another; and of all together: whether they are a\n"
    "basis of the free loops, else their index, and how they depend on each other.\n"
    "\n"
    "  --region TAG ..  the region is the elements with these physical tags, of the\n"
    "                   highest dimension that has the tag; without it, all elements\n"
    "                   but those of the groups judged\n"
    "  --dimension P    judge groups of points (0), lines (1, as without it),\n"
    "                   triangles (2, as cavities) or tetrahedra (3)\n"
    "  --json           one object for a script\n"
    "\n"
    "Exit status: 0 where all groups are cycles of the region and together a basis of\n"
    "its free loops, twisted parts aside; 1 where they are not, the file has no such\n"
    "group, or the mesh is refused; 2 where a file cannot be read, or a tag is none\n"
    "of a group.\n";

/* Judges the groups on the region's sheet, and writes what is found. */
static int judge_groups(const struct docket *docket, const struct source *region, const struct homology *homology, const struct console *console) {
    struct judgement judgement;
    enum classes_answer answer = judgement_make(docket_region(docket, region, FILDWUK_COEFFICIENT_MOST), homology, &docket->tags, &judgement);
    int status = STATUS_FAILED;
    if (answer == CLASSES_DONE) {
        status = judgement.together == TOGETHER_BASIS ? STATUS_DONE : STATUS_REFUSED;
        if (docket->options->form == FORM_JSON)
            judge_write_json(console->out, docket, region, &judgement);
        else
            judge_write_words(console->out, docket, region, &judgement);
    } else {
        docket_failed(answer, console->err);
    }
    judgement_free(&judgement);
    return status;
}

int judge_text(const struct options *options, const struct text *text, const struct console *console) {
    return docket_run(judge_groups, options, text, console);
}
