/* Physical groups of a mesh, held to the homology of a region by the proved coordinates: which are multiples of others, and whether they are a basis
 * together. */
#ifndef JUDGEMENT_H
#define JUDGEMENT_H

#include <stddef.h>
#include <stdint.h>

#include "classes.h"
#include "lattice.h"

/* What a free group is a multiple of. */
struct multiple {
    int divides;   /* whether the group itself is its divisor times a cycle, its twisted part included */
    size_t like;   /* the group that it is a multiple of by its free part, itself where there is none */
    int64_t times; /* that multiple */
    int exactly;   /* whether the twisted parts agree too */
};

/* What is found of all groups together. */
enum together {
    TOGETHER_BASIS,    /* all are cycles and a basis of the free ones, twisted parts aside */
    TOGETHER_NO_BASIS,
    TOGETHER_TOO_WIDE  /* their numbers exceed 128 bits, so that this is not settled */
};

struct judgement {
    struct classes classes;
    struct multiple *multiples; /* one for each group */
    enum together together;
    int has_span;             /* 0 where the numbers exceed 128 bits */
    struct lattice_span span; /* of the free parts of the cycles; `independent` has a byte for each group, 0 where it is no cycle */
    wide *relations;          /* of the groups that depend on those before them; null where none does or the numbers exceed 128 bits */
};

/* Judges the groups with these tags. The answers are those of classes_find. Give the judgement to judgement_free after any answer; until then the mesh and
 * the homology must stay. */
enum classes_answer judgement_make(struct chain_region region, const struct homology *homology, const struct tags *tags, struct judgement *judgement);

void judgement_free(struct judgement *judgement);

/* The number of groups that are cycles. */
size_t judgement_cycles(const struct judgement *judgement);

/* The number of the relation of group i at group j. */
wide judgement_relation(const struct judgement *judgement, size_t i, size_t j);

#endif
