/* The report as the program `homology` prints it: the lines H, G and R of docs/FORMAT.md. */
#ifndef PLAIN_H
#define PLAIN_H

#include <stdio.h>

#include "homology.h"

void plain_refusal(uint32_t number, FILE *file);

/* Writes the lines of a dimension, also of one that is refused. */
void plain_dimension(const struct homology *homology, FILE *file);

#endif
