/* A mesh text with some of its elements. */
#ifndef CHOSEN_H
#define CHOSEN_H

#include <stdint.h>

#include "input.h"
#include "mesh.h"

/* Makes the text with the lines of those elements alone for which `keep` has a byte other than 0, and with their count. Answers 0 where there is no
 * memory. Give the chosen text to input_free afterwards. */
int chosen_text(const struct text *text, const struct mesh *mesh, const uint8_t *keep, struct text *chosen);

#endif
