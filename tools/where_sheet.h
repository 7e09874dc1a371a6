/* Where a sheet has the fault for which a proved call refuses it. */
#ifndef WHERE_SHEET_H
#define WHERE_SHEET_H

#include <stdint.h>
#include <stdio.h>

#include "input.h"

/* Writes where, for the refusals 1 to 7 and 18 under a limit of cells, as a sentence without a line feed; nothing where it is not sure. */
void where_sheet(const struct text *sheet, size_t limit, uint32_t number, FILE *file);

#endif
