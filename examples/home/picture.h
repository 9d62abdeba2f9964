/* The night as a picture: SVG, in strips one below the other, with what the marks mean and what stands at each place. */
#ifndef PICTURE_H
#define PICTURE_H

#include "record.h"

#include <stdio.h>

/* Draws the facts of a night of so many moments. The same facts give the same bytes. */
void picture_draw(FILE *file, const struct record *record, uint32_t night);

#endif
