/* One strip of the night's picture: a lane for each hub, and one for what the motors are driven at, time from left to right. */
#ifndef STRIP_H
#define STRIP_H

#include "record.h"

#include <stdio.h>

/* In pixels. */
#define STRIP_LEFT   48  /* before the lanes, where their names stand */
#define STRIP_MOMENT 6   /* how wide a moment is */
#define STRIP_HEIGHT 224

struct strip {
    FILE *file;
    const struct record *record;
    uint32_t from, to; /* moments */
    uint32_t night;    /* moments of the whole */
    int top;
};

void strip_draw(const struct strip *strip);

/* The mark of a fact, with its number, around the point x, y. Nothing for a fact that has none. */
void strip_draw_mark(FILE *file, const struct fact *fact, int x, int y);

#endif
