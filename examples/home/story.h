/* The night as text, on standard output. */
#ifndef STORY_H
#define STORY_H

#include "home.h"

/* What happened, a line for each fact but for messages. */
void story_tell(void);

/* What each hub reports, side by side, and how much there was of what. */
void story_sum_up(void);

#endif
