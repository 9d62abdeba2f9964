/* What befalls the home in its night: what people in it ask for, and what goes wrong. */
#ifndef SCRIPT_H
#define SCRIPT_H

#include "home.h"

#define NIGHT 560u /* moments */

/* Lives through a night of so many moments, from a fresh home on. */
void script_live(uint32_t moments, const struct watch *watch);

/* Whether everything that was asked for was played by some hub. */
bool script_is_done(void);

#endif
