/* The motors: one for each number, driven alike by all hubs. Who plays a command first begins it, and who plays it later finds it begun. */
#ifndef MOTORS_H
#define MOTORS_H

#include "kritnamon_inline.h"

/* Every motor's calibration. */
#define MOTORS_FLOOR   0.2f
#define MOTORS_CEILING 0.9f

/* How a command that began at one moment is played at another: its time left in ms, and what its motor is driven at. Hands back the
 * outcome. */
uint32_t motors_play(const uint8_t *command, uint32_t begun, uint32_t now, int64_t *left, float *drive);

/* The number of a command's motor. */
uint32_t motors_number(const uint8_t *command);

#endif
