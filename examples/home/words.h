/* Commands from and to what people read. */
#ifndef WORDS_H
#define WORDS_H

#include "kritnamon.h"

/* Writes a command, its gains as floats, and returns the library's outcome. */
uint32_t words_command(uint32_t motor, uint32_t kind, int32_t duration, float a, float b,
                       uint8_t command[KRITNAMON_COMMAND_SIZE]);

/* A command in words, good until the next call. */
const char *words_of(const uint8_t command[KRITNAMON_COMMAND_SIZE]);

#endif
