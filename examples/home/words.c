#include "words.h"

#include "../hub.h"

#include <inttypes.h>
#include <stdio.h>

#define TEXT_ROOM 64u

uint32_t words_command(uint32_t motor, uint32_t kind, int32_t duration, float a, float b,
                       uint8_t command[KRITNAMON_COMMAND_SIZE])
{
    return kritnamon_write_command(motor, kind, duration, kritnamon_gain_bits(a), kritnamon_gain_bits(b), command, KRITNAMON_COMMAND_SIZE);
}

const char *words_of(const uint8_t command[KRITNAMON_COMMAND_SIZE])
{
    static char text[TEXT_ROOM];
    uint32_t numbers[KRITNAMON_COMMAND_NUMBERS] = {0};

    kritnamon_read_command(command, KRITNAMON_COMMAND_SIZE, numbers, KRITNAMON_COMMAND_NUMBERS);
    if (numbers[KRITNAMON_MOTOR] == HUB_UNUSED_MOTOR) {
        return "(fills the place)";
    }
    switch (numbers[KRITNAMON_KIND]) {
    case KRITNAMON_STOP:
        snprintf(text, sizeof text, "motor %" PRIu32 " stop", numbers[KRITNAMON_MOTOR]);
        break;
    case KRITNAMON_BUZZ:
        snprintf(text, sizeof text, "motor %" PRIu32 " buzz %" PRIu32 " ms at %.2f", numbers[KRITNAMON_MOTOR],
                 numbers[KRITNAMON_DURATION], (double)kritnamon_gain(numbers[KRITNAMON_A]));
        break;
    case KRITNAMON_RAMP:
        snprintf(text, sizeof text, "motor %" PRIu32 " ramp %" PRIu32 " ms %.2f-%.2f", numbers[KRITNAMON_MOTOR],
                 numbers[KRITNAMON_DURATION], (double)kritnamon_gain(numbers[KRITNAMON_A]),
                 (double)kritnamon_gain(numbers[KRITNAMON_B]));
        break;
    }
    return text;
}
