#include "motors.h"

#include "home.h"

uint32_t motors_play(const uint8_t *command, uint32_t begun, uint32_t now, int64_t *left, float *drive)
{
    const struct kritnamon_calibration motor = {MOTORS_FLOOR, MOTORS_CEILING};
    int64_t elapsed = ((int64_t)now - begun) * MOMENT_MS;

    return kritnamon_play_motor(command, KRITNAMON_COMMAND_SIZE, elapsed, motor, left, drive);
}

uint32_t motors_number(const uint8_t *command)
{
    uint32_t numbers[KRITNAMON_COMMAND_NUMBERS] = {0};

    kritnamon_read_command(command, KRITNAMON_COMMAND_SIZE, numbers, KRITNAMON_COMMAND_NUMBERS);
    return numbers[KRITNAMON_MOTOR];
}
