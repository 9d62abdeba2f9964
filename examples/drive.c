/* What a motor is driven at, at a desk. Reads lines of a command, in the 32 hex digits of an entry line, and of the motor's floor and
 * ceiling, and prints how each is played: at every eighth of its duration, and as much past its end.
 *
 *     drive < examples/drive.txt
 *
 * Ends with 1 if a line is no such line, or what it has is refused. */
#include "kritnamon_inline.h"

#include <inttypes.h>
#include <stdbool.h>
#include <stdio.h>
#include <stdlib.h>
#include <string.h>

#define PARTS 8u

/* The 16 bytes of hex digits. Whether they are 32. */
static bool read_bytes(const char *digits, uint8_t command[KRITNAMON_COMMAND_SIZE])
{
    if (strlen(digits) != 2 * KRITNAMON_COMMAND_SIZE) {
        return false;
    }
    for (size_t index = 0; index < KRITNAMON_COMMAND_SIZE; index++) {
        unsigned byte;

        sscanf(digits + 2 * index, "%2x", &byte);
        command[index] = (uint8_t)byte;
    }
    return true;
}

static uint32_t duration_of(const uint8_t *command)
{
    uint32_t numbers[KRITNAMON_COMMAND_NUMBERS] = {0};

    kritnamon_read_command(command, KRITNAMON_COMMAND_SIZE, numbers, KRITNAMON_COMMAND_NUMBERS);
    return numbers[KRITNAMON_DURATION];
}

/* One play. Whether it was not refused. */
static bool play(const uint8_t *command, int64_t elapsed, struct kritnamon_calibration motor)
{
    int64_t left;
    float drive;
    uint32_t outcome = kritnamon_play_motor(command, KRITNAMON_COMMAND_SIZE, elapsed, motor, &left, &drive);

    if (outcome != KRITNAMON_DONE) {
        printf("refused: %s\n", kritnamon_outcome_name(outcome));
        return false;
    }
    printf("%7" PRId64 " ms  left %7" PRId64 "  drive %08" PRIx32 "  %.6f\n", elapsed, left, kritnamon_gain_bits(drive), (double)drive);
    return true;
}

static bool play_all(const uint8_t *command, struct kritnamon_calibration motor)
{
    for (uint32_t part = 0; part <= PARTS + 1; part++) {
        if (!play(command, (int64_t)duration_of(command) * part / PARTS, motor)) {
            return false;
        }
    }
    return true;
}

int main(void)
{
    char line[256];
    bool good = true;

    while (fgets(line, sizeof line, stdin) != NULL) {
        char digits[2 * KRITNAMON_COMMAND_SIZE + 1];
        struct kritnamon_calibration motor;
        uint8_t command[KRITNAMON_COMMAND_SIZE];

        fputs(line, stdout);
        if (sscanf(line, "%32[0-9a-f] %f %f", digits, &motor.floor, &motor.ceiling) == 3 && read_bytes(digits, command)) {
            good &= play_all(command, motor);
        } else {
            printf("no command, floor and ceiling\n");
            good = false;
        }
    }
    return good ? EXIT_SUCCESS : EXIT_FAILURE;
}
