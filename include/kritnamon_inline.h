/* Small functions around kritnamon.h, for C and C++: a number of a state, a gain's bits, a command played
 * with floats, an outcome's name. They are plain C, and no part of the library or of what is proved. */
#ifndef KRITNAMON_INLINE_H
#define KRITNAMON_INLINE_H

#include "kritnamon.h"

#include <assert.h>
#include <string.h>

static_assert(sizeof(float) == sizeof(uint32_t), "a gain is an IEEE 754 binary32");

/* The number in four bytes, big-endian: of a state, `state + KRITNAMON_STATE_TERM` and the like. */
static inline uint32_t kritnamon_number(const uint8_t *bytes)
{
    return (uint32_t)bytes[0] << 24 | (uint32_t)bytes[1] << 16 | (uint32_t)bytes[2] << 8 | bytes[3];
}

/* The bits of a gain, for a command's a or b or a calibration. */
static inline uint32_t kritnamon_gain_bits(float gain)
{
    uint32_t bits;

    memcpy(&bits, &gain, sizeof bits);
    return bits;
}

/* The gain of a command's a or b, or of a drive. */
static inline float kritnamon_gain(uint32_t bits)
{
    float gain;

    memcpy(&gain, &bits, sizeof gain);
    return gain;
}

/* A motor's calibration. */
struct kritnamon_calibration {
    float floor;
    float ceiling;
};

/* kritnamon_play for a motor's calibration, with the drive as a float. */
static inline uint32_t kritnamon_play_motor(const uint8_t *bytes, size_t length, int64_t elapsed,
                                            struct kritnamon_calibration motor, int64_t *left,
                                            float *drive)
{
    uint32_t bits;
    uint32_t outcome = kritnamon_play(bytes, length, elapsed, kritnamon_gain_bits(motor.floor),
                                      kritnamon_gain_bits(motor.ceiling), left, &bits);

    *drive = kritnamon_gain(bits);
    return outcome;
}

/* The name of an outcome, as kritnamon.h has it behind KRITNAMON_; "?" for any other number. */
static inline const char *kritnamon_outcome_name(uint32_t outcome)
{
    static const char *const names[] = {
        "DONE",          "NOT_KNOWN",   "BAD_STATE",     "SHORT_OUTPUT", "BAD_MESSAGE",
        "NOT_ADDRESSED", "STALE",       "CONTRADICTING", "WRONG_ROLE",   "NO_TERM_LEFT",
        "BAD_COMMAND",   "LOG_FULL",    "OUT_OF_RANGE",  "NOTHING_NEW",  "NOT_PLAYABLE",
        "BAD_CALIBRATION", "BAD_ELAPSED",
    };

    return outcome < sizeof names / sizeof names[0] ? names[outcome] : "?";
}

#endif
