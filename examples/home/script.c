#include "script.h"

#include "words.h"

#include <string.h>

#define OFFERED_AGAIN 40u /* after so long without a report a command is offered again */

/* What somebody in the home asks for, and at which moment. */
static const struct wish {
    uint32_t moment;
    uint32_t motor;
    uint32_t kind;
    int32_t duration;
    float a;
    float b;
} wishes[] = {
    {40, 3, KRITNAMON_BUZZ, 250, 0.5f, 0.0f},     {60, 12, KRITNAMON_RAMP, 4000, 0.25f, 1.0f},
    {90, 7, KRITNAMON_BUZZ, 1500, 0.75f, 0.0f},   {140, 12, KRITNAMON_STOP, 0, 0.0f, 0.0f},
    {170, 9, KRITNAMON_RAMP, 30000, 0.0f, 0.5f},  {190, 5, KRITNAMON_BUZZ, 800, 0.5f, 0.0f},
    {290, 21, KRITNAMON_BUZZ, 600, 0.25f, 0.0f},  {318, 1, KRITNAMON_BUZZ, 600000, 1.0f, 0.0f},
    {330, 2, KRITNAMON_BUZZ, 600000, 1.0f, 0.0f}, {470, 1, KRITNAMON_STOP, 0, 0.0f, 0.0f},
    {500, 2, KRITNAMON_STOP, 0, 0.0f, 0.0f},
};

#define WISHES (sizeof wishes / sizeof wishes[0])

/* How far a wish has come. */
static struct course {
    uint8_t command[KRITNAMON_COMMAND_SIZE];
    uint32_t offer_due;
    uint32_t first; /* which hub is asked first, from 0 */
    bool waits;     /* no hub takes it, and that has been said */
} courses[WISHES];

/* The hub that the last misfortune struck. */
static uint32_t struck;

/* ---- Wishes. */

/* A wish that is no legal command would be refused when it is offered. */
static void make_wishes(void)
{
    for (size_t index = 0; index < WISHES; index++) {
        const struct wish *wish = &wishes[index];

        courses[index] = (struct course){.offer_due = wish->moment};
        words_command(wish->motor, wish->kind, wish->duration, wish->a, wish->b, courses[index].command);
    }
}

static bool is_played(const struct course *course)
{
    for (uint32_t place = 1; place <= home.places; place++) {
        if (memcmp(home.chosen[place - 1], course->command, KRITNAMON_COMMAND_SIZE) == 0) {
            return true;
        }
    }
    return false;
}

bool script_is_done(void)
{
    for (size_t index = 0; index < WISHES; index++) {
        if (!is_played(&courses[index])) {
            return false;
        }
    }
    return true;
}

/* Offers a wish to one hub after the other until one takes it. If nobody plays it, another hub than that one is asked first the next time. */
static void offer(struct course *course)
{
    for (uint32_t turn = 0; turn < HUBS; turn++) {
        uint32_t own = (course->first + turn) % HUBS + 1;

        if (home_offer(own, course->command)) {
            course->first = own % HUBS;
            course->offer_due = home.now + OFFERED_AGAIN;
            return;
        }
    }
    if (!course->waits) {
        course->waits = true;
        home_note(WAITS, 0, 0, course->command);
    }
}

static void offer_all(void)
{
    for (size_t index = 0; index < WISHES; index++) {
        if (home.now >= courses[index].offer_due && !is_played(&courses[index])) {
            offer(&courses[index]);
        }
    }
}

/* ---- Misfortunes. */

static void leader_dies(void)
{
    struck = home_leader();
    home_lose_power(struck, 0);
}

static void follower_dies(void)
{
    struck = home_leader() % HUBS + 1;
    home_lose_power(struck, 0);
}

static void comes_back(void)
{
    home_return_power(struck);
}

static void leader_is_cut_off(void)
{
    struck = home_leader();
    home_cut_off(struck, true);
    home_note(IS_CUT_OFF, struck, 0, NULL);
}

static void is_heard_again(void)
{
    home_cut_off(struck, false);
    home_note(IS_HEARD, struck, 0, NULL);
}

static void follower_fails_to_store(void)
{
    home.storage[home_leader() % HUBS].fails = true;
}

static const struct misfortune {
    uint32_t moment;
    void (*happens)(void);
} misfortunes[] = {
    {80, follower_dies},   {120, comes_back},  {160, leader_is_cut_off},
    {200, is_heard_again}, {320, leader_dies}, {440, comes_back},
    {500, follower_fails_to_store},
};

static void misfortune(void)
{
    for (size_t index = 0; index < sizeof misfortunes / sizeof misfortunes[0]; index++) {
        if (home.now == misfortunes[index].moment) {
            misfortunes[index].happens();
        }
    }
}

/* ---- The night. */

void script_live(uint32_t moments, const struct watch *watch)
{
    home_begin(watch);
    make_wishes();
    while (home.now < moments) {
        misfortune();
        offer_all();
        home_moment();
        home.now++;
    }
}
