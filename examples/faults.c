/* The night, lived again and again, each time with one fault more: power lost between any two things that a hub does, a store that fails,
 * storage that is damaged. What has to hold all the same stands in check.h. The last line is 'N passed, M failed'. */
#include "faults/check.h"
#include "faults/fault.h"

#include <inttypes.h>
#include <stdio.h>
#include <stdlib.h>
#include <string.h>

/* Of a state: docs/LAYOUT.md. */
#define CHOSEN_END (KRITNAMON_STATE_LENGTH - 1u) /* the last byte of the number */
#define ERASED     0xff

static uint32_t passed, failed;

static void judge(const char *name, uint32_t nights, uint32_t repeated, bool holds)
{
    printf("%s: %" PRIu32 " nights, %" PRIu32 " commands played again, %s\n", name, nights, repeated, holds ? "ok" : "FAILED");
    passed += holds;
    failed += !holds;
}

/* Lives through a night, and says what was objected to. */
static struct result live(const struct fault *fault)
{
    struct result result = fault_live(fault);

    if (!result.holds) {
        printf("  point %" PRIu32 ", store %" PRIu32 ": hub %" PRIu32 ": %s %" PRIu32 "\n", fault->cut, fault->store,
               home.objection.hub, home.objection.what, home.objection.number);
    }
    return result;
}

/* Whether all holds although the fault happens. */
static bool holds_with(const struct fault *fault)
{
    struct result result = live(fault);

    return result.holds && result.struck != 0;
}

/* ---- Faults at every point, and at every store. */

/* One night for each value of `number`, which is one of the fault's, up to the first that doesn't hold. Returns how many commands were
 * played again. */
static uint32_t sweep(const char *name, const struct fault *fault, uint32_t *number, uint32_t end)
{
    uint32_t repeated = 0;
    bool holds = end > 0;

    for (*number = 1; holds && *number <= end; ++*number) {
        holds = holds_with(fault);
        repeated += check_repeated();
    }
    judge(name, *number - 1, repeated, holds);
    return repeated;
}

/* A command is played again where power is lost after it was played and before it was counted, two points of each play, and nowhere else. */
static void test_cuts(uint32_t points, uint32_t plays)
{
    struct fault once = {0};
    struct fault twice = {.cut_again = 2};
    uint32_t repeated = sweep("power lost at each point", &once, &once.cut, points);

    judge("of these, two nights for each play", points, repeated, repeated == 2 * plays);
    sweep("power lost at each point, and again after the hub's next deed", &twice, &twice.cut, points);
}

static void test_failures(uint32_t stores, uint32_t counts)
{
    struct fault fails = {.luck = FAILS};
    struct fault done = {.luck = FAILS_DONE};
    struct fault for_good = {.luck = FAILS, .for_good = true};
    struct fault uncounted = {.luck = FAILS, .for_good = true, .counts_only = true};

    sweep("each store fails", &fails, &fails.store, stores);
    sweep("each store fails, and was done all the same", &done, &done.store, stores);
    sweep("from each store on, all of that hub fail", &for_good, &for_good.store, stores);
    sweep("from each count on, all counts of that hub fail", &uncounted, &uncounted.store, counts);
}

/* ---- Storage that is damaged. */

static void can_not_be_read(struct storage *storage)
{
    storage->unreadable = true;
}

static void is_erased(struct storage *storage)
{
    memset(storage->state, ERASED, sizeof storage->state);
}

static void chooses_too_much(struct storage *storage)
{
    storage->state[CHOSEN_END] = ERASED;
}

static void count_can_not_be_read(struct storage *storage)
{
    storage->played_unreadable = true;
}

static void counts_too_much(struct storage *storage)
{
    storage->played = KRITNAMON_PLACES;
}

/* A hub with a damaged state stays out and says so; one with a damaged count plays everything again. */
static void test_damage(const char *name, void (*damage)(struct storage *), uint32_t cut, bool stays_out)
{
    struct fault fault = {.cut = cut, .damage = damage};
    bool holds = holds_with(&fault);
    bool out = home.outcomes[KRITNAMON_BAD_STATE] > 0;

    judge(name, 1, check_repeated(), holds && out == stays_out && (check_repeated() == 0) == stays_out);
}

static void test_damages(uint32_t cut)
{
    test_damage("a state that can't be read", can_not_be_read, cut, true);
    test_damage("a state that is erased", is_erased, cut, true);
    test_damage("a state that reports more than it holds", chooses_too_much, cut, true);
    test_damage("a count that can't be read", count_can_not_be_read, cut, false);
    test_damage("a count of more than the state reports", counts_too_much, cut, false);
}

int main(void)
{
    struct fault none = {0};
    struct fault counts_only = {.counts_only = true};
    struct result whole = live(&none);
    uint32_t plays = HUBS * home.places;
    uint32_t counts = fault_live(&counts_only).stores;

    judge("nothing goes wrong", 1, check_repeated(), whole.holds && check_repeated() == 0);
    test_cuts(whole.points, plays);
    test_failures(whole.stores, counts);
    test_damages(whole.points / 2);
    printf("%" PRIu32 " passed, %" PRIu32 " failed\n", passed, failed);
    return failed == 0 ? EXIT_SUCCESS : EXIT_FAILURE;
}
