#include "fault.h"

#include "../home/script.h"
#include "check.h"

#define OUTAGE 12u            /* moments without power */
#define WHOLE  (NIGHT + 140u) /* moments: at the end there is time to recover */

static struct fault fault;
static struct result result;
static bool came_back;        /* the hub that was struck */
static uint32_t points_since; /* its points since then */

/* ---- What goes wrong. */

static void cut(const struct hub *hub)
{
    result.struck = hub->own;
    home_lose_power(hub->own, home.now + OUTAGE);
}

static void point(const struct hub *hub)
{
    result.points++;
    points_since += came_back && hub->own == result.struck;
    if (result.points == fault.cut) {
        cut(hub);
    } else if (fault.cut_again > 0 && points_since == fault.cut_again) {
        fault.cut_again = 0;
        cut(hub);
    }
}

static enum luck luck_of(const struct hub *hub, const struct deed *deed)
{
    bool is_store = deed->kind == STORE_PLAYED || (deed->kind == STORE && !fault.counts_only);

    if (!is_store) {
        return GOES_WELL;
    }
    result.stores++;
    if (result.stores == fault.store) {
        result.struck = hub->own;
        return fault.luck;
    }
    return fault.for_good && hub->own == result.struck ? fault.luck : GOES_WELL;
}

/* ---- Who looks on. */

static enum luck before(const struct hub *hub, const struct deed *deed)
{
    check_before(hub, deed);
    point(hub);
    return luck_of(hub, deed);
}

static void after(const struct hub *hub, const struct deed *deed, enum luck luck)
{
    check_after(hub, deed, luck);
    point(hub);
}

static void returns(uint32_t own)
{
    if (own == result.struck) {
        came_back = true;
        if (fault.damage != NULL) {
            fault.damage(&home.storage[own - 1]);
        }
    }
    check_returns(own);
}

static const struct watch watch = {before, after, returns};

/* ---- The night. */

/* A hub that lives and can store its state has to come through. */
static void end(uint32_t own)
{
    bool fails = fault.for_good && own == result.struck;

    if (home.out[own - 1] && (fault.damage == NULL || own != result.struck)) {
        home_object(own, "out for the night, and nothing damaged: term", hub_term(&home.hubs[own - 1]));
    }
    if (home.powered[own - 1] && !home.out[own - 1] && (!fails || fault.counts_only)) {
        check_end(own, !fails);
    }
}

struct result fault_live(const struct fault *with)
{
    fault = *with;
    result = (struct result){0};
    came_back = false;
    points_since = 0;
    check_begin();
    script_live(WHOLE, &watch);
    for (uint32_t own = 1; own <= HUBS; own++) {
        end(own);
    }
    if (!script_is_done()) {
        home_object(result.struck, "not everything was played, but place", home.places);
    }
    result.holds = home.objection.what == NULL;
    return result;
}
