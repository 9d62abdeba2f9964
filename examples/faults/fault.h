/* A night in which one thing more goes wrong than the script has. */
#ifndef FAULT_H
#define FAULT_H

#include "../home/home.h"

/* Points and stores are counted over the night, from 1; 0 is none. */
struct fault {
    uint32_t cut;       /* the point at which power is lost: there is one before and one after each deed of a hub */
    uint32_t cut_again; /* and the one at which it is lost again, among the hub's own after it came back */
    uint32_t store;     /* the store that fails, of a state or of a count */
    enum luck luck;     /* how it fails */
    bool for_good;      /* and so do all of the hub's that follow */
    bool counts_only;   /* stores of states go well, and are not among those counted */
    void (*damage)(struct storage *storage); /* what becomes of storage while power is away */
};

/* How the night went. */
struct result {
    bool holds;              /* nothing was objected to; else home.objection says what */
    uint32_t points, stores; /* how many there were */
    uint32_t struck;         /* the hub at which the fault happened; 0 if it did not */
};

/* Lives through the night. What check.h asks has to hold all along, and in the end everything that was asked for was played, by every hub
 * that lives and can store. */
struct result fault_live(const struct fault *fault);

#endif
