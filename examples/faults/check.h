/* What has to hold of every hub at everything that it asks of its device, whatever goes wrong. What does not is objected to. */
#ifndef CHECK_H
#define CHECK_H

#include "../home/home.h"

/* Before a night. */
void check_begin(void);

/* At each deed of a hub, before and after it, and when power comes back: as in struct watch. */
void check_before(const struct hub *hub, const struct deed *deed);
void check_after(const struct hub *hub, const struct deed *deed, enum luck luck);
void check_returns(uint32_t own);

/* After a night, of a hub that lives and can store its state: it has played everything, and counted it if it can store counts too. */
void check_end(uint32_t own, bool counts);

/* How many commands were played again, by all hubs together. */
uint32_t check_repeated(void);

#endif
