/* What the library has beside the exports of the crate: the inline functions of its headers, each under its name, so that
 * other languages can call them; and the pause of what waits. */
#define _POSIX_C_SOURCE 200809L
#define GZ_INLINE
#include "gourzhiel.h"
#include <time.h>

enum { YIELDS = 16, DOUBLINGS = 7, SHORTEST = 50000, LONGEST = 5000000, MILLISECOND = 1000000, SECOND = 1000000000 };

static int64_t now(void)
{
    struct timespec time;
    clock_gettime(CLOCK_MONOTONIC, &time);
    return (int64_t)time.tv_sec * SECOND + time.tv_nsec;
}

/* How many nanoseconds to sleep after so many pauses: 0 is to let another thread run. */
static int64_t length_after(uint32_t pauses)
{
    if (pauses < YIELDS)
        return 0;
    return pauses - YIELDS < DOUBLINGS ? (int64_t)SHORTEST << (pauses - YIELDS) : LONGEST;
}

/* How many nanoseconds are left until the limit, which the first pause sets. */
static int64_t left_of(gz_wait *wait)
{
    int64_t at = now();
    if (wait->pauses == 0)
        wait->end = at + (int64_t)wait->milliseconds * MILLISECOND;
    return wait->end - at;
}

bool gz_wait_pause(gz_wait *wait)
{
    int64_t length = length_after(wait->pauses);
    if (wait->milliseconds >= 0) {
        int64_t left = left_of(wait);
        if (left <= 0)
            return false;
        length = length < left ? length : left;
    }
    if (length) {
        struct timespec pause = { 0, length };
        nanosleep(&pause, NULL);
    } else
        sched_yield();
    wait->pauses += wait->pauses < YIELDS + DOUBLINGS;
    return true;
}
