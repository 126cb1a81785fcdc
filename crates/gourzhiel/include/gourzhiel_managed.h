/* gourzhiel_managed.h: managed tables. gourzhiel.h includes it. */
#include "gourzhiel.h" /* before the guard, so that this file may be included alone */

#ifndef GOURZHIEL_MANAGED_H
#define GOURZHIEL_MANAGED_H

#ifdef __cplusplus
extern "C" {
#endif

/* ---- Managed tables ---- */

/* A new table whose parts the library keeps, over a catalogue, with `workers` workers, and its first caller in an empty
 * handle. All modules are absent, and no worker holds one. A worker takes some 720 bytes, and 2 more for each module.
 * GZ_OUT_OF_MEMORY, GZ_TOO_MANY_LEAVES: no handle is filled. */
gz_number gz_managed_new(gz_catalogue *catalogue, size_t workers, gz_caller *caller);

/* The same, with a teller for each worker, in `workers` empty handles. */
gz_number gz_managed_tellers_new(gz_catalogue *catalogue, gz_teller *tellers, size_t workers, gz_caller *caller);
#define gz_managed_tellers_new(catalogue, tellers, workers, caller) \
    (gz_managed_tellers_new)(catalogue, gz_tellers_at(tellers), workers, caller)

/* A further caller of the same table, in an empty handle. Each thread has one of its own. GZ_OUT_OF_MEMORY. */
gz_number gz_caller_new(gz_caller *caller, gz_caller *further);

/* How many workers the table has. Their numbers are 0 and up. */
size_t gz_caller_workers(gz_caller *caller);

/* Managed calls. Each takes one lock, makes one call of a worker's leaf or of the book, and lets go: so that any thread
 * may call for any worker at any time, and each call that returns was made once. A call tries the lock `tries` times, and a
 * get the module's word too, and then answers GZ_BUSY, with nothing changed; it never waits. Its `_blocking` form waits:
 * while it is GZ_BUSY it lets another thread run, by sched_yield, and calls again. No promise is made that a lock comes
 * free. */

/* Takes one reference to the module for the worker. GZ_NOT_LIVE, GZ_TOO_MANY, GZ_OUT_OF_RANGE, GZ_BUSY. */
gz_number gz_caller_get(gz_caller *caller, size_t worker, size_t slot, uint32_t tries);

/* Takes one reference for the worker to each of `count` slots, or to none: in one turn of its lock, so that no other call for
 * this worker comes between. If a get is refused, those before it are given back (until then a removal finds their modules in
 * use), and its place among the slots is in *at, which is else left as it is. A slot that is named twice is taken twice.
 * GZ_NOT_LIVE, GZ_TOO_MANY, GZ_OUT_OF_RANGE, GZ_BUSY. */
gz_number gz_caller_get_all(gz_caller *caller, size_t worker, const size_t *slots, size_t count, uint32_t tries, size_t *at);

/* Gives one reference of the worker back. GZ_NOT_HELD, GZ_OUT_OF_RANGE, GZ_BUSY. */
gz_number gz_caller_put(gz_caller *caller, size_t worker, size_t slot, uint32_t tries);

/* How often the worker holds the module, in *count. GZ_OUT_OF_RANGE, GZ_BUSY: *count is left as it is. */
gz_number gz_caller_held(gz_caller *caller, size_t worker, size_t slot, uint32_t tries, uint32_t *count);

/* Gives back all references of the worker, each module's as often as it is held, in one turn of its lock: for a holder that
 * is gone. GZ_OUT_OF_RANGE: the worker is none of the table. GZ_BUSY. Nothing is then given back. */
gz_number gz_caller_put_all(gz_caller *caller, size_t worker, uint32_t tries);

/* The first slot from `place` on that the worker holds, in *slot, and how often, in *count. If each place is the slot after
 * the last one found, the calls go through all that the worker holds.
 * GZ_NOT_HELD: it holds none from there on. GZ_OUT_OF_RANGE: the worker is none of the table. GZ_BUSY. *slot and *count are
 * then left as they are. */
gz_number gz_caller_held_by(gz_caller *caller, size_t worker, size_t place, uint32_t tries, size_t *slot, uint32_t *count);

/* The calls of the book, as gz_book_begin_load and its like, and GZ_BUSY. */
gz_number gz_caller_begin_load(gz_caller *caller, size_t slot, uint32_t tries, size_t *need);
gz_number gz_caller_end_load(gz_caller *caller, size_t slot, bool ok, uint32_t tries);
gz_number gz_caller_begin_drain(gz_caller *caller, size_t slot, uint32_t tries);
gz_number gz_caller_begin_remove(gz_caller *caller, size_t slot, uint32_t tries);
gz_number gz_caller_end_remove(gz_caller *caller, size_t slot, uint32_t tries);
gz_number gz_caller_cancel_remove(gz_caller *caller, size_t slot, uint32_t tries);
gz_number gz_caller_state(gz_caller *caller, size_t slot, uint32_t tries);
gz_number gz_caller_loaded_at(gz_caller *caller, size_t place, uint32_t tries, size_t *slot);

/* How many modules are not absent, in *count. GZ_BUSY: *count is left as it is. */
gz_number gz_caller_loaded(gz_caller *caller, uint32_t tries, size_t *count);

/* A teller carries order from lock to lock. After a call, let its caller and a teller meet at the lock of that call: the
 * worker's, or the book's. Hand the teller over, let the next caller meet it at the lock of its own call, and make that
 * call: its history begins with that of the first. A meeting makes no call and changes no answer: by it the library's
 * contract says which of the two calls came first. The teller is of the caller's table. */

/* The worker's leaf and the teller hear of each other. GZ_OUT_OF_RANGE: the worker is none of the table. GZ_BUSY. */
gz_number gz_caller_meet_leaf(gz_caller *caller, size_t worker, uint32_t tries, gz_teller *teller);

/* The book and the teller hear of each other. GZ_BUSY. */
gz_number gz_caller_meet_book(gz_caller *caller, uint32_t tries, gz_teller *teller);

/* Frees the caller of a full handle. The last caller frees the table; what its workers still hold ends with it. */
void gz_caller_free(gz_caller caller);

/* Frees the teller of a full handle. It may live longer than its table. */
void gz_teller_free(gz_teller teller);

#ifdef GZ_THREAD_SANITIZER
#define gz_caller_get_all(caller, worker, slots, count, tries, at) \
    GZ_ORDERED((gz_caller_get_all)(caller, worker, gz_slots_at(slots), count, tries, at))
#define gz_caller_get(caller, worker, slot, tries) GZ_ORDERED((gz_caller_get)(caller, worker, slot, tries))
#define gz_caller_put(caller, worker, slot, tries) GZ_ORDERED((gz_caller_put)(caller, worker, slot, tries))
#define gz_caller_held(caller, worker, slot, tries, count) GZ_ORDERED((gz_caller_held)(caller, worker, slot, tries, count))
#define gz_caller_put_all(caller, worker, tries) GZ_ORDERED((gz_caller_put_all)(caller, worker, tries))
#define gz_caller_held_by(caller, worker, place, tries, slot, count) \
    GZ_ORDERED((gz_caller_held_by)(caller, worker, place, tries, slot, count))
#define gz_caller_begin_load(caller, slot, tries, need) GZ_ORDERED((gz_caller_begin_load)(caller, slot, tries, need))
#define gz_caller_end_load(caller, slot, ok, tries) GZ_ORDERED((gz_caller_end_load)(caller, slot, ok, tries))
#define gz_caller_begin_drain(caller, slot, tries) GZ_ORDERED((gz_caller_begin_drain)(caller, slot, tries))
#define gz_caller_begin_remove(caller, slot, tries) GZ_ORDERED((gz_caller_begin_remove)(caller, slot, tries))
#define gz_caller_end_remove(caller, slot, tries) GZ_ORDERED((gz_caller_end_remove)(caller, slot, tries))
#define gz_caller_cancel_remove(caller, slot, tries) GZ_ORDERED((gz_caller_cancel_remove)(caller, slot, tries))
#define gz_caller_state(caller, slot, tries) GZ_ORDERED((gz_caller_state)(caller, slot, tries))
#define gz_caller_loaded(caller, tries, count) GZ_ORDERED((gz_caller_loaded)(caller, tries, count))
#define gz_caller_loaded_at(caller, place, tries, slot) GZ_ORDERED((gz_caller_loaded_at)(caller, place, tries, slot))
#define gz_caller_meet_leaf(caller, worker, tries, teller) GZ_ORDERED((gz_caller_meet_leaf)(caller, worker, tries, teller))
#define gz_caller_meet_book(caller, tries, teller) GZ_ORDERED((gz_caller_meet_book)(caller, tries, teller))
#else
#define gz_caller_get_all(caller, worker, slots, count, tries, at) \
    (gz_caller_get_all)(caller, worker, gz_slots_at(slots), count, tries, at)
#endif

/* ---- The same, blocking ---- */

#define GZ_UNTIL_ANSWERED(call) \
    gz_number number; \
    while ((number = (call)) == GZ_BUSY) \
        sched_yield(); \
    return number

GZ_INLINE gz_number gz_caller_get_blocking(gz_caller *caller, size_t worker, size_t slot)
{
    GZ_UNTIL_ANSWERED(gz_caller_get(caller, worker, slot, GZ_TRIES));
}

GZ_INLINE gz_number gz_caller_get_all_blocking(gz_caller *caller, size_t worker, const size_t *slots, size_t count, size_t *at)
{
    GZ_UNTIL_ANSWERED(gz_caller_get_all(caller, worker, slots, count, GZ_TRIES, at));
}

GZ_INLINE gz_number gz_caller_put_blocking(gz_caller *caller, size_t worker, size_t slot)
{
    GZ_UNTIL_ANSWERED(gz_caller_put(caller, worker, slot, GZ_TRIES));
}

GZ_INLINE gz_number gz_caller_held_blocking(gz_caller *caller, size_t worker, size_t slot, uint32_t *count)
{
    GZ_UNTIL_ANSWERED(gz_caller_held(caller, worker, slot, GZ_TRIES, count));
}

GZ_INLINE gz_number gz_caller_put_all_blocking(gz_caller *caller, size_t worker)
{
    GZ_UNTIL_ANSWERED(gz_caller_put_all(caller, worker, GZ_TRIES));
}

GZ_INLINE gz_number gz_caller_held_by_blocking(gz_caller *caller, size_t worker, size_t place, size_t *slot, uint32_t *count)
{
    GZ_UNTIL_ANSWERED(gz_caller_held_by(caller, worker, place, GZ_TRIES, slot, count));
}

GZ_INLINE gz_number gz_caller_begin_load_blocking(gz_caller *caller, size_t slot, size_t *need)
{
    GZ_UNTIL_ANSWERED(gz_caller_begin_load(caller, slot, GZ_TRIES, need));
}

GZ_INLINE gz_number gz_caller_end_load_blocking(gz_caller *caller, size_t slot, bool ok)
{
    GZ_UNTIL_ANSWERED(gz_caller_end_load(caller, slot, ok, GZ_TRIES));
}

GZ_INLINE gz_number gz_caller_begin_drain_blocking(gz_caller *caller, size_t slot)
{
    GZ_UNTIL_ANSWERED(gz_caller_begin_drain(caller, slot, GZ_TRIES));
}

GZ_INLINE gz_number gz_caller_begin_remove_blocking(gz_caller *caller, size_t slot)
{
    GZ_UNTIL_ANSWERED(gz_caller_begin_remove(caller, slot, GZ_TRIES));
}

GZ_INLINE gz_number gz_caller_end_remove_blocking(gz_caller *caller, size_t slot)
{
    GZ_UNTIL_ANSWERED(gz_caller_end_remove(caller, slot, GZ_TRIES));
}

GZ_INLINE gz_number gz_caller_cancel_remove_blocking(gz_caller *caller, size_t slot)
{
    GZ_UNTIL_ANSWERED(gz_caller_cancel_remove(caller, slot, GZ_TRIES));
}

GZ_INLINE gz_number gz_caller_state_blocking(gz_caller *caller, size_t slot)
{
    GZ_UNTIL_ANSWERED(gz_caller_state(caller, slot, GZ_TRIES));
}

GZ_INLINE gz_number gz_caller_loaded_blocking(gz_caller *caller, size_t *count)
{
    GZ_UNTIL_ANSWERED(gz_caller_loaded(caller, GZ_TRIES, count));
}

GZ_INLINE gz_number gz_caller_loaded_at_blocking(gz_caller *caller, size_t place, size_t *slot)
{
    GZ_UNTIL_ANSWERED(gz_caller_loaded_at(caller, place, GZ_TRIES, slot));
}

GZ_INLINE gz_number gz_caller_meet_leaf_blocking(gz_caller *caller, size_t worker, gz_teller *teller)
{
    GZ_UNTIL_ANSWERED(gz_caller_meet_leaf(caller, worker, GZ_TRIES, teller));
}

GZ_INLINE gz_number gz_caller_meet_book_blocking(gz_caller *caller, gz_teller *teller)
{
    GZ_UNTIL_ANSWERED(gz_caller_meet_book(caller, GZ_TRIES, teller));
}

#undef GZ_UNTIL_ANSWERED

/* ---- Of several calls ---- */

/* The references of all workers to the module, in *sum: each worker's count is asked in a turn of its own, one after
 * another, so that while others get and put the sum need not be that of any moment. It waits for each lock.
 * GZ_OUT_OF_RANGE: *sum is left. */
GZ_INLINE gz_number gz_caller_references(gz_caller *caller, size_t slot, uint64_t *sum)
{
    uint64_t found = 0;
    uint32_t count = 0;
    gz_number number = GZ_OUT_OF_RANGE;
    for (size_t worker = 0; worker < gz_caller_workers(caller); worker++) {
        number = gz_caller_held_blocking(caller, worker, slot, &count);
        if (number != GZ_DONE)
            return number;
        found += count;
    }
    if (number == GZ_DONE)
        *sum = found;
    return number;
}

/* The first worker from `worker` on that holds the module; if none does, the number of workers. */
static inline size_t gz_caller_holder(gz_caller *caller, size_t worker, size_t slot)
{
    uint32_t count = 0;
    while (gz_caller_held_blocking(caller, worker, slot, &count) == GZ_DONE && count == 0)
        worker++;
    return worker;
}

/* Waits until nobody holds a module that drains, at most so many milliseconds, with no lock taken between. It still drains
 * then, so nobody gets it: unload what it has, and then call gz_caller_end_remove. While this waits no other thread ends the
 * drain or calls it off. A module that unloads is held by nobody: GZ_DONE.
 * GZ_NOT_UNLOADING, GZ_OUT_OF_RANGE. GZ_TIMED_OUT: it still drains, and somebody holds it. */
GZ_INLINE gz_number gz_caller_wait_unheld(gz_caller *caller, size_t slot, int milliseconds)
{
    gz_wait wait = GZ_WAIT(milliseconds);
    size_t worker = 0; /* those before it hold nothing, and get nothing while the module drains */
    bool is_unheld = false;
    gz_number state;
    while ((state = gz_caller_state_blocking(caller, slot)) == GZ_DRAINING && !is_unheld) {
        worker = gz_caller_holder(caller, worker, slot);
        is_unheld = worker == gz_caller_workers(caller);
        if (!is_unheld && !gz_wait_pause(&wait))
            return GZ_TIMED_OUT;
    }
    if (state == GZ_DRAINING || state == GZ_UNLOADING)
        return GZ_DONE;
    return state == GZ_OUT_OF_RANGE ? GZ_OUT_OF_RANGE : GZ_NOT_UNLOADING;
}

/* Ends a drain once nobody holds the module, and waits for that at most so many milliseconds, with no lock taken between.
 * It is for modules that have nothing to unload, or that no other thread loads. Otherwise there is a race:
 *
 *     this thread    gz_caller_wait_removed: the module is absent
 *     another        gz_caller_begin_load, gz_caller_end_load: it is live, with the object that is still there
 *     a worker       gz_caller_get: it uses the object
 *     this thread    dlclose: the object goes while the worker uses it
 *
 * GZ_NOT_UNLOADING, GZ_OUT_OF_RANGE. GZ_TIMED_OUT: it still drains. */
GZ_INLINE gz_number gz_caller_wait_removed_for(gz_caller *caller, size_t slot, int milliseconds)
{
    gz_wait wait = GZ_WAIT(milliseconds);
    gz_number number;
    while ((number = gz_caller_end_remove_blocking(caller, slot)) == GZ_IN_USE)
        if (!gz_wait_pause(&wait))
            return GZ_TIMED_OUT;
    return number;
}

/* The same for ever. */
GZ_INLINE gz_number gz_caller_wait_removed(gz_caller *caller, size_t slot)
{
    return gz_caller_wait_removed_for(caller, slot, -1);
}

/* The slot of a loaded module that needs the module, as gz_book_user. It waits for each lock. The catalogue is this thread's
 * own, or locked. */
GZ_INLINE gz_number gz_caller_user(gz_caller *caller, gz_catalogue *catalogue, size_t slot, size_t place, size_t *user)
{
    size_t loaded = 0;
    for (size_t at = 0; gz_caller_loaded_at_blocking(caller, at, &loaded) == GZ_DONE; at++)
        if (gz_catalogue_needs(catalogue, loaded, slot) && place-- == 0) {
            *user = loaded;
            return GZ_DONE;
        }
    return GZ_OUT_OF_RANGE;
}

GZ_INLINE void gz_caller_clear(gz_caller *caller)
{
    if (caller->at)
        gz_caller_free(*caller);
    caller->at = NULL;
}

GZ_INLINE void gz_teller_clear(gz_teller *teller)
{
    if (teller->at)
        gz_teller_free(*teller);
    teller->at = NULL;
}

#ifdef __cplusplus
}
#endif

#endif
