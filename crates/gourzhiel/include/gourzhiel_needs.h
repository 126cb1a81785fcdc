/* gourzhiel_needs.h: loads and removals of a module with what it needs. gourzhiel.h includes it. */
#include "gourzhiel.h" /* before the guard, so that this file may be included alone */

#ifndef GOURZHIEL_NEEDS_H
#define GOURZHIEL_NEEDS_H

#ifdef __cplusplus
extern "C" {
#endif

/* ---- Loads and removals with needs ---- */

/* What the program does for a module between the two halves of its load or removal, as dlopen or dlclose: whether it went
 * well. It may not use the book, or the caller, that is in the call; it may use the catalogue. */
typedef bool gz_work(void *data, size_t slot);

/* The calls below, of a book or of a caller: the other is NULL. */
typedef struct gz_side {
    gz_book *book;
    gz_caller *caller;
} gz_side;

static inline gz_number gz_side_begin_load(gz_side side, size_t slot, size_t *need)
{
    return side.book ? gz_book_begin_load(side.book, slot, need) : gz_caller_begin_load_blocking(side.caller, slot, need);
}

static inline gz_number gz_side_end_load(gz_side side, size_t slot, bool ok)
{
    return side.book ? gz_book_end_load(side.book, slot, ok) : gz_caller_end_load_blocking(side.caller, slot, ok);
}

static inline gz_number gz_side_begin_remove(gz_side side, size_t slot)
{
    return side.book ? gz_book_begin_remove(side.book, slot) : gz_caller_begin_remove_blocking(side.caller, slot);
}

static inline gz_number gz_side_end_remove(gz_side side, size_t slot)
{
    return side.book ? gz_book_end_remove(side.book, slot) : gz_caller_end_remove_blocking(side.caller, slot);
}

static inline gz_number gz_side_cancel_remove(gz_side side, size_t slot)
{
    return side.book ? gz_book_cancel_remove(side.book, slot) : gz_caller_cancel_remove_blocking(side.caller, slot);
}

/* One whole load of a module whose needs are live. GZ_NOT_LIVE: `work` said no. */
static inline gz_number gz_side_load_one(gz_side side, size_t slot, size_t *need, gz_work *work, void *data)
{
    gz_number number = gz_side_begin_load(side, slot, need);
    if (number != GZ_DONE)
        return number;
    bool ok = work(data, slot);
    number = gz_side_end_load(side, slot, ok);
    return number == GZ_DONE && !ok ? GZ_NOT_LIVE : number;
}

/* After GZ_EXISTS: whether another has loaded the module (GZ_DONE), or it is to be tried again after a pause (GZ_BUSY).
 * GZ_TIMED_OUT. Without a wait it stays GZ_EXISTS. */
static inline gz_number gz_side_after_other(gz_side side, size_t slot, gz_wait *wait)
{
    if (!wait)
        return GZ_EXISTS;
    if (gz_caller_state_blocking(side.caller, slot) == GZ_LIVE)
        return GZ_DONE;
    return gz_wait_pause(wait) ? GZ_BUSY : GZ_TIMED_OUT;
}

/* `wait` is NULL if nothing is waited for, as by a book. */
static inline gz_number gz_side_load(gz_side side, size_t slots, size_t slot, gz_work *work, void *data, size_t *at,
                                     gz_wait *wait)
{
    size_t deep = 0, need = 0, *way = (size_t *)malloc((slots + 1) * sizeof *way);
    gz_number number = GZ_BUSY;
    *at = slot;
    if (!way)
        return GZ_OUT_OF_MEMORY;
    way[0] = slot;
    while (number == GZ_BUSY) {
        *at = way[deep];
        number = gz_side_load_one(side, *at, &need, work, data);
        if (number == GZ_EXISTS)
            number = gz_side_after_other(side, *at, wait);
        if (number == GZ_NEED_NOT_LIVE && deep < slots) {
            way[++deep] = need;
            number = GZ_BUSY;
        } else if (number == GZ_DONE && deep > 0) {
            deep--;
            number = GZ_BUSY;
        }
    }
    free(way);
    return number;
}

/* The second half of a removal: its work, and its end. GZ_WORK_FAILED: `work` said no, and the module is live again. */
static inline gz_number gz_side_unload(gz_side side, size_t slot, gz_work *work, void *data)
{
    if (work(data, slot))
        return gz_side_end_remove(side, slot);
    gz_number number = gz_side_cancel_remove(side, slot);
    return number == GZ_DONE ? GZ_WORK_FAILED : number;
}

static inline gz_number gz_side_remove_one(gz_side side, size_t slot, gz_work *work, void *data)
{
    gz_number number = gz_side_begin_remove(side, slot);
    return number == GZ_DONE ? gz_side_unload(side, slot, work, data) : number;
}

static inline gz_number gz_side_remove(gz_side side, gz_catalogue *catalogue, size_t slot, gz_work *work, void *data)
{
    size_t most = gz_catalogue_len(catalogue), removed = 1, next = 0, place = 0, need = 0;
    size_t *gone = (size_t *)malloc((most + 1) * sizeof *gone);
    if (!gone)
        return GZ_OUT_OF_MEMORY;
    gz_number number = gz_side_remove_one(side, slot, work, data), further = GZ_DONE;
    gone[0] = slot;
    while (number == GZ_DONE && next < removed) {
        if (gz_catalogue_need(catalogue, gone[next], place++, &need) != GZ_DONE) {
            next++;
            place = 0;
        } else if (removed <= most && (further = gz_side_remove_one(side, need, work, data)) == GZ_DONE)
            gone[removed++] = need;
        else if (further == GZ_WORK_FAILED)
            number = GZ_WORK_FAILED;
    }
    free(gone);
    return number;
}

/* Loads a module, and before it each module that it needs and that is not live, in the order of a plan: a module's needs
 * before it, in the order of the text. For each it begins the load, has `work` done, and ends it.
 * GZ_OUT_OF_MEMORY, and what gz_book_begin_load answers. GZ_EXISTS: *at is not absent; it is the module itself, or one that
 * it needs and that is loading, draining or unloading. GZ_NEED_NOT_LIVE: needs go round. GZ_NOT_LIVE: `work` said that it
 * went wrong. *at is then the module of the refusal, and what was loaded before it stays. */
GZ_INLINE gz_number gz_book_load_with_needs(gz_book *book, gz_catalogue *catalogue, size_t slot, gz_work *work,
                                            void *data, size_t *at)
{
    gz_side side = { book, NULL };
    return gz_side_load(side, gz_catalogue_len(catalogue), slot, work, data, at, NULL);
}

/* The same by managed calls, which wait for each lock. Others may load and remove beside it: GZ_EXISTS may then be of a need
 * that another thread loads. The form with a limit waits for that. The catalogue is this thread's own, or locked. */
GZ_INLINE gz_number gz_caller_load_with_needs(gz_caller *caller, gz_catalogue *catalogue, size_t slot, gz_work *work,
                                              void *data, size_t *at)
{
    gz_side side = { NULL, caller };
    return gz_side_load(side, gz_catalogue_len(catalogue), slot, work, data, at, NULL);
}

/* The same, but a module that is live already is GZ_DONE too, and `work` is not called for it. If another thread loads,
 * drains or removes the module, or one that it needs, this waits until that one is live or absent, and goes on. The limit of
 * so many milliseconds counts from the first pause on. GZ_TIMED_OUT: it is over, and *at is neither live nor absent. */
GZ_INLINE gz_number gz_caller_load_with_needs_for(gz_caller *caller, gz_catalogue *catalogue, size_t slot, gz_work *work,
                                                  void *data, size_t *at, int milliseconds)
{
    gz_side side = { NULL, caller };
    gz_wait wait = GZ_WAIT(milliseconds);
    return gz_side_load(side, gz_catalogue_len(catalogue), slot, work, data, at, &wait);
}

/* Loads one module whose needs are live: it begins the load, has `work` done, and ends the load by its word. What
 * gz_caller_begin_load answers. GZ_NOT_LIVE: `work` said that it went wrong, and the module is absent. */
GZ_INLINE gz_number gz_caller_load(gz_caller *caller, size_t slot, gz_work *work, void *data)
{
    gz_side side = { NULL, caller };
    size_t need = 0;
    return gz_side_load_one(side, slot, &need, work, data);
}

/* Unloads one module: it begins a drain, waits at most so many milliseconds until nobody holds the module, has `work` done,
 * and ends the removal. Nobody gets the module meanwhile. What gz_caller_begin_drain answers.
 * GZ_TIMED_OUT: somebody holds the module still. GZ_WORK_FAILED: `work` said no, and left what the module has whole. Both
 * call the drain off: the module is live again. GZ_NOT_UNLOADING: another thread ended the drain or called it off. */
GZ_INLINE gz_number gz_caller_unload(gz_caller *caller, size_t slot, gz_work *work, void *data, int milliseconds)
{
    gz_side side = { NULL, caller };
    gz_number number = gz_caller_begin_drain_blocking(caller, slot);
    if (number != GZ_DONE)
        return number;
    number = gz_caller_wait_unheld(caller, slot, milliseconds);
    if (number == GZ_DONE)
        return gz_side_unload(side, slot, work, data);
    if (number == GZ_TIMED_OUT)
        gz_caller_cancel_remove_blocking(caller, slot);
    return number;
}

/* Removes a module, and after it each module that it or another removed one needs and that may go: that nobody holds, no
 * loaded module needs, and is not permanent. For each it begins the removal, has `work` done, and ends it.
 * GZ_OUT_OF_MEMORY, and what gz_book_begin_remove answers of the module itself: nothing is then removed.
 * GZ_WORK_FAILED: `work` said no, and was not called again. The module that it was last called for is live again, so `work`
 * leaves whole what it does not unload. What was removed before is absent. */
GZ_INLINE gz_number gz_book_remove_with_needs(gz_book *book, gz_catalogue *catalogue, size_t slot, gz_work *work,
                                              void *data)
{
    gz_side side = { book, NULL };
    return gz_side_remove(side, catalogue, slot, work, data);
}

/* The same by managed calls. The catalogue is this thread's own, or locked. */
GZ_INLINE gz_number gz_caller_remove_with_needs(gz_caller *caller, gz_catalogue *catalogue, size_t slot, gz_work *work,
                                                void *data)
{
    gz_side side = { NULL, caller };
    return gz_side_remove(side, catalogue, slot, work, data);
}

#ifdef __cplusplus
}
#endif

#endif
