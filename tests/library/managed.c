/* Managed calls: each once, with each number that it may answer. Says nothing if all is well. */
#include <gourzhiel.h>
#include <stdio.h>
#include <stdlib.h>

static const char text[] =
    "module snd\nexports snd_card_new\n"
    "module snd-pcm\nneeds snd_card_new\n"
    "module fixed\npermanent\n"
    "module lost\nneeds nobody_has_it\n";

enum { SND, PCM, FIXED, LOST, OUTSIDE, WORKERS = 2 };

static int wrong;

static void check(int line, long found, long wanted)
{
    if (found != wanted) {
        printf("managed.c:%d: answered %ld, and not %ld\n", line, found, wanted);
        wrong = 1;
    }
}
#define CHECK(found, wanted) check(__LINE__, (long)(found), (long)(wanted))

static void load(gz_caller *caller, size_t slot)
{
    size_t need = 99;
    CHECK(gz_caller_begin_load_blocking(caller, slot, &need), GZ_DONE);
    CHECK(gz_caller_state_blocking(caller, slot), GZ_LOADING);
    CHECK(gz_caller_end_load_blocking(caller, slot, true), GZ_DONE);
    CHECK(gz_caller_state_blocking(caller, slot), GZ_LIVE);
    CHECK(need, 99);
}

static void loads(gz_caller *caller)
{
    size_t need = 99, slot = 99, count = 99;
    CHECK(gz_caller_begin_load_blocking(caller, PCM, &need), GZ_NEED_NOT_LIVE);
    CHECK(need, SND);
    CHECK(gz_caller_begin_load_blocking(caller, LOST, &need), GZ_UNKNOWN_SYMBOL);
    CHECK(gz_caller_end_load_blocking(caller, SND, true), GZ_NOT_LOADING);
    CHECK(gz_caller_begin_load_blocking(caller, SND, &need), GZ_DONE);
    CHECK(gz_caller_begin_load_blocking(caller, SND, &need), GZ_EXISTS);
    CHECK(gz_caller_end_load_blocking(caller, SND, false), GZ_DONE);
    CHECK(gz_caller_state_blocking(caller, SND), GZ_ABSENT);
    load(caller, SND);
    load(caller, PCM);
    load(caller, FIXED);
    CHECK(gz_caller_loaded_blocking(caller, &count), GZ_DONE);
    CHECK(count, 3);
    CHECK(gz_caller_loaded_at_blocking(caller, 1, &slot), GZ_DONE);
    CHECK(slot, PCM);
    CHECK(gz_caller_loaded_at_blocking(caller, 3, &slot), GZ_OUT_OF_RANGE);
    CHECK(slot, PCM);
}

/* What one caller took for a worker, another gives back: the count is the worker's. */
static void uses(gz_caller *one, gz_caller *other)
{
    uint32_t count = 99;
    CHECK(gz_caller_get_blocking(one, 0, LOST), GZ_NOT_LIVE);
    CHECK(gz_caller_get_blocking(one, 0, PCM), GZ_DONE);
    CHECK(gz_caller_get_blocking(other, 0, PCM), GZ_DONE);
    CHECK(gz_caller_held_blocking(other, 0, PCM, &count), GZ_DONE);
    CHECK(count, 2);
    CHECK(gz_caller_put_blocking(other, 1, PCM), GZ_NOT_HELD);
    CHECK(gz_caller_begin_remove_blocking(one, PCM), GZ_IN_USE);
    CHECK(gz_caller_begin_remove_blocking(one, SND), GZ_NEEDED_BY);
    CHECK(gz_caller_begin_remove_blocking(one, FIXED), GZ_PERMANENT);
    CHECK(gz_caller_begin_remove_blocking(one, LOST), GZ_NO_ENTRY);
    CHECK(gz_caller_put_blocking(other, 0, PCM), GZ_DONE);
    CHECK(gz_caller_put_blocking(other, 0, PCM), GZ_DONE);
    CHECK(gz_caller_put_blocking(one, 0, PCM), GZ_NOT_HELD);
    for (int i = 0; i < 65535; i++)
        CHECK(gz_caller_get_blocking(other, 1, SND), GZ_DONE);
    CHECK(gz_caller_get_blocking(one, 1, SND), GZ_TOO_MANY);
    for (int i = 0; i < 65535; i++)
        CHECK(gz_caller_put_blocking(one, 1, SND), GZ_DONE);
}

static void removals(gz_caller *caller)
{
    size_t count = 99;
    CHECK(gz_caller_begin_remove_blocking(caller, PCM), GZ_DONE);
    CHECK(gz_caller_state_blocking(caller, PCM), GZ_UNLOADING);
    CHECK(gz_caller_get_blocking(caller, 0, PCM), GZ_NOT_LIVE);
    CHECK(gz_caller_begin_remove_blocking(caller, PCM), GZ_NOT_LIVE);
    CHECK(gz_caller_end_remove_blocking(caller, PCM), GZ_DONE);
    CHECK(gz_caller_end_remove_blocking(caller, PCM), GZ_NOT_UNLOADING);
    CHECK(gz_caller_begin_drain_blocking(caller, LOST), GZ_NO_ENTRY);
    CHECK(gz_caller_begin_drain_blocking(caller, FIXED), GZ_PERMANENT);
    CHECK(gz_caller_get_blocking(caller, 1, SND), GZ_DONE);
    CHECK(gz_caller_begin_drain_blocking(caller, SND), GZ_DONE);
    CHECK(gz_caller_begin_drain_blocking(caller, SND), GZ_NOT_LIVE);
    CHECK(gz_caller_state_blocking(caller, SND), GZ_DRAINING);
    CHECK(gz_caller_get_blocking(caller, 1, SND), GZ_NOT_LIVE);
    CHECK(gz_caller_end_remove_blocking(caller, SND), GZ_IN_USE);
    CHECK(gz_caller_cancel_remove_blocking(caller, SND), GZ_DONE);
    CHECK(gz_caller_get_blocking(caller, 1, SND), GZ_DONE);
    CHECK(gz_caller_put_blocking(caller, 1, SND), GZ_DONE);
    CHECK(gz_caller_cancel_remove_blocking(caller, SND), GZ_NOT_UNLOADING);
    CHECK(gz_caller_begin_drain_blocking(caller, SND), GZ_DONE);
    CHECK(gz_caller_end_remove_blocking(caller, SND), GZ_IN_USE);
    CHECK(gz_caller_put_blocking(caller, 1, SND), GZ_DONE);
    CHECK(gz_caller_end_remove_blocking(caller, SND), GZ_DONE);
    CHECK(gz_caller_loaded_blocking(caller, &count), GZ_DONE);
    CHECK(count, 1);
}

static void outside(gz_caller *caller)
{
    size_t need = 99;
    uint32_t count = 99;
    CHECK(gz_caller_get_blocking(caller, 0, OUTSIDE), GZ_OUT_OF_RANGE);
    CHECK(gz_caller_get_blocking(caller, WORKERS, SND), GZ_OUT_OF_RANGE);
    CHECK(gz_caller_put_blocking(caller, 0, OUTSIDE), GZ_OUT_OF_RANGE);
    CHECK(gz_caller_put_blocking(caller, SIZE_MAX, SND), GZ_OUT_OF_RANGE);
    CHECK(gz_caller_held_blocking(caller, 0, OUTSIDE, &count), GZ_OUT_OF_RANGE);
    CHECK(gz_caller_held_blocking(caller, WORKERS, SND, &count), GZ_OUT_OF_RANGE);
    CHECK(count, 99);
    CHECK(gz_caller_begin_load_blocking(caller, OUTSIDE, &need), GZ_OUT_OF_RANGE);
    CHECK(need, 99);
    CHECK(gz_caller_end_load_blocking(caller, OUTSIDE, true), GZ_OUT_OF_RANGE);
    CHECK(gz_caller_begin_drain_blocking(caller, OUTSIDE), GZ_OUT_OF_RANGE);
    CHECK(gz_caller_begin_remove_blocking(caller, OUTSIDE), GZ_OUT_OF_RANGE);
    CHECK(gz_caller_end_remove_blocking(caller, OUTSIDE), GZ_OUT_OF_RANGE);
    CHECK(gz_caller_cancel_remove_blocking(caller, OUTSIDE), GZ_OUT_OF_RANGE);
    CHECK(gz_caller_state_blocking(caller, SIZE_MAX), GZ_OUT_OF_RANGE);
}

/* A get is told of a removal by another caller, which had been told of the put before it. */
static void tells(gz_caller *one, gz_caller *other, gz_teller *teller)
{
    CHECK(gz_caller_get_blocking(one, 1, PCM), GZ_DONE);
    CHECK(gz_caller_meet_leaf_blocking(one, 1, teller), GZ_DONE);
    CHECK(gz_caller_meet_book_blocking(other, teller), GZ_DONE);
    CHECK(gz_caller_begin_remove_blocking(other, PCM), GZ_IN_USE);
    CHECK(gz_caller_put_blocking(one, 1, PCM), GZ_DONE);
    CHECK(gz_caller_meet_leaf_blocking(one, 1, teller), GZ_DONE);
    CHECK(gz_caller_meet_book_blocking(other, teller), GZ_DONE);
    CHECK(gz_caller_begin_remove_blocking(other, PCM), GZ_DONE);
    CHECK(gz_caller_meet_book_blocking(other, teller), GZ_DONE);
    CHECK(gz_caller_meet_leaf_blocking(one, 1, teller), GZ_DONE);
    CHECK(gz_caller_get_blocking(one, 1, PCM), GZ_NOT_LIVE);
    CHECK(gz_caller_meet_leaf_blocking(one, WORKERS, teller), GZ_OUT_OF_RANGE);
    CHECK(gz_caller_meet_leaf_blocking(one, SIZE_MAX, teller), GZ_OUT_OF_RANGE);
    CHECK(gz_caller_meet_leaf(one, 0, 0, teller), GZ_BUSY);
    CHECK(gz_caller_meet_book(one, 0, teller), GZ_BUSY);
    CHECK(gz_caller_meet_leaf(one, WORKERS, 0, teller), GZ_OUT_OF_RANGE);
    CHECK(gz_caller_meet_leaf(one, 0, 1, teller), GZ_DONE);
    CHECK(gz_caller_meet_book(one, 1, teller), GZ_DONE);
    CHECK(gz_caller_end_remove_blocking(other, PCM), GZ_DONE);
}

/* A table with a teller for each worker. A teller may live longer. */
static void tellers(gz_catalogue *catalogue)
{
    gz_caller one = GZ_EMPTY, other = GZ_EMPTY, none = GZ_EMPTY;
    gz_teller all[WORKERS] = { GZ_EMPTY, GZ_EMPTY };
    CHECK(gz_managed_tellers_new(catalogue, NULL, 0, &none), GZ_DONE);
    CHECK(gz_caller_workers(&none), 0);
    gz_caller_clear(&none);
    CHECK(gz_managed_tellers_new(catalogue, all, WORKERS, &one), GZ_DONE);
    CHECK(one.at && all[0].at && all[1].at, 1);
    CHECK(gz_caller_workers(&one), WORKERS);
    CHECK(gz_caller_new(&one, &other), GZ_DONE);
    load(&one, SND);
    load(&one, PCM);
    tells(&one, &other, &all[1]);
    load(&other, PCM);
    tells(&other, &one, &all[0]);
    gz_caller_clear(&one);
    gz_caller_clear(&other);
    for (int i = 0; i < WORKERS; i++) {
        gz_teller_clear(&all[i]);
        gz_teller_clear(&all[i]);
        CHECK(all[i].at == NULL, 1);
    }
}

/* A call of no try is busy, and changes nothing. */
static void busy(gz_caller *caller)
{
    size_t need = 99, count = 99, slot = 99;
    uint32_t held = 99;
    CHECK(gz_caller_get(caller, 0, FIXED, 0), GZ_BUSY);
    CHECK(gz_caller_put(caller, 0, FIXED, 0), GZ_BUSY);
    CHECK(gz_caller_held(caller, 0, FIXED, 0, &held), GZ_BUSY);
    CHECK(gz_caller_begin_load(caller, SND, 0, &need), GZ_BUSY);
    CHECK(gz_caller_end_load(caller, SND, true, 0), GZ_BUSY);
    CHECK(gz_caller_begin_drain(caller, FIXED, 0), GZ_BUSY);
    CHECK(gz_caller_begin_remove(caller, FIXED, 0), GZ_BUSY);
    CHECK(gz_caller_end_remove(caller, FIXED, 0), GZ_BUSY);
    CHECK(gz_caller_cancel_remove(caller, FIXED, 0), GZ_BUSY);
    CHECK(gz_caller_state(caller, FIXED, 0), GZ_BUSY);
    CHECK(gz_caller_loaded(caller, 0, &count), GZ_BUSY);
    CHECK(gz_caller_loaded_at(caller, 0, 0, &slot), GZ_BUSY);
    CHECK(need == 99 && count == 99 && slot == 99 && held == 99, 1);
    CHECK(gz_caller_state(caller, FIXED, 1), GZ_LIVE);
    CHECK(gz_caller_held(caller, 0, FIXED, 1, &held), GZ_DONE);
    CHECK(held, 0);
}

int main(void)
{
    gz_catalogue catalogue = GZ_EMPTY;
    gz_caller one = GZ_EMPTY, other = GZ_EMPTY, apart = GZ_EMPTY;
    size_t line = 0, count = 99;
    CHECK(gz_catalogue_read(text, sizeof text - 1, &catalogue, &line), GZ_DONE);
    CHECK(gz_managed_new(&catalogue, (size_t)1 << 32, &one), GZ_TOO_MANY_LEAVES);
    CHECK(one.at == NULL, 1);
    CHECK(gz_managed_new(&catalogue, WORKERS, &one), GZ_DONE);
    CHECK(gz_managed_new(&catalogue, 0, &apart), GZ_DONE);
    tellers(&catalogue);
    gz_catalogue_clear(&catalogue);
    CHECK(gz_caller_new(&one, &other), GZ_DONE);
    CHECK(gz_caller_workers(&other), WORKERS);
    loads(&one);
    uses(&one, &other);
    removals(&other);
    outside(&one);
    busy(&other);
    CHECK(gz_caller_workers(&apart), 0);
    CHECK(gz_caller_get_blocking(&apart, 0, SND), GZ_OUT_OF_RANGE);
    CHECK(gz_caller_loaded_blocking(&apart, &count), GZ_DONE);
    CHECK(count, 0);
    gz_caller_clear(&one);
    gz_caller_clear(&one);
    CHECK(gz_caller_get_blocking(&other, 1, FIXED), GZ_DONE);
    gz_caller_clear(&other);
    gz_caller_clear(&apart);
    CHECK(one.at || other.at || apart.at, 0);
    return wrong;
}
