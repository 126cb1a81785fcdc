/* The names of older headers: each does what the call does that took its place. Says nothing where all is well. */
#include <gourzhiel.h>
#include <stdio.h>

static const char text[] =
    "module snd\nexports s\n"
    "module snd-pcm\nneeds s\n";

enum { SND, PCM, OUTSIDE, WORKERS = 2 };

static int wrong;

static void check(int line, long found, long wanted)
{
    if (found != wanted) {
        printf("deprecated.c:%d: answered %ld, and not %ld\n", line, found, wanted);
        wrong = 1;
    }
}
#define CHECK(found, wanted) check(__LINE__, (long)(found), (long)(wanted))

static bool goes_well(void *data, size_t slot)
{
    (void)data;
    return slot != OUTSIDE;
}

static void of_a_catalogue(gz_catalogue *catalogue)
{
    gz_catalogue none = GZ_EMPTY;
    size_t line = 0, slot = 99, need = 99;
    char name[GZ_NAME_ROOM];
    CHECK(gz_read(&none, NULL, 0, &line), GZ_DONE);
    gz_free_catalogue(&none);
    CHECK(none.at == NULL, 1);
    CHECK(gz_read(catalogue, text, sizeof text - 1, &line), GZ_DONE);
    CHECK(gz_slots(catalogue), 2);
    CHECK(gz_slot(catalogue, "snd-pcm", &slot), GZ_DONE);
    CHECK(slot, PCM);
    CHECK(gz_need(catalogue, PCM, 0, &need), GZ_DONE);
    CHECK(need, SND);
    CHECK(gz_needs(catalogue, PCM, SND), true);
    CHECK(gz_name(catalogue, PCM, name, sizeof name), GZ_DONE);
    CHECK(strcmp(name, "snd_pcm"), 0);
}

static void of_a_leaf(gz_leaf *leaf, gz_reader *reader)
{
    uint32_t count = 99;
    CHECK(gz_get(leaf, SND), GZ_DONE);
    CHECK(gz_try_get(leaf, SND, 1), GZ_DONE);
    CHECK(gz_held(leaf, SND, &count), GZ_DONE);
    CHECK(count, 2);
    CHECK(gz_in_use(reader, SND), GZ_YES);
    CHECK(gz_reader_wait_unused_for(reader, SND, 1), GZ_TIMED_OUT);
    CHECK(gz_put(leaf, SND), GZ_DONE);
    CHECK(gz_put(leaf, SND), GZ_DONE);
    CHECK(gz_wait_unused(reader, SND), GZ_NO);
    CHECK(gz_reader_wait_unused(reader, SND), GZ_NO);
    CHECK(gz_reader_wait_unused_for(reader, SND, 0), GZ_NO);
    CHECK(gz_reader_wait_unused_for(reader, OUTSIDE, -1), GZ_OUT_OF_RANGE);
}

static void of_a_book(gz_catalogue *catalogue)
{
    gz_book book = GZ_EMPTY;
    gz_leaf leaf = GZ_EMPTY;
    gz_reader reader = GZ_EMPTY;
    size_t need = 99, slot = 99;
    CHECK(gz_new(catalogue, &book, NULL, 0, NULL, 0), GZ_DONE);
    gz_free_book(&book);
    CHECK(gz_new(catalogue, &book, &leaf, 1, &reader, 1), GZ_DONE);
    CHECK(gz_begin_load(&book, SND, &need), GZ_DONE);
    CHECK(gz_end_load(&book, SND, true), GZ_DONE);
    CHECK(gz_state(&book, SND), GZ_LIVE);
    of_a_leaf(&leaf, &reader);
    CHECK(gz_begin_drain(&book, SND), GZ_DONE);
    CHECK(gz_wait_removed(&book, SND), GZ_DONE);
    CHECK(gz_load_with_needs(&book, catalogue, PCM, goes_well, NULL, &slot), GZ_DONE);
    CHECK(gz_loaded(&book), 2);
    CHECK(gz_loaded_at(&book, 1, &slot), GZ_DONE);
    CHECK(slot, PCM);
    CHECK(gz_user(&book, catalogue, SND, 0, &slot), GZ_DONE);
    CHECK(gz_begin_remove(&book, PCM), GZ_DONE);
    CHECK(gz_end_remove(&book, PCM), GZ_DONE);
    CHECK(gz_remove_with_needs(&book, catalogue, SND, goes_well, NULL), GZ_DONE);
    gz_free_leaf(&leaf);
    gz_free_reader(&reader);
    gz_free_book(&book);
    CHECK(leaf.at || reader.at || book.at, 0);
}

static void by_a_caller(gz_catalogue *catalogue, gz_caller *caller, gz_teller *teller)
{
    size_t need = 99, count = 99, slot = 99;
    uint32_t held = 99;
    uint64_t sum = 99;
    CHECK(gz_call_begin_load(caller, SND, &need), GZ_DONE);
    CHECK(gz_call_end_load(caller, SND, true), GZ_DONE);
    CHECK(gz_call_get(caller, 1, SND), GZ_DONE);
    CHECK(gz_call_held(caller, 1, SND, &held), GZ_DONE);
    CHECK(gz_call_references(caller, SND, &sum), GZ_DONE);
    CHECK(held == 1 && sum == 1, 1);
    CHECK(gz_call_meet_leaf(caller, 1, teller), GZ_DONE);
    CHECK(gz_call_meet_book(caller, teller), GZ_DONE);
    CHECK(gz_call_begin_remove(caller, SND), GZ_IN_USE);
    CHECK(gz_call_put(caller, 1, SND), GZ_DONE);
    CHECK(gz_call_begin_drain(caller, SND), GZ_DONE);
    CHECK(gz_call_state(caller, SND), GZ_DRAINING);
    CHECK(gz_call_wait_removed(caller, SND), GZ_DONE);
    CHECK(gz_call_end_remove(caller, SND), GZ_NOT_UNLOADING);
    CHECK(gz_call_load_with_needs(caller, catalogue, PCM, goes_well, NULL, &slot), GZ_DONE);
    CHECK(gz_call_loaded(caller, &count), GZ_DONE);
    CHECK(count, 2);
    CHECK(gz_call_loaded_at(caller, 0, &slot), GZ_DONE);
    CHECK(slot, SND);
    CHECK(gz_call_user(caller, catalogue, SND, 0, &slot), GZ_DONE);
    CHECK(slot, PCM);
    CHECK(gz_call_remove_with_needs(caller, catalogue, PCM, goes_well, NULL), GZ_DONE);
}

static void of_callers(gz_catalogue *catalogue)
{
    gz_caller one = GZ_EMPTY, other = GZ_EMPTY, told = GZ_EMPTY, none = GZ_EMPTY;
    gz_teller tellers[WORKERS] = { GZ_EMPTY, GZ_EMPTY };
    CHECK(gz_managed_new_with_tellers(catalogue, &none, NULL, 0), GZ_DONE);
    gz_free_caller(&none);
    CHECK(gz_managed_new_with_tellers(catalogue, &told, tellers, WORKERS), GZ_DONE);
    by_a_caller(catalogue, &told, &tellers[1]);
    gz_free_caller(&told);
    for (int i = 0; i < WORKERS; i++)
        gz_free_teller(&tellers[i]);
    CHECK(gz_new_managed(catalogue, WORKERS, &one), GZ_DONE);
    CHECK(gz_new_caller(&one, &other), GZ_DONE);
    CHECK(gz_workers(&other), WORKERS);
    CHECK(gz_new_managed_with_tellers(catalogue, &none, NULL, 0), GZ_DONE);
    CHECK(gz_new_managed_with_tellers(catalogue, &told, tellers, WORKERS), GZ_DONE);
    by_a_caller(catalogue, &told, &tellers[0]);
    gz_free_caller(&one);
    gz_free_caller(&other);
    gz_free_caller(&told);
    gz_free_caller(&none);
    for (int i = 0; i < WORKERS; i++)
        gz_free_teller(&tellers[i]);
    CHECK(one.at || other.at || told.at || tellers[0].at, 0);
}

int main(void)
{
    gz_catalogue catalogue = GZ_EMPTY;
    of_a_catalogue(&catalogue);
    of_a_book(&catalogue);
    of_callers(&catalogue);
    gz_free_catalogue(&catalogue);
    return wrong;
}
