/* Names, needs, users, loads and removals with needs, waits: by a book and by a caller. Says nothing if all is well. */
#include <gourzhiel.h>
#include <stdio.h>

/* usb_audio needs core and pcm, pcm needs core and timer; a and b need each other; lost needs what nobody has. */
static const char text[] =
    "module core\nexports c\n"
    "module timer\nexports t\n"
    "module pcm\nexports p\nneeds c t\n"
    "module usb-audio\nneeds c p\n"
    "module a\nexports x\nneeds y\n"
    "module b\nexports y\nneeds x\n"
    "module lost\nneeds nobody_has_it\n"
    "module over\nexports o\nneeds l\n"
    "module stuck\nexports l\npermanent\n";

enum { CORE, TIMER, PCM, AUDIO, A, B, LOST, OVER, STUCK, OUTSIDE };

static int wrong;

static void check(int line, long found, long wanted)
{
    if (found != wanted) {
        printf("needs.c:%d: answered %ld, and not %ld\n", line, found, wanted);
        wrong = 1;
    }
}
#define CHECK(found, wanted) check(__LINE__, (long)(found), (long)(wanted))

/* What was worked for, in order, and for which module the work goes wrong. */
struct log {
    size_t slots[32], count, bad;
};

static bool note(void *data, size_t slot)
{
    struct log *log = (struct log *)data;
    log->slots[log->count++] = slot;
    return slot != log->bad;
}

static void check_log(int line, struct log *log, size_t count, const size_t *wanted)
{
    check(line, (long)log->count, (long)count);
    for (size_t i = 0; i < count && i < log->count; i++)
        check(line, (long)log->slots[i], (long)wanted[i]);
    log->count = 0;
}
#define CHECK_LOG(log, ...) \
    do { \
        const size_t wanted[] = { __VA_ARGS__ }; \
        check_log(__LINE__, &log, sizeof wanted / sizeof *wanted, wanted); \
    } while (0)

static void names(gz_catalogue *catalogue)
{
    size_t slot = 99, need = 99;
    CHECK(gz_catalogue_slot(catalogue, "usb-audio", 9, &slot), GZ_DONE);
    CHECK(slot, AUDIO);
    slot = 99;
    CHECK(gz_catalogue_slot(catalogue, "usb_audio", 9, &slot), GZ_DONE);
    CHECK(slot, AUDIO);
    CHECK(gz_catalogue_slot(catalogue, "usb audio", 9, &slot), GZ_UNKNOWN_NAME);
    CHECK(gz_catalogue_slot(catalogue, "", 0, &slot), GZ_UNKNOWN_NAME);
    CHECK(slot, AUDIO);
    CHECK(gz_catalogue_need(catalogue, AUDIO, 0, &need), GZ_DONE);
    CHECK(need, CORE);
    CHECK(gz_catalogue_need(catalogue, AUDIO, 1, &need), GZ_DONE);
    CHECK(need, PCM);
    CHECK(gz_catalogue_need(catalogue, AUDIO, 2, &need), GZ_OUT_OF_RANGE);
    CHECK(gz_catalogue_need(catalogue, OUTSIDE, 0, &need), GZ_OUT_OF_RANGE);
    CHECK(gz_catalogue_need(catalogue, LOST, 0, &need), GZ_OUT_OF_RANGE);
    CHECK(need, PCM);
    CHECK(gz_catalogue_needs(catalogue, PCM, TIMER), true);
    CHECK(gz_catalogue_needs(catalogue, AUDIO, TIMER), false);
    CHECK(gz_version(), GZ_VERSION);
}

static void by_book(gz_catalogue *catalogue)
{
    gz_book book = GZ_EMPTY;
    gz_leaf leaf = GZ_EMPTY;
    gz_reader reader = GZ_EMPTY;
    struct log log = { { 0 }, 0, OUTSIDE };
    size_t at = 99, user = 99;
    CHECK(gz_table_new(catalogue, &book, &leaf, 1, &reader, 1), GZ_DONE);
    CHECK(gz_book_load_with_needs(&book, catalogue, AUDIO, note, &log, &at), GZ_DONE);
    CHECK(at, AUDIO);
    CHECK_LOG(log, CORE, TIMER, PCM, AUDIO);
    CHECK(gz_book_load_with_needs(&book, catalogue, AUDIO, note, &log, &at), GZ_EXISTS);
    CHECK(gz_book_load_with_needs(&book, catalogue, A, note, &log, &at), GZ_NEED_NOT_LIVE);
    CHECK(gz_book_load_with_needs(&book, catalogue, LOST, note, &log, &at), GZ_UNKNOWN_SYMBOL);
    CHECK(at, LOST);
    CHECK(gz_book_load_with_needs(&book, catalogue, OUTSIDE, note, &log, &at), GZ_OUT_OF_RANGE);
    CHECK(log.count, 0);
    CHECK(gz_book_user(&book, catalogue, CORE, 0, &user), GZ_DONE);
    CHECK(user, PCM);
    CHECK(gz_book_user(&book, catalogue, CORE, 1, &user), GZ_DONE);
    CHECK(user, AUDIO);
    CHECK(gz_book_user(&book, catalogue, CORE, 2, &user), GZ_OUT_OF_RANGE);
    CHECK(user, AUDIO);
    CHECK(gz_leaf_get_blocking(&leaf, TIMER), GZ_DONE);
    CHECK(gz_book_remove_with_needs(&book, catalogue, PCM, note, &log), GZ_NEEDED_BY);
    CHECK(log.count, 0);
    CHECK(gz_book_remove_with_needs(&book, catalogue, AUDIO, note, &log), GZ_DONE);
    CHECK_LOG(log, AUDIO, PCM, CORE);
    CHECK(gz_book_begin_drain(&book, TIMER), GZ_DONE);
    CHECK(gz_leaf_get_blocking(&leaf, TIMER), GZ_NOT_LIVE);
    CHECK(gz_reader_in_use(&reader, TIMER), GZ_YES);
    CHECK(gz_reader_wait_unheld(&reader, TIMER, 1), GZ_TIMED_OUT);
    CHECK(gz_book_wait_removed_for(&book, TIMER, 1), GZ_TIMED_OUT);
    CHECK(gz_book_state(&book, TIMER), GZ_DRAINING);
    CHECK(gz_leaf_put(&leaf, TIMER), GZ_DONE);
    CHECK(gz_reader_wait_unheld(&reader, TIMER, -1), GZ_DONE);
    CHECK(gz_book_wait_removed(&book, TIMER), GZ_DONE);
    CHECK(gz_book_wait_removed(&book, TIMER), GZ_NOT_UNLOADING);
    CHECK(gz_reader_wait_unheld(&reader, OUTSIDE, -1), GZ_OUT_OF_RANGE);
    CHECK(gz_book_wait_removed_for(&book, OUTSIDE, 0), GZ_OUT_OF_RANGE);
    CHECK(gz_book_loaded(&book), 0);
    gz_reader_clear(&reader);
    gz_leaf_clear(&leaf);
    gz_book_clear(&book);
}

static void by_caller(gz_catalogue *catalogue)
{
    gz_caller caller = GZ_EMPTY;
    struct log log = { { 0 }, 0, PCM };
    size_t at = 99, user = 99, count = 99;
    uint64_t sum = 99;
    CHECK(gz_managed_new(catalogue, 3, &caller), GZ_DONE);
    CHECK(gz_caller_load_with_needs(&caller, catalogue, AUDIO, note, &log, &at), GZ_NOT_LIVE);
    CHECK(at, PCM);
    CHECK_LOG(log, CORE, TIMER, PCM);
    log.bad = OUTSIDE;
    CHECK(gz_caller_load_with_needs(&caller, catalogue, AUDIO, note, &log, &at), GZ_DONE);
    CHECK_LOG(log, PCM, AUDIO);
    CHECK(gz_caller_user(&caller, catalogue, TIMER, 0, &user), GZ_DONE);
    CHECK(user, PCM);
    CHECK(gz_caller_user(&caller, catalogue, AUDIO, 0, &user), GZ_OUT_OF_RANGE);
    CHECK(gz_caller_get_blocking(&caller, 0, AUDIO), GZ_DONE);
    CHECK(gz_caller_get_blocking(&caller, 2, AUDIO), GZ_DONE);
    CHECK(gz_caller_get_blocking(&caller, 2, AUDIO), GZ_DONE);
    CHECK(gz_caller_references(&caller, AUDIO, &sum), GZ_DONE);
    CHECK(sum, 3);
    CHECK(gz_caller_references(&caller, OUTSIDE, &sum), GZ_OUT_OF_RANGE);
    CHECK(sum, 3);
    CHECK(gz_caller_remove_with_needs(&caller, catalogue, AUDIO, note, &log), GZ_IN_USE);
    CHECK(gz_caller_put_blocking(&caller, 0, AUDIO), GZ_DONE);
    CHECK(gz_caller_put_blocking(&caller, 2, AUDIO), GZ_DONE);
    CHECK(gz_caller_put_blocking(&caller, 2, AUDIO), GZ_DONE);
    CHECK(gz_caller_remove_with_needs(&caller, catalogue, AUDIO, note, &log), GZ_DONE);
    CHECK_LOG(log, AUDIO, PCM, CORE, TIMER);
    CHECK(gz_caller_load_with_needs(&caller, catalogue, OVER, note, &log, &at), GZ_DONE);
    CHECK_LOG(log, STUCK, OVER);
    CHECK(gz_caller_begin_drain_blocking(&caller, OVER), GZ_DONE);
    CHECK(gz_caller_wait_removed(&caller, OVER), GZ_DONE);
    CHECK(gz_caller_remove_with_needs(&caller, catalogue, STUCK, note, &log), GZ_PERMANENT);
    CHECK(gz_caller_loaded_blocking(&caller, &count), GZ_DONE);
    CHECK(count, 1);
    gz_caller_clear(&caller);
}

/* A removal whose work fails stops there: what was removed before is absent, and the rest is live. */
static void failed_removals(gz_catalogue *catalogue)
{
    gz_caller caller = GZ_EMPTY;
    struct log log = { { 0 }, 0, OUTSIDE };
    size_t at = 99;
    CHECK(gz_managed_new(catalogue, 1, &caller), GZ_DONE);
    CHECK(gz_caller_load_with_needs(&caller, catalogue, AUDIO, note, &log, &at), GZ_DONE);
    log.count = 0;
    log.bad = PCM;
    CHECK(gz_caller_remove_with_needs(&caller, catalogue, AUDIO, note, &log), GZ_WORK_FAILED);
    CHECK_LOG(log, AUDIO, PCM);
    CHECK(gz_caller_state_blocking(&caller, AUDIO), GZ_ABSENT);
    CHECK(gz_caller_state_blocking(&caller, PCM), GZ_LIVE);
    CHECK(gz_caller_state_blocking(&caller, CORE), GZ_LIVE);
    CHECK(gz_caller_get_blocking(&caller, 0, PCM), GZ_DONE);
    CHECK(gz_caller_put_blocking(&caller, 0, PCM), GZ_DONE);
    CHECK(gz_caller_begin_remove_blocking(&caller, PCM), GZ_DONE);
    CHECK(gz_caller_wait_unheld(&caller, PCM, 0), GZ_DONE);
    CHECK(gz_caller_end_remove_blocking(&caller, PCM), GZ_DONE);
    log.bad = TIMER;
    CHECK(gz_caller_remove_with_needs(&caller, catalogue, TIMER, note, &log), GZ_WORK_FAILED);
    CHECK_LOG(log, TIMER);
    CHECK(gz_caller_state_blocking(&caller, TIMER), GZ_LIVE);
    CHECK(strcmp(gz_strerror(GZ_WORK_FAILED), "the work failed"), 0);
    gz_caller_clear(&caller);
}

/* An unload that waits too long, or whose work fails, leaves its module live. Else the module is absent. */
static void unloads(gz_catalogue *catalogue)
{
    gz_caller caller = GZ_EMPTY;
    struct log log = { { 0 }, 0, OUTSIDE };
    CHECK(gz_managed_new(catalogue, 1, &caller), GZ_DONE);
    CHECK(gz_caller_unload(&caller, TIMER, note, &log, 0), GZ_NO_ENTRY);
    CHECK(gz_caller_load(&caller, TIMER, note, &log), GZ_DONE);
    CHECK_LOG(log, TIMER);
    CHECK(gz_caller_get_blocking(&caller, 0, TIMER), GZ_DONE);
    CHECK(gz_caller_unload(&caller, TIMER, note, &log, 1), GZ_TIMED_OUT);
    CHECK(gz_caller_state_blocking(&caller, TIMER), GZ_LIVE);
    CHECK(gz_caller_put_blocking(&caller, 0, TIMER), GZ_DONE);
    log.bad = TIMER;
    CHECK(gz_caller_unload(&caller, TIMER, note, &log, -1), GZ_WORK_FAILED);
    CHECK_LOG(log, TIMER);
    CHECK(gz_caller_state_blocking(&caller, TIMER), GZ_LIVE);
    log.bad = OUTSIDE;
    CHECK(gz_caller_unload(&caller, TIMER, note, &log, -1), GZ_DONE);
    CHECK_LOG(log, TIMER);
    CHECK(gz_caller_state_blocking(&caller, TIMER), GZ_ABSENT);
    CHECK(gz_caller_unload(&caller, OUTSIDE, note, &log, -1), GZ_OUT_OF_RANGE);
    gz_caller_clear(&caller);
}

/* Each wait, with each number that it may answer while nobody acts beside it. */
static void waits(gz_catalogue *catalogue)
{
    gz_caller caller = GZ_EMPTY;
    struct log log = { { 0 }, 0, TIMER };
    CHECK(gz_managed_new(catalogue, 3, &caller), GZ_DONE);
    CHECK(gz_caller_load(&caller, TIMER, note, &log), GZ_NOT_LIVE);
    CHECK(gz_caller_state_blocking(&caller, TIMER), GZ_ABSENT);
    CHECK(gz_caller_wait_unheld(&caller, TIMER, -1), GZ_NOT_UNLOADING);
    CHECK(gz_caller_load(&caller, CORE, note, &log), GZ_DONE);
    CHECK(gz_caller_load(&caller, CORE, note, &log), GZ_EXISTS);
    CHECK(gz_caller_load(&caller, PCM, note, &log), GZ_NEED_NOT_LIVE);
    CHECK(gz_caller_load(&caller, LOST, note, &log), GZ_UNKNOWN_SYMBOL);
    CHECK(gz_caller_load(&caller, OUTSIDE, note, &log), GZ_OUT_OF_RANGE);
    CHECK_LOG(log, TIMER, CORE);
    CHECK(gz_caller_wait_unheld(&caller, CORE, -1), GZ_NOT_UNLOADING);
    CHECK(gz_caller_wait_unheld(&caller, OUTSIDE, -1), GZ_OUT_OF_RANGE);
    CHECK(gz_caller_get_blocking(&caller, 1, CORE), GZ_DONE);
    CHECK(gz_caller_begin_drain_blocking(&caller, CORE), GZ_DONE);
    CHECK(gz_caller_wait_unheld(&caller, CORE, 0), GZ_TIMED_OUT);
    CHECK(gz_caller_wait_unheld(&caller, CORE, 1), GZ_TIMED_OUT);
    CHECK(gz_caller_wait_removed_for(&caller, CORE, 1), GZ_TIMED_OUT);
    CHECK(gz_caller_put_blocking(&caller, 1, CORE), GZ_DONE);
    CHECK(gz_caller_wait_unheld(&caller, CORE, 0), GZ_DONE);
    CHECK(gz_caller_state_blocking(&caller, CORE), GZ_DRAINING);
    CHECK(gz_caller_get_blocking(&caller, 1, CORE), GZ_NOT_LIVE);
    CHECK(gz_caller_wait_removed_for(&caller, CORE, 0), GZ_DONE);
    CHECK(gz_caller_wait_removed_for(&caller, CORE, 0), GZ_NOT_UNLOADING);
    CHECK(gz_caller_wait_removed_for(&caller, OUTSIDE, 0), GZ_OUT_OF_RANGE);
    CHECK(strcmp(gz_strerror(GZ_TIMED_OUT), "the time is over"), 0);
    gz_caller_clear(&caller);
}

/* A load with a limit, beside loads and removals that do not end. */
static void loads_with_a_limit(gz_catalogue *catalogue)
{
    gz_caller caller = GZ_EMPTY;
    struct log log = { { 0 }, 0, OUTSIDE };
    size_t at = 99, need = 99;
    CHECK(gz_managed_new(catalogue, 1, &caller), GZ_DONE);
    CHECK(gz_caller_begin_load_blocking(&caller, CORE, &need), GZ_DONE);
    CHECK(gz_caller_load_with_needs(&caller, catalogue, AUDIO, note, &log, &at), GZ_EXISTS);
    CHECK(at, CORE);
    CHECK(gz_caller_load_with_needs_for(&caller, catalogue, AUDIO, note, &log, &at, 1), GZ_TIMED_OUT);
    CHECK(at, CORE);
    CHECK(log.count, 0);
    CHECK(gz_caller_end_load_blocking(&caller, CORE, true), GZ_DONE);
    CHECK(gz_caller_load_with_needs_for(&caller, catalogue, AUDIO, note, &log, &at, 0), GZ_DONE);
    CHECK_LOG(log, TIMER, PCM, AUDIO);
    CHECK(gz_caller_load_with_needs_for(&caller, catalogue, AUDIO, note, &log, &at, 0), GZ_DONE);
    CHECK(gz_caller_load_with_needs_for(&caller, catalogue, A, note, &log, &at, -1), GZ_NEED_NOT_LIVE);
    CHECK(gz_caller_load_with_needs_for(&caller, catalogue, LOST, note, &log, &at, -1), GZ_UNKNOWN_SYMBOL);
    CHECK(gz_caller_load_with_needs_for(&caller, catalogue, OUTSIDE, note, &log, &at, -1), GZ_OUT_OF_RANGE);
    CHECK(log.count, 0);
    CHECK(gz_caller_begin_remove_blocking(&caller, AUDIO), GZ_DONE);
    CHECK(gz_caller_load_with_needs_for(&caller, catalogue, AUDIO, note, &log, &at, 1), GZ_TIMED_OUT);
    CHECK(at, AUDIO);
    log.bad = AUDIO;
    CHECK(gz_caller_end_remove_blocking(&caller, AUDIO), GZ_DONE);
    CHECK(gz_caller_load_with_needs_for(&caller, catalogue, AUDIO, note, &log, &at, 0), GZ_NOT_LIVE);
    CHECK_LOG(log, AUDIO);
    gz_caller_clear(&caller);
}

int main(void)
{
    gz_catalogue catalogue = GZ_EMPTY;
    size_t line = 77;
    CHECK(gz_catalogue_read(text, sizeof text - 1, &catalogue, &line), GZ_DONE);
    CHECK(line, 77);
    names(&catalogue);
    by_book(&catalogue);
    by_caller(&catalogue);
    failed_removals(&catalogue);
    unloads(&catalogue);
    waits(&catalogue);
    loads_with_a_limit(&catalogue);
    gz_catalogue_clear(&catalogue);
    return wrong;
}
