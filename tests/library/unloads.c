/* Unloading for real: the race of the wrong order, waits beside other threads, and many holds of objects that come and go.
 *
 *     unloads [HOLDS]
 *
 * Each module has an object in memory, which the work of a load makes and that of a removal frees. A thread that got a
 * module must find its object whole until its put. Times are those of a machine that lets the threads run. */
#include <gourzhiel.h>
#include <pthread.h>
#include <stdatomic.h>
#include <stdio.h>
#include <stdlib.h>
#include <time.h>

enum { HOLDERS = 3, AGENTS = 2, WORKERS = 2, SLOTS = 3, WHOLE = 77, LATE = 20, TRIES = 25 };

/* mixer needs card, so that a load of mixer loads both. */
static const char text[] = "module card\nexports card_new\nmodule mixer\nneeds card_new\nmodule lamp\n";
enum { CARD, MIXER, LAMP };

static int wrong;

static void check(int line, long found, long wanted)
{
    if (found != wanted) {
        printf("unloads.c:%d: answered %ld, and not %ld\n", line, found, wanted);
        wrong = 1;
    }
}
#define CHECK(found, wanted) check(__LINE__, (long)(found), (long)(wanted))

static double milliseconds_of(clockid_t clock)
{
    struct timespec time;
    clock_gettime(clock, &time);
    return (double)time.tv_sec * 1e3 + (double)time.tv_nsec / 1e6;
}

static void sleep_for(long milliseconds)
{
    struct timespec time = { milliseconds / 1000, milliseconds % 1000 * 1000000 };
    nanosleep(&time, NULL);
}

/* ---- Objects ---- */

struct object {
    int state;
};

static struct object *objects[SLOTS]; /* not atomic: the table's calls order what is done with it */
static atomic_ulong loads, found_there;

/* As dlopen: an object that is there already is taken. */
static bool load_object(void *data, size_t slot)
{
    (void)data;
    atomic_fetch_add(&loads, 1);
    if (objects[slot]) {
        atomic_fetch_add(&found_there, 1);
        return true;
    }
    objects[slot] = (struct object *)malloc(sizeof *objects[slot]);
    if (objects[slot])
        objects[slot]->state = WHOLE;
    return objects[slot] != NULL;
}

static bool unload_object(void *data, size_t slot)
{
    struct object *object = objects[slot];
    (void)data;
    objects[slot] = NULL;
    object->state = 0;
    free(object);
    return true;
}

static bool is_whole(size_t slot)
{
    return objects[slot] && objects[slot]->state == WHOLE;
}

/* ---- The race in four lines ---- */

static void race(gz_catalogue *catalogue)
{
    gz_caller one = GZ_EMPTY, other = GZ_EMPTY;
    CHECK(gz_managed_new(catalogue, WORKERS, &one), GZ_DONE);
    CHECK(gz_caller_new(&one, &other), GZ_DONE);
    CHECK(gz_caller_load(&one, LAMP, load_object, NULL), GZ_DONE);
    /* The wrong order: a holder has lost its object. */
    CHECK(gz_caller_begin_drain_blocking(&one, LAMP), GZ_DONE);
    CHECK(gz_caller_wait_removed(&one, LAMP), GZ_DONE);
    CHECK(gz_caller_load(&other, LAMP, load_object, NULL), GZ_DONE);
    CHECK(gz_caller_get_blocking(&other, 0, LAMP), GZ_DONE);
    CHECK(is_whole(LAMP), true);
    unload_object(NULL, LAMP);
    CHECK(is_whole(LAMP), false);
    CHECK(gz_caller_put_blocking(&other, 0, LAMP), GZ_DONE);
    load_object(NULL, LAMP);
    /* The manual's: nobody gets in before the object is gone. */
    CHECK(gz_caller_begin_drain_blocking(&one, LAMP), GZ_DONE);
    CHECK(gz_caller_wait_unheld(&one, LAMP, -1), GZ_DONE);
    CHECK(gz_caller_load(&other, LAMP, load_object, NULL), GZ_EXISTS);
    CHECK(gz_caller_get_blocking(&other, 0, LAMP), GZ_NOT_LIVE);
    unload_object(NULL, LAMP);
    CHECK(gz_caller_end_remove_blocking(&one, LAMP), GZ_DONE);
    CHECK(gz_caller_load(&other, LAMP, load_object, NULL), GZ_DONE);
    CHECK(gz_caller_get_blocking(&other, 0, LAMP), GZ_DONE);
    CHECK(is_whole(LAMP), true);
    CHECK(atomic_exchange(&found_there, 0), 1);
    unload_object(NULL, LAMP);
    gz_caller_clear(&one);
    gz_caller_clear(&other);
}

/* ---- Limits, and what a wait takes of a processor ---- */

/* Whether a wait of a module that stays held ends in time. One of some tries must: others may have the processor. */
static void keeps_limit(gz_caller *caller, int milliseconds, gz_number (*wait)(gz_caller *, size_t, int))
{
    double late = LATE;
    for (int try = 0; try < TRIES && late >= LATE; try++) {
        double begin = milliseconds_of(CLOCK_MONOTONIC);
        CHECK(wait(caller, LAMP, milliseconds), GZ_TIMED_OUT);
        late = milliseconds_of(CLOCK_MONOTONIC) - begin - milliseconds;
        CHECK(late >= 0, true);
    }
    CHECK(late < LATE, true);
}

/* How many hundredths of a processor two long waits take. */
static double part_of_processor(gz_caller *caller)
{
    double begin = milliseconds_of(CLOCK_MONOTONIC), used = milliseconds_of(CLOCK_THREAD_CPUTIME_ID);
    CHECK(gz_caller_wait_unheld(caller, LAMP, 1500), GZ_TIMED_OUT);
    CHECK(gz_caller_wait_removed_for(caller, LAMP, 1500), GZ_TIMED_OUT);
    used = milliseconds_of(CLOCK_THREAD_CPUTIME_ID) - used;
    return 100 * used / (milliseconds_of(CLOCK_MONOTONIC) - begin);
}

static void limits(gz_caller *caller)
{
    const int milliseconds[] = { 0, 1, 10, 40, 150 };
    for (size_t i = 0; i < sizeof milliseconds / sizeof *milliseconds; i++) {
        keeps_limit(caller, milliseconds[i], gz_caller_wait_unheld);
        keeps_limit(caller, milliseconds[i], gz_caller_wait_removed_for);
    }
    double part = part_of_processor(caller);
    for (int try = 1; try < TRIES / 5 && part >= 1; try++)
        part = part_of_processor(caller);
    printf("a wait takes %.2f %% of a processor; ", part);
    CHECK(part < 1, true);
}

/* A thread that ends what another waits for, after a while. */
struct other {
    gz_caller caller;
    bool ok;
};

static void *puts_back(void *argument)
{
    struct other *other = (struct other *)argument;
    sleep_for(50);
    CHECK(gz_caller_put_blocking(&other->caller, 1, LAMP), GZ_DONE);
    return NULL;
}

static void *ends_load(void *argument)
{
    struct other *other = (struct other *)argument;
    sleep_for(50);
    CHECK(gz_caller_end_load_blocking(&other->caller, CARD, other->ok), GZ_DONE);
    return NULL;
}

static bool nothing(void *data, size_t slot)
{
    (void)slot;
    ++*(int *)data;
    return true;
}

static void beside_a_put(gz_caller *caller, struct other *other)
{
    pthread_t thread;
    CHECK(pthread_create(&thread, NULL, puts_back, other), 0);
    CHECK(gz_caller_wait_unheld(caller, LAMP, -1), GZ_DONE);
    CHECK(gz_caller_state_blocking(caller, LAMP), GZ_DRAINING);
    CHECK(gz_caller_wait_removed(caller, LAMP), GZ_DONE);
    CHECK(pthread_join(thread, NULL), 0);
}

/* A load of mixer waits for the load of card by another thread. If that one fails it loads card too. */
static void beside_a_load(gz_caller *caller, gz_catalogue *catalogue, struct other *other, bool ok)
{
    pthread_t thread;
    size_t need, at;
    int work = 0;
    other->ok = ok;
    CHECK(gz_caller_begin_load_blocking(&other->caller, CARD, &need), GZ_DONE);
    CHECK(pthread_create(&thread, NULL, ends_load, other), 0);
    CHECK(gz_caller_load_with_needs_for(caller, catalogue, MIXER, nothing, &work, &at, 5000), GZ_DONE);
    CHECK(pthread_join(thread, NULL), 0);
    CHECK(at, MIXER);
    CHECK(work, ok ? 1 : 2);
    CHECK(gz_caller_remove_with_needs(caller, catalogue, MIXER, nothing, &work), GZ_DONE);
    CHECK(gz_caller_state_blocking(caller, CARD), GZ_ABSENT);
}

static void waits(gz_catalogue *catalogue)
{
    gz_caller caller = GZ_EMPTY;
    struct other other = { .caller = GZ_EMPTY };
    int work = 0;
    CHECK(gz_managed_new(catalogue, WORKERS, &caller), GZ_DONE);
    CHECK(gz_caller_new(&caller, &other.caller), GZ_DONE);
    CHECK(gz_caller_load(&caller, LAMP, nothing, &work), GZ_DONE);
    CHECK(gz_caller_get_blocking(&caller, 1, LAMP), GZ_DONE);
    CHECK(gz_caller_begin_drain_blocking(&caller, LAMP), GZ_DONE);
    limits(&caller);
    beside_a_put(&caller, &other);
    beside_a_load(&caller, catalogue, &other, true);
    beside_a_load(&caller, catalogue, &other, false);
    gz_caller_clear(&caller);
    gz_caller_clear(&other.caller);
}

/* ---- Many holds ---- */

static atomic_ulong holds, unloads;
static unsigned long wanted = 1000000;

static bool is_over(void)
{
    return atomic_load(&holds) >= wanted && atomic_load(&unloads) >= wanted / 200;
}

struct thread {
    gz_caller caller;
    gz_catalogue catalogue;
    unsigned seed;
    unsigned long lost, refused, wrong;
};

static unsigned next(struct thread *self)
{
    self->seed = self->seed * 1103515245u + 12345u;
    return self->seed >> 16;
}

/* Takes a module, looks at its object, at times for long, and gives it back. Loads it if it is not live. */
static void hold(struct thread *self, size_t worker, size_t slot)
{
    size_t at;
    gz_number number = gz_caller_get_blocking(&self->caller, worker, slot);
    if (number == GZ_NOT_LIVE) {
        self->refused++;
        number = gz_caller_load_with_needs_for(&self->caller, &self->catalogue, slot, load_object, NULL, &at, 10000);
        self->wrong += number != GZ_DONE;
        return;
    }
    self->wrong += number != GZ_DONE;
    self->lost += !is_whole(slot);
    if (next(self) % 4096 == 0)
        sleep_for(1);
    self->lost += !is_whole(slot);
    self->wrong += gz_caller_put_blocking(&self->caller, worker, slot) != GZ_DONE;
    atomic_fetch_add(&holds, 1);
}

static void *holder(void *argument)
{
    struct thread *self = (struct thread *)argument;
    while (!is_over())
        hold(self, next(self) % WORKERS, next(self) % SLOTS);
    return NULL;
}

/* Unloads a module for real, by a drain. It may be absent, needed, or in the hands of the other agent. */
static void unload(struct thread *self, size_t slot)
{
    if (gz_caller_begin_drain_blocking(&self->caller, slot) != GZ_DONE)
        return;
    self->wrong += gz_caller_wait_unheld(&self->caller, slot, 10000) != GZ_DONE;
    unload_object(NULL, slot);
    self->wrong += gz_caller_end_remove_blocking(&self->caller, slot) != GZ_DONE;
    atomic_fetch_add(&unloads, 1);
}

static void *agent(void *argument)
{
    struct thread *self = (struct thread *)argument;
    while (!is_over()) {
        size_t slot = next(self) % SLOTS;
        if (next(self) % 4)
            unload(self, slot);
        else if (gz_caller_remove_with_needs(&self->caller, &self->catalogue, slot, unload_object, NULL) == GZ_DONE)
            atomic_fetch_add(&unloads, 1);
        if (next(self) % 64 == 0)
            sleep_for(1);
    }
    return NULL;
}

static void start(struct thread *self, pthread_t *thread, gz_caller *first, unsigned seed)
{
    size_t line;
    *self = (struct thread){ .caller = GZ_EMPTY, .catalogue = GZ_EMPTY, .seed = seed };
    CHECK(gz_catalogue_read(text, sizeof text - 1, &self->catalogue, &line), GZ_DONE);
    CHECK(gz_caller_new(first, &self->caller), GZ_DONE);
    CHECK(pthread_create(thread, NULL, seed < HOLDERS ? holder : agent, self), 0);
}

static void many_holds(gz_catalogue *catalogue)
{
    enum { THREADS = HOLDERS + AGENTS };
    gz_caller first = GZ_EMPTY;
    struct thread all[THREADS];
    pthread_t threads[THREADS];
    unsigned long lost = 0, refused = 0;
    double begin = milliseconds_of(CLOCK_MONOTONIC);
    CHECK(gz_managed_new(catalogue, WORKERS, &first), GZ_DONE);
    atomic_store(&loads, 0);
    for (unsigned i = 0; i < THREADS; i++)
        start(&all[i], &threads[i], &first, i);
    for (unsigned i = 0; i < THREADS; i++) {
        pthread_join(threads[i], NULL);
        lost += all[i].lost, refused += all[i].refused;
        CHECK(all[i].wrong, 0);
        gz_caller_clear(&all[i].caller);
        gz_catalogue_clear(&all[i].catalogue);
    }
    for (size_t slot = 0; slot < SLOTS; slot++)
        free(objects[slot]);
    gz_caller_clear(&first);
    CHECK(lost, 0);
    CHECK(atomic_load(&found_there), 0);
    printf("%lu holds, %lu loads, %lu unloads, %lu refused, %lu lost, in %.1f s\n", atomic_load(&holds), atomic_load(&loads),
           atomic_load(&unloads), refused, lost, (milliseconds_of(CLOCK_MONOTONIC) - begin) / 1e3);
}

int main(int count, char **words)
{
    gz_catalogue catalogue = GZ_EMPTY;
    size_t line;
    if (count > 1)
        wanted = strtoul(words[1], NULL, 10);
    CHECK(gz_catalogue_read(text, sizeof text - 1, &catalogue, &line), GZ_DONE);
    race(&catalogue);
    waits(&catalogue);
    many_holds(&catalogue);
    gz_catalogue_clear(&catalogue);
    return wrong;
}
