/* Several slots at once, or none: first alone, then beside gets, puts and drains, also of the same worker. */
#include <gourzhiel.h>
#include <pthread.h>
#include <stdatomic.h>
#include <stdio.h>

enum { A, B, C, SLOTS, TAKERS = 2, DRAINS = 2000 };
enum { ONE, POOL, WORKERS };

static const char text[] = "module a\nmodule b\nmodule c\n";
static int failures;
static atomic_bool is_over, is_there; /* whether what b has is there */
static atomic_ulong taken; /* how often all were taken */
static pthread_barrier_t start;

#define CHECK(found, wanted) check(__LINE__, #found, (unsigned long)(found), (unsigned long)(wanted))
static void check(int line, const char *what, unsigned long found, unsigned long wanted)
{
    if (found == wanted)
        return;
    printf("line %d: %s is %lu, not %lu\n", line, what, found, wanted);
    failures++;
}

static void load(gz_caller *caller, size_t slot)
{
    size_t need;
    CHECK(gz_caller_begin_load_blocking(caller, slot, &need), GZ_DONE);
    CHECK(gz_caller_end_load_blocking(caller, slot, true), GZ_DONE);
}

/* Whether the worker holds each slot just so often. */
static bool holds(gz_caller *caller, uint32_t a, uint32_t b, uint32_t c)
{
    uint32_t count[SLOTS] = { 99, 99, 99 };
    for (size_t slot = 0; slot < SLOTS; slot++)
        CHECK(gz_caller_held_blocking(caller, ONE, slot, &count[slot]), GZ_DONE);
    return count[A] == a && count[B] == b && count[C] == c;
}

static void alone(gz_caller *caller)
{
    const size_t all[] = { A, B, A }, one_gone[] = { B, A, C, B }, outside[] = { A, SLOTS }, many[] = { B, A };
    size_t at = 99;
    CHECK(gz_caller_get_all(caller, ONE, NULL, 0, 1, &at), GZ_DONE);
    CHECK(gz_caller_get_all(caller, ONE, outside, 2, 1, &at), GZ_OUT_OF_RANGE);
    CHECK(gz_caller_get_all(caller, WORKERS, all, 3, 1, &at), GZ_OUT_OF_RANGE);
    CHECK(gz_caller_get_all(caller, ONE, all, 3, 0, &at), GZ_BUSY);
    CHECK(at, 99);
    CHECK(holds(caller, 0, 0, 0), 1);
    CHECK(gz_caller_get_blocking(caller, ONE, B), GZ_DONE);
    CHECK(gz_caller_get_all_blocking(caller, ONE, one_gone, 4, &at), GZ_NOT_LIVE);
    CHECK(at, 2);
    CHECK(holds(caller, 0, 1, 0), 1);
    CHECK(gz_caller_get_all_blocking(caller, ONE, all, 3, &at), GZ_DONE);
    CHECK(at, 2);
    CHECK(holds(caller, 2, 2, 0), 1);
    for (int times = 2; times < 65535; times++)
        CHECK(gz_caller_get_blocking(caller, ONE, A), GZ_DONE);
    CHECK(gz_caller_get_all_blocking(caller, ONE, many, 2, &at), GZ_TOO_MANY);
    CHECK(at, 1);
    CHECK(holds(caller, 65535, 2, 0), 1);
    CHECK(gz_caller_put_all_blocking(caller, ONE), GZ_DONE);
}

struct user {
    gz_caller caller;
    unsigned long took, refused, wrong;
};

/* Takes all for worker ONE, finds them whole, and gives each back. */
static void take_all(struct user *user)
{
    static const size_t slots[] = { A, B, A };
    size_t at = 99;
    gz_number number = gz_caller_get_all_blocking(&user->caller, ONE, slots, 3, &at);
    if (number == GZ_DONE) {
        user->took++;
        atomic_fetch_add(&taken, 1);
        user->wrong += at != 99 || !atomic_load(&is_there);
        for (int i = 0; i < 3; i++)
            user->wrong += gz_caller_put_blocking(&user->caller, ONE, slots[i]) != GZ_DONE;
    } else {
        user->refused++;
        user->wrong += number != GZ_NOT_LIVE || at != 1;
    }
}

/* Takes and gives one reference of the same worker. */
static void take_one(struct user *user)
{
    user->wrong += gz_caller_get_blocking(&user->caller, ONE, A) != GZ_DONE;
    user->wrong += gz_caller_put_blocking(&user->caller, ONE, A) != GZ_DONE;
}

/* For worker POOL references to a are taken by twos, and given back all. So it never holds an odd number of them. */
static void take_twos(struct user *user)
{
    static const size_t slots[] = { A, A, B };
    size_t at = 99;
    uint32_t count = 1;
    gz_number number = gz_caller_get_all_blocking(&user->caller, POOL, slots, 3, &at);
    user->took += number == GZ_DONE;
    user->refused += number == GZ_NOT_LIVE && at == 2;
    user->wrong += number != GZ_DONE && (number != GZ_NOT_LIVE || at != 2);
    user->wrong += gz_caller_held_blocking(&user->caller, POOL, A, &count) != GZ_DONE || count % 2 != 0;
    user->wrong += gz_caller_put_all_blocking(&user->caller, POOL) != GZ_DONE;
}

static void until_over(struct user *user, void (*act)(struct user *))
{
    pthread_barrier_wait(&start);
    for (unsigned turn = 0; !atomic_load(&is_over); turn++) {
        act(user);
        if (turn % 16 == 0)
            sched_yield();
    }
    gz_caller_clear(&user->caller);
}

static void *takes_all(void *user)
{
    until_over((struct user *)user, take_all);
    return NULL;
}

static void *takes_one(void *user)
{
    until_over((struct user *)user, take_one);
    return NULL;
}

static void *takes_twos(void *user)
{
    until_over((struct user *)user, take_twos);
    return NULL;
}

/* Once all were taken again, unloads what b has for real, and loads it. */
static void drain(gz_caller *caller)
{
    unsigned long before = atomic_load(&taken);
    while (atomic_load(&taken) == before)
        sched_yield();
    CHECK(gz_caller_begin_drain_blocking(caller, B), GZ_DONE);
    CHECK(gz_caller_wait_unheld(caller, B, -1), GZ_DONE);
    atomic_store(&is_there, false);
    CHECK(gz_caller_end_remove_blocking(caller, B), GZ_DONE);
    sched_yield();
    atomic_store(&is_there, true);
    load(caller, B);
}

static void beside_others(gz_caller *caller)
{
    enum { THREADS = 2 * TAKERS + 1 };
    pthread_barrier_init(&start, NULL, THREADS + 1);
    struct user users[THREADS];
    pthread_t threads[THREADS];
    atomic_store(&is_there, true);
    for (int i = 0; i < THREADS; i++) {
        users[i] = (struct user){ .caller = GZ_EMPTY };
        CHECK(gz_caller_new(caller, &users[i].caller), GZ_DONE);
        CHECK(pthread_create(&threads[i], NULL, i < TAKERS ? takes_all : i < 2 * TAKERS ? takes_twos : takes_one, &users[i]), 0);
    }
    pthread_barrier_wait(&start);
    for (int round = 0; round < DRAINS; round++)
        drain(caller);
    atomic_store(&is_over, true);
    unsigned long took = 0, refused = 0, wrong = 0;
    for (int i = 0; i < THREADS; i++) {
        pthread_join(threads[i], NULL);
        took += users[i].took, refused += users[i].refused, wrong += users[i].wrong;
    }
    CHECK(wrong, 0);
    CHECK(holds(caller, 0, 0, 0), 1);
    CHECK(gz_caller_put_all_blocking(caller, POOL), GZ_DONE);
    for (size_t slot = A; slot <= B; slot++)
        CHECK(gz_caller_begin_remove_blocking(caller, slot), GZ_DONE);
    printf("%lu times all, %lu times none, %lu wrong\n", took, refused, wrong);
}

int main(void)
{
    gz_catalogue catalogue = GZ_EMPTY;
    gz_caller caller = GZ_EMPTY;
    size_t line = 0;
    CHECK(gz_catalogue_read(text, sizeof text - 1, &catalogue, &line), GZ_DONE);
    CHECK(gz_managed_new(&catalogue, WORKERS, &caller), GZ_DONE);
    gz_catalogue_clear(&catalogue);
    load(&caller, A);
    load(&caller, B);
    alone(&caller);
    beside_others(&caller);
    gz_caller_clear(&caller);
    return failures != 0;
}
