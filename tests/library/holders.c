/* A holder that is gone: what its worker held is looked through and given back, first alone, then beside threads that get and
 * put for the same worker and for another one. */
#include <gourzhiel.h>
#include <pthread.h>
#include <stdatomic.h>
#include <stdio.h>

enum { A, B, C, SLOTS, USERS = 2, ROUNDS = 8000 };
enum { GONE, STAYS, WORKERS };

static const char text[] = "module a\nmodule b\nmodule c\n";
static int failures;
static atomic_bool is_over;
static pthread_barrier_t start;

#define CHECK(found, wanted) check(__LINE__, #found, (unsigned long)(found), (unsigned long)(wanted))
static void check(int line, const char *what, unsigned long found, unsigned long wanted)
{
    if (found == wanted)
        return;
    printf("line %d: %s is %lu, not %lu\n", line, what, found, wanted);
    failures++;
}

static void get(gz_caller *caller, size_t worker, size_t slot, int times)
{
    while (times--)
        CHECK(gz_caller_get_blocking(caller, worker, slot), GZ_DONE);
}

/* Whether the first slot from a place on that the worker holds is this one, and it is held so often. */
static bool is_first(gz_caller *caller, size_t worker, size_t place, size_t slot, uint32_t count)
{
    size_t found = 99;
    uint32_t often = 99;
    return gz_caller_held_by_blocking(caller, worker, place, &found, &often) == GZ_DONE && found == slot && often == count;
}

/* Nothing is told: the number, if the worker holds nothing from a place on. */
static gz_number untold(gz_caller *caller, size_t worker, size_t place, uint32_t tries)
{
    size_t found = 99;
    uint32_t often = 99;
    gz_number number = gz_caller_held_by(caller, worker, place, tries, &found, &often);
    CHECK(found == 99 && often == 99, 1);
    return number;
}

static void alone(gz_caller *caller)
{
    CHECK(gz_caller_put_all_blocking(caller, GONE), GZ_DONE);
    CHECK(untold(caller, GONE, A, 1), GZ_NOT_HELD);
    get(caller, GONE, A, 3);
    get(caller, GONE, C, 65535);
    get(caller, STAYS, C, 2);
    CHECK(is_first(caller, GONE, A, A, 3), 1);
    CHECK(is_first(caller, GONE, B, C, 65535), 1);
    CHECK(is_first(caller, STAYS, A, C, 2), 1);
    CHECK(untold(caller, GONE, SLOTS, 1), GZ_NOT_HELD);
    CHECK(untold(caller, GONE, SIZE_MAX, 1), GZ_NOT_HELD);
    CHECK(untold(caller, WORKERS, A, 1), GZ_OUT_OF_RANGE);
    CHECK(untold(caller, GONE, A, 0), GZ_BUSY);
    CHECK(gz_caller_put_all(caller, WORKERS, 1), GZ_OUT_OF_RANGE);
    CHECK(gz_caller_put_all(caller, GONE, 0), GZ_BUSY);
    CHECK(is_first(caller, GONE, A, A, 3), 1);
    CHECK(gz_caller_put_all(caller, GONE, 1), GZ_DONE);
    CHECK(untold(caller, GONE, A, 1), GZ_NOT_HELD);
    CHECK(is_first(caller, STAYS, A, C, 2), 1);
    CHECK(gz_caller_begin_remove_blocking(caller, A), GZ_DONE);
    CHECK(gz_caller_cancel_remove_blocking(caller, A), GZ_DONE);
    CHECK(gz_caller_begin_drain_blocking(caller, C), GZ_DONE);
    CHECK(gz_caller_put_all_blocking(caller, STAYS), GZ_DONE);
    CHECK(gz_caller_end_remove_blocking(caller, C), GZ_DONE);
}

struct user {
    gz_caller caller;
    size_t worker;
    unsigned long got, gone, wrong;
};

/* Takes and gives. What the worker that is gone had may be given back between; the other one's may not. */
static void *use(void *argument)
{
    struct user *user = argument;
    pthread_barrier_wait(&start);
    for (unsigned turn = 0; !atomic_load(&is_over); turn++) {
        size_t slot = turn % 2;
        user->wrong += gz_caller_get_blocking(&user->caller, user->worker, slot) != GZ_DONE;
        user->got++;
        if (turn % 16 == 0)
            sched_yield();
        gz_number number = gz_caller_put_blocking(&user->caller, user->worker, slot);
        user->gone += number == GZ_NOT_HELD;
        user->wrong += number != GZ_DONE && (number != GZ_NOT_HELD || user->worker != GONE);
    }
    gz_caller_clear(&user->caller);
    return NULL;
}

/* Gives back what the worker that is gone holds, again and again, and looks through it. */
static unsigned long give_back(gz_caller *caller)
{
    unsigned long wrong = 0;
    for (int round = 0; round < ROUNDS; round++) {
        size_t place = 0, slot;
        uint32_t count;
        gz_number number;
        while ((number = gz_caller_held_by_blocking(caller, GONE, place, &slot, &count)) == GZ_DONE) {
            wrong += slot < place || slot >= SLOTS || count == 0 || count > USERS;
            place = slot + 1;
        }
        wrong += number != GZ_NOT_HELD || gz_caller_put_all_blocking(caller, GONE) != GZ_DONE;
        if (round % 16 == 0)
            sched_yield();
    }
    return wrong;
}

static void beside_others(gz_caller *caller)
{
    pthread_barrier_init(&start, NULL, USERS + 2);
    struct user users[USERS + 1];
    pthread_t threads[USERS + 1];
    for (int i = 0; i <= USERS; i++) {
        users[i] = (struct user){ .caller = GZ_EMPTY, .worker = i < USERS ? GONE : STAYS };
        CHECK(gz_caller_new(caller, &users[i].caller), GZ_DONE);
        CHECK(pthread_create(&threads[i], NULL, use, &users[i]), 0);
    }
    pthread_barrier_wait(&start);
    unsigned long got = 0, gone = 0, wrong = give_back(caller);
    atomic_store(&is_over, true);
    for (int i = 0; i <= USERS; i++) {
        pthread_join(threads[i], NULL);
        got += users[i].got, gone += users[i].gone, wrong += users[i].wrong;
    }
    CHECK(wrong, 0);
    CHECK(gz_caller_put_all_blocking(caller, GONE), GZ_DONE);
    CHECK(untold(caller, GONE, A, 1), GZ_NOT_HELD);
    CHECK(untold(caller, STAYS, A, 1), GZ_NOT_HELD);
    for (size_t slot = A; slot <= B; slot++)
        CHECK(gz_caller_begin_remove_blocking(caller, slot), GZ_DONE);
    printf("%lu gets, %lu of them given back by others, %lu wrong\n", got, gone, wrong);
}

int main(void)
{
    gz_catalogue catalogue = GZ_EMPTY;
    gz_caller caller = GZ_EMPTY;
    size_t line = 0, need = 0;
    CHECK(gz_catalogue_read(text, sizeof text - 1, &catalogue, &line), GZ_DONE);
    CHECK(gz_managed_new(&catalogue, WORKERS, &caller), GZ_DONE);
    gz_catalogue_clear(&catalogue);
    for (size_t slot = 0; slot < SLOTS; slot++) {
        CHECK(gz_caller_begin_load_blocking(&caller, slot, &need), GZ_DONE);
        CHECK(gz_caller_end_load_blocking(&caller, slot, true), GZ_DONE);
    }
    alone(&caller);
    beside_others(&caller);
    gz_caller_clear(&caller);
    return failures != 0;
}
