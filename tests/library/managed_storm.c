/* Four threads at once, with checks: all call for the same two workers, and one of them loads, drains and removes too.
 *
 * Each module has a word that says whether it may be touched. A thread that got a module for some worker must find it
 * touchable until its put; the loader makes it touchable before a load ends, and untouchable once its removal has begun. */
#include <gourzhiel.h>
#include <pthread.h>
#include <stdatomic.h>
#include <stdio.h>
#include <stdlib.h>
#include <time.h>

enum { USERS = 3, WORKERS = 2, SLOTS = 4, LOADS = 4000 };

static const char text[] = "module a\nmodule b\nmodule c\nmodule d\n";
static atomic_bool touchable[SLOTS];
static atomic_bool is_over;

/* A thread, and how often it took each module for each worker. */
struct user {
    gz_caller caller;
    unsigned seed;
    uint32_t own[WORKERS][SLOTS];
    unsigned long got, refused, busy, wrong;
};

static unsigned next(struct user *user)
{
    user->seed = user->seed * 1103515245u + 12345u;
    return user->seed >> 16;
}

static void take(struct user *user, size_t worker, size_t slot)
{
    gz_number number = gz_caller_get(&user->caller, worker, slot, 4);
    if (number == GZ_DONE) {
        user->own[worker][slot]++;
        user->got++;
        user->wrong += !atomic_load(&touchable[slot]);
    } else if (number == GZ_NOT_LIVE)
        user->refused++;
    else if (number == GZ_BUSY)
        user->busy++;
    else
        user->wrong++;
}

static void give(struct user *user, size_t worker, size_t slot)
{
    user->wrong += !atomic_load(&touchable[slot]);
    user->own[worker][slot]--;
    user->wrong += gz_caller_put_blocking(&user->caller, worker, slot) != GZ_DONE;
}

static void *use(void *argument)
{
    struct user *user = argument;
    uint32_t count;
    while (!atomic_load(&is_over)) {
        size_t worker = next(user) % WORKERS, slot = next(user) % SLOTS;
        if (next(user) % 5 < 2 && user->own[worker][slot] < 8)
            take(user, worker, slot);
        else if (user->own[worker][slot])
            give(user, worker, slot);
        gz_number number = gz_caller_held_blocking(&user->caller, worker, slot, &count);
        user->wrong += number != GZ_DONE || count < user->own[worker][slot];
    }
    for (size_t worker = 0; worker < WORKERS; worker++)
        for (size_t slot = 0; slot < SLOTS; slot++)
            while (user->own[worker][slot])
                give(user, worker, slot);
    gz_caller_clear(&user->caller);
    return NULL;
}

/* What the loader counts. */
struct loader {
    gz_caller caller;
    unsigned long loads, in_use, drains, wrong;
};

static void load(struct loader *loader, size_t slot, bool ok)
{
    size_t need;
    loader->wrong += gz_caller_begin_load_blocking(&loader->caller, slot, &need) != GZ_DONE;
    if (ok)
        atomic_store(&touchable[slot], true);
    loader->wrong += gz_caller_end_load_blocking(&loader->caller, slot, ok) != GZ_DONE;
    loader->loads++;
}

/* Removes the module at once, or by a drain if it is in use. */
static void unload(struct loader *loader, size_t slot)
{
    gz_number number = gz_caller_begin_remove_blocking(&loader->caller, slot);
    if (number == GZ_DONE) {
        atomic_store(&touchable[slot], false);
        loader->wrong += gz_caller_end_remove_blocking(&loader->caller, slot) != GZ_DONE;
        return;
    }
    loader->in_use++;
    loader->wrong += number != GZ_IN_USE || gz_caller_begin_drain_blocking(&loader->caller, slot) != GZ_DONE;
    loader->drains++;
    while ((number = gz_caller_end_remove_blocking(&loader->caller, slot)) == GZ_IN_USE)
        sched_yield();
    atomic_store(&touchable[slot], false);
    loader->wrong += number != GZ_DONE;
}

static void run(struct loader *loader)
{
    struct timespec a_while = { 0, 50000 };
    for (unsigned turn = 0; turn < LOADS; turn++) {
        if (turn % 8 == 0)
            nanosleep(&a_while, NULL);
        size_t slot = turn % SLOTS;
        if (gz_caller_state_blocking(&loader->caller, slot) == GZ_LIVE)
            unload(loader, slot);
        else
            load(loader, slot, turn % 7 != 0);
    }
    for (size_t slot = 0; slot < SLOTS; slot++)
        if (gz_caller_state_blocking(&loader->caller, slot) == GZ_LIVE)
            unload(loader, slot);
}

/* Once all threads have ended nothing is loaded, and no worker holds anything. */
static unsigned long left(gz_caller *caller)
{
    size_t loaded;
    unsigned long wrong = gz_caller_loaded_blocking(caller, &loaded) != GZ_DONE || loaded != 0;
    for (size_t worker = 0; worker < WORKERS; worker++)
        for (size_t slot = 0; slot < SLOTS; slot++) {
            uint32_t count;
            wrong += gz_caller_held_blocking(caller, worker, slot, &count) != GZ_DONE || count != 0;
        }
    return wrong;
}

int main(void)
{
    gz_catalogue catalogue = GZ_EMPTY;
    struct loader loader = { .caller = GZ_EMPTY };
    struct user users[USERS];
    pthread_t threads[USERS];
    size_t line;
    if (gz_catalogue_read(text, sizeof text - 1, &catalogue, &line) || gz_managed_new(&catalogue, WORKERS, &loader.caller))
        return puts("no table"), 1;
    gz_catalogue_clear(&catalogue);
    for (unsigned i = 0; i < USERS; i++) {
        users[i] = (struct user){ .caller = GZ_EMPTY, .seed = i };
        if (gz_caller_new(&loader.caller, &users[i].caller) || pthread_create(&threads[i], NULL, use, &users[i]))
            return puts("no thread"), 1;
    }
    run(&loader);
    atomic_store(&is_over, true);
    unsigned long got = 0, refused = 0, busy = 0, wrong = loader.wrong;
    for (unsigned i = 0; i < USERS; i++) {
        pthread_join(threads[i], NULL);
        got += users[i].got, refused += users[i].refused, busy += users[i].busy, wrong += users[i].wrong;
    }
    wrong += left(&loader.caller);
    gz_caller_clear(&loader.caller);
    printf("%lu loads, %lu in use, %lu drains; %lu got, %lu refused, %lu busy; %lu wrong\n", loader.loads, loader.in_use,
           loader.drains, got, refused, busy, wrong);
    return wrong != 0 || got == 0;
}
