/* Four threads at once, with checks: three take and give modules, and the fourth loads, drains and removes them.
 *
 * Each module has a word that says whether it may be touched. A thread that got a module must find it touchable until
 * its put; the loader makes it touchable before a load ends, and untouchable once its removal has begun. */
#include <gourzhiel.h>
#include <pthread.h>
#include <stdatomic.h>
#include <stdio.h>
#include <stdlib.h>
#include <time.h>

enum { WORKERS = 3, SLOTS = 4, LOADS = 4000 };

static const char text[] = "module a\nmodule b\nmodule c\nmodule d\n";
static atomic_bool touchable[SLOTS];
static atomic_bool is_over;

struct worker {
    gz_leaf leaf;
    gz_reader reader;
    unsigned seed;
    uint32_t held[SLOTS];
    unsigned long got, refused, busy, wrong;
};

static unsigned next(struct worker *worker)
{
    worker->seed = worker->seed * 1103515245u + 12345u;
    return worker->seed >> 16;
}

static void take(struct worker *worker, size_t slot)
{
    gz_number number = gz_leaf_get(&worker->leaf, slot, 4);
    if (number == GZ_DONE) {
        worker->held[slot]++;
        worker->got++;
        worker->wrong += !atomic_load(&touchable[slot]);
    } else if (number == GZ_NOT_LIVE)
        worker->refused++;
    else if (number == GZ_BUSY && !worker->held[slot])
        worker->busy++;
    else
        worker->wrong++;
}

static void give(struct worker *worker, size_t slot)
{
    gz_number wanted = worker->held[slot] ? GZ_DONE : GZ_NOT_HELD;
    if (worker->held[slot]) {
        worker->wrong += !atomic_load(&touchable[slot]);
        worker->wrong += gz_reader_in_use(&worker->reader, slot) != GZ_YES;
        worker->held[slot]--;
    }
    worker->wrong += gz_leaf_put(&worker->leaf, slot) != wanted;
}

static void *work(void *argument)
{
    struct worker *worker = argument;
    uint32_t count;
    while (!atomic_load(&is_over)) {
        size_t slot = next(worker) % SLOTS;
        if (next(worker) % 5 < 2 && worker->held[slot] < 8)
            take(worker, slot);
        else
            give(worker, slot);
        worker->wrong += gz_leaf_held(&worker->leaf, slot, &count) != GZ_DONE || count != worker->held[slot];
    }
    for (size_t slot = 0; slot < SLOTS; slot++)
        while (worker->held[slot])
            give(worker, slot);
    gz_leaf_clear(&worker->leaf);
    gz_reader_clear(&worker->reader);
    return NULL;
}

/* What the loader counts. */
struct loader {
    gz_book book;
    unsigned long loads, in_use, drains, wrong;
};

static void load(struct loader *loader, size_t slot, bool ok)
{
    size_t need;
    loader->wrong += gz_book_begin_load(&loader->book, slot, &need) != GZ_DONE;
    if (ok)
        atomic_store(&touchable[slot], true);
    loader->wrong += gz_book_end_load(&loader->book, slot, ok) != GZ_DONE;
    loader->loads++;
}

/* Removes the module at once, or by a drain if it is in use. */
static void unload(struct loader *loader, size_t slot)
{
    gz_number number = gz_book_begin_remove(&loader->book, slot);
    if (number == GZ_DONE) {
        atomic_store(&touchable[slot], false);
        loader->wrong += gz_book_end_remove(&loader->book, slot) != GZ_DONE;
        return;
    }
    loader->in_use++;
    loader->wrong += number != GZ_IN_USE || gz_book_begin_drain(&loader->book, slot) != GZ_DONE;
    loader->drains++;
    while ((number = gz_book_end_remove(&loader->book, slot)) == GZ_IN_USE)
        ;
    atomic_store(&touchable[slot], false);
    loader->wrong += number != GZ_DONE;
}

static void run(struct loader *loader)
{
    struct timespec a_while = { 0, 50000 };
    for (unsigned turn = 0; turn < LOADS; turn++) {
        if (turn % 8 == 0)
            nanosleep(&a_while, NULL);
        size_t slot = turn % SLOTS;
        if (gz_book_state(&loader->book, slot) == GZ_LIVE)
            unload(loader, slot);
        else
            load(loader, slot, turn % 7 != 0);
    }
    for (size_t slot = 0; slot < SLOTS; slot++)
        if (gz_book_state(&loader->book, slot) == GZ_LIVE)
            unload(loader, slot);
    loader->wrong += gz_book_loaded(&loader->book) != 0;
}

int main(void)
{
    gz_catalogue catalogue = GZ_EMPTY;
    struct loader loader = { .book = GZ_EMPTY };
    gz_leaf leaves[WORKERS] = { GZ_EMPTY };
    gz_reader readers[WORKERS] = { GZ_EMPTY };
    struct worker workers[WORKERS];
    pthread_t threads[WORKERS];
    size_t line;
    if (gz_catalogue_read(text, sizeof text - 1, &catalogue, &line)
        || gz_table_new(&catalogue, &loader.book, leaves, WORKERS, readers, WORKERS))
        return puts("no table"), 1;
    gz_catalogue_clear(&catalogue);
    for (unsigned i = 0; i < WORKERS; i++) {
        workers[i] = (struct worker){ .leaf = leaves[i], .reader = readers[i], .seed = i };
        if (pthread_create(&threads[i], NULL, work, &workers[i]))
            return puts("no thread"), 1;
    }
    run(&loader);
    atomic_store(&is_over, true);
    unsigned long got = 0, refused = 0, busy = 0, wrong = loader.wrong;
    for (unsigned i = 0; i < WORKERS; i++) {
        pthread_join(threads[i], NULL);
        got += workers[i].got, refused += workers[i].refused, busy += workers[i].busy, wrong += workers[i].wrong;
    }
    gz_book_clear(&loader.book);
    printf("%lu loads, %lu in use, %lu drains; %lu got, %lu refused, %lu busy; %lu wrong\n", loader.loads, loader.in_use,
           loader.drains, got, refused, busy, wrong);
    return wrong != 0 || got == 0;
}
