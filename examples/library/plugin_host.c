/* A plugin host: workers call plugins while the host loads, drains and removes them.
 *
 * A plugin is memory that its load makes and its removal frees. A worker may touch it only between a get and a put.
 * codec needs stream, so stream does not go while codec is loaded.
 *
 *     cc -O2 plugin_host.c $(pkg-config --cflags --libs gourzhiel) -pthread
 */
#include <gourzhiel.h>
#include <pthread.h>
#include <stdatomic.h>
#include <stdio.h>
#include <stdlib.h>
#include <time.h>

enum { WORKERS = 3, ROUNDS = 200 };

static const char text[] =
    "module stream\nexports stream_open\n"
    "module codec\nneeds stream_open\n";

/* What a plugin has while it is loaded. */
struct plugin {
    const char *name;
    unsigned long (*run)(struct plugin *, unsigned long);
    unsigned long salt;
};

static _Atomic(struct plugin *) plugins[2];
static atomic_bool is_over;

static unsigned long add(struct plugin *self, unsigned long x) { return x + self->salt; }
static unsigned long mix(struct plugin *self, unsigned long x) { return x * 31 + self->salt; }

struct worker {
    gz_leaf leaf;
    unsigned long calls, refused, sum;
};

/* Calls the plugin, if it is live. */
static void use(struct worker *worker, size_t slot)
{
    if (gz_leaf_get_blocking(&worker->leaf, slot) != GZ_DONE) {
        worker->refused++;
        return;
    }
    struct plugin *plugin = atomic_load(&plugins[slot]);
    worker->sum += plugin->run(plugin, worker->calls++);
    gz_leaf_put(&worker->leaf, slot);
}

static void *work(void *argument)
{
    struct worker *worker = argument;
    for (size_t turn = 0; !atomic_load(&is_over); turn++)
        use(worker, turn % 2);
    return NULL;
}

/* The thread that loads and removes. */
struct host {
    gz_book book;
    gz_reader reader;
    unsigned long in_use;
};

/* Loads a plugin: its memory is there before the first get succeeds. */
static gz_number load(gz_book *book, size_t slot, const char *name)
{
    size_t need;
    gz_number number = gz_book_begin_load(book, slot, &need);
    if (number != GZ_DONE)
        return number;
    struct plugin *plugin = malloc(sizeof *plugin);
    if (plugin) {
        *plugin = (struct plugin){ name, slot ? mix : add, 7 };
        atomic_store(&plugins[slot], plugin);
    }
    return gz_book_end_load(book, slot, plugin != NULL);
}

/* Removes a plugin, if nobody holds it at this moment. From then on no get succeeds, so its memory is freed. */
static gz_number try_remove(gz_book *book, size_t slot)
{
    gz_number number = gz_book_begin_remove(book, slot);
    if (number != GZ_DONE)
        return number;
    free(atomic_exchange(&plugins[slot], NULL));
    return gz_book_end_remove(book, slot);
}

/* Lets no further call in, waits until the last is over, frees the plugin's memory, and only then ends the removal: until
 * then nobody loads or gets the plugin. */
static gz_number drain(struct host *host, size_t slot)
{
    gz_number number = gz_book_begin_drain(&host->book, slot);
    if (number != GZ_DONE)
        return number;
    number = gz_reader_wait_unheld(&host->reader, slot, -1);
    if (number != GZ_DONE)
        return number;
    free(atomic_exchange(&plugins[slot], NULL));
    return gz_book_end_remove(&host->book, slot);
}

static int fails(const char *what, gz_number number)
{
    fprintf(stderr, "%s: %s\n", what, gz_strerror(number));
    return 1;
}

/* One round: both plugins come, are used for a while, and go. */
static int round_of(struct host *host)
{
    struct timespec a_while = { 0, 100000 };
    gz_number number;
    if ((number = load(&host->book, 0, "stream")) || (number = load(&host->book, 1, "codec")))
        return fails("load", number);
    nanosleep(&a_while, NULL);
    if ((number = gz_book_begin_remove(&host->book, 0)) != GZ_NEEDED_BY)
        return fails("removal of a plugin that is needed", number);
    while ((number = try_remove(&host->book, 1)) == GZ_IN_USE)
        if (++host->in_use % 8 == 0)
            return drain(host, 1) || drain(host, 0);
    return number ? fails("removal", number) : (int)drain(host, 0);
}

int main(void)
{
    gz_catalogue catalogue = GZ_EMPTY;
    struct host host = { .book = GZ_EMPTY, .reader = GZ_EMPTY };
    gz_leaf leaves[WORKERS] = { GZ_EMPTY };
    size_t line = 0;
    gz_number number = gz_catalogue_read(text, sizeof text - 1, &catalogue, &line);
    if (number != GZ_DONE)
        return fprintf(stderr, "line %zu: %s\n", line, gz_strerror(number)), 1;
    if ((number = gz_table_new(&catalogue, &host.book, leaves, WORKERS, &host.reader, 1)))
        return fails("no table", number);
    struct worker workers[WORKERS];
    pthread_t threads[WORKERS];
    for (int i = 0; i < WORKERS; i++) {
        workers[i] = (struct worker){ .leaf = leaves[i] };
        if (pthread_create(&threads[i], NULL, work, &workers[i]))
            return 1;
    }
    int wrong = 0;
    unsigned long calls = 0, refused = 0;
    for (int i = 0; i < ROUNDS && !wrong; i++)
        wrong = round_of(&host);
    atomic_store(&is_over, true);
    for (int i = 0; i < WORKERS; i++) {
        pthread_join(threads[i], NULL);
        calls += workers[i].calls, refused += workers[i].refused;
        gz_leaf_clear(&workers[i].leaf);
    }
    printf("%d rounds, %lu calls, %lu refused, %lu removals found it in use, %zu plugins left\n", ROUNDS, calls, refused,
           host.in_use, gz_book_loaded(&host.book));
    wrong |= gz_book_loaded(&host.book) != 0 || calls == 0;
    gz_reader_clear(&host.reader);
    gz_book_clear(&host.book);
    gz_catalogue_clear(&catalogue);
    return wrong;
}
