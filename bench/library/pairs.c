/* Pairs of a get and a put from C: a leaf that holds the module already, a leaf from zero, one atomic counter of C11, and
 * a counter under a mutex. Prints a line for each kind and number of threads: the median over the rounds, of all threads
 * together. The kinds take turns in each round, so that what disturbs one disturbs the others. */
#include <gourzhiel.h>
#include <pthread.h>
#include <stdatomic.h>
#include <stdio.h>
#include <stdlib.h>
#include <time.h>

enum { THREADS = 4, ROUNDS = 9, WINDOW_NS = 50000000, LINE = 128 };
enum kind { HELD, FROM_ZERO, ATOMIC, MUTEX, KINDS };

static const char *const names[KINDS] = { "library_held", "library_from_zero", "c11_atomic", "pthread_mutex" };
static const char text[] = "module snd\n";

/* What a thread has, on cache lines of its own. */
struct worker {
    _Alignas(LINE) gz_leaf leaf;
    enum kind kind;
    unsigned long pairs;
};

static struct {
    _Alignas(LINE) atomic_bool is_begun;
    _Alignas(LINE) atomic_bool is_over;
    _Alignas(LINE) atomic_ulong atomic;
    _Alignas(LINE) pthread_mutex_t mutex;
    unsigned long guarded;
} shared = { .mutex = PTHREAD_MUTEX_INITIALIZER };

static void pair_of_leaf(struct worker *worker)
{
    if (gz_leaf_get_blocking(&worker->leaf, 0) != GZ_DONE || gz_leaf_put(&worker->leaf, 0) != GZ_DONE)
        abort();
}

static void pair_of_atomic(void)
{
    atomic_fetch_add(&shared.atomic, 1);
    atomic_fetch_sub(&shared.atomic, 1);
}

static void pair_of_mutex(void)
{
    pthread_mutex_lock(&shared.mutex);
    shared.guarded++;
    pthread_mutex_unlock(&shared.mutex);
    pthread_mutex_lock(&shared.mutex);
    shared.guarded--;
    pthread_mutex_unlock(&shared.mutex);
}

/* A hundred pairs between two looks at the time. */
static void some_pairs(struct worker *worker)
{
    if (worker->kind == ATOMIC)
        for (int i = 0; i < 100; i++)
            pair_of_atomic();
    else if (worker->kind == MUTEX)
        for (int i = 0; i < 100; i++)
            pair_of_mutex();
    else
        for (int i = 0; i < 100; i++)
            pair_of_leaf(worker);
    worker->pairs += 100;
}

static void *work(void *argument)
{
    struct worker *worker = argument;
    if (worker->kind == HELD && gz_leaf_get_blocking(&worker->leaf, 0) != GZ_DONE)
        abort();
    while (!atomic_load(&shared.is_begun))
        ;
    while (!atomic_load_explicit(&shared.is_over, memory_order_relaxed))
        some_pairs(worker);
    if (worker->kind == HELD && gz_leaf_put(&worker->leaf, 0) != GZ_DONE)
        abort();
    return NULL;
}

static double seconds(void)
{
    struct timespec now;
    clock_gettime(CLOCK_MONOTONIC, &now);
    return (double)now.tv_sec + (double)now.tv_nsec / 1e9;
}

/* Millions of pairs a second, of so many threads together. */
static double window(struct worker *workers, enum kind kind, int count)
{
    pthread_t threads[THREADS];
    struct timespec pause = { 0, WINDOW_NS };
    unsigned long pairs = 0;
    atomic_store(&shared.is_begun, false);
    atomic_store(&shared.is_over, false);
    for (int i = 0; i < count; i++) {
        workers[i].kind = kind;
        workers[i].pairs = 0;
        if (pthread_create(&threads[i], NULL, work, &workers[i]))
            abort();
    }
    double begun = seconds();
    atomic_store(&shared.is_begun, true);
    nanosleep(&pause, NULL);
    atomic_store(&shared.is_over, true);
    for (int i = 0; i < count; i++) {
        pthread_join(threads[i], NULL);
        pairs += workers[i].pairs;
    }
    return (double)pairs / (seconds() - begun) / 1e6;
}

static int compare(const void *one, const void *other)
{
    double a = *(const double *)one, b = *(const double *)other;
    return (a > b) - (a < b);
}

static void measure(struct worker *workers, int count)
{
    double found[KINDS][ROUNDS];
    for (int round = 0; round < ROUNDS; round++)
        for (int kind = 0; kind < KINDS; kind++)
            found[kind][round] = window(workers, (enum kind)kind, count);
    for (int kind = 0; kind < KINDS; kind++) {
        qsort(found[kind], ROUNDS, sizeof found[kind][0], compare);
        printf("%s_%d %.2f M/s\n", names[kind], count, found[kind][ROUNDS / 2]);
    }
}

int main(void)
{
    static struct worker workers[THREADS];
    gz_catalogue catalogue = GZ_EMPTY;
    gz_book book = GZ_EMPTY;
    gz_leaf leaves[THREADS] = { GZ_EMPTY };
    size_t line, need;
    if (gz_catalogue_read(text, sizeof text - 1, &catalogue, &line)
        || gz_table_new(&catalogue, &book, leaves, THREADS, NULL, 0)
        || gz_book_begin_load(&book, 0, &need) || gz_book_end_load(&book, 0, true))
        return puts("no table"), 1;
    for (int i = 0; i < THREADS; i++)
        workers[i].leaf = leaves[i];
    measure(workers, 1);
    measure(workers, 2);
    measure(workers, 4);
    for (int i = 0; i < THREADS; i++)
        gz_leaf_clear(&workers[i].leaf);
    gz_book_clear(&book);
    gz_catalogue_clear(&catalogue);
    return 0;
}
