/* Refuses each allocation in turn, once alone and once with all later ones. If the answer is GZ_OUT_OF_MEMORY no
 * handle is filled and nothing is left allocated; else the call did without, and all is as ever. Calls of a table and waits
 * take no memory: each is made while none is to be had.
 * To be linked with -Wl,--wrap=malloc,--wrap=realloc,--wrap=free. */
#include <gourzhiel.h>
#include <stdio.h>
#include <stdlib.h>

enum { LEAVES = 3, READERS = 2 };

static const char text[] = "module snd\nexports snd_card_new\nmodule snd-pcm\nneeds snd_card_new\nparam debug bool\n";

void *__real_malloc(size_t);
void *__real_realloc(void *, size_t);
void __real_free(void *);

static long made, refused_from = -1, refused_to = -1, blocks;

static bool is_refused(void)
{
    long number = made++;
    return number >= refused_from && number < refused_to;
}

/* From now on the allocations of these numbers are refused. */
static void refuse(long from, long to) { made = 0, refused_from = from, refused_to = to; }

void *__wrap_malloc(size_t size)
{
    void *at = is_refused() ? NULL : __real_malloc(size);
    blocks += at != NULL;
    return at;
}

void *__wrap_realloc(void *old, size_t size)
{
    if (!old)
        return __wrap_malloc(size);
    return is_refused() ? NULL : __real_realloc(old, size);
}

void __wrap_free(void *at)
{
    blocks -= at != NULL;
    __real_free(at);
}

static int fails(const char *what, long number)
{
    fprintf(stderr, "%s, allocation %ld\n", what, number);
    return 1;
}

static gz_number read_text(gz_catalogue *catalogue)
{
    size_t line;
    return gz_catalogue_read(text, sizeof text - 1, catalogue, &line);
}

struct table {
    gz_book book;
    gz_leaf leaves[LEAVES];
    gz_reader readers[READERS];
};

static gz_number make(gz_catalogue *catalogue, struct table *table)
{
    return gz_table_new(catalogue, &table->book, table->leaves, LEAVES, table->readers, READERS);
}

static void free_table(struct table *table)
{
    for (int i = 0; i < LEAVES; i++)
        gz_leaf_clear(&table->leaves[i]);
    for (int i = 0; i < READERS; i++)
        gz_reader_clear(&table->readers[i]);
    gz_book_clear(&table->book);
}

/* Whether all handles of the table are full, or all are empty. */
static bool is_filled(const struct table *table, bool wanted)
{
    bool is = (table->book.at != NULL) == wanted;
    for (int i = 0; i < LEAVES; i++)
        is = is && (table->leaves[i].at != NULL) == wanted;
    for (int i = 0; i < READERS; i++)
        is = is && (table->readers[i].at != NULL) == wanted;
    return is;
}

/* A managed table's first caller, and a further one; and the first caller of another, with its tellers. */
struct callers {
    gz_caller first, further, told;
    gz_teller tellers[LEAVES];
};

static gz_number make_managed(gz_catalogue *catalogue, struct callers *callers)
{
    gz_number number = gz_managed_new(catalogue, LEAVES, &callers->first);
    if (number == GZ_DONE)
        number = gz_caller_new(&callers->first, &callers->further);
    return number ? number : gz_managed_tellers_new(catalogue, callers->tellers, LEAVES, &callers->told);
}

static void free_callers(struct callers *callers)
{
    gz_caller_clear(&callers->first);
    gz_caller_clear(&callers->further);
    gz_caller_clear(&callers->told);
    for (int i = 0; i < LEAVES; i++)
        gz_teller_clear(&callers->tellers[i]);
}

/* Reads and makes with some allocations refused, and frees what was made. */
static bool is_sound(long from, long to)
{
    gz_catalogue catalogue = GZ_EMPTY;
    struct table table = { .book = GZ_EMPTY };
    struct callers callers = { .first = GZ_EMPTY };
    refuse(from, to);
    gz_number number = read_text(&catalogue);
    bool is = (number == GZ_DONE) == (catalogue.at != NULL) && (number == GZ_DONE || number == GZ_OUT_OF_MEMORY);
    if (number == GZ_DONE) {
        number = make(&catalogue, &table);
        is = is && is_filled(&table, number == GZ_DONE) && (number == GZ_DONE || number == GZ_OUT_OF_MEMORY);
    }
    if (number == GZ_DONE) {
        number = make_managed(&catalogue, &callers);
        is = is && (number == GZ_DONE || number == GZ_OUT_OF_MEMORY) && (callers.told.at != NULL) == (number == GZ_DONE);
        is = is && ((callers.first.at && callers.further.at) || number != GZ_DONE);
        for (int i = 0; i < LEAVES; i++)
            is = is && (callers.tellers[i].at != NULL) == (number == GZ_DONE);
    }
    refuse(-1, -1);
    free_callers(&callers);
    free_table(&table);
    gz_catalogue_clear(&catalogue);
    return is && blocks == 0 && (from >= 0 || number == GZ_DONE);
}

/* Each call of a table's parts, while no memory is to be had: none asks for any. */
static bool parts_take_none(struct table *table)
{
    size_t need, slot;
    uint32_t count;
    bool is = gz_book_begin_load(&table->book, 0, &need) == GZ_DONE && gz_book_end_load(&table->book, 0, true) == GZ_DONE;
    is = is && gz_leaf_get_blocking(&table->leaves[1], 0) == GZ_DONE && gz_leaf_get(&table->leaves[1], 0, 1) == GZ_DONE;
    is = is && gz_leaf_held(&table->leaves[1], 0, &count) == GZ_DONE && gz_reader_in_use(&table->readers[0], 0) == GZ_YES;
    is = is && gz_book_state(&table->book, 0) == GZ_LIVE && gz_book_loaded_at(&table->book, 0, &slot) == GZ_DONE;
    is = is && gz_book_begin_remove(&table->book, 0) == GZ_IN_USE && gz_book_begin_drain(&table->book, 0) == GZ_DONE;
    is = is && gz_leaf_put(&table->leaves[1], 0) == GZ_DONE && gz_book_end_remove(&table->book, 0) == GZ_IN_USE;
    is = is && gz_leaf_put(&table->leaves[1], 0) == GZ_DONE && gz_book_end_remove(&table->book, 0) == GZ_DONE;
    return is && gz_book_loaded(&table->book) == 0;
}

/* The same of managed calls. */
static bool managed_calls_take_none(gz_caller *caller)
{
    size_t need, slot;
    uint32_t count;
    bool is = gz_caller_begin_load(caller, 0, 1, &need) == GZ_DONE && gz_caller_end_load(caller, 0, true, 1) == GZ_DONE;
    is = is && gz_caller_get(caller, 1, 0, 1) == GZ_DONE && gz_caller_held(caller, 1, 0, 1, &count) == GZ_DONE;
    is = is && gz_caller_state(caller, 0, 1) == GZ_LIVE && gz_caller_loaded_at(caller, 0, 1, &slot) == GZ_DONE;
    is = is && gz_caller_begin_remove(caller, 0, 1) == GZ_IN_USE && gz_caller_begin_drain(caller, 0, 1) == GZ_DONE;
    is = is && gz_caller_get_all(caller, 1, &(size_t){ 0 }, 1, 1, &slot) == GZ_NOT_LIVE;
    is = is && gz_caller_held_by(caller, 1, 0, 1, &slot, &count) == GZ_DONE && gz_caller_put_all(caller, 1, 1) == GZ_DONE;
    is = is && gz_caller_end_remove(caller, 0, 1) == GZ_DONE;
    return is && gz_caller_loaded(caller, 1, &slot) == GZ_DONE && slot == 0;
}

static bool goes_well(void *data, size_t slot)
{
    (void)data;
    return slot == 0;
}

/* And of a load with its work, and of waits. */
static bool waits_take_none(gz_caller *caller)
{
    bool is = gz_caller_load(caller, 0, goes_well, NULL) == GZ_DONE && gz_caller_get_blocking(caller, 1, 0) == GZ_DONE;
    is = is && gz_caller_begin_drain_blocking(caller, 0) == GZ_DONE && gz_caller_wait_unheld(caller, 0, 1) == GZ_TIMED_OUT;
    is = is && gz_caller_put_blocking(caller, 1, 0) == GZ_DONE && gz_caller_wait_unheld(caller, 0, 1) == GZ_DONE;
    return is && gz_caller_wait_removed_for(caller, 0, 1) == GZ_DONE;
}

/* A load or a removal with needs takes some. If there is none, nothing is done. */
static bool needs_take_some(gz_caller *caller, gz_catalogue *catalogue)
{
    size_t at;
    bool is = gz_caller_load(caller, 0, goes_well, NULL) == GZ_DONE;
    is = is && gz_caller_remove_with_needs(caller, catalogue, 0, goes_well, NULL) == GZ_OUT_OF_MEMORY;
    is = is && gz_caller_state_blocking(caller, 0) == GZ_LIVE && gz_caller_begin_remove_blocking(caller, 0) == GZ_DONE;
    is = is && gz_caller_end_remove_blocking(caller, 0) == GZ_DONE;
    is = is && gz_caller_load_with_needs(caller, catalogue, 0, goes_well, NULL, &at) == GZ_OUT_OF_MEMORY;
    is = is && gz_caller_load_with_needs_for(caller, catalogue, 0, goes_well, NULL, &at, -1) == GZ_OUT_OF_MEMORY;
    return is && gz_caller_state_blocking(caller, 0) == GZ_ABSENT;
}

/* And of meetings. */
static bool meetings_take_none(struct callers *callers)
{
    bool is = gz_caller_meet_leaf(&callers->told, 1, 1, &callers->tellers[0]) == GZ_DONE;
    return is && gz_caller_meet_book(&callers->told, 1, &callers->tellers[0]) == GZ_DONE;
}

static bool calls_take_no_memory(gz_catalogue *catalogue, struct table *table, struct callers *callers)
{
    refuse(0, 1000);
    bool is = parts_take_none(table) && managed_calls_take_none(&callers->further) && meetings_take_none(callers);
    is = is && waits_take_none(&callers->further) && made == 0;
    is = is && needs_take_some(&callers->further, catalogue) && made == 3;
    refuse(-1, -1);
    return is;
}

int main(void)
{
    if (!is_sound(-1, -1))
        return fails("all allowed", 0);
    gz_catalogue catalogue = GZ_EMPTY;
    struct table table = { .book = GZ_EMPTY };
    struct callers callers = { .first = GZ_EMPTY };
    refuse(-1, -1);
    if (read_text(&catalogue) || make(&catalogue, &table) || make_managed(&catalogue, &callers))
        return fails("all allowed", 0);
    long last = made;
    if (!calls_take_no_memory(&catalogue, &table, &callers))
        return fails("calls that take no memory", 0);
    free_callers(&callers);
    free_table(&table);
    gz_catalogue_clear(&catalogue);
    for (long number = 0; number < last; number++) {
        if (!is_sound(number, number + 1))
            return fails("one refused", number);
        if (!is_sound(number, 1000))
            return fails("it and all later ones refused", number);
    }
    printf("each of %ld allocations refused, nothing is left\n", last);
    return 0;
}
