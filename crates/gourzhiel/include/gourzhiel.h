/* gourzhiel.h: the table of loadable modules, for programs in C and C++.
 *
 * A table counts who uses which module while others load, drain and remove modules beside them. Each user has a leaf,
 * which counts its own references; one atomic word a module counts the leaves that hold it.
 *
 *     gz_catalogue catalogue = GZ_EMPTY;   what modules there may be, read from a text
 *
 * A table is had in one of two ways. By gz_table_new its parts are in its callers' hands, and nothing takes a lock:
 *
 *     gz_book book = GZ_EMPTY;             loads, drains and removes: one to a table
 *     gz_leaf leaves[4] = { GZ_EMPTY };    take and give references: one to a thread
 *     gz_reader reader = GZ_EMPTY;         asks whether a module is held
 *
 * By gz_managed_new the library keeps the parts, each behind a lock of its own. Any thread calls for any worker, which is
 * a leaf by its number, and for the book:
 *
 *     gz_caller caller = GZ_EMPTY;         makes all calls: one to a thread
 *     gz_teller teller = GZ_EMPTY;         carries what was seen at one lock to the next
 *
 * What a module has, as memory or a shared object, is unloaded between the last put and the end of the removal: see
 * gz_caller_wait_removed.
 *
 * A table is of one process. A child of fork has a copy of its own, and neither sees what the other calls: a get in the
 * child keeps no module of the parent.
 *
 * What a caller owes. The library is proved against its contracts; nobody proves a caller. Otherwise the behaviour is
 * undefined:
 *   - A handle begins as GZ_EMPTY, and gz_catalogue_read or a `_new` call fills it. Every other call wants full handles, and
 *     fills no full one. A `_clear` also takes an empty one.
 *   - A handle is in one call at a time. Handles of one table may be in calls of several threads at once.
 *   - A handle is moved, not copied: after `b = a` only b is used. After a `_clear` it is empty, and after a `_free` it is
 *     not used again. A catalogue is a handle too: threads that ask one lock it, or each reads one of its own.
 *   - A teller meets callers of its own table.
 *   - A hand-over of a handle to another thread is ordered by a lock, a thread's start or join, or a seq_cst atomic.
 *   - Lengths are true. Pointers are not NULL, but for that of an array of length 0, and lead to different places. What they
 *     lead to is not changed by others during the call.
 *   - No call from a signal handler, and none in the forked child of a process with threads.
 *   - malloc, realloc and free are of one allocator, whose blocks are aligned as C's are.
 * Each comment names the numbers that a call may answer beside GZ_DONE. A refusal changes nothing.
 * GZ_OUT_OF_RANGE: the slot is none of the table; of a managed call, the worker or the slot.
 */
#ifndef GOURZHIEL_H
#define GOURZHIEL_H

#include <sched.h>
#include <stdbool.h>
#include <stddef.h>
#include <stdint.h>
#include <stdlib.h>
#include <string.h>

#if defined(__SANITIZE_THREAD__)
#define GZ_THREAD_SANITIZER 1
#elif defined(__has_feature)
#if __has_feature(thread_sanitizer)
#define GZ_THREAD_SANITIZER 1
#endif
#endif
#ifdef GZ_THREAD_SANITIZER
#include <sanitizer/tsan_interface.h>
#endif

#ifdef __cplusplus
extern "C" {
#endif

/* The version of this header. gz_version tells that of the library: 1 has no managed calls, 2 no tellers. */
#define GZ_VERSION 3

typedef enum gz_number {
    GZ_DONE = 0,            /* the call is made */
    GZ_NOT_LIVE = 1,        /* the module is not live */
    GZ_TOO_MANY = 2,        /* the leaf holds the module 65,535 times */
    GZ_NOT_HELD = 3,        /* the leaf holds no reference to the module */
    GZ_EXISTS = 4,          /* the module is not absent */
    GZ_UNKNOWN_SYMBOL = 5,  /* the module needs a symbol that no module exports */
    GZ_NEED_NOT_LIVE = 6,   /* a module that the module needs is not live */
    GZ_NOT_LOADING = 7,     /* the module's load has not begun */
    GZ_NO_ENTRY = 8,        /* the module is absent */
    GZ_NEEDED_BY = 9,       /* a loaded module needs the module */
    GZ_PERMANENT = 10,      /* the module stays once it is loaded */
    GZ_IN_USE = 11,         /* some leaf holds the module */
    GZ_NOT_UNLOADING = 12,  /* neither a drain nor a removal of the module has begun */
    GZ_YES = 13,            /* some leaf holds the module */
    GZ_NO = 14,             /* no leaf holds the module */
    GZ_ABSENT = 16,         /* states: not in the table */
    GZ_LOADING = 17,        /* its load has begun */
    GZ_LIVE = 18,           /* references are given */
    GZ_DRAINING = 19,       /* references are put back, and given no more */
    GZ_UNLOADING = 20,      /* its removal has begun, and nobody holds it */
    GZ_BAD_LINE = 24,       /* the line is none of a catalogue, or stands where it may not */
    GZ_DUPLICATE = 25,      /* a module of the name stands already */
    GZ_TWICE_EXPORTED = 26, /* the symbol is exported already */
    GZ_TOO_MANY_MODULES = 27, /* more than 256, after a line `version 2` 1,024, after `version 3` 65,535 */
    GZ_OUT_OF_MEMORY = 28,  /* malloc answered NULL, and nothing is kept */
    GZ_BUSY = 32,           /* each try was missed: others changed the module's word between, or had the lock */
    GZ_OUT_OF_RANGE = 33,   /* the worker, the slot or the place is none of the table */
    GZ_UNKNOWN_NAME = 34,   /* no module has the name */
    GZ_TOO_SHORT = 35,      /* the buffer is shorter than the name */
    GZ_TOO_MANY_LEAVES = 36, /* a table has fewer than 2^32 leaves */
    GZ_TIMED_OUT = 40,      /* of what waits: the limit of time is over */
    GZ_WORK_FAILED = 41     /* of an unload or a removal with needs: the program's work said no */
} gz_number;

/* Handles. Only the library reads what `at` points to. */
typedef struct gz_catalogue { void *at; } gz_catalogue;
typedef struct gz_book { void *at; } gz_book;
typedef struct gz_leaf { void *at; } gz_leaf;
typedef struct gz_reader { void *at; } gz_reader;
typedef struct gz_caller { void *at; } gz_caller;
typedef struct gz_teller { void *at; } gz_teller;

#define GZ_EMPTY { NULL }

/* The longest name, and the room for any with a 0 behind it. */
#define GZ_NAME_LENGTH 55
#define GZ_NAME_ROOM 56

/* Each call has one name, gz_OBJECT_VERB, which the shared library exports. What is GZ_INLINE here adds something to
 * calls: `_blocking` calls again at GZ_BUSY, `_wait_` pauses between calls, `_clear` frees what is full and empties the
 * handle. The library exports these too, for other languages: its gourzhiel.c defines GZ_INLINE as nothing. Macros of a
 * call's name make that call, and tell the thread sanitizer, or put a place for NULL. The names of older headers stand in
 * gourzhiel_deprecated.h; the shared library has those that it exported, for programs that were linked to it. */
#ifndef GZ_INLINE
#define GZ_INLINE static inline
#endif
typedef char gz_number_has_32_bits[sizeof(gz_number) == sizeof(uint32_t) ? 1 : -1];

/* Places that are not NULL, for arrays of length 0: the library itself takes no NULL. */
static inline const void *gz_text_at(const void *text) { return text ? text : ""; }
static inline gz_leaf *gz_leaves_at(gz_leaf *at) { return at ? at : (gz_leaf *)(uintptr_t)sizeof *at; }
static inline gz_reader *gz_readers_at(gz_reader *at) { return at ? at : (gz_reader *)(uintptr_t)sizeof *at; }
static inline const size_t *gz_slots_at(const size_t *at) { return at ? at : (const size_t *)(uintptr_t)sizeof *at; }
static inline gz_teller *gz_tellers_at(gz_teller *at) { return at ? at : (gz_teller *)(uintptr_t)sizeof *at; }

/* The version of the library. */
uint32_t gz_version(void);

/* What calls order. What was written before gz_book_end_load is seen after a get that succeeds, and what was written before
 * a reference was given back is seen after a call that finds the module unused. Of two managed calls that took the lock of
 * one worker, or of the book, the later sees what was written before the earlier. Nothing more is promised. The thread
 * sanitizer does not see into the library, so it is told here, and more than that: that each call sees what was written
 * before any earlier one, of any table. So a race of threads that have only calls of the library between them may stay
 * unseen. */
#ifdef GZ_THREAD_SANITIZER
static inline void gz_before_call(void) { __tsan_release((void *)(uintptr_t)gz_version); }
static inline gz_number gz_after_call(gz_number number)
{
    __tsan_acquire((void *)(uintptr_t)gz_version);
    return number;
}
#define GZ_ORDERED(call) (gz_before_call(), gz_after_call(call))
#endif

/* ---- Waits ---- */

/* What waits until others put or load has a limit in milliseconds, and answers GZ_TIMED_OUT once it is over: within 20
 * milliseconds, if the system lets the thread run. A negative limit is for ever. With 0 it looks once.
 *
 * A wait begins as GZ_WAIT(milliseconds). Its limit counts from its first pause on. */
typedef struct gz_wait {
    int milliseconds; /* the limit */
    uint32_t pauses;  /* how many were made */
    int64_t end;      /* when the limit is over, by CLOCK_MONOTONIC in nanoseconds; after the first pause */
} gz_wait;

#define GZ_WAIT(milliseconds) { milliseconds, 0, 0 }

/* Makes a pause, and answers true. The first sixteen let another thread run, by sched_yield. Then the thread sleeps 50
 * microseconds, and each time twice as long, up to 5 milliseconds, but not beyond the limit: so a long wait takes under
 * 1 % of a processor. False: the limit is over, and no pause was made. */
bool gz_wait_pause(gz_wait *wait);

/* ---- Catalogues ---- */

/* Reads a catalogue from `length` bytes of text into an empty handle. Line by line: `module NAME`, `exports SYMBOL..`,
 * `needs SYMBOL..`, `size N`, `param NAME int|bool|charp`, `permanent`; a line that begins with # says nothing. gourzhiel(5)
 * has all lines, among them `version N` and, as the last line of a text of version 3, `end N`. A text that was cut before
 * that line is read as one without it.
 * GZ_BAD_LINE, GZ_DUPLICATE, GZ_TWICE_EXPORTED, GZ_TOO_MANY_MODULES: the first fault, its line in *line, from 1.
 * GZ_OUT_OF_MEMORY. The handle is full only after GZ_DONE. */
gz_number gz_catalogue_read(const void *text, size_t length, gz_catalogue *catalogue, size_t *line);
#define gz_catalogue_read(text, length, catalogue, line) (gz_catalogue_read)(gz_text_at(text), length, catalogue, line)

/* How many modules the catalogue has. Their slots are 0 and up, in the order of the text. */
size_t gz_catalogue_len(gz_catalogue *catalogue);

/* The slot of a name of `length` bytes, in *slot. In names - and _ are the same.
 * GZ_UNKNOWN_NAME, GZ_OUT_OF_MEMORY: *slot is left as it is. */
gz_number gz_catalogue_slot(gz_catalogue *catalogue, const void *name, size_t length, size_t *slot);

/* The slot of a module that the module in `slot` needs, in *need: of its needs the one at `place`, from 0, in the order of
 * the text. GZ_OUT_OF_RANGE: it needs fewer, or the slot is none; *need is left as it is. */
gz_number gz_catalogue_need(gz_catalogue *catalogue, size_t slot, size_t place, size_t *need);

/* The name of the module in a slot, without a 0, at the front of a buffer of `room` bytes, and its length in *length.
 * GZ_OUT_OF_RANGE. GZ_TOO_SHORT: *length is written, and the buffer is left as it is. GZ_NAME_LENGTH bytes are always
 * enough. */
gz_number gz_catalogue_name(gz_catalogue *catalogue, size_t slot, void *buffer, size_t room, size_t *length);

/* Frees the catalogue of a full handle. Tables over it go on. */
void gz_catalogue_free(gz_catalogue catalogue);

/* Whether the module in `slot` needs the one in `other`. */
GZ_INLINE bool gz_catalogue_needs(gz_catalogue *catalogue, size_t slot, size_t other)
{
    size_t need = 0;
    for (size_t place = 0; gz_catalogue_need(catalogue, slot, place, &need) == GZ_DONE; place++)
        if (need == other)
            return true;
    return false;
}

/* The name of the module in a slot, ended with 0, in a buffer of `room` bytes.
 * GZ_OUT_OF_RANGE. GZ_TOO_SHORT: GZ_NAME_ROOM bytes are always enough. The buffer is left as it is then. */
GZ_INLINE gz_number gz_catalogue_name_string(gz_catalogue *catalogue, size_t slot, char *buffer, size_t room)
{
    size_t length = 0, most = room ? room - 1 : 0; /* no name is empty */
    gz_number number = gz_catalogue_name(catalogue, slot, buffer, most, &length);
    if (number == GZ_DONE)
        buffer[length] = 0;
    return number;
}

GZ_INLINE void gz_catalogue_clear(gz_catalogue *catalogue)
{
    if (catalogue->at)
        gz_catalogue_free(*catalogue);
    catalogue->at = NULL;
}

/* ---- Tables ---- */

/* A new table over a catalogue, in empty handles: its book, `leaf_count` leaves and `reader_count` readers. All modules
 * are absent. The catalogue may be freed, or serve for further tables.
 * GZ_OUT_OF_MEMORY, GZ_TOO_MANY_LEAVES: no handle is filled. */
gz_number gz_table_new(gz_catalogue *catalogue, gz_book *book, gz_leaf *leaves, size_t leaf_count, gz_reader *readers,
                       size_t reader_count);
#define gz_table_new(catalogue, book, leaves, leaf_count, readers, reader_count) \
    (gz_table_new)(catalogue, book, gz_leaves_at(leaves), leaf_count, gz_readers_at(readers), reader_count)

/* ---- Leaves ---- */

/* Takes one reference to the module, in at most `tries` tries. A leaf that holds the module already needs none.
 * GZ_NOT_LIVE, GZ_TOO_MANY, GZ_OUT_OF_RANGE. GZ_BUSY: no promise is made that a later call succeeds. */
gz_number gz_leaf_get(gz_leaf *leaf, size_t slot, uint32_t tries);

/* Gives one reference to the module back. GZ_NOT_HELD, GZ_OUT_OF_RANGE. */
gz_number gz_leaf_put(gz_leaf *leaf, size_t slot);

/* How often the leaf holds the module, in *count. GZ_OUT_OF_RANGE: *count is left as it is. */
gz_number gz_leaf_held(gz_leaf *leaf, size_t slot, uint32_t *count);

/* Frees the leaf of a full handle. Give its references back before: what it still holds stays in use. */
void gz_leaf_free(gz_leaf leaf);

#ifdef GZ_THREAD_SANITIZER
#define gz_leaf_get(leaf, slot, tries) GZ_ORDERED((gz_leaf_get)(leaf, slot, tries))
#define gz_leaf_put(leaf, slot) GZ_ORDERED((gz_leaf_put)(leaf, slot))
#endif

/* How many tries a blocking call makes before it lets others run, or calls again. */
#define GZ_TRIES 64

/* Takes one reference to the module, and tries as long as others are in its way.
 * GZ_NOT_LIVE, GZ_TOO_MANY, GZ_OUT_OF_RANGE. */
GZ_INLINE gz_number gz_leaf_get_blocking(gz_leaf *leaf, size_t slot)
{
    gz_number number;
    do {
        number = gz_leaf_get(leaf, slot, GZ_TRIES);
        if (number == GZ_DONE)
            return GZ_DONE; /* the common case first, which callers test too */
    } while (number == GZ_BUSY);
    return number;
}

GZ_INLINE void gz_leaf_clear(gz_leaf *leaf)
{
    if (leaf->at)
        gz_leaf_free(*leaf);
    leaf->at = NULL;
}

/* ---- Readers ---- */

/* Whether any leaf holds the module: GZ_YES or GZ_NO. GZ_OUT_OF_RANGE. */
gz_number gz_reader_in_use(gz_reader *reader, size_t slot);

/* Frees the reader of a full handle. */
void gz_reader_free(gz_reader reader);

#ifdef GZ_THREAD_SANITIZER
#define gz_reader_in_use(reader, slot) GZ_ORDERED((gz_reader_in_use)(reader, slot))
#endif

/* Waits until no leaf holds the module, at most so many milliseconds. After gz_book_begin_drain it stays so, and what the
 * module has may be unloaded before gz_book_end_remove. It does not ask for the state: gz_caller_wait_unheld does.
 * GZ_OUT_OF_RANGE. GZ_TIMED_OUT: some leaf holds it. */
GZ_INLINE gz_number gz_reader_wait_unheld(gz_reader *reader, size_t slot, int milliseconds)
{
    gz_wait wait = GZ_WAIT(milliseconds);
    gz_number number;
    while ((number = gz_reader_in_use(reader, slot)) == GZ_YES)
        if (!gz_wait_pause(&wait))
            return GZ_TIMED_OUT;
    return number == GZ_NO ? GZ_DONE : number;
}

GZ_INLINE void gz_reader_clear(gz_reader *reader)
{
    if (reader->at)
        gz_reader_free(*reader);
    reader->at = NULL;
}

/* ---- The book ---- */

/* Begins a load: the module is then loading, and the newest. GZ_EXISTS, GZ_UNKNOWN_SYMBOL, GZ_OUT_OF_RANGE.
 * GZ_NEED_NOT_LIVE: the slot of a module that it needs is in *need, which is else left as it is. */
gz_number gz_book_begin_load(gz_book *book, size_t slot, size_t *need);

/* Ends a load: the module is then live if it went well (ok), else absent. GZ_NOT_LOADING, GZ_OUT_OF_RANGE. */
gz_number gz_book_end_load(gz_book *book, size_t slot, bool ok);

/* Begins a drain: gets are refused from then on, also those of a leaf that holds the module, and references stay until
 * they are given back. A call that gets within a call has to take both references before the drain, or live with a refusal.
 * GZ_NO_ENTRY, GZ_NEEDED_BY, GZ_NOT_LIVE, GZ_PERMANENT, GZ_OUT_OF_RANGE. */
gz_number gz_book_begin_drain(gz_book *book, size_t slot);

/* Begins a removal of a module that nobody holds: gets are refused from then on, so what the module has may be freed.
 * GZ_NO_ENTRY, GZ_NEEDED_BY, GZ_NOT_LIVE, GZ_PERMANENT, GZ_IN_USE, GZ_OUT_OF_RANGE. */
gz_number gz_book_begin_remove(gz_book *book, size_t slot);

/* Ends a removal, or a drain once nobody holds the module: it is then absent, and may be loaded again.
 * GZ_NOT_UNLOADING, GZ_IN_USE, GZ_OUT_OF_RANGE. */
gz_number gz_book_end_remove(gz_book *book, size_t slot);

/* Calls off a removal or a drain: the module is live again, and the references stay. What the module has must be whole: this
 * is for an unload that did not happen, or a wait that took too long. GZ_NOT_UNLOADING, GZ_OUT_OF_RANGE. */
gz_number gz_book_cancel_remove(gz_book *book, size_t slot);

/* The state of the module: GZ_ABSENT, GZ_LOADING, GZ_LIVE, GZ_DRAINING or GZ_UNLOADING. GZ_OUT_OF_RANGE. */
gz_number gz_book_state(gz_book *book, size_t slot);

/* How many modules are not absent. */
size_t gz_book_loaded(gz_book *book);

/* The slot of the loaded module at a place, the oldest first, in *slot.
 * GZ_OUT_OF_RANGE: fewer are loaded, and *slot is left as it is. */
gz_number gz_book_loaded_at(gz_book *book, size_t place, size_t *slot);

/* Frees the book of a full handle. Leaves and readers go on; no module is loaded or removed any more. */
void gz_book_free(gz_book book);

#ifdef GZ_THREAD_SANITIZER
#define gz_book_begin_load(book, slot, need) GZ_ORDERED((gz_book_begin_load)(book, slot, need))
#define gz_book_end_load(book, slot, ok) GZ_ORDERED((gz_book_end_load)(book, slot, ok))
#define gz_book_begin_drain(book, slot) GZ_ORDERED((gz_book_begin_drain)(book, slot))
#define gz_book_begin_remove(book, slot) GZ_ORDERED((gz_book_begin_remove)(book, slot))
#define gz_book_end_remove(book, slot) GZ_ORDERED((gz_book_end_remove)(book, slot))
#define gz_book_cancel_remove(book, slot) GZ_ORDERED((gz_book_cancel_remove)(book, slot))
#endif

/* Ends a drain once nobody holds the module, and waits for that at most so many milliseconds. Who has something to unload
 * calls gz_reader_wait_unheld instead. GZ_NOT_UNLOADING, GZ_OUT_OF_RANGE. GZ_TIMED_OUT: it still drains. */
GZ_INLINE gz_number gz_book_wait_removed_for(gz_book *book, size_t slot, int milliseconds)
{
    gz_wait wait = GZ_WAIT(milliseconds);
    gz_number number;
    while ((number = gz_book_end_remove(book, slot)) == GZ_IN_USE)
        if (!gz_wait_pause(&wait))
            return GZ_TIMED_OUT;
    return number;
}

/* The same for ever. */
GZ_INLINE gz_number gz_book_wait_removed(gz_book *book, size_t slot)
{
    return gz_book_wait_removed_for(book, slot, -1);
}

/* The slot of a loaded module that needs the module, in *user: of those the one at `place`, from 0, the oldest first.
 * GZ_OUT_OF_RANGE: fewer are loaded that need it, and *user is left as it is. */
GZ_INLINE gz_number gz_book_user(gz_book *book, gz_catalogue *catalogue, size_t slot, size_t place, size_t *user)
{
    size_t loaded = 0;
    for (size_t at = 0; gz_book_loaded_at(book, at, &loaded) == GZ_DONE; at++)
        if (gz_catalogue_needs(catalogue, loaded, slot) && place-- == 0) {
            *user = loaded;
            return GZ_DONE;
        }
    return GZ_OUT_OF_RANGE;
}

GZ_INLINE void gz_book_clear(gz_book *book)
{
    if (book->at)
        gz_book_free(*book);
    book->at = NULL;
}

/* ---- Numbers ---- */

/* What a number says, for people. It is never NULL, and is not to be freed. */
GZ_INLINE const char *gz_strerror(gz_number number)
{
    switch (number) {
    case GZ_DONE: return "done";
    case GZ_NOT_LIVE: return "the module is not live";
    case GZ_TOO_MANY: return "too many references";
    case GZ_NOT_HELD: return "no reference is held";
    case GZ_EXISTS: return "the module is not absent";
    case GZ_UNKNOWN_SYMBOL: return "no module exports a needed symbol";
    case GZ_NEED_NOT_LIVE: return "a needed module is not live";
    case GZ_NOT_LOADING: return "no load has begun";
    case GZ_NO_ENTRY: return "the module is absent";
    case GZ_NEEDED_BY: return "a loaded module needs the module";
    case GZ_PERMANENT: return "the module is permanent";
    case GZ_IN_USE: return "the module is in use";
    case GZ_NOT_UNLOADING: return "no drain or removal has begun";
    case GZ_YES: return "yes";
    case GZ_NO: return "no";
    case GZ_ABSENT: return "absent";
    case GZ_LOADING: return "loading";
    case GZ_LIVE: return "live";
    case GZ_DRAINING: return "draining";
    case GZ_UNLOADING: return "unloading";
    case GZ_BAD_LINE: return "bad line";
    case GZ_DUPLICATE: return "duplicate module";
    case GZ_TWICE_EXPORTED: return "symbol exported twice";
    case GZ_TOO_MANY_MODULES: return "too many modules";
    case GZ_OUT_OF_MEMORY: return "out of memory";
    case GZ_BUSY: return "busy";
    case GZ_OUT_OF_RANGE: return "out of range";
    case GZ_UNKNOWN_NAME: return "unknown name";
    case GZ_TOO_SHORT: return "the buffer is too short";
    case GZ_TOO_MANY_LEAVES: return "too many leaves";
    case GZ_TIMED_OUT: return "the time is over";
    case GZ_WORK_FAILED: return "the work failed";
    }
    return "unknown number";
}

#ifdef __cplusplus
}
#endif

#include "gourzhiel_managed.h"
#include "gourzhiel_needs.h"
#include "gourzhiel_deprecated.h"

#endif
