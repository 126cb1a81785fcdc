/* gourzhiel_deprecated.h: the names that calls had in older headers. gourzhiel.h includes it.
 *
 * Each is what it names, with the same parameters; but gz_read takes the catalogue first, gz_slot a name that ends with 0,
 * and gz_managed_new_with_tellers the caller before the tellers. What waits until a module is unused answers GZ_NO in the
 * place of GZ_DONE, and without a limit it waits for ever. */
#include "gourzhiel.h" /* before the guard, so that this file may be included alone */

#ifndef GOURZHIEL_DEPRECATED_H
#define GOURZHIEL_DEPRECATED_H

#ifdef __GNUC__
#define GZ_NOW(name) __attribute__((deprecated("use " #name)))
#else
#define GZ_NOW(name)
#endif

#ifdef __cplusplus
extern "C" {
#endif

/* ---- Catalogues ---- */

GZ_NOW(gz_catalogue_read) static inline gz_number gz_read(gz_catalogue *catalogue, const char *text, size_t length,
                                                          size_t *line)
{
    return gz_catalogue_read(text, length, catalogue, line);
}

GZ_NOW(gz_catalogue_len) static inline size_t gz_slots(gz_catalogue *catalogue)
{
    return gz_catalogue_len(catalogue);
}

GZ_NOW(gz_catalogue_slot) static inline gz_number gz_slot(gz_catalogue *catalogue, const char *name, size_t *slot)
{
    return gz_catalogue_slot(catalogue, name, strlen(name), slot);
}

GZ_NOW(gz_catalogue_need) static inline gz_number gz_need(gz_catalogue *catalogue, size_t slot, size_t place,
                                                          size_t *need)
{
    return gz_catalogue_need(catalogue, slot, place, need);
}

GZ_NOW(gz_catalogue_needs) static inline bool gz_needs(gz_catalogue *catalogue, size_t slot, size_t other)
{
    return gz_catalogue_needs(catalogue, slot, other);
}

GZ_NOW(gz_catalogue_name_string) static inline gz_number gz_name(gz_catalogue *catalogue, size_t slot, char *buffer,
                                                                 size_t room)
{
    return gz_catalogue_name_string(catalogue, slot, buffer, room);
}

/* ---- Tables, leaves and readers ---- */

GZ_NOW(gz_table_new) static inline gz_number gz_new(gz_catalogue *catalogue, gz_book *book, gz_leaf *leaves,
                                                    size_t leaf_count, gz_reader *readers, size_t reader_count)
{
    return gz_table_new(catalogue, book, leaves, leaf_count, readers, reader_count);
}

GZ_NOW(gz_leaf_get) static inline gz_number gz_try_get(gz_leaf *leaf, size_t slot, uint32_t tries)
{
    return gz_leaf_get(leaf, slot, tries);
}

GZ_NOW(gz_leaf_get_blocking) static inline gz_number gz_get(gz_leaf *leaf, size_t slot)
{
    return gz_leaf_get_blocking(leaf, slot);
}

GZ_NOW(gz_leaf_put) static inline gz_number gz_put(gz_leaf *leaf, size_t slot)
{
    return gz_leaf_put(leaf, slot);
}

GZ_NOW(gz_leaf_held) static inline gz_number gz_held(gz_leaf *leaf, size_t slot, uint32_t *count)
{
    return gz_leaf_held(leaf, slot, count);
}

GZ_NOW(gz_reader_in_use) static inline gz_number gz_in_use(gz_reader *reader, size_t slot)
{
    return gz_reader_in_use(reader, slot);
}

static inline gz_number gz_unused_until(gz_reader *reader, size_t slot, int milliseconds)
{
    gz_number number = gz_reader_wait_unheld(reader, slot, milliseconds);
    return number == GZ_DONE ? GZ_NO : number;
}

GZ_NOW(gz_reader_wait_unheld) GZ_INLINE gz_number gz_reader_wait_unused_for(gz_reader *reader, size_t slot,
                                                                            int milliseconds)
{
    return gz_unused_until(reader, slot, milliseconds);
}

GZ_NOW(gz_reader_wait_unheld) GZ_INLINE gz_number gz_reader_wait_unused(gz_reader *reader, size_t slot)
{
    return gz_unused_until(reader, slot, -1);
}

GZ_NOW(gz_reader_wait_unheld) static inline gz_number gz_wait_unused(gz_reader *reader, size_t slot)
{
    return gz_unused_until(reader, slot, -1);
}

/* ---- The book ---- */

GZ_NOW(gz_book_begin_load) static inline gz_number gz_begin_load(gz_book *book, size_t slot, size_t *need)
{
    return gz_book_begin_load(book, slot, need);
}

GZ_NOW(gz_book_end_load) static inline gz_number gz_end_load(gz_book *book, size_t slot, bool ok)
{
    return gz_book_end_load(book, slot, ok);
}

GZ_NOW(gz_book_begin_drain) static inline gz_number gz_begin_drain(gz_book *book, size_t slot)
{
    return gz_book_begin_drain(book, slot);
}

GZ_NOW(gz_book_begin_remove) static inline gz_number gz_begin_remove(gz_book *book, size_t slot)
{
    return gz_book_begin_remove(book, slot);
}

GZ_NOW(gz_book_end_remove) static inline gz_number gz_end_remove(gz_book *book, size_t slot)
{
    return gz_book_end_remove(book, slot);
}

GZ_NOW(gz_book_state) static inline gz_number gz_state(gz_book *book, size_t slot)
{
    return gz_book_state(book, slot);
}

GZ_NOW(gz_book_loaded) static inline size_t gz_loaded(gz_book *book)
{
    return gz_book_loaded(book);
}

GZ_NOW(gz_book_loaded_at) static inline gz_number gz_loaded_at(gz_book *book, size_t place, size_t *slot)
{
    return gz_book_loaded_at(book, place, slot);
}

GZ_NOW(gz_book_wait_removed) static inline gz_number gz_wait_removed(gz_book *book, size_t slot)
{
    return gz_book_wait_removed(book, slot);
}

GZ_NOW(gz_book_user) static inline gz_number gz_user(gz_book *book, gz_catalogue *catalogue, size_t slot, size_t place,
                                                     size_t *user)
{
    return gz_book_user(book, catalogue, slot, place, user);
}

GZ_NOW(gz_book_load_with_needs) static inline gz_number gz_load_with_needs(gz_book *book, gz_catalogue *catalogue,
                                                                           size_t slot, gz_work *work, void *data,
                                                                           size_t *at)
{
    return gz_book_load_with_needs(book, catalogue, slot, work, data, at);
}

GZ_NOW(gz_book_remove_with_needs) static inline gz_number gz_remove_with_needs(gz_book *book, gz_catalogue *catalogue,
                                                                               size_t slot, gz_work *work, void *data)
{
    return gz_book_remove_with_needs(book, catalogue, slot, work, data);
}

/* ---- Managed tables ---- */

GZ_NOW(gz_managed_new) static inline gz_number gz_new_managed(gz_catalogue *catalogue, size_t workers,
                                                              gz_caller *caller)
{
    return gz_managed_new(catalogue, workers, caller);
}

/* (the library exports a call of this name too, for programs that were linked to it) */
GZ_NOW(gz_managed_tellers_new) static inline gz_number gz_managed_new_with_tellers(gz_catalogue *catalogue,
                                                                                   gz_caller *caller,
                                                                                   gz_teller *tellers,
                                                                                   size_t workers)
{
    return gz_managed_tellers_new(catalogue, tellers, workers, caller);
}

GZ_NOW(gz_managed_tellers_new) static inline gz_number gz_new_managed_with_tellers(gz_catalogue *catalogue,
                                                                                   gz_caller *caller,
                                                                                   gz_teller *tellers,
                                                                                   size_t workers)
{
    return gz_managed_tellers_new(catalogue, tellers, workers, caller);
}

GZ_NOW(gz_caller_new) static inline gz_number gz_new_caller(gz_caller *caller, gz_caller *further)
{
    return gz_caller_new(caller, further);
}

GZ_NOW(gz_caller_workers) static inline size_t gz_workers(gz_caller *caller)
{
    return gz_caller_workers(caller);
}

GZ_NOW(gz_caller_get_blocking) static inline gz_number gz_call_get(gz_caller *caller, size_t worker, size_t slot)
{
    return gz_caller_get_blocking(caller, worker, slot);
}

GZ_NOW(gz_caller_put_blocking) static inline gz_number gz_call_put(gz_caller *caller, size_t worker, size_t slot)
{
    return gz_caller_put_blocking(caller, worker, slot);
}

GZ_NOW(gz_caller_held_blocking) static inline gz_number gz_call_held(gz_caller *caller, size_t worker, size_t slot,
                                                                     uint32_t *count)
{
    return gz_caller_held_blocking(caller, worker, slot, count);
}

GZ_NOW(gz_caller_references) static inline gz_number gz_call_references(gz_caller *caller, size_t slot, uint64_t *sum)
{
    return gz_caller_references(caller, slot, sum);
}

GZ_NOW(gz_caller_begin_load_blocking) static inline gz_number gz_call_begin_load(gz_caller *caller, size_t slot,
                                                                                 size_t *need)
{
    return gz_caller_begin_load_blocking(caller, slot, need);
}

GZ_NOW(gz_caller_end_load_blocking) static inline gz_number gz_call_end_load(gz_caller *caller, size_t slot, bool ok)
{
    return gz_caller_end_load_blocking(caller, slot, ok);
}

GZ_NOW(gz_caller_begin_drain_blocking) static inline gz_number gz_call_begin_drain(gz_caller *caller, size_t slot)
{
    return gz_caller_begin_drain_blocking(caller, slot);
}

GZ_NOW(gz_caller_begin_remove_blocking) static inline gz_number gz_call_begin_remove(gz_caller *caller, size_t slot)
{
    return gz_caller_begin_remove_blocking(caller, slot);
}

GZ_NOW(gz_caller_end_remove_blocking) static inline gz_number gz_call_end_remove(gz_caller *caller, size_t slot)
{
    return gz_caller_end_remove_blocking(caller, slot);
}

GZ_NOW(gz_caller_wait_removed) static inline gz_number gz_call_wait_removed(gz_caller *caller, size_t slot)
{
    return gz_caller_wait_removed(caller, slot);
}

GZ_NOW(gz_caller_state_blocking) static inline gz_number gz_call_state(gz_caller *caller, size_t slot)
{
    return gz_caller_state_blocking(caller, slot);
}

GZ_NOW(gz_caller_loaded_blocking) static inline gz_number gz_call_loaded(gz_caller *caller, size_t *count)
{
    return gz_caller_loaded_blocking(caller, count);
}

GZ_NOW(gz_caller_loaded_at_blocking) static inline gz_number gz_call_loaded_at(gz_caller *caller, size_t place,
                                                                               size_t *slot)
{
    return gz_caller_loaded_at_blocking(caller, place, slot);
}

GZ_NOW(gz_caller_user) static inline gz_number gz_call_user(gz_caller *caller, gz_catalogue *catalogue, size_t slot,
                                                            size_t place, size_t *user)
{
    return gz_caller_user(caller, catalogue, slot, place, user);
}

GZ_NOW(gz_caller_meet_leaf_blocking) static inline gz_number gz_call_meet_leaf(gz_caller *caller, size_t worker,
                                                                               gz_teller *teller)
{
    return gz_caller_meet_leaf_blocking(caller, worker, teller);
}

GZ_NOW(gz_caller_meet_book_blocking) static inline gz_number gz_call_meet_book(gz_caller *caller, gz_teller *teller)
{
    return gz_caller_meet_book_blocking(caller, teller);
}

GZ_NOW(gz_caller_load_with_needs) static inline gz_number gz_call_load_with_needs(gz_caller *caller,
                                                                                  gz_catalogue *catalogue, size_t slot,
                                                                                  gz_work *work, void *data, size_t *at)
{
    return gz_caller_load_with_needs(caller, catalogue, slot, work, data, at);
}

GZ_NOW(gz_caller_remove_with_needs) static inline gz_number gz_call_remove_with_needs(gz_caller *caller,
                                                                                      gz_catalogue *catalogue,
                                                                                      size_t slot, gz_work *work,
                                                                                      void *data)
{
    return gz_caller_remove_with_needs(caller, catalogue, slot, work, data);
}

/* ---- Handles ---- */

GZ_NOW(gz_catalogue_clear) static inline void gz_free_catalogue(gz_catalogue *catalogue)
{
    gz_catalogue_clear(catalogue);
}

GZ_NOW(gz_leaf_clear) static inline void gz_free_leaf(gz_leaf *leaf)
{
    gz_leaf_clear(leaf);
}

GZ_NOW(gz_reader_clear) static inline void gz_free_reader(gz_reader *reader)
{
    gz_reader_clear(reader);
}

GZ_NOW(gz_book_clear) static inline void gz_free_book(gz_book *book)
{
    gz_book_clear(book);
}

GZ_NOW(gz_caller_clear) static inline void gz_free_caller(gz_caller *caller)
{
    gz_caller_clear(caller);
}

GZ_NOW(gz_teller_clear) static inline void gz_free_teller(gz_teller *teller)
{
    gz_teller_clear(teller);
}

#undef GZ_NOW

#ifdef __cplusplus
}
#endif

#endif
