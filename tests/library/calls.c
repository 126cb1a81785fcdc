/* Each call once, and each number that it may answer. Says nothing if all is well. */
#include <gourzhiel.h>
#include <stdio.h>
#include <stdlib.h>

static const char text[] =
    "module snd\nexports snd_card_new\n"
    "module snd-pcm\nneeds snd_card_new\n"
    "module fixed\npermanent\n"
    "module lost\nneeds nobody_has_it\n";

enum { SND, PCM, FIXED, LOST, OUTSIDE };

static int wrong;

static void check(int line, long found, long wanted)
{
    if (found != wanted) {
        printf("calls.c:%d: answered %ld, and not %ld\n", line, found, wanted);
        wrong = 1;
    }
}
#define CHECK(found, wanted) check(__LINE__, (long)(found), (long)(wanted))

static gz_number read_text(gz_catalogue *catalogue, const char *given, size_t *line)
{
    return gz_catalogue_read(given, strlen(given), catalogue, line);
}

/* Texts that are refused, each with its line. */
static void faults(void)
{
    gz_catalogue none = GZ_EMPTY;
    size_t line = 0;
    CHECK(read_text(&none, "module a\nsize\n", &line), GZ_BAD_LINE);
    CHECK(line, 2);
    CHECK(read_text(&none, "module a\nmodule a\n", &line), GZ_DUPLICATE);
    CHECK(line, 2);
    CHECK(read_text(&none, "module a\nexports s\nmodule b\nexports s\n", &line), GZ_TWICE_EXPORTED);
    CHECK(line, 4);
    char many[257 * 16];
    size_t length = 0;
    for (int i = 0; i < 257; i++)
        length += (size_t)snprintf(many + length, sizeof many - length, "module m%d\n", i);
    CHECK(gz_catalogue_read(many, length, &none, &line), GZ_TOO_MANY_MODULES);
    CHECK(line, 257);
    CHECK(none.at == NULL, 1);
    CHECK(gz_catalogue_read(NULL, 0, &none, &line), GZ_DONE);
    CHECK(gz_catalogue_len(&none), 0);
    gz_catalogue_clear(&none);
    gz_catalogue_clear(&none);
}

static void names(gz_catalogue *catalogue)
{
    size_t slot = 99, length = 99;
    char name[GZ_NAME_ROOM];
    CHECK(gz_catalogue_len(catalogue), 4);
    CHECK(gz_catalogue_slot(catalogue, "snd_pcm", 7, &slot), GZ_DONE);
    CHECK(slot, PCM);
    CHECK(gz_catalogue_slot(catalogue, "snd-pcm", 7, &slot), GZ_DONE);
    CHECK(slot, PCM);
    CHECK(gz_catalogue_name_string(catalogue, PCM, name, sizeof name), GZ_DONE);
    CHECK(strcmp(name, "snd_pcm"), 0);
    memset(name, 'x', sizeof name);
    CHECK(gz_catalogue_name_string(catalogue, PCM, name, 7), GZ_TOO_SHORT);
    CHECK(gz_catalogue_name_string(catalogue, PCM, name, 0), GZ_TOO_SHORT);
    CHECK(name[0], 'x');
    CHECK(gz_catalogue_name_string(catalogue, PCM, name, 8), GZ_DONE);
    CHECK(strcmp(name, "snd_pcm"), 0);
    CHECK(name[8], 'x');
    CHECK(gz_catalogue_name_string(catalogue, OUTSIDE, name, sizeof name), GZ_OUT_OF_RANGE);
    memset(name, 'x', sizeof name);
    CHECK(gz_catalogue_name(catalogue, OUTSIDE, name, GZ_NAME_LENGTH, &length), GZ_OUT_OF_RANGE);
    CHECK(length, 99);
    CHECK(gz_catalogue_name(catalogue, PCM, name, 6, &length), GZ_TOO_SHORT);
    CHECK(length == 7 && name[0] == 'x', 1);
    CHECK(gz_catalogue_name(catalogue, PCM, name, 7, &length), GZ_DONE);
    CHECK(length == 7 && memcmp(name, "snd_pcmx", 8) == 0, 1);
}

static void load(gz_book *book, size_t slot)
{
    size_t need = 99;
    CHECK(gz_book_begin_load(book, slot, &need), GZ_DONE);
    CHECK(gz_book_state(book, slot), GZ_LOADING);
    CHECK(gz_book_end_load(book, slot, true), GZ_DONE);
    CHECK(gz_book_state(book, slot), GZ_LIVE);
    CHECK(need, 99);
}

static void loads(gz_book *book)
{
    size_t need = 99, slot = 99;
    CHECK(gz_book_begin_load(book, PCM, &need), GZ_NEED_NOT_LIVE);
    CHECK(need, SND);
    CHECK(gz_book_begin_load(book, LOST, &need), GZ_UNKNOWN_SYMBOL);
    CHECK(gz_book_end_load(book, SND, true), GZ_NOT_LOADING);
    CHECK(gz_book_begin_load(book, SND, &need), GZ_DONE);
    CHECK(gz_book_begin_load(book, SND, &need), GZ_EXISTS);
    CHECK(gz_book_end_load(book, SND, false), GZ_DONE);
    CHECK(gz_book_state(book, SND), GZ_ABSENT);
    load(book, SND);
    load(book, PCM);
    load(book, FIXED);
    CHECK(gz_book_loaded(book), 3);
    CHECK(gz_book_loaded_at(book, 1, &slot), GZ_DONE);
    CHECK(slot, PCM);
    CHECK(gz_book_loaded_at(book, 3, &slot), GZ_OUT_OF_RANGE);
    CHECK(slot, PCM);
}

static void uses(gz_book *book, gz_leaf *one, gz_leaf *other, gz_reader *reader)
{
    uint32_t count = 99;
    CHECK(gz_leaf_get_blocking(one, LOST), GZ_NOT_LIVE);
    CHECK(gz_leaf_get(one, PCM, 0), GZ_BUSY);
    CHECK(gz_leaf_get(one, PCM, 1), GZ_DONE);
    CHECK(gz_leaf_get(one, PCM, 0), GZ_DONE);
    CHECK(gz_leaf_held(one, PCM, &count), GZ_DONE);
    CHECK(count, 2);
    CHECK(gz_reader_in_use(reader, PCM), GZ_YES);
    CHECK(gz_reader_in_use(reader, SND), GZ_NO);
    CHECK(gz_leaf_put(other, PCM), GZ_NOT_HELD);
    CHECK(gz_book_begin_remove(book, PCM), GZ_IN_USE);
    CHECK(gz_book_begin_remove(book, SND), GZ_NEEDED_BY);
    CHECK(gz_book_begin_remove(book, FIXED), GZ_PERMANENT);
    CHECK(gz_book_begin_remove(book, LOST), GZ_NO_ENTRY);
    CHECK(gz_leaf_put(one, PCM), GZ_DONE);
    CHECK(gz_leaf_put(one, PCM), GZ_DONE);
    CHECK(gz_leaf_held(one, OUTSIDE, &count), GZ_OUT_OF_RANGE);
    CHECK(count, 2);
    for (int i = 0; i < 65535; i++)
        CHECK(gz_leaf_get_blocking(other, SND), GZ_DONE);
    CHECK(gz_leaf_get_blocking(other, SND), GZ_TOO_MANY);
    for (int i = 0; i < 65535; i++)
        CHECK(gz_leaf_put(other, SND), GZ_DONE);
}

static void removals(gz_book *book, gz_leaf *leaf)
{
    CHECK(gz_book_begin_remove(book, PCM), GZ_DONE);
    CHECK(gz_book_state(book, PCM), GZ_UNLOADING);
    CHECK(gz_leaf_get_blocking(leaf, PCM), GZ_NOT_LIVE);
    CHECK(gz_book_begin_remove(book, PCM), GZ_NOT_LIVE);
    CHECK(gz_book_cancel_remove(book, PCM), GZ_DONE);
    CHECK(gz_book_state(book, PCM), GZ_LIVE);
    CHECK(gz_book_cancel_remove(book, PCM), GZ_NOT_UNLOADING);
    CHECK(gz_book_begin_remove(book, PCM), GZ_DONE);
    CHECK(gz_book_end_remove(book, PCM), GZ_DONE);
    CHECK(gz_book_end_remove(book, PCM), GZ_NOT_UNLOADING);
    CHECK(gz_book_cancel_remove(book, PCM), GZ_NOT_UNLOADING);
    CHECK(gz_book_begin_drain(book, LOST), GZ_NO_ENTRY);
    CHECK(gz_book_begin_drain(book, FIXED), GZ_PERMANENT);
    CHECK(gz_leaf_get_blocking(leaf, SND), GZ_DONE);
    CHECK(gz_book_begin_drain(book, SND), GZ_DONE);
    CHECK(gz_book_begin_drain(book, SND), GZ_NOT_LIVE);
    CHECK(gz_book_state(book, SND), GZ_DRAINING);
    CHECK(gz_leaf_get_blocking(leaf, SND), GZ_NOT_LIVE);
    CHECK(gz_book_end_remove(book, SND), GZ_IN_USE);
    CHECK(gz_leaf_put(leaf, SND), GZ_DONE);
    CHECK(gz_book_end_remove(book, SND), GZ_DONE);
    CHECK(gz_book_loaded(book), 1);
}

static void outside(gz_book *book, gz_leaf *leaf, gz_reader *reader)
{
    size_t need = 99;
    CHECK(gz_leaf_get_blocking(leaf, OUTSIDE), GZ_OUT_OF_RANGE);
    CHECK(gz_leaf_put(leaf, OUTSIDE), GZ_OUT_OF_RANGE);
    CHECK(gz_reader_in_use(reader, OUTSIDE), GZ_OUT_OF_RANGE);
    CHECK(gz_book_begin_load(book, OUTSIDE, &need), GZ_OUT_OF_RANGE);
    CHECK(need, 99);
    CHECK(gz_book_end_load(book, OUTSIDE, true), GZ_OUT_OF_RANGE);
    CHECK(gz_book_begin_drain(book, OUTSIDE), GZ_OUT_OF_RANGE);
    CHECK(gz_book_begin_remove(book, OUTSIDE), GZ_OUT_OF_RANGE);
    CHECK(gz_book_end_remove(book, OUTSIDE), GZ_OUT_OF_RANGE);
    CHECK(gz_book_cancel_remove(book, OUTSIDE), GZ_OUT_OF_RANGE);
    CHECK(gz_book_state(book, SIZE_MAX), GZ_OUT_OF_RANGE);
}

int main(void)
{
    gz_catalogue catalogue = GZ_EMPTY;
    gz_book book = GZ_EMPTY, spare = GZ_EMPTY;
    gz_leaf leaves[2] = { GZ_EMPTY };
    gz_reader reader = GZ_EMPTY;
    size_t line = 0;
    faults();
    CHECK(gz_catalogue_read(text, sizeof text - 1, &catalogue, &line), GZ_DONE);
    names(&catalogue);
    CHECK(gz_table_new(&catalogue, &book, leaves, 2, &reader, 1), GZ_DONE);
    CHECK(gz_table_new(&catalogue, &spare, NULL, 0, NULL, 0), GZ_DONE);
    gz_catalogue_clear(&catalogue);
    loads(&book);
    uses(&book, &leaves[0], &leaves[1], &reader);
    removals(&book, &leaves[0]);
    outside(&book, &leaves[0], &reader);
    CHECK(gz_book_loaded(&spare), 0);
    gz_book_free(spare);
    gz_book_clear(&book);
    CHECK(gz_leaf_get_blocking(&leaves[1], FIXED), GZ_DONE);
    gz_leaf_clear(&leaves[0]);
    gz_leaf_clear(&leaves[1]);
    CHECK(gz_reader_in_use(&reader, FIXED), GZ_YES);
    gz_reader_clear(&reader);
    CHECK(leaves[0].at || leaves[1].at || book.at || reader.at, 0);
    for (int number = 0; number <= 40; number++)
        CHECK(gz_strerror((gz_number)number) != NULL, 1);
    return wrong;
}
