/* A program that was linked to the shared library before some of its exports were deprecated: it declares them itself, as they
 * were. Says nothing where all is well. */
#include <stdint.h>
#include <stdio.h>

struct handle {
    void *at;
};

uint32_t gz_catalogue_read(const void *text, size_t length, struct handle *catalogue, size_t *line);
uint32_t gz_table_new(struct handle *catalogue, struct handle *book, struct handle *leaves, size_t leaf_count,
                      struct handle *readers, size_t reader_count);
uint32_t gz_reader_wait_unused(struct handle *reader, size_t slot);
uint32_t gz_reader_wait_unused_for(struct handle *reader, size_t slot, int milliseconds);
uint32_t gz_managed_new_with_tellers(struct handle *catalogue, struct handle *caller, struct handle *tellers, size_t workers);
size_t gz_caller_workers(struct handle *caller);

enum { NO = 14, OUT_OF_RANGE = 33, WORKERS = 3 };

int main(void)
{
    static const char text[] = "module snd\n";
    struct handle catalogue = { 0 }, book = { 0 }, leaf = { 0 }, reader = { 0 }, caller = { 0 }, tellers[WORKERS] = { { 0 } };
    size_t line = 0;
    if (gz_catalogue_read(text, sizeof text - 1, &catalogue, &line)
        || gz_table_new(&catalogue, &book, &leaf, 1, &reader, 1)) {
        puts("no table");
        return 1;
    }
    if (gz_reader_wait_unused(&reader, 0) != NO || gz_reader_wait_unused_for(&reader, 0, 0) != NO
        || gz_reader_wait_unused_for(&reader, 1, 0) != OUT_OF_RANGE) {
        puts("a wait answers another number");
        return 1;
    }
    if (gz_managed_new_with_tellers(&catalogue, &caller, tellers, WORKERS) || gz_caller_workers(&caller) != WORKERS
        || !tellers[WORKERS - 1].at) {
        puts("no table with tellers");
        return 1;
    }
    return 0;
}
