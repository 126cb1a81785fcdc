// Looks up modalias texts by libkmod, the modules of each with all that they need: coldplug FOLDER ROUNDS <LIST
// FOLDER is the modules' of a release. It prints how many nanoseconds a text took, and how many modules were found.
#include <libkmod.h>
#include <stdio.h>
#include <stdlib.h>
#include <string.h>
#include <time.h>

enum { most = 4096, longest = 512 };

static char texts[most][longest];

static int modules_of(struct kmod_ctx *context, const char *text)
{
    struct kmod_list *found = NULL, *at;
    int count = 0;
    kmod_module_new_from_lookup(context, text, &found);
    kmod_list_foreach(at, found) {
        struct kmod_module *module = kmod_module_get_module(at);
        struct kmod_list *needed = kmod_module_get_dependencies(module), *one;
        count++;
        kmod_list_foreach(one, needed) count++;
        kmod_module_unref_list(needed);
        kmod_module_unref(module);
    }
    kmod_module_unref_list(found);
    return count;
}

static double now(void)
{
    struct timespec at;
    clock_gettime(CLOCK_MONOTONIC, &at);
    return at.tv_sec * 1e9 + at.tv_nsec;
}

int main(int count, char **words)
{
    const char *no_settings = NULL;
    struct kmod_ctx *context = count == 3 ? kmod_new(words[1], &no_settings) : NULL;
    int rounds = count == 3 ? atoi(words[2]) : 0, read = 0;
    long found = 0;
    if (context == NULL || rounds < 1 || kmod_load_resources(context) < 0) {
        fprintf(stderr, "coldplug: no index files, or wrong arguments\n");
        return 2;
    }
    while (read < most && fgets(texts[read], longest, stdin)) {
        texts[read][strcspn(texts[read], "\n")] = 0;
        read++;
    }
    double begin = now();
    for (int round = 0; round < rounds; round++)
        for (int text = 0; text < read; text++)
            found += modules_of(context, texts[text]);
    printf("coldplug@libkmod %.0f ns\n", (now() - begin) / ((double)rounds * (read > 0 ? read : 1)));
    printf("# %ld modules\n", found / rounds);
    kmod_unref(context);
    return 0;
}
