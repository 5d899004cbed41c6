/* Nanoseconds of calls in this process: the least, and the median.

   calls check COUNT FORMAT INSTANCE ENTRY [URI FILE]...   a check, over schemas that are finished once and an entry
       that is looked up once. The output is copied out, as a caller would. Prints its bytes first.
   calls finish COUNT [URI FILE]...                        finishing the schemas. Prints first how many there are. */
#include "common.h"
#include <time.h>

static int64_t now(void) {
    struct timespec time;
    clock_gettime(CLOCK_MONOTONIC, &time);
    return time.tv_sec * INT64_C(1000000000) + time.tv_nsec;
}

static int compare(const void *left, const void *right) {
    int64_t a = *(const int64_t *)left, b = *(const int64_t *)right;
    return (a > b) - (a < b);
}

/* Adds the documents and finishes them. Returns the nanoseconds of finishing. */
static int64_t finish(jschema *handle, char **pairs) {
    if (jschema_new(handle)) give_up("out of memory");
    for (; pairs[0] != NULL && pairs[1] != NULL; pairs += 2) {
        text document = load(pairs[1]);
        if (jschema_add(handle, (const uint8_t *)pairs[0], strlen(pairs[0]), document.bytes, document.length))
            give_up(pairs[0]);
        free(document.bytes);
    }
    int64_t begin = now();
    if (jschema_finish(handle)) give_up("a document is refused");
    return now() - begin;
}

/* Puts the nanoseconds of each finishing into times. Returns the number of schemas. */
static size_t finishes(jschema *handle, int64_t *times, size_t count, char **pairs) {
    size_t schemas = 0;
    for (size_t i = 0; i < count; i++) times[i] = finish(handle, pairs);
    if (jschema_places(handle)) give_up("no list of the schemas");
    text list = text_of(handle);
    for (size_t i = 0; i < list.length; i++) schemas += list.bytes[i] == '\n';
    free(list.bytes);
    return schemas;
}

/* Puts the nanoseconds of each check into times. Returns the bytes of the output. */
static size_t checks(jschema *handle, int64_t *times, size_t count, char **words) {
    uint32_t format = (uint32_t)atoi(words[0]);
    text instance = load(words[1]);
    size_t entry = 0, length = 0, room = 1 << 24;
    uint8_t *out = malloc(room);
    if (out == NULL) give_up("out of memory");
    finish(handle, words + 3);
    if (jschema_entry(handle, (const uint8_t *)words[2], strlen(words[2]), &entry)) give_up("the entry is refused");
    for (size_t i = 0; i < count; i++) {
        int64_t begin = now();
        jschema_check(handle, entry, instance.bytes, instance.length, format);
        length = jschema_text(handle, out, room);
        times[i] = now() - begin;
    }
    free(out);
    free(instance.bytes);
    return length;
}

int main(int given, char **words) {
    int is_check = given >= 6 && !strcmp(words[1], "check");
    if (given < 3 || (!is_check && strcmp(words[1], "finish"))) give_up("usage: calls check | finish COUNT ...");
    size_t count = strtoul(words[2], NULL, 10);
    int64_t *times = malloc(sizeof *times * count);
    if (count == 0 || times == NULL) give_up("COUNT is a number from 1");
    jschema handle = JSCHEMA_EMPTY;
    size_t first = (is_check ? checks : finishes)(&handle, times, count, words + 3);
    qsort(times, count, sizeof *times, compare);
    printf("%zu %lld %lld\n", first, (long long)times[0], (long long)times[count / 2]);
    jschema_free(&handle);
    free(times);
    return 0;
}
