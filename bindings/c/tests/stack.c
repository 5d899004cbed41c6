/* Checks on a thread whose stack has as many KB as the argument says, under the limits that fit it. Each schema is as a
   stranger could send it: the thread's check ends or is refused, and never ends the process. Prints 'ended'. */
#include "common.h"
#include <pthread.h>

#define URI TEXT("https://example.com/s")
/* Beside what is nested a call needs less than this: without a search with a regular expression, and with one. */
#define KILOBYTES_AT_LEAST 48
#define KILOBYTES_WITH_A_SEARCH 64
/* Stacks of so many KB have room for a search. */
#define KILOBYTES_TO_SEARCH 128
#define KILOBYTES_OF_AN_APPLICATION 2
#define SEARCHES "{\"pattern\": \"^(a*b+)*[^c]*$\"}"
#define CHAIN 600

static size_t kilobytes;

static void expect(const char *what, size_t number, uint32_t got, uint32_t wanted) {
    if (got != wanted) {
        fprintf(stderr, "%s of %zu: status %u, wanted %u\n", what, number, got, wanted);
        exit(1);
    }
}

/* A schema that refers to another, and so on to the last: `length` applications in all. */
static char *chain_of(size_t length, const char *last) {
    char *document = malloc(64 * (length + 2) + strlen(last)), *end = document;
    if (document == NULL) give_up("out of memory");
    end += sprintf(end, "{\"$ref\": \"#/$defs/2\", \"$defs\": {");
    for (size_t i = 2; i < length; i++) end += sprintf(end, "\"%zu\": {\"$ref\": \"#/$defs/%zu\"}, ", i, i + 1);
    sprintf(end, "\"%zu\": %s}}", length, last);
    return document;
}

/* A list in a list, and so on. */
static char *lists_of(size_t depth) {
    char *lists = malloc(2 * depth + 1);
    if (lists == NULL) give_up("out of memory");
    memset(lists, '[', depth);
    memset(lists + depth, ']', depth);
    lists[2 * depth] = 0;
    return lists;
}

/* One check of a new handle with these limits, in every format. */
static void check(const char *what, size_t number, const char *schema, const char *instance, size_t applications,
                  uint32_t wanted) {
    jschema handle = JSCHEMA_EMPTY;
    size_t entry;
    expect("new", number, jschema_new(&handle), JSCHEMA_DONE);
    expect("limit", number, jschema_limit(&handle, applications, 1000000), JSCHEMA_DONE);
    expect("add", number, jschema_add(&handle, URI, (const uint8_t *)schema, strlen(schema)), JSCHEMA_DONE);
    expect("finish", number, jschema_finish(&handle), JSCHEMA_DONE);
    expect("entry", number, jschema_entry(&handle, URI, &entry), JSCHEMA_DONE);
    for (uint32_t format = JSCHEMA_FLAG; format <= JSCHEMA_MERGED; format++)
        expect(what, number,
               jschema_check(&handle, entry, (const uint8_t *)instance, strlen(instance), format), wanted);
    jschema_free(&handle);
}

static void *checks(void *unused) {
    bool searches = kilobytes >= KILOBYTES_TO_SEARCH;
    size_t least = searches ? KILOBYTES_WITH_A_SEARCH : KILOBYTES_AT_LEAST;
    size_t most = (kilobytes - least) / KILOBYTES_OF_AN_APPLICATION;
    size_t depths = kilobytes - KILOBYTES_AT_LEAST < 120 ? kilobytes - KILOBYTES_AT_LEAST : 120;
    for (size_t length = 2; length <= CHAIN; length += length < most + 2 ? 1 : 97) {
        char *document = chain_of(length, searches ? SEARCHES : "true");
        check("a chain", length, document, "\"aabab\"", most, length <= most ? JSCHEMA_DONE : JSCHEMA_REFUSED);
        free(document);
    }
    for (size_t depth = 1; depth <= depths; depth++) {
        char *lists = lists_of(depth);
        check("lists", depth, "{\"items\": {\"$ref\": \"#\"}}", lists, most,
              2 * depth - 1 <= most ? JSCHEMA_DONE : JSCHEMA_REFUSED);
        free(lists);
    }
    return unused;
}

int main(int count, char **arguments) {
    pthread_attr_t attributes;
    pthread_t thread;
    if (count != 2) give_up("usage: stack KILOBYTES");
    kilobytes = strtoul(arguments[1], NULL, 10);
    pthread_attr_init(&attributes);
    if (pthread_attr_setstacksize(&attributes, kilobytes * 1024)) give_up("no such stack");
    if (pthread_create(&thread, &attributes, checks, NULL)) give_up("no thread");
    pthread_join(thread, NULL);
    printf("ended\n");
    return 0;
}
