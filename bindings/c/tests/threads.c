/* Eight threads, each with a handle on the same schemas: the results are those of one thread. */
#include "common.h"
#include <pthread.h>

enum { THREADS = 8, CHECKS = 400 };

#define SCHEMA "{\"properties\": {\"age\": {\"minimum\": 0}}, \"additionalProperties\": {\"pattern\": \"^a+$\"}}"

/* Instances, and what a check of each returns. */
static const struct {
    const char *text;
    uint32_t status;
} INSTANCES[] = {{"{\"age\": 1}", JSCHEMA_DONE},
                 {"{\"age\": -1}", JSCHEMA_INVALID},
                 {"{\"name\": \"aaa\"}", JSCHEMA_DONE},
                 {"{\"name\": \"b\"}", JSCHEMA_INVALID},
                 {"1.5", JSCHEMA_REFUSED}};

typedef struct {
    jschema handle;
    size_t entry;
    uint64_t sum;
} worker;

/* A sum over all texts of a handle. The program ends where a status is wrong, or a text is missing. */
static uint64_t sum_of_checks(jschema *handle, size_t entry) {
    uint64_t sum = 14695981039346656037u;
    for (int i = 0; i < CHECKS; i++) {
        const char *instance = INSTANCES[i % 5].text;
        uint32_t format = (uint32_t)(i / 5 % 5);
        uint32_t status = jschema_check(handle, entry, (const uint8_t *)instance, strlen(instance), format);
        text said = text_of(handle);
        if (status != INSTANCES[i % 5].status || said.length == 0) give_up("another answer");
        for (size_t j = 0; j < said.length; j++) sum = (sum ^ said.bytes[j]) * 1099511628211u;
        free(said.bytes);
    }
    return sum;
}

/* Checks with the worker's handle and with one more on the same schemas, and frees both. */
static void *run(void *given) {
    worker *it = given;
    jschema more = JSCHEMA_EMPTY;
    if (jschema_share(&it->handle, &more)) give_up("the schemas aren't shared");
    it->sum = sum_of_checks(&it->handle, it->entry) ^ (sum_of_checks(&more, it->entry) << 1);
    jschema_free(&more);
    jschema_free(&it->handle);
    return NULL;
}

int main(void) {
    pthread_t threads[THREADS];
    worker workers[THREADS];
    jschema first = JSCHEMA_EMPTY;
    size_t entry;
    if (jschema_new(&first) || jschema_add(&first, TEXT("https://example.com/s"), TEXT(SCHEMA))
        || jschema_finish(&first) || jschema_entry(&first, TEXT("https://example.com/s"), &entry))
        give_up("the schemas aren't made");
    uint64_t alone = sum_of_checks(&first, entry);
    for (int i = 0; i < THREADS; i++) {
        workers[i] = (worker){JSCHEMA_EMPTY, entry, 0};
        if (jschema_share(&first, &workers[i].handle)) give_up("the schemas aren't shared");
        if (pthread_create(&threads[i], NULL, run, &workers[i])) give_up("no thread");
    }
#ifndef __SANITIZE_THREAD__
    /* Then a thread frees the schemas. (ThreadSanitizer doesn't see the library's own count of handles.) */
    jschema_free(&first);
#endif
    for (int i = 0; i < THREADS; i++) pthread_join(threads[i], NULL);
    jschema_free(&first);
    for (int i = 0; i < THREADS; i++)
        if (workers[i].sum != (alone ^ (alone << 1))) give_up("a thread's answers differ");
    printf("%d threads agree\n", THREADS);
    return 0;
}
