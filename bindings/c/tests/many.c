/* many COUNT: that many checks in each format and as many refusals, then handles made and freed and documents upgraded,
   in constant memory.

   Prints the resident memory in KB after a first round and after the last. */
#include "common.h"
#include <unistd.h>

#define SCHEMA "{\"properties\": {\"age\": {\"minimum\": 0}}, \"items\": {\"$ref\": \"#\"}}"
#define SIX "http://json-schema.org/draft-06/schema#"

static jschema made(size_t *entry) {
    jschema handle = JSCHEMA_EMPTY;
    if (jschema_new(&handle) || jschema_add(&handle, TEXT("https://example.com/s"), TEXT(SCHEMA))
        || jschema_finish(&handle) || jschema_entry(&handle, TEXT("https://example.com/s"), entry))
        give_up("the schemas aren't made");
    return handle;
}

static long resident(void) {
    long all, pages;
    FILE *file = fopen("/proc/self/statm", "r");
    if (file == NULL || fscanf(file, "%ld %ld", &all, &pages) != 2) give_up("no /proc/self/statm");
    fclose(file);
    return pages * (sysconf(_SC_PAGESIZE) / 1024);
}

static void round_of(long checks) {
    size_t entry;
    jschema handle = made(&entry);
    for (long i = 0; i < checks; i++) {
        int valid = i % 7 != 0;
        uint32_t got = valid ? jschema_check(&handle, entry, TEXT("[{\"age\": 1}, 2]"), (uint32_t)(i % 5))
                             : jschema_check(&handle, entry, TEXT("[{\"age\": -1}, 2]"), (uint32_t)(i % 5));
        if (got != (valid ? JSCHEMA_DONE : JSCHEMA_INVALID)) give_up("another verdict");
        if (jschema_check(&handle, entry, TEXT("[0, 1.5]"), JSCHEMA_FLAG) != JSCHEMA_REFUSED) give_up("no refusal");
    }
    jschema_free(&handle);
    for (long i = 0; i < checks / 100; i++) {
        jschema other = made(&entry), more = JSCHEMA_EMPTY;
        if (jschema_share(&other, &more) || jschema_share(&more, &other)) give_up("not shared");
        jschema_free(&other);
        if (jschema_check(&more, entry, TEXT("[]"), JSCHEMA_FLAG)) give_up("another verdict");
        jschema_free(&more);
    }
    for (long i = 0; i < checks / 100; i++) {
        jschema other = made(&entry);
        jschema_free(&other);
    }
    for (long i = 0; i < checks / 100; i++) {
        jschema other = JSCHEMA_EMPTY;
        if (jschema_new(&other) || jschema_add(&other, TEXT("urn:s"), TEXT(SCHEMA))) give_up("nothing is added");
        if (jschema_upgrade(&other, TEXT(SIX)) || jschema_upgrade(&other, TEXT(""))) give_up("not upgraded");
        jschema_free(&other);
    }
}

int main(int count, char **words) {
    long checks = count > 1 ? atol(words[1]) : 100000;
    round_of(checks / 10);
    long before = resident();
    round_of(checks);
    printf("%ld %ld\n", before, resident());
    return 0;
}
