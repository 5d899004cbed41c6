/* How much stack calls take: `need SCHEMA INSTANCE` reads two files, and makes every call on a thread whose stack was
   filled with one byte. Prints the status of the last check, or of the call that refused, and how many bytes of the
   stack were written. */
#include "common.h"
#include <pthread.h>
#include <sys/mman.h>

#define URI TEXT("https://example.com/s")
#define ROOM ((size_t)16 << 20)
#define FILLED 0xA5

static text schema, instance;

/* Every call; a refusal is no fault. */
static void *calls(void *status) {
    jschema handle = JSCHEMA_EMPTY, other = JSCHEMA_EMPTY;
    size_t entry;
    uint32_t *last = status;
    if (jschema_new(&handle) != JSCHEMA_DONE) give_up("out of memory");
    if ((*last = jschema_add(&handle, URI, schema.bytes, schema.length)) == JSCHEMA_DONE
        && (*last = jschema_upgrade(&handle, TEXT(""))) == JSCHEMA_DONE
        && (*last = jschema_finish(&handle)) == JSCHEMA_DONE
        && (*last = jschema_places(&handle)) == JSCHEMA_DONE
        && (*last = jschema_share(&handle, &other)) == JSCHEMA_DONE
        && (*last = jschema_entry(&handle, URI, &entry)) == JSCHEMA_DONE)
        for (uint32_t format = JSCHEMA_FLAG; format <= JSCHEMA_MERGED && *last <= JSCHEMA_INVALID; format++)
            *last = jschema_check(&handle, entry, instance.bytes, instance.length, format);
    jschema_free(&other);
    jschema_free(&handle);
    return NULL;
}

int main(int count, char **arguments) {
    pthread_attr_t attributes;
    pthread_t thread;
    uint32_t status;
    size_t left = 0;
    uint8_t *stack = mmap(NULL, ROOM, PROT_READ | PROT_WRITE, MAP_PRIVATE | MAP_ANONYMOUS, -1, 0);
    if (count != 3) give_up("usage: need SCHEMA INSTANCE");
    if (stack == MAP_FAILED) give_up("out of memory");
    schema = load(arguments[1]);
    instance = load(arguments[2]);
    memset(stack, FILLED, ROOM);
    pthread_attr_init(&attributes);
    if (pthread_attr_setstack(&attributes, stack, ROOM)) give_up("no such stack");
    if (pthread_create(&thread, &attributes, calls, &status)) give_up("no thread");
    pthread_join(thread, NULL);
    while (left < ROOM && stack[left] == FILLED) left++;
    printf("%u %zu\n", status, ROOM - left);
    return 0;
}
