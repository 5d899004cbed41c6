/* answers INSTANCE ENTRY [URI FILE]...: a check in every format, over schemas that are finished once.

   Prints a line `STATUS LENGTH` for each format and then that many bytes of text. Where a document or the entry is
   refused, prints one such line for that. */
#include "common.h"

static void print(jschema *handle, uint32_t status) {
    text said = text_of(handle);
    printf("%u %zu\n", status, said.length);
    fwrite(said.bytes, 1, said.length, stdout);
    free(said.bytes);
}

/* JSCHEMA_DONE, or the first status that isn't. */
static uint32_t prepare(jschema *handle, const char *uri, int count, char **pairs, size_t *entry) {
    uint32_t status = jschema_new(handle);
    for (int i = 0; i + 1 < count && status == JSCHEMA_DONE; i += 2) {
        text document = load(pairs[i + 1]);
        status = jschema_add(handle, (const uint8_t *)pairs[i], strlen(pairs[i]), document.bytes, document.length);
        free(document.bytes);
    }
    if (status == JSCHEMA_DONE) status = jschema_finish(handle);
    if (status == JSCHEMA_DONE) status = jschema_entry(handle, (const uint8_t *)uri, strlen(uri), entry);
    return status;
}

int main(int count, char **words) {
    if (count < 3) give_up("usage: answers INSTANCE ENTRY [URI FILE]...");
    jschema handle = JSCHEMA_EMPTY;
    size_t entry = 0;
    uint32_t status = prepare(&handle, words[2], count - 3, words + 3, &entry);
    if (status != JSCHEMA_DONE) {
        print(&handle, status);
    } else {
        text instance = load(words[1]);
        for (uint32_t format = JSCHEMA_FLAG; format <= JSCHEMA_MERGED; format++)
            print(&handle, jschema_check(&handle, entry, instance.bytes, instance.length, format));
        free(instance.bytes);
    }
    jschema_free(&handle);
    return 0;
}
