/* Judges instances with the library for C: library_driver verdict|errors SCHEMA INSTANCES. Each line of the file
   INSTANCES is one. The schema is finished, and its entry looked up, once. */
#include "common.h"

static const char URI[] = "https://a.example/s";

/* Writes the text of the last call. */
static void write_text(jschema *schemas, FILE *to) {
    text last = text_of(schemas);
    fwrite(last.bytes, 1, last.length, to);
    free(last.bytes);
}

int main(int count, char **words) {
    if (count != 4) give_up("usage: library_driver verdict|errors SCHEMA INSTANCES");
    const uint32_t format = strcmp(words[1], "verdict") ? JSCHEMA_BASIC : JSCHEMA_FLAG;
    text schema = load(words[2]), instances = load(words[3]);
    jschema schemas = JSCHEMA_EMPTY;
    size_t entry = 0;
    uint32_t status = jschema_new(&schemas);
    if (status == JSCHEMA_DONE) status = jschema_add(&schemas, TEXT(URI), schema.bytes, schema.length);
    if (status == JSCHEMA_DONE) status = jschema_finish(&schemas);
    if (status == JSCHEMA_DONE) status = jschema_entry(&schemas, TEXT(URI), &entry);
    const uint8_t *next, *end = instances.bytes + instances.length;
    for (const uint8_t *at = instances.bytes; at < end && status <= JSCHEMA_INVALID; at = next + 1) {
        next = memchr(at, '\n', (size_t)(end - at));
        if (next == NULL) next = end;
        status = jschema_check(&schemas, entry, at, (size_t)(next - at), format);
        if (status <= JSCHEMA_INVALID) {
            printf(status == JSCHEMA_DONE ? "valid " : "invalid ");
            write_text(&schemas, stdout);
        }
    }
    if (status > JSCHEMA_INVALID) write_text(&schemas, stderr);
    jschema_free(&schemas);
    free(schema.bytes);
    free(instances.bytes);
    return status > JSCHEMA_INVALID ? (int)status : 0;
}
