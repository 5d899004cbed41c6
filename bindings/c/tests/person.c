#include <jschema.h>
#include <stdio.h>
#include <string.h>

static const char URI[] = "https://example.com/person";
static const char SCHEMA[] = "{\"type\": \"object\", \"properties\": {\"age\": {\"minimum\": 0}}}";

/* Prints the text of the last call. */
static void print(jschema *schemas) {
    uint8_t text[4096];
    size_t length = jschema_text(schemas, text, sizeof text);
    fwrite(text, 1, length < sizeof text ? length : sizeof text, stdout);
}

int main(void) {
    const char *instances[] = {"{\"age\": 36}", "{\"age\": -1}", "{\"age\": 0.5}"};
    jschema schemas = JSCHEMA_EMPTY;
    size_t entry;
    uint32_t status = jschema_new(&schemas);
    if (status == JSCHEMA_DONE)
        status = jschema_add(&schemas, (const uint8_t *)URI, strlen(URI), (const uint8_t *)SCHEMA, strlen(SCHEMA));
    if (status == JSCHEMA_DONE)
        status = jschema_finish(&schemas);
    if (status == JSCHEMA_DONE)
        status = jschema_entry(&schemas, (const uint8_t *)URI, strlen(URI), &entry);
    for (int i = 0; i < 3 && status <= JSCHEMA_REFUSED; i++) {
        status = jschema_check(&schemas, entry, (const uint8_t *)instances[i], strlen(instances[i]), JSCHEMA_FLAG);
        printf("status %u: ", status);
        print(&schemas);
    }
    jschema_free(&schemas);
    printf("\n");
    return status == JSCHEMA_FAILED;
}
