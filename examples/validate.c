/* The example of README.md for C. It prints whether the instance is valid, and the output. */
#include <jschema.h>
#include <stdio.h>
#include <string.h>

#define TEXT(text) (const uint8_t *)(text), strlen(text)

int main(void) {
    const char *uri = "urn:person", *instance = "{\"age\": -1}";
    const char *schema = "{\"properties\": {\"age\": {\"minimum\": 0}}}";
    uint8_t text[4096];
    size_t entry;
    jschema schemas = JSCHEMA_EMPTY;
    if (jschema_new(&schemas) || jschema_add(&schemas, TEXT(uri), TEXT(schema)) || jschema_finish(&schemas)
        || jschema_entry(&schemas, TEXT(uri), &entry))
        return 1;
    uint32_t status = jschema_check(&schemas, entry, TEXT(instance), JSCHEMA_BASIC);
    fwrite(text, 1, jschema_text(&schemas, text, sizeof text), stdout);
    jschema_free(&schemas);
    printf("\n");
    return status != JSCHEMA_INVALID;
}
