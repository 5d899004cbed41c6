/* Steps that allocate: prints `STEP: STATUS [TEXT]` for each. A step that is out of memory is tried once more, since
   the handle is as it was. This program itself allocates nothing. */
#include "common.h"

#define URI TEXT("https://example.com/s")
/* Of draft-07, where `items` is a list, and a reference into it moves. */
#define OLDER                                                                                                          \
    "{\"$schema\": \"http://json-schema.org/draft-07/schema#\", \"maxLength\": 2,"                                  \
    " \"definitions\": {\"a\": {\"items\": [{\"$id\": \"#b\"}], \"dependencies\": {\"c\": [\"d\"]}}},"               \
    " \"properties\": {\"e\": {\"$ref\": \"#/definitions/a/items/0\"}}}"
#define SCHEMA                                                                      \
    "{\"properties\": {\"age\": {\"minimum\": 0, \"type\": \"integer\"}},"             \
    " \"patternProperties\": {\"^x\": {\"$ref\": \"t\"}}}"

static char printed[1 << 16];
static uint8_t said[1 << 14];

/* One step, once or twice: `call` is made anew each time. */
#define STEP(name, call)                                                                                               \
    for (int again = 0; again < 2; again++) {                                                                          \
        uint32_t status = (call);                                                                                      \
        size_t length = jschema_text(&handle, said, sizeof said);                                                      \
        if (length > sizeof said) give_up("the text is too long");                                                     \
        printf("%s: %u [%.*s]\n", name, status, (int)(length - (length && said[length - 1] == '\n')), said);           \
        if (status != JSCHEMA_FAILED) break;                                                                           \
    }

/* Without a handle. */
static uint32_t find_positions(void) {
    static const size_t ends[] = {2, 4};
    jschema_position positions[2];
    return jschema_positions(TEXT("{\"a\": [1]}"), TEXT("/a/b"), ends, 2, positions, 2);
}

static uint32_t find_origins(jschema *handle) {
    static const size_t ends[] = {8, 10};
    return jschema_origins(handle, TEXT(""), TEXT(OLDER), TEXT("/$defs/a/b"), ends, 2);
}

int main(void) {
    jschema handle = JSCHEMA_EMPTY, other = JSCHEMA_EMPTY;
    size_t entry = 0;
    setvbuf(stdout, printed, _IOFBF, sizeof printed);
    STEP("new", jschema_new(&handle));
    STEP("positions", find_positions());
    STEP("origins", find_origins(&handle));
    STEP("refused document", jschema_add(&handle, URI, TEXT("[1, {\"a\": 0.5}]")));
    STEP("add", jschema_add(&handle, URI, TEXT(SCHEMA)));
    STEP("refused documents", jschema_finish(&handle));
    STEP("refused upgrade", jschema_upgrade(&handle, TEXT("")));
    STEP("add", jschema_add(&handle, TEXT("https://example.com/t"), TEXT(OLDER)));
    STEP("refused dialect", jschema_finish(&handle));
    STEP("upgrade", jschema_upgrade(&handle, TEXT("")));
    STEP("document", jschema_document(&handle, 1));
    STEP("finish", jschema_finish(&handle));
    STEP("places", jschema_places(&handle));
    STEP("refused entry", jschema_entry(&handle, TEXT("https://example.com/u"), &entry));
    STEP("entry", jschema_entry(&handle, URI, &entry));
    STEP("share", jschema_share(&handle, &other));
    jschema_free(&handle);
    STEP("share back", jschema_share(&other, &handle));
    jschema_free(&other);
    STEP("refused instance", jschema_check(&handle, entry, TEXT("{\"a\": 0.5}"), JSCHEMA_FLAG));
    for (uint32_t format = JSCHEMA_FLAG; format <= JSCHEMA_MERGED; format++) {
        STEP("check", jschema_check(&handle, entry, TEXT("{\"age\": -1, \"x\": \"yyy\"}"), format));
        STEP("check", jschema_check(&handle, entry, TEXT("{\"age\": 1, \"x\": \"y\"}"), format));
    }
    jschema_free(&handle);
    return 0;
}
