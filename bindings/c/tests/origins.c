/* jschema_origins: where parts of upgraded documents come from, by document and pointer. Prints a line for each that
   differs; the last line is 'N passed, M failed'. */
#include "expecting.h"

#define THREE "http://json-schema.org/draft-03/schema#"
#define FOUR "http://json-schema.org/draft-04/schema#"
#define SEVEN "http://json-schema.org/draft-07/schema#"
#define NINETEEN "https://json-schema.org/draft/2019-09/schema"
#define MOST 8

/* Asks for what the pointers come from. `pointers` has a line feed behind each. */
static uint32_t ask(jschema *handle, const char *dialect, const char *document, const char *pointers) {
    uint8_t joined[512];
    size_t ends[MOST], length = 0, count = 0;
    for (; *pointers; pointers++) {
        if (*pointers == '\n') ends[count++] = length; else joined[length++] = (uint8_t)*pointers;
    }
    return jschema_origins(handle, (const uint8_t *)dialect, strlen(dialect), (const uint8_t *)document,
                           strlen(document), joined, length, ends, count);
}

static void expect_origins(const char *dialect, const char *document, const char *pointers, const char *said) {
    jschema handle = JSCHEMA_EMPTY;
    jschema_new(&handle);
    expect(document, &handle, ask(&handle, dialect, document, pointers), JSCHEMA_DONE, said);
    expect_no_refusal(document, &handle);
    jschema_free(&handle);
}

/* By the sections that each keyword has in its draft (docs/MIGRATING.md). */
static void test_drafts(void) {
    expect_origins(SEVEN, "{\"definitions\": {\"a/b\": {\"items\": [true, {\"type\": \"null\"}],"
                   " \"additionalItems\": {}}}}",
                   "/$defs/a~1b/prefixItems/1/type\n/$defs/a~1b/items\n/$defs\n\n",
                   "[\"/definitions/a~1b/items/1/type\",\"/definitions/a~1b/additionalItems\","
                   "\"/definitions\",\"\"]\n");
    expect_origins(SEVEN, "{\"dependencies\": {\"a\": [\"b\"], \"c\": {\"minimum\": 1}}}",
                   "/dependentRequired/a\n/dependentRequired/a/0\n/dependentSchemas/c/minimum\n",
                   "[\"/dependencies/a\",\"/dependencies/a\",\"/dependencies/c/minimum\"]\n");
    expect_origins(FOUR, "{\"id\": \"urn:a#b\", \"minimum\": 1, \"exclusiveMinimum\": true}",
                   "/$id\n/$anchor\n/exclusiveMinimum\n", "[\"/id\",\"/id\",\"/minimum\"]\n");
    expect_origins(THREE, "{\"extends\": {\"type\": \"null\"}, \"disallow\": [\"null\", {\"divisibleBy\": 2}]}",
                   "/allOf/0/type\n/not/anyOf/0/type\n/not/anyOf/1/multipleOf\n",
                   "[\"/extends/type\",\"/disallow/0\",\"/disallow/1/divisibleBy\"]\n");
    expect_origins(THREE, "{\"properties\": {\"a\": {\"required\": true}}, \"type\": {\"enum\": [1]}}",
                   "/required\n/required/0\n/anyOf/0/enum/0\n", "[\"/properties\",\"/properties\",\"/type/enum/0\"]\n");
    expect_origins(NINETEEN, "{\"contains\": {\"type\": \"null\"}, \"minContains\": 2, \"allOf\": [true]}",
                   "/anyOf\n/anyOf/0/not/not/contains/type\n/anyOf/0/not/not/minContains\n/allOf/0\n",
                   "[\"/contains\",\"/contains/type\",\"/minContains\",\"/allOf/0\"]\n");
}

/* A document that names its dialect is of that one, and so is a schema in it that has an identifier of its own. */
static void test_dialects(void) {
    expect_origins("", "{\"$schema\": \"" SEVEN "\", \"definitions\": {\"a\": true}}", "/$defs/a\n/$schema\n",
                   "[\"/definitions/a\",\"/$schema\"]\n");
    expect_origins(SEVEN, "{\"definitions\": {\"a\": {\"$schema\": \"" NINETEEN "\", \"$id\": \"urn:a\","
                   " \"$defs\": {\"b\": true}}}}", "/$defs/a/$defs/b\n", "[\"/definitions/a/$defs/b\"]\n");
    expect_origins("", "{\"definitions\": {\"a\": true}}", "/definitions/a\n/$defs/a\n", "[\"/definitions/a\",null]\n");
    expect_origins("", "{\"$schema\": \"urn:unknown\"}", "/$schema\n\n", "[null,null]\n");
}

static void test_nothing(void) {
    expect_origins(SEVEN, "{\"items\": [true]}", "/items\n/prefixItems/1\n/prefixItems/00\n/$schema\n",
                   "[null,null,null,null]\n");
    expect_origins(SEVEN, "true", "\n/type\n", "[\"\",null]\n");
    expect_origins(SEVEN, "{}", "", "[]\n");
}

static void test_refused(void) {
    jschema handle = JSCHEMA_EMPTY;
    expect("an empty handle", &handle, ask(&handle, SEVEN, "{}", "\n"), JSCHEMA_MISUSED, "");
    jschema_new(&handle);
    expect("no dialect", &handle, ask(&handle, "draft-07", "{}", "\n"), JSCHEMA_MISUSED, "");
    expect("no pointer", &handle, ask(&handle, SEVEN, "{}", "a\n"), JSCHEMA_MISUSED, "");
    expect("another", &handle, ask(&handle, SEVEN, "{}", "\n/~2\n"), JSCHEMA_MISUSED, "");
    expect("no JSON", &handle, ask(&handle, SEVEN, "{", "\n"), JSCHEMA_REFUSED, "refused: document 0 at \"\": NotJson");
    expect_refusal("no JSON", &handle, JSCHEMA_NOT_JSON, JSCHEMA_SUBJECT_DOCUMENT, 0, "");
    expect("a fraction", &handle, ask(&handle, SEVEN, "{\"minimum\": 0.5}", "\n"), JSCHEMA_REFUSED,
           "refused: document 0 at \"/minimum\": NotWhole");
    expect_refusal("a fraction", &handle, JSCHEMA_NOT_WHOLE, JSCHEMA_SUBJECT_DOCUMENT, 0, "/minimum");
    expect("finished", &handle, jschema_finish(&handle), JSCHEMA_DONE, "");
    expect("a finished handle", &handle, ask(&handle, SEVEN, "{}", "\n"), JSCHEMA_DONE, "[\"\"]\n");
    jschema_free(&handle);
}

int main(void) {
    test_drafts();
    test_dialects();
    test_nothing();
    test_refused();
    return counted();
}
