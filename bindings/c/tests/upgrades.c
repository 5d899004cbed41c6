/* jschema_upgrade in each state of a handle, and the verdicts of documents of each draft afterwards. Prints a line for
   each that differs; the last line is 'N passed, M failed'. */
#include "expecting.h"

#define URI TEXT("https://example.com/s")
#define OTHER TEXT("https://example.com/t")
#define SEVEN "http://json-schema.org/draft-07/schema#"
#define LATEST "https://json-schema.org/draft/2020-12/schema"
#define UNKNOWN "refused: document 0 at \"/$schema\": UnknownDialect"

/* A check whose verdict is expected. */
static void expect_verdict(const char *what, jschema *handle, size_t entry, const char *instance, int is_valid) {
    expect(what, handle,
           jschema_check(handle, entry, (const uint8_t *)instance, strlen(instance), JSCHEMA_FLAG),
           is_valid ? JSCHEMA_DONE : JSCHEMA_INVALID, is_valid ? "{\"valid\":true}\n" : "{\"valid\":false}\n");
}

static void expect_upgrade(const char *what, jschema *handle, const char *dialect, uint32_t status, const char *said) {
    expect(what, handle, jschema_upgrade(handle, (const uint8_t *)dialect, strlen(dialect)), status, said);
}

/* One document, upgraded from the assumed dialect and finished: the number of its entry. */
static size_t begin(jschema *handle, const char *document, const char *dialect) {
    size_t entry = 7;
    expect("new", handle, jschema_new(handle), JSCHEMA_DONE, "");
    expect("add", handle, jschema_add(handle, URI, (const uint8_t *)document, strlen(document)), JSCHEMA_DONE, "");
    expect_upgrade("upgrade", handle, dialect, JSCHEMA_DONE, "");
    expect("finish", handle, jschema_finish(handle), JSCHEMA_DONE, "");
    expect("entry", handle, jschema_entry(handle, URI, &entry), JSCHEMA_DONE, "");
    return entry;
}

/* draft-07: Core 8.3 (siblings of `$ref` are ignored), Validation 9 (`definitions`), 6.4.1 (`items`). */
static void test_definitions(void) {
    jschema handle = JSCHEMA_EMPTY;
    size_t entry = begin(&handle,
                         "{\"$schema\": \"" SEVEN "\","
                         " \"definitions\": {\"pair\": {\"items\": [{\"type\": \"integer\"}],"
                         " \"additionalItems\": false}},"
                         " \"properties\": {\"at\": {\"$ref\": \"#/definitions/pair\", \"maxItems\": 0},"
                         " \"first\": {\"$ref\": \"#/definitions/pair/items/0\"}}}",
                         "");
    expect("places", &handle, jschema_places(&handle), JSCHEMA_DONE,
           "https://example.com/s#\n"
           "https://example.com/s#/$defs/pair\n"
           "https://example.com/s#/$defs/pair/items\n"
           "https://example.com/s#/$defs/pair/prefixItems/0\n"
           "https://example.com/s#/properties/at\n"
           "https://example.com/s#/properties/first\n");
    expect_verdict("a sibling of a reference is ignored", &handle, entry, "{\"at\": [1]}", 1);
    expect_verdict("the first item", &handle, entry, "{\"at\": [\"1\"]}", 0);
    expect_verdict("one item more", &handle, entry, "{\"at\": [1, 2]}", 0);
    expect_verdict("a reference to a list's schema", &handle, entry, "{\"first\": \"1\"}", 0);
    expect_verdict("and what it lets through", &handle, entry, "{\"first\": 1}", 1);
    jschema_free(&handle);
}

/* What the dialect is where a document names none. draft-03: 5.28 (`required` in a member), 5.24 (`divisibleBy`);
   draft-04: Validation 5.1.3 (`exclusiveMinimum`); draft-06: Validation 6.5 (it is a number); 2019-09: 9.3.1.1. */
static void test_assumed(void) {
    jschema handle = JSCHEMA_EMPTY;
    size_t entry = begin(&handle, "{\"properties\": {\"a\": {\"required\": true, \"divisibleBy\": 2}}}",
                         "http://json-schema.org/draft-03/schema#");
    expect_verdict("required of draft-03", &handle, entry, "{}", 0);
    expect_verdict("divisibleBy", &handle, entry, "{\"a\": 3}", 0);
    expect_verdict("neither is broken", &handle, entry, "{\"a\": 4}", 1);
    entry = begin(&handle, "{\"minimum\": 1, \"exclusiveMinimum\": true}", "https://json-schema.org/draft-04/schema");
    expect_verdict("the bound itself", &handle, entry, "1", 0);
    expect_verdict("above it", &handle, entry, "2", 1);
    entry = begin(&handle, "{\"exclusiveMinimum\": 1, \"if\": true, \"then\": false}",
                  "http://json-schema.org/draft-06/schema#");
    expect_verdict("a bound of draft-06", &handle, entry, "1", 0);
    expect_verdict("if is unknown there", &handle, entry, "2", 1);
    entry = begin(&handle, "{\"items\": [true], \"additionalItems\": {\"type\": \"null\"}}",
                  "https://json-schema.org/draft/2019-09/schema");
    expect_verdict("the items behind the list", &handle, entry, "[1, 2]", 0);
    expect_verdict("as they may be", &handle, entry, "[1, null]", 1);
    jschema_free(&handle);
}

/* A document of 2020-12 stays: a sibling of its reference acts, `dependencies` doesn't. */
static void test_unchanged(void) {
    const char *document = "{\"$ref\": \"#/$defs/a\", \"maximum\": 5, \"dependencies\": {\"b\": [\"c\"]},"
                           " \"$defs\": {\"a\": {\"minimum\": 1}}}";
    jschema handle = JSCHEMA_EMPTY;
    for (int named = 0; named < 2; named++) {
        size_t entry = begin(&handle, document, named ? LATEST : "");
        expect("places", &handle, jschema_places(&handle), JSCHEMA_DONE,
               "https://example.com/s#\nhttps://example.com/s#/$defs/a\n");
        expect_verdict("the reference", &handle, entry, "0", 0);
        expect_verdict("its sibling", &handle, entry, "6", 0);
        expect_verdict("both", &handle, entry, "5", 1);
        expect_verdict("dependencies is no keyword", &handle, entry, "{\"b\": 1}", 1);
    }
    jschema_free(&handle);
}

/* Documents of several drafts that refer to one another, also by a keyword that moves. */
static void test_together(void) {
    jschema handle = JSCHEMA_EMPTY;
    size_t entry;
    jschema_new(&handle);
    jschema_add(&handle, URI, TEXT("{\"$schema\": \"" LATEST "\", \"$ref\": \"t#/definitions/even\"}"));
    expect_upgrade("the other isn't there yet", &handle, "", JSCHEMA_REFUSED,
                   "refused: document 0 at \"/$ref\": Unresolved");
    jschema_add(&handle, OTHER, TEXT("{\"$schema\": \"http://json-schema.org/draft-03/schema#\","
                                     " \"definitions\": {\"even\": {\"divisibleBy\": 2}}}"));
    expect_upgrade("both", &handle, "", JSCHEMA_DONE, "");
    expect_upgrade("and once more", &handle, "", JSCHEMA_DONE, "");
    expect("finish", &handle, jschema_finish(&handle), JSCHEMA_DONE, "");
    expect("places", &handle, jschema_places(&handle), JSCHEMA_DONE,
           "https://example.com/s#\nhttps://example.com/t#\nhttps://example.com/t#/$defs/even\n");
    jschema_entry(&handle, URI, &entry);
    expect_verdict("even", &handle, entry, "4", 1);
    expect_verdict("odd", &handle, entry, "3", 0);
    jschema_free(&handle);
}

/* The text of each document: as it was added, but compact and with ascending names, and as it is upgraded. */
static void test_documents(void) {
    jschema handle = JSCHEMA_EMPTY;
    expect("an empty handle", &handle, jschema_document(&handle, 0), JSCHEMA_MISUSED, "");
    jschema_new(&handle);
    expect("no document", &handle, jschema_document(&handle, 0), JSCHEMA_MISUSED, "");
    jschema_add(&handle, URI, TEXT("{\"minimum\": 3,\n \"$schema\": \"" LATEST "\"}"));
    jschema_add(&handle, OTHER, TEXT("{\"$schema\": \"" SEVEN "\", \"definitions\": {\"\u00e9\": true}}"));
    expect("the first", &handle, jschema_document(&handle, 0), JSCHEMA_DONE,
           "{\"$schema\":\"" LATEST "\",\"minimum\":3}\n");
    expect("the second", &handle, jschema_document(&handle, 1), JSCHEMA_DONE,
           "{\"$schema\":\"" SEVEN "\",\"definitions\":{\"\u00e9\":true}}\n");
    expect("no third", &handle, jschema_document(&handle, 2), JSCHEMA_MISUSED, "");
    expect("none of a great number", &handle, jschema_document(&handle, SIZE_MAX), JSCHEMA_MISUSED, "");
    expect_no_refusal("of a document", &handle);
    expect_upgrade("upgrade", &handle, "", JSCHEMA_DONE, "");
    expect("the first stays", &handle, jschema_document(&handle, 0), JSCHEMA_DONE,
           "{\"$schema\":\"" LATEST "\",\"minimum\":3}\n");
    expect("the second is of 2020-12", &handle, jschema_document(&handle, 1), JSCHEMA_DONE,
           "{\"$defs\":{\"\u00e9\":true},\"$schema\":\"" LATEST "\"}\n");
    expect("finish", &handle, jschema_finish(&handle), JSCHEMA_DONE, "");
    expect("a finished handle", &handle, jschema_document(&handle, 0), JSCHEMA_MISUSED, "");
    jschema_free(&handle);
    expect("a freed handle", &handle, jschema_document(&handle, 0), JSCHEMA_MISUSED, "");
}

/* A URI that names no dialect, whatever the documents are: nothing changes. */
static void test_misused(void) {
    jschema handle = JSCHEMA_EMPTY;
    expect_upgrade("an empty handle", &handle, "", JSCHEMA_MISUSED, "");
    jschema_new(&handle);
    expect_upgrade("no documents", &handle, "", JSCHEMA_DONE, "");
    jschema_add(&handle, URI, TEXT("{\"$schema\": \"" SEVEN "\"}"));
    expect_upgrade("a name", &handle, "draft-07", JSCHEMA_MISUSED, "");
    expect_no_refusal("of a name", &handle);
    expect_upgrade("another URI", &handle, "https://example.com/dialect", JSCHEMA_MISUSED, "");
    expect_upgrade("a draft that there isn't", &handle, "http://json-schema.org/draft-05/schema#", JSCHEMA_MISUSED, "");
    expect("no UTF-8", &handle, jschema_upgrade(&handle, TEXT("\xff")), JSCHEMA_MISUSED, "");
    expect("a zero byte", &handle, jschema_upgrade(&handle, TEXT("\0")), JSCHEMA_MISUSED, "");
    expect("the document is as before", &handle, jschema_finish(&handle), JSCHEMA_REFUSED, UNKNOWN);
    expect_upgrade("now", &handle, "", JSCHEMA_DONE, "");
    expect("finish", &handle, jschema_finish(&handle), JSCHEMA_DONE, "");
    expect_upgrade("a finished handle", &handle, "", JSCHEMA_MISUSED, "");
    expect_upgrade("and a URI that names none", &handle, "draft-07", JSCHEMA_MISUSED, "");
    jschema_free(&handle);
    expect_upgrade("a freed handle", &handle, "", JSCHEMA_MISUSED, "");
}

/* A document of draft-07 after one of 2020-12 in which nothing is wrong: what it's refused for, and where. */
static void expect_refused(const char *document, uint32_t kind, const char *place) {
    jschema handle = JSCHEMA_EMPTY;
    jschema_new(&handle);
    expect(document, &handle, jschema_add(&handle, OTHER, TEXT("{\"$defs\": {\"a\": {\"$ref\": \"#\"}}}")),
           JSCHEMA_DONE, "");
    expect(document, &handle, jschema_add(&handle, URI, (const uint8_t *)document, strlen(document)), JSCHEMA_DONE, "");
    expect_that(document, jschema_upgrade(&handle, TEXT(SEVEN)) == JSCHEMA_REFUSED);
    expect_refusal(document, &handle, kind, JSCHEMA_SUBJECT_DOCUMENT, 1, place);
    expect_that("again", jschema_upgrade(&handle, TEXT(SEVEN)) == JSCHEMA_REFUSED);
    expect_refusal(document, &handle, kind, JSCHEMA_SUBJECT_DOCUMENT, 1, place);
    jschema_free(&handle);
}

static void test_refused(void) {
    jschema handle = JSCHEMA_EMPTY;
    expect_refused("{\"$schema\": \"https://example.com/dialect\"}", JSCHEMA_UNKNOWN_DIALECT, "/$schema");
    expect_refused("{\"$schema\": 7}", JSCHEMA_BAD_KEYWORD, "/$schema");
    expect_refused("{\"items\": [true, {\"$id\": 7}]}", JSCHEMA_BAD_KEYWORD, "/items/1/$id");
    expect_refused("{\"properties\": {\"a/b\": {\"$ref\": {}}}}", JSCHEMA_BAD_KEYWORD, "/properties/a~1b/$ref");
    expect_refused("{\"not\": {\"$id\": \"http://a:b\"}}", JSCHEMA_BAD_ID, "/not/$id");
    expect_refused("{\"not\": {\"$ref\": \"http://a:b\"}}", JSCHEMA_BAD_REFERENCE, "/not/$ref");
    expect_refused("{\"anyOf\": [{\"$ref\": \"#/definitions/a\"}]}", JSCHEMA_UNRESOLVED, "/anyOf/0/$ref");
    jschema_new(&handle);
    expect("add", &handle, jschema_add(&handle, URI, TEXT("true")), JSCHEMA_DONE, "");
    expect("add another", &handle, jschema_add(&handle, OTHER, TEXT("true")), JSCHEMA_DONE, "");
    expect("add the first again", &handle, jschema_add(&handle, URI, TEXT("true")), JSCHEMA_DONE, "");
    expect_upgrade("two under one URI", &handle, "", JSCHEMA_REFUSED, "refused: document 2 at \"\": DuplicateUri");
    expect_refusal("two under one URI", &handle, JSCHEMA_DUPLICATE_URI, JSCHEMA_SUBJECT_DOCUMENT, 2, "");
    jschema_free(&handle);
}

/* An identifier of more than 65,536 bytes, and a reference of more. */
static void test_long_uris(void) {
    static char document[66000];
    for (int is_reference = 0; is_reference < 2; is_reference++) {
        memset(document, 'a', sizeof document);
        memcpy(document, is_reference ? "{\"$ref\":\"urn:" : "{\"$id\": \"urn:", 13);
        memcpy(document + 13 + 65533, "\"}", 3);
        expect_refused(document, JSCHEMA_URI_TOO_LONG, is_reference ? "/$ref" : "/$id");
    }
}

/* As many documents as may be added. */
static void test_many_documents(void) {
    jschema handle = JSCHEMA_EMPTY;
    char uri[32];
    jschema_new(&handle);
    for (int number = 0; number < 1000; number++) {
        int length = snprintf(uri, sizeof uri, "urn:a:%d", number);
        expect_that("add", jschema_add(&handle, (const uint8_t *)uri, (size_t)length, TEXT("{\"id\": \"urn:b\"}"))
                    == JSCHEMA_DONE);
    }
    expect_upgrade("a thousand documents", &handle, "http://json-schema.org/draft-06/schema#", JSCHEMA_DONE, "");
    expect("finish", &handle, jschema_finish(&handle), JSCHEMA_DONE, "");
    jschema_free(&handle);
}

int main(void) {
    test_definitions();
    test_assumed();
    test_unchanged();
    test_together();
    test_documents();
    test_misused();
    test_refused();
    test_long_uris();
    test_many_documents();
    return counted();
}
