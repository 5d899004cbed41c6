/* Each call in each state of a handle: what it returns, and the text afterwards. Prints a line for each that differs;
   the last line is 'N passed, M failed'. */
#include "expecting.h"

#define URI TEXT("https://example.com/s")
#define OTHER TEXT("https://example.com/t")
#define INTEGER TEXT("{\"type\": \"integer\"}")
#define VALID "{\"valid\":true}\n"
#define INVALID "{\"valid\":false}\n"
#define TOO_LARGE "refused: walk: TooLarge"
#define UNRESOLVED "refused: document 0 at \"/$ref\": Unresolved"

/* Every call but `jschema_new` and `jschema_free` is misuse of a handle in this state, and leaves no text. */
static void expect_only_new(const char *state, jschema *handle) {
    size_t entry = 7;
    uint8_t out[1] = {'x'};
    expect(state, handle, jschema_limit(handle, 512, 1000000), JSCHEMA_MISUSED, "");
    expect(state, handle, jschema_add(handle, URI, TEXT("true")), JSCHEMA_MISUSED, "");
    expect(state, handle, jschema_upgrade(handle, NULL, 0), JSCHEMA_MISUSED, "");
    expect(state, handle, jschema_finish(handle), JSCHEMA_MISUSED, "");
    expect(state, handle, jschema_places(handle), JSCHEMA_MISUSED, "");
    expect(state, handle, jschema_entry(handle, URI, &entry), JSCHEMA_MISUSED, "");
    expect(state, handle, jschema_check(handle, 0, TEXT("1"), JSCHEMA_FLAG), JSCHEMA_MISUSED, "");
    expect_that("an entry that isn't found has no number", entry == 7);
    jschema other = JSCHEMA_EMPTY;
    expect(state, handle, jschema_share(handle, &other), JSCHEMA_MISUSED, "");
    expect("nothing is shared", &other, jschema_finish(&other), JSCHEMA_MISUSED, "");
    expect_that("an empty handle has no text", jschema_text(handle, out, 1) == 0 && out[0] == 'x');
    expect_no_refusal(state, handle);
}

static void test_empty(void) {
    jschema handle = JSCHEMA_EMPTY;
    expect_only_new("empty", &handle);
    jschema_free(&handle);
    expect_only_new("freed while empty", &handle);
    expect("new", &handle, jschema_new(&handle), JSCHEMA_DONE, "");
    jschema_free(&handle);
    expect_only_new("freed", &handle);
    jschema_free(&handle);
    expect_only_new("freed twice", &handle);
    memset(&handle, 0, sizeof handle);
    expect_only_new("zeros", &handle);
}

/* Each call that isn't ready, after one that left a text: that text is gone, and the documents are as before. */
static void test_adding(void) {
    jschema handle = JSCHEMA_EMPTY;
    size_t entry = 7;
    const char *not_json = "refused: document 0 at \"\": NotJson";
    expect("new", &handle, jschema_new(&handle), JSCHEMA_DONE, "");
    expect("bad text", &handle, jschema_add(&handle, URI, TEXT("{")), JSCHEMA_REFUSED, not_json);
    expect("a check before the end", &handle, jschema_check(&handle, 0, TEXT("1"), JSCHEMA_FLAG), JSCHEMA_MISUSED, "");
    expect("bad text", &handle, jschema_add(&handle, URI, TEXT("{")), JSCHEMA_REFUSED, not_json);
    expect("an entry before the end", &handle, jschema_entry(&handle, URI, &entry), JSCHEMA_MISUSED, "");
    expect_that("no number", entry == 7);
    expect("bad text", &handle, jschema_add(&handle, URI, TEXT("{")), JSCHEMA_REFUSED, not_json);
    expect("places before the end", &handle, jschema_places(&handle), JSCHEMA_MISUSED, "");
    expect("no UTF-8", &handle, jschema_add(&handle, TEXT("a:\xff"), TEXT("true")), JSCHEMA_MISUSED, "");
    expect("bad URI", &handle, jschema_add(&handle, TEXT("s"), TEXT("true")), JSCHEMA_REFUSED,
           "refused: document 0 at \"\": BadUri");
    expect("no text", &handle, jschema_add(&handle, URI, TEXT("")), JSCHEMA_REFUSED, not_json);
    expect("no URI", &handle, jschema_add(&handle, TEXT(""), TEXT("true")), JSCHEMA_REFUSED,
           "refused: document 0 at \"\": BadUri");
    expect("add", &handle, jschema_add(&handle, URI, TEXT("{\"$ref\": \"t\"}")), JSCHEMA_DONE, "");
    expect("finish, refused", &handle, jschema_finish(&handle), JSCHEMA_REFUSED, UNRESOLVED);
    expect("finish, refused again", &handle, jschema_finish(&handle), JSCHEMA_REFUSED, UNRESOLVED);
    expect("add what was missing", &handle, jschema_add(&handle, OTHER, INTEGER), JSCHEMA_DONE, "");
    expect("finish", &handle, jschema_finish(&handle), JSCHEMA_DONE, "");
    expect("entry", &handle, jschema_entry(&handle, URI, &entry), JSCHEMA_DONE, "");
    expect_that("the first number", entry == 0);
    expect("check", &handle, jschema_check(&handle, entry, TEXT("1"), JSCHEMA_FLAG), JSCHEMA_DONE, VALID);
    expect("new over it", &handle, jschema_new(&handle), JSCHEMA_DONE, "");
    expect("nothing is left", &handle, jschema_check(&handle, 0, TEXT("1"), JSCHEMA_FLAG), JSCHEMA_MISUSED, "");
    expect("no documents", &handle, jschema_finish(&handle), JSCHEMA_DONE, "");
    expect("no places", &handle, jschema_places(&handle), JSCHEMA_DONE, "");
    expect("no schema", &handle, jschema_entry(&handle, URI, &entry), JSCHEMA_REFUSED, "refused: entry: Unresolved");
    jschema_free(&handle);
}

static void test_finished(void) {
    jschema handle = JSCHEMA_EMPTY;
    size_t entry = 7, other = 7;
    jschema_new(&handle);
    jschema_add(&handle, URI, TEXT("{\"properties\": {\"age\": {\"minimum\": 0}}}"));
    jschema_finish(&handle);
    expect("places", &handle, jschema_places(&handle), JSCHEMA_DONE,
           "https://example.com/s#\nhttps://example.com/s#/properties/age\n");
    expect("no entry yet", &handle, jschema_check(&handle, 0, TEXT("1"), JSCHEMA_FLAG), JSCHEMA_MISUSED, "");
    expect("entry", &handle, jschema_entry(&handle, URI, &entry), JSCHEMA_DONE, "");
    expect("other entry", &handle, jschema_entry(&handle, TEXT("https://example.com/s#/properties/age"), &other),
           JSCHEMA_DONE, "");
    expect_that("the numbers", entry == 0 && other == 1);
    expect("a bad entry", &handle, jschema_entry(&handle, TEXT("s"), &entry), JSCHEMA_REFUSED,
           "refused: entry: BadUri");
    expect("an entry that isn't UTF-8", &handle, jschema_entry(&handle, TEXT("a:\xff"), &entry), JSCHEMA_MISUSED, "");
    expect_that("the number stays", entry == 0);
    expect("valid", &handle, jschema_check(&handle, 0, TEXT("{\"age\": 1}"), JSCHEMA_FLAG), JSCHEMA_DONE, VALID);
    expect("no such number", &handle, jschema_check(&handle, 2, TEXT("1"), JSCHEMA_FLAG), JSCHEMA_MISUSED, "");
    expect("invalid", &handle, jschema_check(&handle, 0, TEXT("{\"age\": -1}"), JSCHEMA_FLAG), JSCHEMA_INVALID,
           INVALID);
    expect("no such format", &handle, jschema_check(&handle, 0, TEXT("1"), 5), JSCHEMA_MISUSED, "");
    expect("the greatest", &handle, jschema_check(&handle, SIZE_MAX, TEXT("1"), UINT32_MAX), JSCHEMA_MISUSED, "");
    expect("by the other entry", &handle, jschema_check(&handle, 1, TEXT("-1"), JSCHEMA_FLAG), JSCHEMA_INVALID,
           INVALID);
    expect("add", &handle, jschema_add(&handle, OTHER, TEXT("true")), JSCHEMA_MISUSED, "");
    expect("valid again", &handle, jschema_check(&handle, 0, TEXT("1"), JSCHEMA_FLAG), JSCHEMA_DONE, VALID);
    expect("upgrade", &handle, jschema_upgrade(&handle, NULL, 0), JSCHEMA_MISUSED, "");
    expect("finish again", &handle, jschema_finish(&handle), JSCHEMA_MISUSED, "");
    expect("no instance", &handle, jschema_check(&handle, 0, TEXT(""), JSCHEMA_FLAG), JSCHEMA_REFUSED,
           "refused: instance at \"\": NotJson");
    expect("not whole", &handle, jschema_check(&handle, 0, TEXT("[1.5]"), JSCHEMA_BASIC), JSCHEMA_REFUSED,
           "refused: instance at \"/0\": NotWhole");
    jschema_free(&handle);
}

/* Handles on the same schemas: with the same numbers, each with its own text, and each until it is freed itself. */
static void test_shared(void) {
    jschema handle = JSCHEMA_EMPTY, other = JSCHEMA_EMPTY;
    size_t entry = 7, number = 7;
    jschema_new(&handle);
    jschema_add(&handle, URI, INTEGER);
    jschema_new(&other);
    expect("documents before", &other, jschema_add(&other, OTHER, TEXT("true")), JSCHEMA_DONE, "");
    expect("not finished", &handle, jschema_share(&handle, &other), JSCHEMA_MISUSED, "");
    expect("they stay", &other, jschema_finish(&other), JSCHEMA_DONE, "");
    expect("as they were", &other, jschema_places(&other), JSCHEMA_DONE, "https://example.com/t#\n");
    jschema_finish(&handle);
    jschema_entry(&handle, URI, &entry);
    jschema_check(&handle, entry, TEXT("\"a\""), JSCHEMA_FLAG);
    expect("share", &handle, jschema_share(&handle, &other), JSCHEMA_DONE, INVALID);
    expect("a text of its own", &other, jschema_add(&other, OTHER, TEXT("true")), JSCHEMA_MISUSED, "");
    expect("the same number", &other, jschema_check(&other, entry, TEXT("1"), JSCHEMA_FLAG), JSCHEMA_DONE, VALID);
    expect("the same places", &other, jschema_places(&other), JSCHEMA_DONE, "https://example.com/s#\n");
    expect("a number of its own", &other, jschema_entry(&other, URI, &number), JSCHEMA_DONE, "");
    expect_that("the next number", number == 1);
    expect("not the first one's", &handle, jschema_check(&handle, 1, TEXT("1"), JSCHEMA_FLAG), JSCHEMA_MISUSED, "");
    jschema_free(&handle);
    expect("after the first is freed", &other, jschema_check(&other, number, TEXT("\"a\""), JSCHEMA_FLAG),
           JSCHEMA_INVALID, INVALID);
    expect("share back", &other, jschema_share(&other, &handle), JSCHEMA_DONE, INVALID);
    jschema_free(&other);
    expect("after the second is freed", &handle, jschema_check(&handle, 1, TEXT("1"), JSCHEMA_FLAG), JSCHEMA_DONE,
           VALID);
    jschema_free(&handle);
}

/* Limits that may be set, and what they refuse: three applications are nested here, in a result of six nodes. */
static void test_limits(void) {
    jschema handle = JSCHEMA_EMPTY, other = JSCHEMA_EMPTY;
    size_t entry;
    jschema_new(&handle);
    expect("before documents", &handle, jschema_limit(&handle, 2, 1000000), JSCHEMA_DONE, "");
    jschema_add(&handle, URI,
                TEXT("{\"$ref\": \"#/$defs/a\", \"$defs\": {\"a\": {\"$ref\": \"#/$defs/b\"}, \"b\": true}}"));
    jschema_finish(&handle);
    jschema_entry(&handle, URI, &entry);
    expect("too deep", &handle, jschema_check(&handle, entry, TEXT("1"), JSCHEMA_FLAG), JSCHEMA_REFUSED, TOO_LARGE);
    expect("none", &handle, jschema_limit(&handle, 0, 1000000), JSCHEMA_MISUSED, "");
    expect("too many applications", &handle, jschema_limit(&handle, 513, 1000000), JSCHEMA_MISUSED, "");
    expect("too many nodes", &handle, jschema_limit(&handle, 512, 1000001), JSCHEMA_MISUSED, "");
    expect("the greatest", &handle, jschema_limit(&handle, SIZE_MAX, SIZE_MAX), JSCHEMA_MISUSED, "");
    expect("as before", &handle, jschema_check(&handle, entry, TEXT("1"), JSCHEMA_FLAG), JSCHEMA_REFUSED, TOO_LARGE);
    jschema_new(&other);
    jschema_finish(&other);
    expect("share", &handle, jschema_share(&handle, &other), JSCHEMA_DONE, TOO_LARGE);
    expect("the same limits", &other, jschema_check(&other, entry, TEXT("1"), JSCHEMA_FLAG), JSCHEMA_REFUSED,
           TOO_LARGE);
    expect("deep enough", &handle, jschema_limit(&handle, 3, 1000000), JSCHEMA_DONE, "");
    expect("within", &handle, jschema_check(&handle, entry, TEXT("1"), JSCHEMA_FLAG), JSCHEMA_DONE, VALID);
    expect("the other's stay", &other, jschema_check(&other, entry, TEXT("1"), JSCHEMA_FLAG), JSCHEMA_REFUSED,
           TOO_LARGE);
    expect("no node", &handle, jschema_limit(&handle, 3, 0), JSCHEMA_DONE, "");
    expect("too many", &handle, jschema_check(&handle, entry, TEXT("1"), JSCHEMA_FLAG), JSCHEMA_REFUSED, TOO_LARGE);
    expect("the greatest limits", &handle, jschema_limit(&handle, 512, 1000000), JSCHEMA_DONE, "");
    expect("within them", &handle, jschema_check(&handle, entry, TEXT("1"), JSCHEMA_FLAG), JSCHEMA_DONE, VALID);
    jschema_free(&handle);
    jschema_free(&other);
}

/* A handle that shares with itself: as before, without its text. */
static void test_shared_with_itself(void) {
    jschema handle = JSCHEMA_EMPTY;
    size_t entry;
    expect("an empty one", &handle, jschema_share(&handle, &handle), JSCHEMA_MISUSED, "");
    jschema_new(&handle);
    jschema_add(&handle, URI, INTEGER);
    expect("one that isn't finished", &handle, jschema_share(&handle, &handle), JSCHEMA_MISUSED, "");
    jschema_finish(&handle);
    jschema_entry(&handle, URI, &entry);
    jschema_check(&handle, entry, TEXT("1"), JSCHEMA_FLAG);
    expect("share with itself", &handle, jschema_share(&handle, &handle), JSCHEMA_DONE, "");
    expect("its number", &handle, jschema_check(&handle, entry, TEXT("1"), JSCHEMA_FLAG), JSCHEMA_DONE, VALID);
    expect("its places", &handle, jschema_places(&handle), JSCHEMA_DONE, "https://example.com/s#\n");
    jschema_free(&handle);
}

/* A text of length 0 may have a null pointer. */
static void test_null_texts(void) {
    jschema handle = JSCHEMA_EMPTY;
    const char *no_uri = "refused: document 0 at \"\": BadUri";
    size_t entry = 7;
    jschema_new(&handle);
    expect("no URI", &handle, jschema_add(&handle, NULL, 0, TEXT("true")), JSCHEMA_REFUSED, no_uri);
    expect("no document", &handle, jschema_add(&handle, URI, NULL, 0), JSCHEMA_REFUSED,
           "refused: document 0 at \"\": NotJson");
    expect("neither", &handle, jschema_add(&handle, NULL, 0, NULL, 0), JSCHEMA_REFUSED, no_uri);
    expect_that("no room", jschema_text(&handle, NULL, 0) == strlen(no_uri));
    expect("add", &handle, jschema_add(&handle, URI, INTEGER), JSCHEMA_DONE, "");
    expect_that("no room, and no text", jschema_text(&handle, NULL, 0) == 0);
    expect("finish", &handle, jschema_finish(&handle), JSCHEMA_DONE, "");
    expect("no entry's URI", &handle, jschema_entry(&handle, NULL, 0, &entry), JSCHEMA_REFUSED,
           "refused: entry: BadUri");
    expect_that("no number", entry == 7);
    expect("entry", &handle, jschema_entry(&handle, URI, &entry), JSCHEMA_DONE, "");
    expect("no instance", &handle, jschema_check(&handle, entry, NULL, 0, JSCHEMA_FLAG), JSCHEMA_REFUSED,
           "refused: instance at \"\": NotJson");
    jschema_free(&handle);
    expect_that("an empty handle has no text", jschema_text(&handle, NULL, 0) == 0);
}

/* The longest document, and one that has a byte more. */
static void test_longest_document(void) {
    jschema handle = JSCHEMA_EMPTY;
    const size_t longest = 16777216;
    uint8_t *document = malloc(longest + 1);
    if (document == NULL) give_up("out of memory");
    memset(document, ' ', longest + 1);
    memcpy(document, "true", 4);
    jschema_new(&handle);
    expect("too large", &handle, jschema_add(&handle, URI, document, longest + 1), JSCHEMA_REFUSED,
           "refused: input: InputTooLarge");
    expect("too large, and a bad URI", &handle, jschema_add(&handle, TEXT("s"), document, longest + 1),
           JSCHEMA_REFUSED, "refused: input: InputTooLarge");
    expect("too large, and no UTF-8", &handle, jschema_add(&handle, TEXT("a:\xff"), document, longest + 1),
           JSCHEMA_MISUSED, "");
    expect("too large", &handle, jschema_add(&handle, URI, document, longest + 1), JSCHEMA_REFUSED,
           "refused: input: InputTooLarge");
    expect_refusal("too large", &handle, JSCHEMA_INPUT_TOO_LARGE, JSCHEMA_SUBJECT_INPUT, JSCHEMA_NO_DOCUMENT, "");
    expect("the longest", &handle, jschema_add(&handle, URI, document, longest), JSCHEMA_DONE, "");
    expect("finish", &handle, jschema_finish(&handle), JSCHEMA_DONE, "");
    expect("it alone was added", &handle, jschema_places(&handle), JSCHEMA_DONE, "https://example.com/s#\n");
    jschema_free(&handle);
    free(document);
}

/* As much of a text as fits is copied, and the rest of the room stays. */
static void test_text(void) {
    jschema handle = JSCHEMA_EMPTY;
    size_t entry, length = strlen(VALID);
    uint8_t out[32];
    jschema_new(&handle);
    jschema_add(&handle, URI, TEXT("true"));
    jschema_finish(&handle);
    jschema_entry(&handle, URI, &entry);
    jschema_check(&handle, entry, TEXT("1"), JSCHEMA_FLAG);
    for (size_t room = 0; room <= sizeof out; room++) {
        size_t fits = room < length ? room : length;
        memset(out, 'x', sizeof out);
        expect_that("the length", jschema_text(&handle, out, room) == length);
        expect_that("the text", memcmp(out, VALID, fits) == 0);
        for (size_t i = fits; i < sizeof out; i++) expect_that("the rest", out[i] == 'x');
    }
    jschema_free(&handle);
}

/* A refusal in numbers, for each subject: until the next call that isn't jschema_text, jschema_refusal or
   jschema_share. */
static void test_refusals(void) {
    const size_t no_document = JSCHEMA_NO_DOCUMENT;
    jschema handle = JSCHEMA_EMPTY, other = JSCHEMA_EMPTY;
    size_t entry;
    jschema_new(&handle);
    expect_no_refusal("new", &handle);
    jschema_add(&handle, TEXT("s"), TEXT("true"));
    expect_refusal("a bad URI", &handle, JSCHEMA_BAD_URI, JSCHEMA_SUBJECT_DOCUMENT, 0, "");
    expect_refusal("asked again", &handle, JSCHEMA_BAD_URI, JSCHEMA_SUBJECT_DOCUMENT, 0, "");
    jschema_add(&handle, OTHER, TEXT("true"));
    expect_no_refusal("added", &handle);
    jschema_add(&handle, URI, TEXT("[{\"~a/\": 1.5}]"));
    expect_refusal("not whole", &handle, JSCHEMA_NOT_WHOLE, JSCHEMA_SUBJECT_DOCUMENT, 1, "/0/~0a~1");
    jschema_add(&handle, TEXT("a:\xff"), TEXT("true"));
    expect_no_refusal("misused", &handle);
    jschema_add(&handle, URI, TEXT("{\"not\": {\"minimum\": \"0\"}}"));
    jschema_finish(&handle);
    expect_refusal("a bad keyword", &handle, JSCHEMA_BAD_KEYWORD, JSCHEMA_SUBJECT_DOCUMENT, 1, "/not/minimum");
    jschema_share(&handle, &other);
    expect_refusal("as before", &handle, JSCHEMA_BAD_KEYWORD, JSCHEMA_SUBJECT_DOCUMENT, 1, "/not/minimum");
    jschema_new(&handle);
    expect_no_refusal("new again", &handle);
    jschema_add(&handle, URI, TEXT("{\"$ref\": \"#/$defs/a\", \"$defs\": {\"a\": true}}"));
    jschema_finish(&handle);
    expect_no_refusal("finished", &handle);
    jschema_entry(&handle, TEXT("https://example.com/s#b"), &entry);
    expect_refusal("no schema", &handle, JSCHEMA_UNRESOLVED, JSCHEMA_SUBJECT_ENTRY, no_document, "");
    jschema_places(&handle);
    expect_no_refusal("listed", &handle);
    jschema_entry(&handle, URI, &entry);
    expect_no_refusal("an entry", &handle);
    jschema_check(&handle, entry, TEXT("["), JSCHEMA_BASIC);
    expect_refusal("not JSON", &handle, JSCHEMA_NOT_JSON, JSCHEMA_SUBJECT_INSTANCE, no_document, "");
    jschema_check(&handle, entry, TEXT("1"), JSCHEMA_FLAG);
    expect_no_refusal("checked", &handle);
    jschema_check(&handle, entry, TEXT("{\"a\": [0.5]}"), JSCHEMA_FLAG);
    expect_refusal("not whole", &handle, JSCHEMA_NOT_WHOLE, JSCHEMA_SUBJECT_INSTANCE, no_document, "/a/0");
    jschema_share(&handle, &other);
    expect_no_refusal("another handle", &other);
    jschema_limit(&handle, 1, 0);
    expect_no_refusal("limits", &handle);
    jschema_check(&handle, entry, TEXT("1"), JSCHEMA_BASIC);
    expect_refusal("too large", &handle, JSCHEMA_TOO_LARGE, JSCHEMA_SUBJECT_WALK, no_document, "");
    jschema_free(&other);
    jschema_free(&handle);
    expect_no_refusal("freed", &handle);
}

/* As much of a place as fits is copied, and the rest of the room stays. */
static void test_place_room(void) {
    const char *place = "/properties/age/minimum";
    const size_t length = strlen(place);
    jschema handle = JSCHEMA_EMPTY;
    uint32_t kind, subject;
    size_t document, said;
    char out[32];
    jschema_new(&handle);
    jschema_add(&handle, URI, TEXT("{\"properties\": {\"age\": {\"minimum\": \"0\"}}}"));
    jschema_finish(&handle);
    for (size_t room = 0; room <= sizeof out; room++) {
        size_t fits = room < length ? room : length;
        memset(out, 'x', sizeof out);
        expect_that("a refusal", jschema_refusal(&handle, &kind, &subject, &document, (uint8_t *)(room ? out : NULL),
                                                 room, &said) == JSCHEMA_DONE);
        expect_that("the length of the place", said == length);
        expect_that("the place", memcmp(out, place, fits) == 0);
        for (size_t i = fits; i < sizeof out; i++) expect_that("the rest", out[i] == 'x');
    }
    jschema_free(&handle);
}

/* A URI with a zero byte, wherever it stands, is no argument of the program, and none of these calls. */
static void test_zero_bytes(void) {
    jschema handle = JSCHEMA_EMPTY;
    size_t entry = 7;
    jschema_new(&handle);
    expect("a zero byte alone", &handle, jschema_add(&handle, TEXT("\0"), TEXT("true")), JSCHEMA_MISUSED, "");
    expect("at the beginning", &handle, jschema_add(&handle, TEXT("\0a:b"), TEXT("true")), JSCHEMA_MISUSED, "");
    expect("within", &handle, jschema_add(&handle, TEXT("a:\0b"), TEXT("true")), JSCHEMA_MISUSED, "");
    expect("at the end", &handle, jschema_add(&handle, TEXT("a:b\0"), TEXT("true")), JSCHEMA_MISUSED, "");
    expect("with no text", &handle, jschema_add(&handle, TEXT("a:b\0"), TEXT("")), JSCHEMA_MISUSED, "");
    expect("an escape", &handle, jschema_add(&handle, TEXT("a:%00"), TEXT("true")), JSCHEMA_DONE, "");
    expect("in a document", &handle, jschema_add(&handle, URI, TEXT("\0")), JSCHEMA_REFUSED,
           "refused: document 1 at \"\": NotJson");
    expect("finish", &handle, jschema_finish(&handle), JSCHEMA_DONE, "");
    expect("one was added", &handle, jschema_places(&handle), JSCHEMA_DONE, "a:%00#\n");
    expect("an entry", &handle, jschema_entry(&handle, TEXT("a:%00\0"), &entry), JSCHEMA_MISUSED, "");
    expect_that("no number", entry == 7);
    jschema_free(&handle);
}

int main(void) {
    test_empty();
    test_refusals();
    test_place_room();
    test_zero_bytes();
    test_adding();
    test_finished();
    test_shared();
    test_limits();
    test_shared_with_itself();
    test_null_texts();
    test_longest_document();
    test_text();
    expect_that("the version", jschema_version() == JSCHEMA_VERSION);
    return counted();
}
