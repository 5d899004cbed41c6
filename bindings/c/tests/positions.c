/* Where values stand in a text: what jschema_positions returns. Prints a line for each call that differs; the last line
   is 'N passed, M failed'. */
#include "common.h"

static int passed, failed;

static void expect_that(const char *what, int holds) {
    passed += holds != 0;
    failed += holds == 0;
    if (!holds) printf("FAILED %s\n", what);
}

#define NOWHERE JSCHEMA_NOWHERE
#define NO_NAME NOWHERE, NOWHERE, NOWHERE
#define NOTHING {NOWHERE, NOWHERE, NOWHERE, NOWHERE, NO_NAME}
#define MOST_POINTERS 16

/* Counts a call that returns `status` and gives these positions; unless that is JSCHEMA_DONE, they have to stay. */
static void expect_positions(const char *what, const uint8_t *text, size_t length, const char *const *pointers,
                             size_t count, uint32_t status, const jschema_position *wanted) {
    jschema_position found[MOST_POINTERS], before[MOST_POINTERS];
    size_t ends[MOST_POINTERS] = {0}, end = 0;
    char all[256] = "";
    for (size_t i = 0; i < count; i++) {
        memcpy(all + end, pointers[i], strlen(pointers[i]));
        ends[i] = end += strlen(pointers[i]);
    }
    memset(before, 'x', sizeof before);
    memcpy(found, before, sizeof found);
    expect_that(what, jschema_positions(text, length, (uint8_t *)all, end, ends, count, found, count) == status);
    for (size_t i = 0; i < count; i++)
        if (memcmp(&found[i], status == JSCHEMA_DONE ? &wanted[i] : &before[i], sizeof found[i]) != 0) {
            failed++;
            printf("FAILED %s: '%s' at %zu %zu %zu up to %zu, name at %zu %zu %zu\n", what, pointers[i],
                   found[i].offset, found[i].line, found[i].column, found[i].end, found[i].name_offset,
                   found[i].name_line, found[i].name_column);
        } else {
            passed++;
        }
}

static void test_positions(void) {
    static const char *const pointers[] = {"", "/a", "/b~1c", "/b~1c/0", "/b~1c/1/1", "/b~1c/2", "/b~1c/2/~0",
                                           "/b~1c/-", "/b~1c/3", "/b~1c/01", "/c", "/a/0", "/b~1c/1", "/a"};
    static const jschema_position wanted[] = {
        {0, 1, 1, 64, NO_NAME}, {62, 3, 7, 63, 57, 3, 2}, {17, 2, 9, 54, 10, 2, 2}, {18, 2, 10, 22, NO_NAME},
        {35, 2, 27, 39, NO_NAME}, {42, 2, 33, 53, NO_NAME}, {48, 2, 39, 52, 43, 2, 34},
        NOTHING, NOTHING, NOTHING, NOTHING, NOTHING, {24, 2, 16, 40, NO_NAME}, {62, 3, 7, 63, 57, 3, 2}};
    expect_positions("positions", TEXT("{\"a\": 1,\n \"b/c\": [true, [\"\\u00e9\", \"\xc3\xa9\"], {\"~\": null}],\n"
                                       " \"a\": 2}"), pointers, 14, JSCHEMA_DONE, wanted);
    static const char *const escaped[] = {"/a\n", "/\xc3\xa9\"/0"};
    static const jschema_position there[] = {{13, 1, 14, 14, 1, 1, 2}, {29, 1, 30, 34, NO_NAME}};
    expect_positions("escapes in names", TEXT("{\"\\u0061\\n\": 0, \"\\u00e9\\\"\": [1e999]}"), escaped, 2,
                     JSCHEMA_DONE, there);
    static const char *const words[] = {"", "/0", "/1", "/2", "/3"};
    static const jschema_position spaced[] = {{1, 1, 2, 24, NO_NAME}, {2, 1, 3, 4, NO_NAME}, {7, 1, 8, 12, NO_NAME},
                                              {13, 1, 14, 17, NO_NAME}, {20, 2, 3, 22, NO_NAME}};
    expect_positions("what stands behind values", TEXT(" [-1 , \"a, \",null\n, [] ] \t"), words, 5, JSCHEMA_DONE,
                     spaced);
    static const char *const deep[] = {"/0/0/0"};
    static const jschema_position within[] = {{4, 2, 2, 6, NO_NAME}};
    expect_positions("arrays", TEXT("[[\n[[]]]]"), deep, 1, JSCHEMA_DONE, within);
}

/* What is refused or misused, and leaves the positions as they were. */
static void test_no_positions(void) {
    static const char *const root[] = {""}, *const bare[] = {"a"}, *const tilde[] = {"", "/~2"};
    static const char *const torn[] = {"/\xc3"};
    expect_positions("broken text", TEXT("[1,"), root, 1, JSCHEMA_REFUSED, NULL);
    expect_positions("no text", TEXT(""), root, 1, JSCHEMA_REFUSED, NULL);
    expect_positions("no UTF-8", TEXT("\"\xc3\""), root, 1, JSCHEMA_REFUSED, NULL);
    expect_positions("a byte order mark", TEXT("\xef\xbb\xbf" "1"), root, 1, JSCHEMA_REFUSED, NULL);
    expect_positions("no slash", TEXT("{}"), bare, 1, JSCHEMA_MISUSED, NULL);
    expect_positions("an escape that isn't one", TEXT("{}"), tilde, 2, JSCHEMA_MISUSED, NULL);
    expect_positions("a pointer that isn't UTF-8", TEXT("{}"), torn, 1, JSCHEMA_MISUSED, NULL);
    expect_positions("misuse before the text", TEXT("["), bare, 1, JSCHEMA_MISUSED, NULL);
    jschema_position at[2];
    size_t beyond[] = {3}, down[] = {2, 1}, halves[] = {0, 2};
    expect_that("an end beyond", jschema_positions(TEXT("{}"), TEXT("/a"), beyond, 1, at, 1) == JSCHEMA_MISUSED);
    expect_that("an end before another", jschema_positions(TEXT("{}"), TEXT("/a"), down, 2, at, 2) == JSCHEMA_MISUSED);
    expect_that("too few positions", jschema_positions(TEXT("{}"), TEXT("/a"), halves, 2, at, 1) == JSCHEMA_MISUSED);
    expect_that("too many positions", jschema_positions(TEXT("{}"), TEXT("/a"), halves, 1, at, 2) == JSCHEMA_MISUSED);
    expect_that("no pointers", jschema_positions(TEXT("{}"), TEXT(""), halves, 0, at, 0) == JSCHEMA_DONE);
    expect_that("none in no JSON", jschema_positions(TEXT("{"), TEXT(""), halves, 0, at, 0) == JSCHEMA_REFUSED);
}

int main(void) {
    test_positions();
    test_no_positions();
    printf("%d passed, %d failed\n", passed, failed);
    return failed != 0;
}
