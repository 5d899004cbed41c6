/* What the tests of calls share: each counts a call, and prints a line for one that differs. */
#ifndef EXPECTING_H
#define EXPECTING_H

#include "common.h"

static int passed, failed;

/* Counts a call that returns `status` and leaves this text. */
static inline void expect(const char *what, jschema *handle, uint32_t got, uint32_t wanted, const char *said) {
    text is = text_of(handle);
    if (got == wanted && is.length == strlen(said) && memcmp(is.bytes, said, is.length) == 0) {
        passed++;
    } else {
        failed++;
        printf("FAILED %s: status %u, wanted %u; text '%s', wanted '%s'\n", what, got, wanted, is.bytes, said);
    }
    free(is.bytes);
}

static inline void expect_that(const char *what, int holds) {
    passed += holds != 0;
    failed += holds == 0;
    if (!holds) printf("FAILED %s\n", what);
}

/* What jschema_refusal tells, and the place. */
typedef struct {
    uint32_t status, kind, subject;
    size_t document, place_length;
    char place[64];
} told;

static inline told told_of(jschema *handle) {
    told is = {0, 77, 78, 79, 80, ""};
    memset(is.place, 'x', sizeof is.place);
    is.status = jschema_refusal(handle, &is.kind, &is.subject, &is.document, (uint8_t *)is.place, sizeof is.place,
                                &is.place_length);
    return is;
}

/* The last call refused this. */
static inline void expect_refusal(const char *what, jschema *handle, uint32_t kind, uint32_t subject, size_t document,
                                  const char *place) {
    told is = told_of(handle);
    size_t length = strlen(place);
    int holds = is.status == JSCHEMA_DONE && is.kind == kind && is.subject == subject && is.document == document
        && is.place_length == length && memcmp(is.place, place, length) == 0;
    for (size_t i = length; i < sizeof is.place; i++) holds = holds && is.place[i] == 'x';
    expect_that(what, holds);
}

/* The last call refused nothing: what is asked for stays. */
static inline void expect_no_refusal(const char *what, jschema *handle) {
    told is = told_of(handle);
    int holds = is.status == JSCHEMA_MISUSED && is.kind == 77 && is.subject == 78 && is.document == 79
        && is.place_length == 80;
    for (size_t i = 0; i < sizeof is.place; i++) holds = holds && is.place[i] == 'x';
    expect_that(what, holds);
}

/* Prints the counts, and returns the program's status. */
static inline int counted(void) {
    printf("%d passed, %d failed\n", passed, failed);
    return failed != 0;
}

#endif
