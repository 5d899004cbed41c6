/* What the test programs share. */
#ifndef COMMON_H
#define COMMON_H

#include "jschema.h"
#include <stdio.h>
#include <stdlib.h>
#include <string.h>

/* A literal as a text and its length. */
#define TEXT(literal) (const uint8_t *)(literal), sizeof(literal) - 1

typedef struct {
    uint8_t *bytes;
    size_t length;
} text;

static _Noreturn void give_up(const char *why) {
    fprintf(stderr, "%s\n", why);
    exit(9);
}

/* The last call's text. The program ends where the heap gives no room. */
static inline text text_of(jschema *handle) {
    text got;
    got.length = jschema_text(handle, (uint8_t *)"", 0);
    got.bytes = malloc(got.length + 1);
    if (got.bytes == NULL) give_up("out of memory");
    if (jschema_text(handle, got.bytes, got.length) != got.length) give_up("the text has another length");
    got.bytes[got.length] = 0;
    return got;
}

/* A file's bytes. */
static inline text load(const char *path) {
    text got = {malloc(1), 0};
    size_t room = 1, more;
    FILE *file = fopen(path, "rb");
    if (file == NULL || got.bytes == NULL) give_up(path);
    while ((more = fread(got.bytes + got.length, 1, room - got.length, file)) > 0) {
        got.length += more;
        if (got.length == room) got.bytes = realloc(got.bytes, room *= 2);
        if (got.bytes == NULL) give_up("out of memory");
    }
    fclose(file);
    return got;
}

#endif
