/* A library that is wrong, for the tests of ../test: each call does ACT and returns STATUS, and every text is ANSWER,
   or with RIGHT_SHAPE 'valid' in the format of the last check. */
#include "jschema.h"
#include <stdlib.h>
#include <string.h>
#include <unistd.h>

#ifndef ACT
#define ACT (void)0
#endif
#ifndef STATUS
#define STATUS 0
#endif

static uint32_t format_asked;

#ifdef RIGHT_SHAPE
static const char *in_shape(void) {
    switch (format_asked) {
    case JSCHEMA_FLAG:
        return "{\"valid\":true}\n";
    case JSCHEMA_BASIC:
        return "{\"annotations\":[],\"valid\":true}\n";
    default:
        return "{\"absoluteKeywordLocation\":\"a:b#\",\"instanceLocation\":\"\","
               "\"keywordLocation\":\"\",\"valid\":true}\n";
    }
}
#define ANSWER in_shape()
#endif
#ifndef ANSWER
#define ANSWER ""
#endif

static uint32_t act(void) {
    ACT;
    return STATUS;
}

uint32_t jschema_new(jschema *handle) { return (void)handle, act(); }

uint32_t jschema_limit(jschema *handle, size_t applications, size_t nodes) {
    return (void)handle, (void)applications, (void)nodes, act();
}

uint32_t jschema_add(jschema *handle, const uint8_t *uri, size_t uri_length,
                     const uint8_t *document, size_t document_length) {
    return (void)handle, (void)uri, (void)uri_length, (void)document, (void)document_length, act();
}

uint32_t jschema_upgrade(jschema *handle, const uint8_t *dialect, size_t dialect_length) {
    return (void)handle, (void)dialect, (void)dialect_length, act();
}

uint32_t jschema_document(jschema *handle, size_t number) { return (void)handle, (void)number, act(); }

uint32_t jschema_finish(jschema *handle) { return (void)handle, act(); }

uint32_t jschema_places(jschema *handle) { return (void)handle, act(); }

uint32_t jschema_entry(jschema *handle, const uint8_t *uri, size_t uri_length, size_t *entry) {
    return (void)handle, (void)uri, (void)uri_length, (void)entry, act();
}

uint32_t jschema_share(jschema *handle, jschema *other) { return (void)handle, (void)other, act(); }

uint32_t jschema_check(jschema *handle, size_t entry, const uint8_t *instance, size_t instance_length,
                       uint32_t format) {
    format_asked = format;
    return (void)handle, (void)entry, (void)instance, (void)instance_length, act();
}

size_t jschema_text(jschema *handle, uint8_t *out, size_t out_length) {
    size_t length = strlen(ANSWER);
    memcpy(out, ANSWER, length < out_length ? length : out_length);
    return (void)handle, act(), length;
}

uint32_t jschema_refusal(jschema *handle, uint32_t *kind, uint32_t *subject, size_t *document, uint8_t *place,
                         size_t place_room, size_t *place_length) {
    *kind = JSCHEMA_BAD_KEYWORD, *subject = JSCHEMA_SUBJECT_WALK, *document = JSCHEMA_NO_DOCUMENT, *place_length = 0;
    return (void)handle, (void)place, (void)place_room, act();
}

uint32_t jschema_positions(const uint8_t *text, size_t text_length, const uint8_t *pointers, size_t pointers_length,
                           const size_t *ends, size_t ends_length,
                           jschema_position *positions, size_t positions_length) {
    (void)text, (void)text_length, (void)pointers, (void)pointers_length, (void)ends, (void)ends_length;
    return (void)positions, (void)positions_length, act();
}

uint32_t jschema_origins(jschema *handle, const uint8_t *dialect, size_t dialect_length, const uint8_t *document,
                         size_t document_length, const uint8_t *pointers, size_t pointers_length,
                         const size_t *ends, size_t ends_length) {
    (void)handle, (void)dialect, (void)dialect_length, (void)document, (void)document_length, (void)pointers;
    return (void)pointers_length, (void)ends, (void)ends_length, act();
}

void jschema_free(jschema *handle) { (void)handle, act(); }

uint32_t jschema_version(void) { return act(); }
