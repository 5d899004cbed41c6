/* jschema for C: a validator for JSON Schema 2020-12.

   Schema documents are added under their URIs and finished once. Then instances are checked, in this process, as many
   as you like. Nothing is read, written or fetched; no thread is started; nothing is kept outside of a handle.

       jschema schemas = JSCHEMA_EMPTY;
       size_t entry;
       if (jschema_new(&schemas) == JSCHEMA_DONE
           && jschema_add(&schemas, uri, uri_length, document, document_length) == JSCHEMA_DONE
           && jschema_finish(&schemas) == JSCHEMA_DONE
           && jschema_entry(&schemas, uri, uri_length, &entry) == JSCHEMA_DONE)
           status = jschema_check(&schemas, entry, instance, instance_length, JSCHEMA_BASIC);
       jschema_free(&schemas);

   Texts (URIs, documents, instances, output) are bytes with a length; no zero ends them. The library reads a text that
   you pass during the call only, so it stays yours. A text of length 0 may have a null pointer, and so may the room for
   a text. No other pointer may be null. A URI is UTF-8 without a zero byte, as an argument of the program.

   After each call except jschema_text, jschema_refusal and jschema_share the handle has the text of that call: the
   output of a check, the list of jschema_places; for JSCHEMA_REFUSED the line that says what is refused; otherwise
   none. jschema_text copies it out, and jschema_refusal has what a line of a refusal says in numbers.

   Stack: a call needs at most 32 KB, 100 KB if it searches with a regular expression, and more for what is nested: 1 KB
   for each level of a JSON text (128 at most), 2 KB for each level of a document that is upgraded, 2 KB for each level
   of nesting in a regular expression (groups, repetitions, classes: 250 at most), and 2 KB for each schema that is
   applied inside the application of another (512 at most). So 1.25 MB is enough for whatever is passed in. A thread
   with less sets jschema_limit, and passes no text that nests deeper than its stack allows.

   Threads: give a handle to one call at a time. Between calls it may go to another thread, if a lock, or a thread's
   start or end, orders the calls. Threads that work side by side need a handle each: jschema_share makes more handles
   on the same finished schemas, without a copy of them. */
#ifndef JSCHEMA_H
#define JSCHEMA_H

#include <stdbool.h>
#include <stddef.h>
#include <stdint.h>

#ifdef __cplusplus
extern "C" {
#endif

/* The version of this header. jschema_version says that of the library. interface: version */
#define JSCHEMA_VERSION 200
#define JSCHEMA_VERSION_TEXT "0.2.0"
/* interface: end */

/* A handle. Initialize it with JSCHEMA_EMPTY, or all bytes zero: then it is empty, and every call may be made on it.
   Don't read or write its fields. Don't copy it: only one of two copies may be used or freed. */
typedef struct {
    void *at;
    bool full;
} jschema;

#define JSCHEMA_EMPTY {NULL, false}

/* What a call returns: the same numbers as the exit statuses of the program `jschema`.
   interface: statuses */
enum {
    JSCHEMA_DONE = 0,    /* done; of a check: the instance is valid */
    JSCHEMA_INVALID = 1, /* of a check: the instance is invalid */
    JSCHEMA_MISUSED = 2, /* the handle isn't ready for this call, or an argument has no meaning; see each call */
    JSCHEMA_REFUSED = 3, /* an input is refused; the text is a line with the reason, and the place where it has one */
    JSCHEMA_FAILED = 4   /* out of memory */
};
/* interface: end */

/* The formats of an output. interface: formats */
enum {
    JSCHEMA_FLAG = 0,
    JSCHEMA_BASIC = 1,
    JSCHEMA_DETAILED = 2,
    JSCHEMA_VERBOSE = 3,
    JSCHEMA_MERGED = 4 /* like DETAILED, with each problem once where a schema is reached in several ways */
};
/* interface: end */

/* Why an input is refused. interface: refusals */
enum {
    JSCHEMA_NOT_JSON = 1,           /* not a JSON text, or nested deeper than 127 */
    JSCHEMA_NOT_WHOLE = 2,          /* not an integer in plain digits, as 0.5, 1.0, 1e2 and -0, or beyond 64 bits */
    JSCHEMA_BAD_URI = 3,            /* not an absolute URI, or its fragment can't be used here */
    JSCHEMA_TOO_MANY_DOCUMENTS = 4, /* more than 1,000 schema documents */
    JSCHEMA_URI_TOO_LONG = 5,       /* a URI of more than 65,536 bytes */
    JSCHEMA_NOT_A_SCHEMA = 6,       /* a schema is an object or a boolean */
    JSCHEMA_BAD_KEYWORD = 7,        /* the keyword's value has the wrong form */
    JSCHEMA_BAD_PATTERN = 8,        /* not a regular expression of the Rust crate regex */
    JSCHEMA_PATTERN_TOO_LARGE = 9,  /* the regular expression takes too much memory */
    JSCHEMA_BAD_ID = 10,            /* $id can't be joined with the base URI, or has a fragment */
    JSCHEMA_BAD_ANCHOR = 11,        /* an anchor is an ASCII letter or _, then letters, digits, -, _ and . */
    JSCHEMA_UNKNOWN_DIALECT = 12,   /* $schema isn't https://json-schema.org/draft/2020-12/schema */
    JSCHEMA_DUPLICATE_URI = 13,     /* another schema has the same URI */
    JSCHEMA_DUPLICATE_ANCHOR = 14,  /* another schema of this resource has the same anchor */
    JSCHEMA_TOO_MANY_PLACES = 15,   /* more than 100,000 schemas */
    JSCHEMA_BAD_REFERENCE = 16,     /* the reference isn't a URI, or its fragment isn't a JSON Pointer */
    JSCHEMA_UNRESOLVED = 17,        /* no schema has this URI; give its document too */
    JSCHEMA_INPUT_TOO_LARGE = 18,   /* more than 16,777,216 bytes */
    JSCHEMA_TOO_LARGE = 19,         /* more nested schema applications or result nodes than the handle's limits */
    JSCHEMA_BAD_SUITE = 20          /* a member of the suite is missing or has the wrong type */
};
/* interface: end */

/* What is refused. interface: subjects */
enum {
    JSCHEMA_SUBJECT_INPUT = 1,    /* an input, which is too large */
    JSCHEMA_SUBJECT_DOCUMENT = 2, /* a schema document */
    JSCHEMA_SUBJECT_ENTRY = 3,    /* the URI of the schema to apply */
    JSCHEMA_SUBJECT_INSTANCE = 4, /* the instance */
    JSCHEMA_SUBJECT_WALK = 5,     /* the result of a check */
    JSCHEMA_SUBJECT_SUITE = 6     /* a suite of tests: by the program alone */
};
/* interface: end */

/* The number of a refusal's document if what is refused is no document. */
#define JSCHEMA_NO_DOCUMENT SIZE_MAX

/* Begins anew, without documents. What the handle held is freed first.
   JSCHEMA_FAILED: the handle is empty. */
uint32_t jschema_new(jschema *handle);

/* Sets the limits on the result of a check: how many schema applications may be nested, the entry's included, and how
   many nodes the result may have. A result that needs more is refused (TooLarge). A new handle has the limits 512 and
   1,000,000. Fewer applications take less stack, fewer nodes less memory and time.
   JSCHEMA_MISUSED: the handle is empty, `applications` is 0 or above 512, or `nodes` is above 1,000,000.
   After anything but JSCHEMA_DONE the limits are as before. */
uint32_t jschema_limit(jschema *handle, size_t applications, size_t nodes);

/* Adds a schema document (a JSON text) under an absolute URI without a fragment.
   JSCHEMA_MISUSED: the handle is empty or finished, or the URI isn't UTF-8 or has a zero byte.
   JSCHEMA_REFUSED: the document has more than 16,777,216 bytes; or it is refused, or its URI.
   After anything but JSCHEMA_DONE the documents are as before. */
uint32_t jschema_add(jschema *handle, const uint8_t *uri, size_t uri_length,
                     const uint8_t *document, size_t document_length);

/* Upgrades the documents that were added from the drafts that they name (draft-03 to 2019-09) to 2020-12, all together:
   a reference of one may lead into another. The upgraded schema gives an instance the verdict of its own draft; that is
   tested, and not proved. docs/MIGRATING.md says what can't be upgraded. `dialect` is the URI of the dialect of each
   document that names none, as `$schema` would have it; of length 0, that is 2020-12. Documents of 2020-12 stay as they
   are, so the call may be made whatever the documents are. Afterwards the places in refusals and in outputs are those
   of the upgraded documents. More documents can be added and upgraded.
   JSCHEMA_MISUSED: the handle is empty or finished, or `dialect` isn't the URI of a dialect.
   JSCHEMA_REFUSED: a document can't be upgraded. jschema_refusal has the document's number and the place in it, and the
   kind: JSCHEMA_UNKNOWN_DIALECT, for a `$schema` that names none of the six drafts; JSCHEMA_BAD_KEYWORD, for a
   `$schema`, an identifier or a reference that is no text, or a keyword that can't be upgraded; JSCHEMA_URI_TOO_LONG;
   JSCHEMA_BAD_ID; JSCHEMA_DUPLICATE_URI, for two documents under one URI; JSCHEMA_BAD_REFERENCE; or JSCHEMA_UNRESOLVED.
   JSCHEMA_FAILED: out of memory.
   After anything but JSCHEMA_DONE the documents are as before. */
uint32_t jschema_upgrade(jschema *handle, const uint8_t *dialect, size_t dialect_length);

/* Leaves a document as the text: that with this number, 0 for the first that was added, as the handle holds it. After
   jschema_upgrade that is the upgraded document. It is compact JSON with a line feed at its end; the names of each
   object ascend by their bytes.
   JSCHEMA_MISUSED: the handle is empty or finished, or there is no such document. */
uint32_t jschema_document(jschema *handle, size_t number);

/* Checks the documents together and finishes them. Afterwards none can be added.
   JSCHEMA_MISUSED: the handle is empty or finished.
   JSCHEMA_REFUSED: a document is refused, as for a reference that leads nowhere. Documents can still be added.
   After anything but JSCHEMA_DONE the documents are as before. */
uint32_t jschema_finish(jschema *handle);

/* Lists the absolute locations of all schemas, as the text: a line each. Each can be an entry.
   JSCHEMA_MISUSED: the handle is empty or not finished. */
uint32_t jschema_places(jschema *handle);

/* Looks up the schema that a URI names, and puts its number into *entry: 0 for the first that is looked up in this
   handle, then 1, and so on. The URI is that of a document, an `$id`, or one of these with a fragment. The handle keeps
   each number until it is freed, eight bytes for each call: look an entry up once.
   JSCHEMA_MISUSED: the handle is empty or not finished, or the URI isn't UTF-8 or has a zero byte.
   JSCHEMA_REFUSED: the URI is refused, or names no schema.
   After anything but JSCHEMA_DONE, *entry and the handle's numbers are as before. */
uint32_t jschema_entry(jschema *handle, const uint8_t *uri, size_t uri_length, size_t *entry);

/* Makes `other` a second handle on the same finished schemas, for another thread, with this handle's limits and the
   numbers that it has so far. No schema is copied; the last handle frees them. What `other` held is freed first.
   JSCHEMA_MISUSED: this handle is empty or not finished. JSCHEMA_FAILED: out of memory.
   After anything but JSCHEMA_DONE, `other` is as before. This handle is as before, with its text. `other` may be this
   handle itself: then only its text is lost. */
uint32_t jschema_share(jschema *handle, jschema *other);

/* Checks an instance (a JSON text) against the schema with this number. The text is the output in the format: a JSON
   text in UTF-8 with a line feed at its end. That of JSCHEMA_FLAG is written only where jschema_text asks for it, so a
   check for the verdict alone makes no text.
   JSCHEMA_DONE: it is valid. JSCHEMA_INVALID: it is invalid.
   JSCHEMA_MISUSED: the handle is empty or not finished, there is no such number, or no such format.
   JSCHEMA_REFUSED: the instance is refused, or the result would go beyond the handle's limits.
   The schemas and the numbers are as before. */
uint32_t jschema_check(jschema *handle, size_t entry, const uint8_t *instance, size_t instance_length, uint32_t format);

/* Copies the text of the last call into out, as many of its bytes as fit, and returns the length of the whole text.
   The handle keeps the text, so the call can be repeated with more room. An empty handle has no text: 0. */
size_t jschema_text(jschema *handle, uint8_t *out, size_t out_length);

/* What the last call refused, if it returned JSCHEMA_REFUSED: why and what, as numbers of the enumerations above; of a
   document its number in the order of adding, 0 for the first (one that jschema_add refuses has the number that it
   would have had), else JSCHEMA_NO_DOCUMENT; and the place in the document or in the instance, the text of a JSON
   Pointer ("", the root, for other subjects). As many bytes of the place as fit are copied into `place`; *place_length
   is the length of the whole. The handle keeps all this and its text, so the call can be repeated with more room.
   JSCHEMA_MISUSED: the last call returned something else. What the pointers name is as before. */
uint32_t jschema_refusal(jschema *handle, uint32_t *kind, uint32_t *subject, size_t *document, uint8_t *place,
                         size_t place_room, size_t *place_length);

/* Where a value stands in a JSON text, and the name of the member that it is the value of: the offset of the first
   byte, from 0; its line, and its column in characters, both from 1. `end` is the offset of the byte after the value's
   last. Where there is no such value, or no name, each of its numbers is JSCHEMA_NOWHERE. */
typedef struct {
    size_t offset, line, column, end;
    size_t name_offset, name_line, name_column;
} jschema_position;

#define JSCHEMA_NOWHERE SIZE_MAX

/* Finds the values at JSON Pointers in a JSON text, which is read once for all of them. The texts of the pointers stand
   in `pointers` one after another: the first begins at 0, each other one where the one before it ends, and ends[i] is
   the byte after the pointer with the number i. Its position goes into positions[i]. Of members with the same name the
   last counts, as for jschema_check. The call takes no handle, and leaves no text.
   JSCHEMA_DONE: also where nothing stands at a pointer.
   JSCHEMA_MISUSED: there aren't as many positions as ends, an end is before another or beyond `pointers`, or a text is
   no JSON Pointer in UTF-8.
   JSCHEMA_REFUSED: the text is no JSON in UTF-8. Numbers may be any, and arrays and objects 128 deep.
   JSCHEMA_FAILED: out of memory, or the text has 4 GiB or more.
   After anything but JSCHEMA_DONE the positions are as before. */
uint32_t jschema_positions(const uint8_t *text, size_t text_length, const uint8_t *pointers, size_t pointers_length,
                           const size_t *ends, size_t ends_length,
                           jschema_position *positions, size_t positions_length);

/* Where parts of an upgraded document come from in the document as it was: `document` is its text, and `dialect` the
   URI that jschema_upgrade got. The texts of JSON Pointers in the upgraded document stand in `pointers` as those of
   jschema_positions do. Leaves a JSON array and a line feed as the text: for each pointer that of the part which it
   comes from, or null where nothing stands there. What the upgrade made of a part by itself, such as `required` of the
   members of a draft-03 schema, comes from that part. The handle may hold anything, and stays as it is.
   JSCHEMA_MISUSED: the handle is empty, the URI names no dialect, an end is before another or beyond `pointers`, or a
   text is no JSON Pointer in UTF-8.
   JSCHEMA_REFUSED: the document isn't read, as jschema_add refuses it, with the number 0. */
uint32_t jschema_origins(jschema *handle, const uint8_t *dialect, size_t dialect_length, const uint8_t *document,
                         size_t document_length, const uint8_t *pointers, size_t pointers_length,
                         const size_t *ends, size_t ends_length);

/* Frees all that the handle holds. It is then empty, and can be freed again or used for jschema_new. */
void jschema_free(jschema *handle);

/* The version of the library, as JSCHEMA_VERSION is that of the header: 10,000 for each major version, 100 for each
   minor one, and the patch. */
uint32_t jschema_version(void);

#ifdef __cplusplus
}
#endif

#endif
