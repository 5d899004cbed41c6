/* What the module exports: the calls of jschema.h over those of the compiled library (proved_...), with pointers
   and lengths of 32 bits, as the memory has them. The handle, the number that jschema_entry writes, the document and
   the length that jschema_refusal writes, and what jschema_positions reads and writes have 64 bits in each field: 16
   bytes; 8; 8 for an end and 56 for a position. */
typedef unsigned long long usize;
typedef unsigned int u32;

#define AT(address) ((void *)(usize)(address))

u32 proved_jschema_new(void *);
u32 proved_jschema_limit(void *, usize, usize);
u32 proved_jschema_add(void *, const void *, usize, const void *, usize);
u32 proved_jschema_upgrade(void *, const void *, usize);
u32 proved_jschema_document(void *, usize);
u32 proved_jschema_finish(void *);
u32 proved_jschema_places(void *);
u32 proved_jschema_entry(void *, const void *, usize, void *);
u32 proved_jschema_share(void *, void *);
u32 proved_jschema_check(void *, usize, const void *, usize, u32);
usize proved_jschema_text(void *, void *, usize);
u32 proved_jschema_refusal(void *, void *, void *, void *, void *, usize, void *);
u32 proved_jschema_positions(const void *, usize, const void *, usize, const void *, usize, void *, usize);
u32 proved_jschema_origins(void *, const void *, usize, const void *, usize, const void *, usize, const void *, usize);
void proved_jschema_free(void *);
u32 proved_jschema_version(void);

u32 jschema_new(u32 handle) { return proved_jschema_new(AT(handle)); }

u32 jschema_limit(u32 handle, u32 applications, u32 nodes) {
    return proved_jschema_limit(AT(handle), applications, nodes);
}

u32 jschema_add(u32 handle, u32 uri, u32 uri_length, u32 document, u32 document_length) {
    return proved_jschema_add(AT(handle), AT(uri), uri_length, AT(document), document_length);
}

u32 jschema_upgrade(u32 handle, u32 dialect, u32 dialect_length) {
    return proved_jschema_upgrade(AT(handle), AT(dialect), dialect_length);
}

u32 jschema_document(u32 handle, u32 number) { return proved_jschema_document(AT(handle), number); }

u32 jschema_finish(u32 handle) { return proved_jschema_finish(AT(handle)); }

u32 jschema_places(u32 handle) { return proved_jschema_places(AT(handle)); }

u32 jschema_entry(u32 handle, u32 uri, u32 uri_length, u32 entry) {
    return proved_jschema_entry(AT(handle), AT(uri), uri_length, AT(entry));
}

u32 jschema_share(u32 handle, u32 other) { return proved_jschema_share(AT(handle), AT(other)); }

u32 jschema_check(u32 handle, u32 entry, u32 instance, u32 instance_length, u32 format) {
    return proved_jschema_check(AT(handle), entry, AT(instance), instance_length, format);
}

u32 jschema_text(u32 handle, u32 out, u32 length) {
    return proved_jschema_text(AT(handle), AT(out), length);
}

u32 jschema_refusal(u32 handle, u32 kind, u32 subject, u32 document, u32 place, u32 room, u32 place_length) {
    return proved_jschema_refusal(AT(handle), AT(kind), AT(subject), AT(document), AT(place), room, AT(place_length));
}

u32 jschema_positions(u32 text, u32 text_length, u32 pointers, u32 pointers_length, u32 ends, u32 ends_length,
                      u32 positions, u32 positions_length) {
    return proved_jschema_positions(AT(text), text_length, AT(pointers), pointers_length, AT(ends), ends_length,
                                    AT(positions), positions_length);
}

u32 jschema_origins(u32 handle, u32 dialect, u32 dialect_length, u32 document, u32 document_length, u32 pointers,
                    u32 pointers_length, u32 ends, u32 ends_length) {
    return proved_jschema_origins(AT(handle), AT(dialect), dialect_length, AT(document), document_length,
                                  AT(pointers), pointers_length, AT(ends), ends_length);
}

void jschema_free(u32 handle) { proved_jschema_free(AT(handle)); }

u32 jschema_version(void) { return proved_jschema_version(); }
