/* The records of a book, written and read: the one place in C that knows their bytes (include/chultarvi.h says the form). The command line, the
   drivers and the tests include it. Writers give where the next byte goes; that there is room is the caller's to know. */
#ifndef RECORDS_H
#define RECORDS_H

#include "../include/chultarvi.h"
#include <string.h>

static inline uint32_t get_number(const uint8_t *p) { return p[0] | (uint32_t)p[1] << 8 | (uint32_t)p[2] << 16 | (uint32_t)p[3] << 24; }

static inline uint8_t *put_number(uint8_t *p, size_t x) {
    for (int i = 0; i < 4; i++) *p++ = (uint8_t)(x >> 8 * i);
    return p;
}

static inline uint8_t *put_head(uint8_t *p, size_t len, uint32_t kind) {
    p = put_number(p, len);
    *p++ = (uint8_t)kind;
    *p++ = (uint8_t)(kind >> 8);
    return p;
}

/* The body may stand in its place already, so it is moved. */
static inline uint8_t *put_record(uint8_t *p, uint32_t kind, const void *body, size_t len) {
    p = put_head(p, len, kind);
    if (len > 0) memmove(p, body, len);
    return p + len;
}

/* What a book of this edition begins with: nothing in edition 1. */
static inline uint8_t *put_edition(uint8_t *p, uint32_t edition) {
    const uint8_t body[] = {(uint8_t)edition, (uint8_t)(edition >> 8)};
    return edition > 1 ? put_record(p, CHULTARVI_EDITION, body, sizeof body) : p;
}

/* A record of a book that is known to be sound. */
typedef struct { uint32_t kind, len; const uint8_t *body; size_t after; } book_record;
static inline book_record record_at(const uint8_t *book, size_t at) {
    book_record r;
    r.len = get_number(book + at);
    r.kind = book[at + 4];
    r.body = book + at + CHULTARVI_RECORD_HEAD;
    r.after = at + CHULTARVI_RECORD_HEAD + (size_t)r.len;
    return r;
}
/* Where the first licence of such a book stands, or its end: behind the record of the edition. */
static inline size_t first_licence(const uint8_t *book, size_t len) {
    return len > 0 && record_at(book, 0).kind == CHULTARVI_EDITION ? record_at(book, 0).after : 0;
}
static inline bool is_stored(uint32_t kind) { return kind >= CHULTARVI_ORIGINAL && kind <= CHULTARVI_HEADER; }

#endif
