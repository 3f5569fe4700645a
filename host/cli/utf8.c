/* Characters in UTF-8: how one is read and written, which an edition takes, and which of those that edition 3 takes are letters and spaces there
   (docs/RULES.md has the classes; the library's own reading decides, this is for messages, --ascii and stanzas). */
#include "host.h"

/* One above ASCII and the last that edition 3 takes. */
enum { ABOVE_ASCII = 0x80, WIDE_MOST = 0xff };

uint32_t read_character(const uint8_t *p, size_t left, size_t *bytes) {
    static const struct { uint8_t head, bits; uint32_t least; size_t len; } form[] = {
        {0xc0, 0x1f, ABOVE_ASCII, 2}, {0xe0, 0x0f, 0x800, 3}, {0xf0, 0x07, 0x10000, 4}};
    *bytes = p[0] < ABOVE_ASCII;
    for (size_t i = 0; i < sizeof form / sizeof *form && p[0] >= ABOVE_ASCII; i++) {
        if ((p[0] & ~form[i].bits & 0xff) != form[i].head || form[i].len > left) continue;
        uint32_t code = p[0] & form[i].bits;
        for (size_t k = 1; k < form[i].len; k++) {
            if ((p[k] & 0xc0) != 0x80) return p[0];
            code = code << 6 | (p[k] & 0x3f);
        }
        if (code < form[i].least || code > 0x10ffff) return p[0];
        *bytes = form[i].len;
        return code;
    }
    return p[0];
}

void put_latin(uint8_t to[2], uint32_t code) {
    to[0] = (uint8_t)(0xc0 | code >> 6);
    to[1] = (uint8_t)(0x80 | (code & 0x3f));
}

bool is_surrogate(uint32_t code) { return code >= 0xd800 && code <= 0xdfff; }

bool is_taken(uint32_t code, uint32_t edition) { return code < ABOVE_ASCII || (edition == WIDE_EDITION && code <= WIDE_MOST); }

size_t first_refused(const uint8_t *text, size_t len, uint32_t edition) {
    size_t at = 0, bytes;
    for (; at < len; at += bytes) {
        uint32_t code = read_character(text + at, len - at, &bytes);
        if (bytes == 0 || !is_taken(code, edition)) break;
    }
    return at;
}

bool is_space(uint32_t code) { return code == ' ' || (code >= 9 && code <= 13) || code == 0x85 || code == 0xa0; }

bool is_letter_or_digit(uint32_t code) {
    uint32_t low = code | 32;
    if (code < ABOVE_ASCII) return (low >= 'a' && low <= 'z') || (code >= '0' && code <= '9');
    return code == 0xaa || code == 0xb5 || code == 0xba || (code >= 0xc0 && code <= WIDE_MOST && code != 0xd7 && code != 0xf7);
}
