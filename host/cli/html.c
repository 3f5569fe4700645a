/* Text made safe for a page of HTML: what means something there is written as an entity, and what a reader would not see as it is stands as \xHH in an
   element <i> of its own, byte by byte. So the text of a page, with each <i> read back, is the bytes that were put, and no text can be a tag. */
#include "page.h"
#include <string.h>

static const char *entity_of(uint8_t byte) {
    switch (byte) {
    case '&': return "&amp;";
    case '<': return "&lt;";
    case '>': return "&gt;";
    case '"': return "&quot;";
    case '\'': return "&#39;";
    default: return 0;
    }
}

/* How many bytes from p on stand in a page as they are. */
static size_t plain_len(const uint8_t *p, size_t left) {
    size_t at = 0;
    for (size_t n; at < left && !entity_of(p[at]) && (n = seen_len(p + at, left - at)) > 0; at += n) continue;
    return at;
}

/* Writes a run of bytes that are not seen as they are. Gives how many. */
static size_t put_unseen(FILE *to, const uint8_t *p, size_t left) {
    size_t at = 0;
    fputs("<i>", to);
    for (; at < left && seen_len(p + at, left - at) == 0; at++) fprintf(to, "\\x%02x", p[at]);
    fputs("</i>", to);
    return at;
}

void put_html(FILE *to, part text) {
    const uint8_t *p = text.bytes;
    for (size_t left = text.len, n; left > 0; p += n, left -= n) {
        n = plain_len(p, left);
        fwrite(p, 1, n, to);
        if (n > 0) continue;
        const char *entity = entity_of(*p);
        if (entity) fputs(entity, to);
        n = entity ? 1 : put_unseen(to, p, left);
    }
}

static ssize_t write_words(void *to, const char *words, size_t len) {
    put_html(to, (part){(const uint8_t *)words, len});
    return (ssize_t)len;
}

/* Each call hands its words over at once, so that tags may be written between. */
FILE *open_html(FILE *to) {
    FILE *words = fopencookie(to, "w", (cookie_io_functions_t){.write = write_words});
    if (words) setvbuf(words, 0, _IONBF, 0);
    return words;
}
