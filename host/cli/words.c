/* Words of the command line: messages, refusals, file names made safe for a terminal or for JSON, and numbers read from options. */
#include "host.h"
#include <inttypes.h>
#include <stdlib.h>
#include <string.h>

void say(const char *format, ...) {
    va_list rest;
    va_start(rest, format);
    fputs("chultarvi: ", stderr);
    vfprintf(stderr, format, rest);
    fputc('\n', stderr);
    va_end(rest);
}

void say_of(const char *name, const char *format, ...) {
    va_list rest;
    va_start(rest, format);
    fputs("chultarvi: ", stderr);
    put_plain(stderr, name);
    fputs(": ", stderr);
    vfprintf(stderr, format, rest);
    fputc('\n', stderr);
    va_end(rest);
}

/* How many bytes the character at p has in UTF-8; 0 where none stands that may be shown. Surrogates are none, nor are the controls U+0080 to U+009F,
   which would reach a terminal as commands. */
static size_t shown_len(const uint8_t *p, size_t left) {
    size_t bytes;
    uint32_t code = read_character(p, left, &bytes);
    return (code >= 0x80 && code <= 0x9f) || is_surrogate(code) ? 0 : bytes;
}

static bool control(uint8_t byte) { return byte < 32 || byte == 127; }

size_t seen_len(const uint8_t *p, size_t left) {
    static const struct { uint32_t from, to; } unseen[] = {{0x61c, 0x61c}, {0x200e, 0x200f}, {0x2028, 0x202e}, {0x2066, 0x2069}, {0xfeff, 0xfeff}};
    size_t bytes;
    uint32_t code = read_character(p, left, &bytes);
    if (*p == '\t' || *p == '\n') return 1;
    for (size_t i = 0; i < sizeof unseen / sizeof *unseen; i++) if (code >= unseen[i].from && code <= unseen[i].to) return 0;
    return control(*p) ? 0 : shown_len(p, left);
}

void put_plain(FILE *to, const char *name) { put_plain_bytes(to, (part){(const uint8_t *)name, strlen(name)}); }

void put_plain_bytes(FILE *to, part bytes) {
    const uint8_t *p = bytes.bytes;
    for (size_t left = bytes.len, n; left > 0; p += n, left -= n) {
        n = shown_len(p, left);
        if (*p == '\\') fputs("\\\\", to);
        else if (*p == '\n') fputs("\\n", to);
        else if (*p == '\t') fputs("\\t", to);
        else if (n == 0 || control(*p)) fprintf(to, "\\x%02x", *p);
        else fwrite(p, 1, n, to);
        if (n == 0) n = 1;
    }
}

void put_line(FILE *to, part line) {
    const uint8_t *p = line.bytes;
    for (size_t left = line.len, n; left > 0; p += n, left -= n) {
        n = seen_len(p, left);
        if (*p == '\\') fputs("\\\\", to);
        else if (n == 0) fprintf(to, "\\x%02x", *p);
        else fwrite(p, 1, n, to);
        if (n == 0) n = 1;
    }
}

void put_short(FILE *to, part bytes, size_t most) {
    size_t len = bytes.len < most ? bytes.len : most;
    /* not within a character, which has at most three bytes behind its first: 80 to BF */
    for (int i = 0; i < 3 && len < bytes.len && len > 0 && (bytes.bytes[len] & 0xc0) == 0x80; i++) len--;
    put_plain_bytes(to, (part){bytes.bytes, len});
    if (len < bytes.len) fputs("..", to);
}

void put_json(FILE *to, const char *bytes, size_t len) {
    const uint8_t *p = (const uint8_t *)bytes;
    fputc('"', to);
    for (size_t n; len > 0; p += n, len -= n) {
        n = shown_len(p, len);
        if (*p == '"' || *p == '\\') fprintf(to, "\\%c", *p);
        else if (*p == '\n') fputs("\\n", to);
        else if (*p == '\t') fputs("\\t", to);
        else if (n == 0) fprintf(to, "\\udc%02x", *p);
        else if (control(*p)) fprintf(to, "\\u%04x", *p);
        else fwrite(p, 1, n, to);
        if (n == 0) n = 1;
    }
    fputc('"', to);
}

const char *kind_words(uint32_t kind) {
    switch (kind) {
    case CHULTARVI_ORIGINAL: return "original";
    case CHULTARVI_ALTERNATE: return "alternate";
    case CHULTARVI_HEADER: return "header";
    case KIND_ALIAS: return "alias";
    default: return "none";
    }
}

const char *default_book(uint32_t edition) {
    static const char *const books[CHULTARVI_EDITION_MOST] = {"debian.book", "debian-2.book", DEFAULT_BOOK};
    return books[edition - 1];
}

/* Digits only: strtoull alone would take a sign and leading spaces. */
bool read_number(const char *word, uint64_t most, uint64_t *number) {
    uint64_t n = 0;
    if (*word == 0) return false;
    for (; *word; word++) {
        if (*word < '0' || *word > '9') return false;
        uint64_t digit = (uint64_t)(*word - '0');
        if (n > (UINT64_MAX - digit) / 10) return false;
        n = 10 * n + digit;
    }
    *number = n;
    return n <= most;
}

/* Any number, since the library says which limits it refuses (6). */
bool read_limit(const char *word, float *limit) {
    char *end;
    *limit = strtof(word, &end);
    return end != word && *end == 0;
}

/* What to do next, where that does not depend on the command. */
static const char *next_step(uint32_t refusal) {
    switch (refusal) {
    case CHULTARVI_REFUSED_TEXT_LONG:
    case CHULTARVI_REFUSED_LINES_MANY: return "; cut it into parts";
    case CHULTARVI_REFUSED_BOOK_UNSOUND: return MAKE_ANEW;
    case CHULTARVI_REFUSED_BOOK_EMPTY: return "; make one by chultarvi book";
    default: return "";
    }
}

/* Refusal 2: the place, the byte, which character it begins, and the step that goes with it. */
static void bytes_message(char to[MESSAGE_MOST], const uint8_t *text, size_t len, size_t at, uint32_t edition, const next_steps *next) {
    size_t line = 1, byte = 1, bytes;
    for (size_t i = 0; i < at; i++) {
        byte = text[i] == '\n' ? 1 : byte + 1;
        line += text[i] == '\n';
    }
    uint32_t code = read_character(text + at, len - at, &bytes);
    bool utf8 = bytes > 0 && !is_surrogate(code);
    char which[16] = "no UTF-8";
    if (utf8) snprintf(which, sizeof which, "of U+%04" PRIX32, code);
    snprintf(to, MESSAGE_MOST, "refused (%d): the text is not %s: line %zu, byte %zu is 0x%02x, %s; %s", CHULTARVI_REFUSED_TEXT_BYTES,
             edition == WIDE_EDITION ? "UTF-8 up to U+00FF" : "ASCII", line, byte, text[at], which,
             !utf8 ? next->no_utf8 : is_taken(code, WIDE_EDITION) ? next->wide : next->beyond);
}

void refusal_message(char to[MESSAGE_MOST], uint32_t refusal, const uint8_t *text, size_t len, uint32_t edition, const next_steps *next) {
    size_t at = refusal == CHULTARVI_REFUSED_TEXT_BYTES ? first_refused(text, len, edition) : len;
    if (at < len) bytes_message(to, text, len, at, edition, next);
    else snprintf(to, MESSAGE_MOST, "refused (%" PRIu32 "): %s%s", refusal, chultarvi_refusal_text(refusal), next_step(refusal));
}

int unreadable(const char *path, const char *why) {
    say_of(path, "cannot be read: %s", why);
    return TROUBLE;
}

const char *plural(size_t count) { return count == 1 ? "" : "s"; }
