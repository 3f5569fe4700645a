/* The accepted parts of the subcommand expression: from lists, a part a line, and from single parts behind options, as one list that the library takes.
   What a line is, the library judges: one line satisfies itself exactly if it is a part as it would be written (`line_itself`). */
#include "expression.h"
#include <stdlib.h>
#include <string.h>

/* The library's time grows with the parts of a line times its length, so it is asked only of what may be one: no parenthesis, and no blanks but the two
   of WITH. */
static bool is_part(part line) {
    size_t blanks = 0;
    for (size_t i = 0; i < line.len; i++) {
        if (line.bytes[i] == '(') return false;
        blanks += line.bytes[i] == ' ';
    }
    return blanks <= 2 && chultarvi_satisfy(line.bytes, line.len, line.bytes, line.len).satisfied;
}

chultarvi_expression_spelled written_form(part text, uint8_t **bytes) {
    size_t room = CHULTARVI_SPELLED_MOST(text.len);
    *bytes = take(room + 1);
    chultarvi_expression_spelled w = chultarvi_write_expression(text.bytes, text.len, *bytes, room);
    if (!w.refusal) return w;
    free(*bytes);
    *bytes = 0;
    return w;
}

/* What to write instead of a line that is no part: the same as the library writes it, each part of several, or something else. */
static void put_advice(FILE *to, part line) {
    uint8_t *bytes;
    chultarvi_expression_spelled w = written_form(line, &bytes);
    if (w.refusal) fputs("a part is such as MIT, GPL-2.0+ or GPL-2.0 WITH Classpath-exception-2.0", to);
    else if (is_part((part){bytes, w.len})) {
        fputs("write ", to);
        put_short(to, (part){bytes, w.len}, SHOWN_MOST);
    } else fputs("give each part by itself", to);
    free(bytes);
}

/* Behind what names the place: `'MIT OR x' accepts nothing; give each part by itself`. */
static void put_no_part(part line) {
    fputc('\'', stderr);
    put_short(stderr, line, SHOWN_MOST);
    fputs("' accepts nothing; ", stderr);
    put_advice(stderr, line);
    fputc('\n', stderr);
}

static void add_part(accepted_parts *to, part line) {
    memcpy(to->bytes + to->len, line.bytes, line.len);
    to->len += line.len;
    to->bytes[to->len++] = '\n';
}

/* Each line has its newline behind it, the last one too. */
static void need_room(accepted_parts *to, size_t more) { to->bytes = more_room(to->bytes, to->len + more + 1); }

static bool accept_list(accepted_parts *to, const char *file) {
    size_t len, line = 1;
    char *text = read_list(file, &len);
    if (!text) return false;
    need_room(to, len);
    part one;
    for (char *p = text, *next; p; p = next, line++) {
        next = cut_line(p, text + len, &one.len);
        one.bytes = (const uint8_t *)p;
        if (is_comment(p)) continue;
        if (is_part(one)) {
            add_part(to, one);
            continue;
        }
        fputs("chultarvi: ", stderr);
        put_plain(stderr, file);
        fprintf(stderr, ": line %zu: warning: ", line);
        put_no_part(one);
    }
    free(text);
    return true;
}

static bool accept_part(accepted_parts *to, const char *word) {
    part one = {(const uint8_t *)word, strlen(word)};
    if (is_part(one)) {
        need_room(to, one.len);
        add_part(to, one);
        return true;
    }
    fputs("chultarvi: --accept-part: ", stderr);
    put_no_part(one);
    return false;
}

bool accept_parts(accepted_parts *to, word_list lists, word_list parts) {
    bool good = true;
    for (size_t i = 0; i < lists.count; i++) good = accept_list(to, lists.at[i]) && good;
    for (size_t i = 0; i < parts.count; i++) good = accept_part(to, parts.at[i]) && good;
    return good;
}
