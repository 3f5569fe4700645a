/* Lists of lines, read whole and cut line by line; and the lines of a text. */
#include "host.h"
#include <stdlib.h>
#include <string.h>

char *read_list(const char *file, size_t *len) {
    char *text = take(LIST_MOST + 1);
    const char *why = read_file(file, (uint8_t *)text, LIST_MOST, len);
    if (!why && *len > LIST_MOST) why = "over 4,194,304 bytes";
    if (!why && memchr(text, 0, *len)) why = "it has a zero byte, and only lines of text are read";
    if (!why) {
        text[*len] = 0;
        return text;
    }
    unreadable(file, why);
    free(text);
    return 0;
}

char *cut_line(char *p, char *end, size_t *len) {
    char *newline = memchr(p, '\n', (size_t)(end - p)), *behind = newline ? newline : end;
    if (behind > p && behind[-1] == '\r') behind--;
    *behind = 0;
    *len = (size_t)(behind - p);
    return newline ? newline + 1 : 0;
}

part take_line(part *text) {
    const uint8_t *newline = text->len ? memchr(text->bytes, '\n', text->len) : 0;
    part line = {text->bytes, newline ? (size_t)(newline - text->bytes) : text->len};
    size_t gone = line.len + (newline != 0);
    *text = (part){text->bytes + gone, text->len - gone};
    return line;
}

bool is_comment(const char *line) { return *line == 0 || strcmp(line, "#") == 0 || strncmp(line, "# ", 2) == 0; }
