/* Memory of the command line: taken once, lent to the library for each call. */
#include "host.h"
#include <stdlib.h>

void *take(size_t bytes) {
    void *p = malloc(bytes);
    if (p) return p;
    say("no memory for %zu bytes", bytes);
    exit(TROUBLE);
}

void *more_room(void *at, size_t bytes) {
    void *p = realloc(at, bytes);
    if (p) return p;
    say("no memory for %zu bytes", bytes);
    exit(TROUBLE);
}

memory take_memory(void) {
    memory m;
    m.text = take(CHULTARVI_TEXT_MOST + 1);
    m.area = take(lent_bytes(CHULTARVI_TEXT_MOST));
    m.words = take(lent_words(CHULTARVI_TEXT_MOST) * sizeof *m.words);
    return m;
}

/* A text above the limit is refused by its length, whatever is lent. */
static size_t bounded(size_t text_len) { return text_len < CHULTARVI_TEXT_MOST ? text_len : CHULTARVI_TEXT_MOST; }
size_t lent_bytes(size_t text_len) { return chultarvi_area_bytes(bounded(text_len)); }
size_t lent_words(size_t text_len) { return chultarvi_area_words(bounded(text_len)); }

chultarvi_text_compiled compile_text(const memory *m, size_t text_len, uint32_t edition, uint8_t *out, size_t out_len) {
    return chultarvi_compile(m->text, text_len, edition, m->area, lent_bytes(text_len), m->words, lent_words(text_len), out, out_len);
}

void free_memory(memory *m) {
    free(m->text);
    free(m->area);
    free(m->words);
}
