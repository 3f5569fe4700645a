/* How much stack each export takes: it runs in a thread whose stack was painted before, and the paint that is gone is counted, less what a
   thread takes that calls nothing. Build and run: host/drivers/stack.sh. Nothing here is part of the gate. */
#include "../chain.h"
#include "../records.h"
#include <pthread.h>
#include <stdio.h>
#include <stdlib.h>

enum { STACK = 1 << 20, PAINT = 0xa5, PASSES = 3, EDITION = CHULTARVI_EDITION_MOST };
static const uint64_t WHOLE = UINT64_MAX;
static const float THRESHOLD = 0.1f;

static void stop(const char *why) { fprintf(stderr, "stack: %s\n", why); exit(2); }
static void *room(size_t bytes) { void *p = calloc(1, bytes); if (!p) stop("no memory"); return p; }

typedef struct { uint8_t *bytes; size_t len, lines; } text_t;
typedef struct call { void (*run)(struct call *); text_t text; uint8_t *area, *out; uint32_t *words, *results; uint32_t refusal; } call_t;
static uint8_t *book;
static size_t book_len;

/* ---- the calls */
#define TEXT c->text.bytes, c->text.len
#define AREAS c->area, chultarvi_area_bytes(c->text.len), c->words, chultarvi_area_words(c->text.len)
#define BOTH book, book_len, book, book_len
#define RESULTS c->results, chultarvi_top_down_results(THRESHOLD, c->text.lines) + chultarvi_elimination_results(true, PASSES)
static void nothing(call_t *c) { c->refusal = 0; }
static void check(call_t *c) { c->refusal = chultarvi_check_book(book, book_len).refusal; }
static void compile(call_t *c) { c->refusal = chultarvi_compile(TEXT, EDITION, AREAS, c->out, chultarvi_table_bytes(c->text.len)).refusal; }
static void score(call_t *c) { c->refusal = chultarvi_score(TEXT, book, book_len, 0, c->text.lines, 0, AREAS).refusal; }
static void bounds(call_t *c) { c->refusal = chultarvi_bounds(TEXT, book, book_len, 0, c->text.lines, 0, AREAS).refusal; }
static void eliminate(call_t *c) {
    c->refusal = chultarvi_eliminate(TEXT, book, book_len, THRESHOLD, 1.0f, true, PASSES, WHOLE, AREAS, RESULTS).refusal;
}
/* a third of the lines as step: few views, and every part of the scan is reached */
static void top_down(call_t *c) {
    c->refusal = chultarvi_top_down(TEXT, book, book_len, THRESHOLD, 1.0f, c->text.lines / 3 + 1, WHOLE, AREAS, RESULTS).refusal;
}
/* the same book beside itself: the calls of two books, and a text of the second */
static void score_both(call_t *c) { c->refusal = chultarvi_score_both(TEXT, BOTH, 0, c->text.lines, 2, AREAS).refusal; }
static void bounds_both(call_t *c) { c->refusal = chultarvi_bounds_both(TEXT, BOTH, 0, c->text.lines, 2, AREAS).refusal; }
static void eliminate_both(call_t *c) {
    c->refusal = chultarvi_eliminate_both(TEXT, BOTH, THRESHOLD, 1.0f, true, PASSES, WHOLE, AREAS, RESULTS).refusal;
}
static void top_down_both(call_t *c) {
    c->refusal = chultarvi_top_down_both(TEXT, BOTH, THRESHOLD, 1.0f, c->text.lines / 3 + 1, WHOLE, AREAS, RESULTS).refusal;
}
/* by an allowance: both modes are one export */
static void eliminate_allowed(call_t *c) {
    chultarvi_allowance all = {WHOLE, 0};
    c->refusal = chultarvi_eliminate_both_allowed(TEXT, BOTH, THRESHOLD, 1.0f, true, PASSES, &all, AREAS, RESULTS).refusal;
}
static void top_down_allowed(call_t *c) {
    chultarvi_allowance all = {WHOLE, 0};
    c->refusal = chultarvi_top_down_both_allowed(TEXT, BOTH, THRESHOLD, 1.0f, c->text.lines / 3 + 1, &all, AREAS, RESULTS).refusal;
}

/* 14 is an answer too: `(` over and over */
static uint32_t answered(uint32_t refusal) { return refusal == CHULTARVI_REFUSED_TOO_DEEP ? 0 : refusal; }
static void write_expression(call_t *c) { c->refusal = answered(chultarvi_write_expression(TEXT, c->out, CHULTARVI_SPELLED_MOST(c->text.len)).refusal); }
static void satisfy(call_t *c) {
    static const char list[] = "q\na\na+ WITH ANY\nDocumentRef-a:LicenseRef-b WITH ANY";
    c->refusal = answered(chultarvi_satisfy(TEXT, (const uint8_t *)list, sizeof list - 1).refusal);
}

/* ---- the painted stack */
static void *entry(void *p) { call_t *c = p; c->run(c); return 0; }
static size_t paint_gone(call_t *c) {
    static _Alignas(4096) uint8_t stack[STACK];
    pthread_attr_t a;
    pthread_t t;
    memset(stack, PAINT, STACK);
    if (pthread_attr_init(&a) || pthread_attr_setstack(&a, stack, STACK) || pthread_create(&t, &a, entry, c) || pthread_join(t, 0)) stop("no thread");
    if (c->refusal) stop("a call is refused");
    size_t low = 0;
    while (low < STACK && stack[low] == PAINT) low++;
    return STACK - low;
}
static size_t used(text_t text, void (*run)(call_t *)) {
    call_t c = {.run = nothing, .text = text, .area = room(chultarvi_area_bytes(text.len)), .out = room(chultarvi_table_bytes(text.len))};
    c.words = room(4 * chultarvi_area_words(text.len));
    c.results = room(4 * (chultarvi_top_down_results(THRESHOLD, text.lines) + chultarvi_elimination_results(true, PASSES)));
    size_t base = paint_gone(&c);
    c.run = run;
    size_t all = paint_gone(&c);
    free(c.area); free(c.out); free(c.words); free(c.results);
    return all - base;
}

/* ---- the texts */
static uint32_t drawn(void) { static uint32_t x = 12345; x ^= x << 13; x ^= x >> 17; x ^= x << 5; return x; }
/* words of up to `most` letters, `row` of them on a line, the text cut at n bytes */
static text_t words_of(size_t n, uint32_t most, uint32_t row) {
    text_t t = {room(n + 16), 0, 1};
    for (uint32_t w = 1; t.len < n; w++) {
        for (uint32_t k = 1 + drawn() % most; k > 0; k--) t.bytes[t.len++] = (uint8_t)('a' + drawn() % 26);
        t.bytes[t.len++] = row && w % row == 0 ? '\n' : ' ';
    }
    t.len = n;
    for (size_t i = 0; i < n; i++) t.lines += t.bytes[i] == '\n';
    return t;
}
/* the same with a letter of two bytes for each two letters that stand at an even place */
static text_t accented(text_t from) {
    text_t t = {room(from.len), from.len, from.lines};
    memcpy(t.bytes, from.bytes, from.len);
    for (size_t i = 0; i + 1 < t.len; i += 2) {
        if (t.bytes[i] < 'a' || t.bytes[i + 1] < 'a') continue;
        t.bytes[i + 1] = (uint8_t)(0xa0 + t.bytes[i] % 16);
        t.bytes[i] = 0xc3;
    }
    return t;
}
/* two licences, the first a piece of the text, so that a scan finds what it must look at again */
static void make_book(text_t text) {
    size_t area_len = chultarvi_area_bytes(text.len), words_len = chultarvi_area_words(text.len), out_len = chultarvi_table_bytes(text.len);
    uint32_t *words = room(4 * words_len);
    uint8_t *area = room(area_len), *out = room(out_len);
    size_t sizes[] = {text.len / 2, text.len / 64};
    book = room(CHULTARVI_BOOK_MOST), book_len = (size_t)(put_edition(book, EDITION) - book);
    for (int i = 0; i < 2; i++) {
        chultarvi_text_compiled t = chultarvi_compile(text.bytes, sizes[i], EDITION, area, area_len, words, words_len, out, out_len);
        if (t.refusal) stop("a licence is refused");
        if (CHULTARVI_BOOK_MOST - book_len < 2 * CHULTARVI_RECORD_HEAD + 1 + t.len) stop("the book is too large");
        uint8_t *p = put_record(book + book_len, CHULTARVI_LICENCE_NAME, i == 0 ? "A" : "B", 1);
        book_len = (size_t)(put_record(p, CHULTARVI_ORIGINAL, out, t.len) - book);
    }
    free(words); free(area); free(out);
}

static void exports(const char *title, text_t text) {
    make_book(text);
    printf("%s: %zu bytes, %zu lines, a book of %zu bytes\n", title, text.len, text.lines, book_len);
    struct { const char *name; void (*run)(call_t *); } jobs[] = {
        {"check_book", check},       {"compile", compile},         {"score", score},
        {"bounds", bounds},          {"eliminate", eliminate},     {"top_down", top_down},
        {"score_both", score_both},  {"bounds_both", bounds_both}, {"eliminate_both", eliminate_both},
        {"top_down_both", top_down_both}, {"eliminate_both_allowed", eliminate_allowed}, {"top_down_both_allowed", top_down_allowed},
    };
    for (size_t i = 0; i < sizeof jobs / sizeof jobs[0]; i++) printf("  %-22s %6zu bytes of stack\n", jobs[i].name, used(text, jobs[i].run));
    free(book);
}
/* 2^j bigrams and one more: each doubling is one level of the sort, so the growth is one level's frame */
static void levels(void) {
    printf("compile, one-letter words: the sort's levels\n");
    size_t last = 0;
    for (int j = 0; j <= 18; j++) {
        size_t words = ((size_t)1 << j) + 2;
        text_t text = words_of(2 * words - 1, 1, 0);
        size_t bytes = used(text, compile);
        printf("  %7zu bigrams, %2d levels: %6zu bytes", words - 1, j + 2, bytes);
        if (last) printf(", %zu more", bytes - last);
        printf("\n");
        last = bytes;
        free(text.bytes);
    }
}

static void expressions(void) {
    static const struct { const char *title, *unit; size_t groups; } kinds[] = {
        {"`a AND a AND ..`", "a AND ", 0},
        {"`a OR a OR ..`", "a OR ", 0},
        {"`a AND a AND ..` in 32 groups", "a AND ", 32},
        {"`a+ WITH ANY OR ..` in 32 groups", "a+ WITH ANY OR ", 32},
        {"references with exceptions in 32 groups", "DocumentRef-a:LicenseRef-b WITH ANY AND ", 32},
        {"`((((..`", "(", 0},
    };
    for (size_t i = 0; i < sizeof kinds / sizeof *kinds; i++)
        for (size_t n = 1024; n <= CHULTARVI_TEXT_MOST; n *= 1024) {
            text_t text = {room(n), 0, 1};
            text.len = put_groups(text.bytes, n, kinds[i].groups, kinds[i].unit, "a");
            printf("%s, %zu bytes: write_expression %zu, satisfy %zu bytes of stack\n", kinds[i].title, text.len, used(text, write_expression),
                   used(text, satisfy));
            free(text.bytes);
        }
}

int main(void) {
    text_t lines = words_of(CHULTARVI_TEXT_MOST, 8, 12), letters = words_of(CHULTARVI_TEXT_MOST - 1, 1, 0);
    exports("words in lines", lines);
    exports("words in lines, with accents", accented(lines));
    exports("524,288 random one-letter words", letters);
    levels();
    expressions();
    return 0;
}
