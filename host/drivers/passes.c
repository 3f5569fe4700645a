/* Shows that the passes, the sort and the table take n log n: compile of a text of n bytes and of 2n, of each kind that could be slow, timed
   in one run. Build and run: host/drivers/passes.sh. Nothing here is part of the gate. */
#include "../../include/chultarvi.h"
#include <stdio.h>
#include <stdlib.h>
#include <string.h>
#include <time.h>

enum { MOST = CHULTARVI_TEXT_MOST, LINES = CHULTARVI_LINES_MOST };
static uint8_t text[MOST], *area, *out;
static uint32_t *words;

static void stop(const char *why) { fprintf(stderr, "passes: %s\n", why); exit(2); }

/* The same draw in each run. */
static uint32_t draw(void) {
    static uint32_t state = 1;
    state = state * 1664525u + 1013904223u;
    return state >> 16;
}

static void repeat(size_t n, const char *piece) {
    size_t k = strlen(piece);
    for (size_t i = 0; i < n; i++) text[i] = (uint8_t)piece[i % k];
}

/* ---- the kinds: each fills n bytes */
static void one_line(size_t n) { repeat(n, "permission is hereby granted "); }

/* as many lines as a text of n bytes may have, of equal length */
static void many_lines(size_t n) {
    one_line(n);
    size_t width = n / LINES;
    for (size_t i = width - 1; i < n - 1; i += width) text[i] = '\n';
}

/* as many lines, in pairs that begin alike: each pair has a prefix of its own */
static void prefixes(size_t n) {
    size_t width = n / LINES;
    for (size_t i = 0; i + width <= n; i += width) {
        size_t x = i / width / 2;
        for (size_t k = width - 2; k-- > 0;) { text[i + k] = (uint8_t)('a' + x % 26); x /= 26; }
        text[i + width - 2] = (uint8_t)('a' + i / width % 2);
        text[i + width - 1] = '\n';
    }
    text[n - 1] = 'a';
}

static void newlines(size_t n) { memset(text, '\n', n); }
static void copyrights(size_t n) { repeat(n, "copyright "); }
static void copyright_lines(size_t n) { repeat(n, "copyright 1999 by me\n"); }
static void titles(size_t n) { repeat(n, "license version "); }
static void urls(size_t n) { repeat(n, "http://a "); }
/* letters of two bytes; four divides both lengths, so none is cut */
static void accents(size_t n) { repeat(n, "\xc3\xa9" "a "); }
static void letters(size_t n) { for (size_t i = 0; i < n; i++) text[i] = (uint8_t)(i % 2 ? ' ' : 'a' + draw() % 26); }

/* with 2n, in bytes: a text of newlines alone has as many lines as bytes, and one more; and by which edition it is read */
static const struct kind { const char *name; void (*fill)(size_t); size_t most; uint32_t edition; } kinds[] = {
    {"one line", one_line, MOST, 1}, {"65,536 lines", many_lines, MOST, 1}, {"32,768 prefixes", prefixes, MOST, 1},
    {"newlines alone", newlines, LINES - 1, 1}, {"`copyright `", copyrights, MOST, 1}, {"copyright lines", copyright_lines, MOST, 1},
    {"`license version `", titles, MOST, 1}, {"URLs", urls, MOST, 1}, {"one-letter words", letters, MOST, 1},
    {"one line, ed. 3", one_line, MOST, 3}, {"accents, ed. 3", accents, MOST, 3},
};

/* One call, in processor time, which other work on the machine disturbs least; with areas of exactly the size that the text needs. */
static double seconds(size_t n, uint32_t edition) {
    struct timespec s, e;
    clock_gettime(CLOCK_PROCESS_CPUTIME_ID, &s);
    chultarvi_text_compiled c =
        chultarvi_compile(text, n, edition, area, chultarvi_area_bytes(n), words, chultarvi_area_words(n), out, chultarvi_table_bytes(n));
    clock_gettime(CLOCK_PROCESS_CPUTIME_ID, &e);
    if (c.refusal) stop(chultarvi_refusal_text(c.refusal));
    return (double)(e.tv_sec - s.tv_sec) + 1e-9 * (double)(e.tv_nsec - s.tv_nsec);
}

static void best_of(double *best, const struct kind *kind, size_t n) {
    kind->fill(n);
    double t = seconds(n, kind->edition);
    if (t < *best) *best = t;
}

int main(void) {
    area = malloc(chultarvi_area_bytes(MOST));
    words = malloc(chultarvi_area_words(MOST) * sizeof *words);
    out = malloc(chultarvi_table_bytes(MOST));
    if (!area || !words || !out) stop("no memory");
    for (size_t i = 0; i < sizeof kinds / sizeof *kinds; i++) {
        size_t most = kinds[i].most, n = most / 2;
        double half = 1e9, whole = 1e9;
        for (int turn = 0; turn < 15; turn++) { /* in turns, and the best of each */
            best_of(&half, kinds + i, n);
            best_of(&whole, kinds + i, most);
        }
        printf("%-18s %7zu bytes %8.2f ms, %7zu bytes %8.2f ms, %5.1f ns a byte, %.2f times\n",
               kinds[i].name, n, 1e3 * half, most, 1e3 * whole, 1e9 * whole / (double)most, whole / half);
    }
    return 0;
}
