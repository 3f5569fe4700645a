/* Shows that finding the bytes of the ranges is linear: top-down over notes of n bytes and of 2n with as many ranges as lines allow, timed in one run.
   Every record is looked at: its lines and bytes are those that the note was made with, else the program says so and stops with status 2.
   Build and run: host/drivers/places.sh [TURNS]. Nothing here is part of the gate. */
#include "../records.h"
#include <stdio.h>
#include <stdlib.h>
#include <time.h>

enum { MOST = CHULTARVI_TEXT_MOST, LINE = CHULTARVI_TEXT_MOST / CHULTARVI_LINES_MOST, TURNS = 5, TURNS_MOST = 1000 };
static const float THRESHOLD = 0.9f;
static uint8_t *area, *text, book[64];
static uint32_t *words, *results;
static size_t book_len;

static void stop(const char *why) { fprintf(stderr, "places: %s\n", why); exit(2); }
static void *take(size_t bytes) {
    void *p = malloc(bytes);
    if (!p) stop("no memory");
    return p;
}

/* One licence of one word pair, `a b`: a scoring is next to nothing, so that the walks are what shows. */
static void make_book(void) {
    uint8_t *p = put_head(put_record(book, CHULTARVI_LICENCE_NAME, "A", 1), 8 + 8 + 3, CHULTARVI_ORIGINAL);
    p = put_number(put_number(put_number(put_number(p, 1), 1), 1), 3);
    memcpy(p, "a b", 3);
    book_len = (size_t)(p + 3 - book);
}

/* A note of n bytes: its first line is as long as it says, the others of LINE bytes, the newline among them; the last has none. */
typedef struct { size_t n, first, lines; } note;
static note note_of(size_t n, size_t first) { return (note){n, first, 1 + (n - first) / LINE}; }
static size_t start_of(const note *t, size_t k) { return k == 0 ? 0 : t->first + (k - 1) * LINE; }
/* `a b` in every other line, and `x` between, which ends the range; behind it blanks, which no pass leaves. */
static void fill(const note *t) {
    memset(text, ' ', t->n);
    for (size_t k = 0; k < t->lines; k++) {
        uint8_t *line = text + start_of(t, k);
        memcpy(line, k % 2 ? "x  " : "a b", 3);
        if (k > 0) line[-1] = '\n';
    }
}
static void look_at(const note *t, size_t records) {
    if (records != (t->lines + 1) / 2) stop("another number of records than of lines with the licence");
    for (size_t k = 0; k < records; k++) {
        const uint32_t *r = results + CHULTARVI_RECORD_WIDTH * k;
        size_t line = 2 * k, end = line + 1 < t->lines ? start_of(t, line + 1) - 1 : t->n;
        if (r[CHULTARVI_RECORD_FIRST] != line || r[CHULTARVI_RECORD_AFTER] != line + 1) stop("a record has other lines");
        if (r[CHULTARVI_RECORD_START] != start_of(t, line) || r[CHULTARVI_RECORD_END] != end) stop("a record has other bytes");
    }
}

/* One call, in processor time, which other work on the machine disturbs least; with areas of exactly the size that the note needs. */
static double seconds(const note *t) {
    struct timespec s, e;
    fill(t);
    clock_gettime(CLOCK_PROCESS_CPUTIME_ID, &s);
    chultarvi_note_scanned a =
        chultarvi_top_down(text, t->n, book, book_len, THRESHOLD, 1.0f, 1, UINT64_MAX, area, chultarvi_area_bytes(t->n), words,
                           chultarvi_area_words(t->n), results, chultarvi_top_down_results(THRESHOLD, t->lines));
    clock_gettime(CLOCK_PROCESS_CPUTIME_ID, &e);
    if (a.refusal) stop(chultarvi_refusal_text(a.refusal));
    look_at(t, a.records);
    return (double)(e.tv_sec - s.tv_sec) + 1e-9 * (double)(e.tv_nsec - s.tv_nsec);
}
static void best_of(double *best, const note *t) {
    double s = seconds(t);
    if (s < *best) *best = s;
}

static void compare(const char *name, note half, note whole, long turns) {
    double small = 1e9, large = 1e9;
    for (long turn = 0; turn < turns; turn++) { /* in turns, and the best of each */
        best_of(&small, &half);
        best_of(&large, &whole);
    }
    printf("%-33s %7zu bytes, %5zu records %8.2f ms, %7zu bytes, %5zu records %8.2f ms, %.2f times\n", name, half.n, (half.lines + 1) / 2, 1e3 * small,
           whole.n, (whole.lines + 1) / 2, 1e3 * large, large / small);
}

int main(int count, char **given) {
    char *end = 0;
    long turns = count > 1 ? strtol(given[1], &end, 10) : TURNS;
    if (count > 2 || (end && (end == given[1] || *end)) || turns < 1 || turns > TURNS_MOST) stop("usage: places [TURNS], from 1 to 1000");
    text = take(MOST);
    area = take(chultarvi_area_bytes(MOST));
    words = take(chultarvi_area_words(MOST) * sizeof *words);
    results = take(chultarvi_top_down_results(THRESHOLD, CHULTARVI_LINES_MOST) * sizeof *results);
    make_book();
    compare("lines of 16 bytes", note_of(MOST / 2, LINE), note_of(MOST, LINE), turns);
    compare("behind a line of half the note", note_of(MOST / 2, MOST / 4), note_of(MOST, MOST / 2), turns);
    free(text);
    free(area);
    free(words);
    free(results);
    return 0;
}
