/* Tests of the library as C and C++ see it: this file is compiled as both. Layout of every answer; every export, over one book and over two, by
   each edition; every refusal with the neighbour that is not refused; and after each call, what the lent areas hold, where the name stands and where the
   ranges do. Every scan runs by an allowance too, one that has its budget left and one that is overdrawn. Prints what fails, then 'N passed, M failed'. */
#include "../pairs.h"
#include "../records.h"
#include <assert.h>
#include <float.h>
#include <math.h>
#include <stdio.h>
#include <stdlib.h>
#include <string.h>

#define LAYOUT(type, field, at) static_assert(offsetof(type, field) == (at), #type "." #field)
static_assert(sizeof(chultarvi_book_checked) == 8, "size");
LAYOUT(chultarvi_book_checked, refusal, 0);
LAYOUT(chultarvi_book_checked, texts, 4);
static_assert(sizeof(chultarvi_text_compiled) == 16, "size");
LAYOUT(chultarvi_text_compiled, refusal, 0);
LAYOUT(chultarvi_text_compiled, len, 8);
static_assert(sizeof(chultarvi_view_scored) == 16, "size");
LAYOUT(chultarvi_view_scored, refusal, 0);
LAYOUT(chultarvi_view_scored, score, 4);
LAYOUT(chultarvi_view_scored, m, 8);
LAYOUT(chultarvi_view_scored, t, 12);
static_assert(sizeof(chultarvi_bounds_found) == 32, "size");
LAYOUT(chultarvi_bounds_found, refusal, 0);
LAYOUT(chultarvi_bounds_found, first, 4);
LAYOUT(chultarvi_bounds_found, after, 8);
LAYOUT(chultarvi_bounds_found, score, 12);
LAYOUT(chultarvi_bounds_found, m, 16);
LAYOUT(chultarvi_bounds_found, t, 20);
LAYOUT(chultarvi_bounds_found, count, 24);
static_assert(sizeof(chultarvi_text_named) == 24, "size");
LAYOUT(chultarvi_text_named, refusal, 0);
LAYOUT(chultarvi_text_named, kind, 4);
LAYOUT(chultarvi_text_named, len, 8);
LAYOUT(chultarvi_text_named, second, 12);
LAYOUT(chultarvi_text_named, name_at, 16);
static_assert(sizeof(chultarvi_note_scanned) == 112, "size");
LAYOUT(chultarvi_note_scanned, refusal, 0);
LAYOUT(chultarvi_note_scanned, records, 4);
LAYOUT(chultarvi_note_scanned, count, 8);
LAYOUT(chultarvi_note_scanned, score, 16);
LAYOUT(chultarvi_note_scanned, m, 20);
LAYOUT(chultarvi_note_scanned, t, 24);
LAYOUT(chultarvi_note_scanned, kind, 28);
LAYOUT(chultarvi_note_scanned, len, 32);
LAYOUT(chultarvi_note_scanned, name, 36);
LAYOUT(chultarvi_note_scanned, second, 100);
LAYOUT(chultarvi_note_scanned, name_at, 104);
static_assert(sizeof(chultarvi_allowance) == 16, "size");
LAYOUT(chultarvi_allowance, cap, 0);
LAYOUT(chultarvi_allowance, used, 8);
static_assert(CHULTARVI_RECORD_NUMBER == 0 && CHULTARVI_RECORD_FIRST == 1 && CHULTARVI_RECORD_AFTER == 2 && CHULTARVI_RECORD_SCORE == 3, "a record");
static_assert(CHULTARVI_RECORD_START == 4 && CHULTARVI_RECORD_END == 5 && CHULTARVI_RECORD_WIDTH == 6u, "a record");

static int passed, failed;
static void check(bool good, const char *what) {
    if (good) passed++;
    else {
        failed++;
        printf("failed: %s\n", what);
    }
}

/* The marked book (licence A, `My First License`), and the marked text 2. */
static const uint8_t book_a[] = "\x01\0\0\0\x01\0A\x2d\0\0\0\x02\0\x02\0\0\0\x02\0\0\0\x01\0\0\0\x0d\0\0\0first license\x01\0\0\0\x08\0\0\0my first";
enum { BOOK_A = 58 };
static const char text_1[] = "copyright 20xx me irl\n\n //  my   first license";
static const char text_2[] = "copyright 20xx me irl\n// My First License\nfn hello() {\n ...";
enum { LINES_2 = 4 };

typedef uint32_t one_record[CHULTARVI_RECORD_WIDTH];
static bool same_record(const uint32_t *at, const one_record record) { return memcmp(at, record, sizeof(one_record)) == 0; }

/* What a call is lent. Every element is garbage before the call, also `SPARE` elements that are not lent. Where `both` is false the call is the one
   that takes one book, and second is null. */
enum { SPARE = 7 };
static const size_t ROOM = CHULTARVI_TEXT_MOST;
typedef struct {
    const uint8_t *text;
    size_t len, area_len, words_len, out_len, results_len;
    const uint8_t *book, *second;
    size_t book_len, second_len;
    bool both;
    uint32_t edition;
} lent;
static uint8_t *area, *out, *big;
static uint32_t *words, *results, *kept;
static size_t area_most, words_most;

static void take_areas(void) {
    area_most = chultarvi_area_bytes(ROOM) + SPARE;
    words_most = chultarvi_area_words(ROOM) + SPARE;
    area = (uint8_t *)malloc(area_most);
    words = (uint32_t *)malloc(4 * words_most);
    out = (uint8_t *)malloc(ROOM);
    results = (uint32_t *)malloc(4 * ROOM);
    kept = (uint32_t *)malloc(4 * ROOM);
    big = (uint8_t *)malloc(CHULTARVI_BOOK_MOST + 1);
    if (!area || !words || !out || !results || !kept || !big) exit(2);
}
static void fill(const lent *l) {
    memset(area, 0xa5, l->area_len + SPARE);
    memset(words, 0xa5, 4 * (l->words_len + SPARE));
    memset(out, 0xa5, l->out_len + SPARE);
    memset(results, 0xa5, 4 * (l->results_len + SPARE));
}
static bool all_are(const void *at, size_t from, size_t to, int byte) {
    const uint8_t *p = (const uint8_t *)at;
    for (size_t i = from; i < to; i++) if (p[i] != byte) return false;
    return true;
}
/* As the header says: zero after 0, 11 and 12, unchanged after 1 to 10, 15 and 17; beyond what was lent, and in out and results beyond what was written,
   unchanged always. */
static bool areas_right(const lent *l, uint32_t refusal, size_t written, size_t recorded) {
    int now = refusal == 0 || refusal == 11 || refusal == 12 ? 0 : 0xa5;
    return all_are(area, 0, l->area_len, now) && all_are(area, l->area_len, l->area_len + SPARE, 0xa5) && all_are(words, 0, 4 * l->words_len, now) &&
           all_are(words, 4 * l->words_len, 4 * (l->words_len + SPARE), 0xa5) && all_are(out, written, l->out_len + SPARE, 0xa5) &&
           all_are(results, sizeof(one_record) * recorded, 4 * (l->results_len + SPARE), 0xa5);
}
/* How `lend` lays the book: alone; beside an empty one; or as the second, beside an empty first. And by which edition: from edition 2 on its record stands
   before the book, and the empty one is that record alone. Every answer is the same but for `second` and for the place of the name, so the tests of one
   book run in each form and edition. */
enum { ALONE, FIRST, SECOND, FORMS };
static int form = ALONE;
static uint32_t edition = 1;
typedef struct { const uint8_t *at; size_t len; } held;
static held hold(const uint8_t *at, size_t len) {
    held h;
    h.at = at;
    h.len = len;
    return h;
}
/* The bytes with the edition's record in front, in room for them; in edition 1 as they are. */
static held by_edition(uint8_t *room, const uint8_t *book, size_t len) {
    uint8_t *p = put_edition(room, edition);
    if (p == room) return hold(book, len);
    if (len > 0) memcpy(p, book, len);
    return hold(room, (size_t)(p - room) + len);
}

static lent lend_both(const void *text, size_t len, const uint8_t *book, size_t book_len, const uint8_t *second, size_t second_len) {
    lent l;
    l.text = (const uint8_t *)text;
    l.len = len;
    l.area_len = chultarvi_area_bytes(len < ROOM ? len : ROOM);
    l.words_len = chultarvi_area_words(len < ROOM ? len : ROOM);
    l.out_len = 0;
    l.results_len = 0;
    l.book = book;
    l.book_len = book_len;
    l.second = second;
    l.second_len = second_len;
    l.both = true;
    l.edition = edition;
    return l;
}
static lent lend(const void *text, size_t len, const uint8_t *book, size_t book_len) {
    static uint8_t room[256], no_room[8];
    held one = by_edition(room, book, book_len), none = by_edition(no_room, 0, 0);
    if (form == SECOND) return lend_both(text, len, none.at, none.len, one.at, one.len);
    lent l = lend_both(text, len, one.at, one.len, none.at, none.len);
    l.both = form == FIRST;
    return l;
}
static lent marked(void) { return lend(text_2, sizeof text_2 - 1, book_a, BOOK_A); }

/* After a refusal but 12 score, m and t are all 0. */
static bool pairs_right(uint32_t refusal, float score, uint32_t m, uint32_t t) {
    return is_two_m_by_t(score, m, t) && (refusal == 0 || refusal == 12 || t == 0);
}

/* Each export, its areas and its m and t looked at. */
static chultarvi_text_compiled compile(const lent *l, const char *what) {
    fill(l);
    chultarvi_text_compiled c = chultarvi_compile(l->text, l->len, l->edition, area, l->area_len, words, l->words_len, out, l->out_len);
    check(areas_right(l, c.refusal, c.len, 0) && (c.refusal == 0 || c.len == 0), what);
    return c;
}
static chultarvi_view_scored score(const lent *l, size_t start, size_t end, uint32_t number, const char *what) {
    fill(l);
    chultarvi_view_scored s =
        l->both ? chultarvi_score_both(l->text, l->len, l->book, l->book_len, l->second, l->second_len, start, end, number, area, l->area_len,
                                       words, l->words_len)
                : chultarvi_score(l->text, l->len, l->book, l->book_len, start, end, number, area, l->area_len, words, l->words_len);
    check(areas_right(l, s.refusal, 0, 0) && (s.refusal == 0 || s.score == 0.0f), what);
    check(pairs_right(s.refusal, s.score, s.m, s.t), what);
    return s;
}
static chultarvi_bounds_found bounds(const lent *l, size_t start, size_t end, uint32_t number, const char *what) {
    fill(l);
    chultarvi_bounds_found b =
        l->both ? chultarvi_bounds_both(l->text, l->len, l->book, l->book_len, l->second, l->second_len, start, end, number, area, l->area_len,
                                        words, l->words_len)
                : chultarvi_bounds(l->text, l->len, l->book, l->book_len, start, end, number, area, l->area_len, words, l->words_len);
    check(areas_right(l, b.refusal, 0, 0) && (b.refusal == 0 || (b.first == 0 && b.after == 0 && b.score == 0.0f && b.count == 0)), what);
    check(pairs_right(b.refusal, b.score, b.m, b.t), what);
    return b;
}
static bool nothing_else(const chultarvi_note_scanned *s) { return s->records == 0 && s->count == 0 && s->score == 0.0f && s->kind == 0; }
/* The name stands in the book that the answer says, of the two that were lent, and all of it; with no name it is empty, at the first book's start. */
static bool name_right(const lent *l, const chultarvi_note_scanned *s) {
    const uint8_t *name = chultarvi_name(l->book, l->second, s);
    if (s->len > 64 || !all_are(s->name, s->len, 64, 0) || (s->second && !l->both)) return false;
    if (s->kind == 0) return s->len == 0 && !s->second && s->name_at == 0 && name == l->book;
    const uint8_t *holder = s->second ? l->second : l->book;
    size_t holder_len = s->second ? l->second_len : l->book_len;
    return s->len > 0 && s->name_at < holder_len && s->len <= holder_len - s->name_at && name == holder + s->name_at &&
           memcmp(name, s->name, s->len) == 0;
}
/* Where line k starts, by the newlines before it; the text's length behind the last. */
static size_t line_start(const lent *l, size_t k) {
    size_t at = 0;
    while (k > 0 && at < l->len) k -= l->text[at++] == '\n';
    return k > 0 ? l->len : at;
}
static size_t line_end(const lent *l, size_t k) {
    size_t at = line_start(l, k);
    while (at < l->len && l->text[at] != '\n') at++;
    return at;
}
static bool places_right(const lent *l, size_t records) {
    for (const uint32_t *r = results; r < results + CHULTARVI_RECORD_WIDTH * records; r += CHULTARVI_RECORD_WIDTH) {
        size_t first = r[CHULTARVI_RECORD_FIRST], after = r[CHULTARVI_RECORD_AFTER], start = line_start(l, first);
        if (r[CHULTARVI_RECORD_START] != start || r[CHULTARVI_RECORD_END] != (first == after ? start : line_end(l, after - 1))) return false;
    }
    return true;
}
static size_t lines_of(const lent *l) {
    size_t lines = 1;
    for (size_t at = 0; at < l->len; at++) lines += l->text[at] == '\n';
    return lines;
}
/* Each range has a line, between it and the next stands one at least, and all are of the text; so they are half of its lines, the odd one too, at most. */
static bool lie_beside(const lent *l, size_t records) {
    size_t lines = lines_of(l), from = 0;
    for (const uint32_t *r = results; r < results + CHULTARVI_RECORD_WIDTH * records; r += CHULTARVI_RECORD_WIDTH) {
        if (r[CHULTARVI_RECORD_FIRST] < from || r[CHULTARVI_RECORD_FIRST] >= r[CHULTARVI_RECORD_AFTER] || r[CHULTARVI_RECORD_AFTER] > lines) return false;
        from = r[CHULTARVI_RECORD_AFTER] + 1;
    }
    return 2 * records <= lines + 1;
}
static void check_scan(const lent *l, const chultarvi_note_scanned *s, const char *what) {
    check(places_right(l, s->records), what);
    check(areas_right(l, s->refusal, 0, s->records) && (s->refusal == 0 || s->refusal == 12 || nothing_else(s)), what);
    check(name_right(l, s), what);
    check(pairs_right(s->refusal, s->score, s->m, s->t), what);
}

/* What a scan takes besides text, books, areas and what pays; of each mode the other's are 0. */
typedef struct { bool down; float threshold, shallow; bool optimize; uint16_t passes; uint64_t step; } how;
#define TEXT l->text, l->len
#define ONE_BOOK l->book, l->book_len
#define TWO_BOOKS ONE_BOOK, l->second, l->second_len
#define LIMITS h->threshold, h->shallow
#define ELIMINATED LIMITS, h->optimize, h->passes
#define AREAS area, l->area_len, words, l->words_len, results, l->results_len
static chultarvi_note_scanned scan_plain(const lent *l, const how *h, uint64_t budget) {
    if (h->down && l->both) return chultarvi_top_down_both(TEXT, TWO_BOOKS, LIMITS, h->step, budget, AREAS);
    if (h->down) return chultarvi_top_down(TEXT, ONE_BOOK, LIMITS, h->step, budget, AREAS);
    if (l->both) return chultarvi_eliminate_both(TEXT, TWO_BOOKS, ELIMINATED, budget, AREAS);
    return chultarvi_eliminate(TEXT, ONE_BOOK, ELIMINATED, budget, AREAS);
}
static chultarvi_note_scanned scan_named(const lent *l, const how *h, chultarvi_allowance *x) {
    if (h->down && l->both) return chultarvi_top_down_both_allowed(TEXT, TWO_BOOKS, LIMITS, h->step, x, AREAS);
    if (h->down) return chultarvi_top_down_allowed(TEXT, ONE_BOOK, LIMITS, h->step, x, AREAS);
    if (l->both) return chultarvi_eliminate_both_allowed(TEXT, TWO_BOOKS, ELIMINATED, x, AREAS);
    return chultarvi_eliminate_allowed(TEXT, ONE_BOOK, ELIMINATED, x, AREAS);
}
/* What is not looked at is garbage: a second book that is nowhere, and of each mode what would be refused or found otherwise. */
static chultarvi_note_scanned scan_exported(const lent *l, const how *h, chultarvi_allowance *x) {
    const uint8_t *second = l->both ? l->second : (const uint8_t *)(uintptr_t)1;
    size_t second_len = l->both ? l->second_len : SIZE_MAX;
    return chultarvi_scan_allowed(TEXT, ONE_BOOK, second, second_len, l->both, h->down, LIMITS, h->down || h->optimize,
                                  h->down ? UINT16_MAX : h->passes, h->down ? h->step : 0, x, AREAS);
}

/* An allowance with garbage on both sides, which stays. */
typedef struct { uint64_t before; chultarvi_allowance is; uint64_t behind; } fenced;
static const uint64_t FENCE = 0xa5a5a5a5a5a5a5a5u;
static fenced fence(uint64_t cap, uint64_t used) {
    fenced x;
    x.before = x.behind = FENCE;
    x.is.cap = cap;
    x.is.used = used;
    return x;
}
/* A scan by an allowance: used has grown by its count, and nothing else of it has changed. */
enum { BY_NAME, BY_EXPORT, WAYS };
static chultarvi_note_scanned scan_by(int by, const lent *l, const how *h, fenced *x, const char *what) {
    const chultarvi_allowance was = x->is;
    fill(l);
    chultarvi_note_scanned s = by == BY_NAME ? scan_named(l, h, &x->is) : scan_exported(l, h, &x->is);
    check(x->before == FENCE && x->behind == FENCE && x->is.cap == was.cap && x->is.used == was.used + s.count, what);
    check_scan(l, &s, what);
    return s;
}
static bool same_answer(const chultarvi_note_scanned *a, const chultarvi_note_scanned *b) {
    return a->refusal == b->refusal && a->records == b->records && a->count == b->count && memcmp(&a->score, &b->score, sizeof a->score) == 0 &&
           a->m == b->m && a->t == b->t && a->kind == b->kind && a->len == b->len && memcmp(a->name, b->name, sizeof a->name) == 0 &&
           a->second == b->second && a->name_at == b->name_at;
}
/* The first refusal of a scan that is overdrawn, by that of the plain one: before 12, and behind all others. */
static bool is_overdrawn(const chultarvi_note_scanned *s, uint32_t plain) {
    chultarvi_note_scanned none;
    memset(&none, 0, sizeof none);
    none.refusal = plain == 0 || plain == 12 ? 17 : plain;
    return same_answer(s, &none);
}
static const uint64_t overdrawn[][2] = {{0, 1}, {5, 6}, {0, UINT64_MAX}, {UINT64_MAX - 1, UINT64_MAX}};
enum { OVERDRAWN = sizeof overdrawn / sizeof *overdrawn };
/* The plain scan has just run. By an allowance that has its budget left all is the same; the ways and allowances take turns. */
static void check_allowed(const lent *l, const how *h, uint64_t budget, const chultarvi_note_scanned *plain, const char *what) {
    static const uint64_t used[] = {0, 1, 20, UINT64_MAX};
    static unsigned turn;
    const unsigned by = turn % WAYS, pick = turn++ / WAYS % OVERDRAWN;
    const uint64_t most = UINT64_MAX - budget, before = used[pick] < most ? used[pick] : most;
    const size_t bytes = 4 * (l->results_len + SPARE);
    memcpy(kept, results, bytes);
    fenced x = fence(before + budget, before);
    chultarvi_note_scanned s = scan_by((int)by, l, h, &x, what);
    check(same_answer(&s, plain) && memcmp(results, kept, bytes) == 0, what);
    x = fence(overdrawn[pick][0], overdrawn[pick][1]);
    s = scan_by((int)by, l, h, &x, what);
    check(is_overdrawn(&s, plain->refusal), what);
    memcpy(results, kept, bytes);
}
static chultarvi_note_scanned scan(const lent *l, const how *h, uint64_t budget, const char *what) {
    fill(l);
    chultarvi_note_scanned s = scan_plain(l, h, budget);
    check_scan(l, &s, what);
    check_allowed(l, h, budget, &s, what);
    return s;
}
static chultarvi_note_scanned eliminate(const lent *l, float threshold, float shallow, bool optimize, uint16_t passes, uint64_t budget,
                                        const char *what) {
    const how h = {false, threshold, shallow, optimize, passes, 0};
    return scan(l, &h, budget, what);
}
static chultarvi_note_scanned top_down(const lent *l, float threshold, float shallow, uint64_t step, uint64_t budget, const char *what) {
    const how h = {true, threshold, shallow, false, 0, step};
    chultarvi_note_scanned s = scan(l, &h, budget, what);
    if (threshold > 0.0f) check(lie_beside(l, s.records), what);
    return s;
}

/* All five calls that take a text, the same lent text and book: is each refused by this number? */
static void each_refuses(const lent *given, uint32_t refusal, bool compile_too, const char *what) {
    lent l = *given;
    l.results_len = CHULTARVI_RECORD_WIDTH;
    check(score(&l, 0, 0, 0, what).refusal == refusal, what);
    check(bounds(&l, 0, 0, 0, what).refusal == refusal, what);
    check(eliminate(&l, 0.9f, 0.99f, true, 1, UINT64_MAX, what).refusal == refusal, what);
    check(top_down(&l, 0.9f, 0.99f, 1, UINT64_MAX, what).refusal == refusal, what);
    l.out_len = 64;
    if (compile_too) check(compile(&l, what).refusal == refusal, what);
}

static void test_answers(void) {
    chultarvi_book_checked c = chultarvi_check_book(book_a, BOOK_A);
    check(c.refusal == 0 && c.texts == 1, "the marked book is sound and has one text");
    lent l = lend("My First License", 16, book_a, BOOK_A);
    l.out_len = 45;
    check(compile(&l, "areas of compile").len == 45 && memcmp(out, book_a + 13, 45) == 0, "compile gives the marked body");
    l = lend(text_1, sizeof text_1 - 1, book_a, BOOK_A);
    check(score(&l, 0, 3, 0, "areas of score").score == 1.0f, "marked case 1");
    l = marked();
    chultarvi_bounds_found b = bounds(&l, 0, 4, 0, "areas of bounds");
    check(b.refusal == 0 && b.first == 1 && b.after == 2 && b.score == 1.0f && b.count == 8, "marked case 2");
    l.results_len = chultarvi_elimination_results(true, 10);
    chultarvi_note_scanned s = eliminate(&l, 0.9f, 0.99f, true, 10, 20, "areas of elimination");
    static const one_record record = {0, 1, 2, 0x3f800000, 22, 41};
    check(s.refusal == 0 && s.count == 20 && s.records == 1 && s.kind == 0 && same_record(results, record), "marked case 10, budget 20");
    l.results_len = chultarvi_top_down_results(0.9f, LINES_2);
    s = top_down(&l, 0.9f, 0.99f, 1, 1000, "areas of top-down");
    check(s.refusal == 0 && s.records == 1 && s.score == 0.0f && s.kind == 0 && same_record(results, record), "top-down finds the same range");
    l = lend("My First License", 16, book_a, BOOK_A);
    s = eliminate(&l, 0.9f, 0.99f, false, 0, 1, "areas of a named licence");
    check(s.refusal == 0 && s.kind == CHULTARVI_ORIGINAL && s.len == 1 && s.name[0] == 'A' && all_are(s.name, 1, 64, 0) && s.score == 1.0f &&
              s.count == 1, "a named licence: name, kind, score, count");
    const size_t at = edition == 1 ? 6 : 14;
    check(s.second == (form == SECOND) && s.name_at == at && chultarvi_name(l.book, l.second, &s) == (form == SECOND ? l.second : l.book) + at,
          "and where its name stands");
    check(eliminate(&l, 1.0f, 0.99f, false, 0, 1, "areas at threshold 1").kind == 0, "nothing is named at a score equal to the threshold");
}

/* The numbers behind the score: of all lines, of none, of an empty table and text; of the range found; of top-down, which has none. */
typedef struct { const char *text; const uint8_t *book; size_t book_len; uint32_t m, t; } behind_row;
static void test_behind(void) {
    static const uint8_t bare[] = {1, 0, 0, 0, 1, 0, 'A', 8, 0, 0, 0, 2, 0, 0, 0, 0, 0, 0, 0, 0, 0};
    const behind_row rows[] = {
        {"My First License", book_a, BOOK_A, 2, 4}, {"My First License", bare, sizeof bare, 0, 2}, {"", book_a, BOOK_A, 0, 2}, {"", bare, sizeof bare, 0, 0},
        {"x y", book_a, BOOK_A, 0, 3}, {"my first my first license", book_a, BOOK_A, 2, 6},
    };
    for (const behind_row *r = rows; r < rows + sizeof rows / sizeof *rows; r++) {
        lent l = lend(r->text, strlen(r->text), r->book, r->book_len);
        chultarvi_view_scored v = score(&l, 0, 1, 0, "areas, m and t");
        check(v.refusal == 0 && v.m == r->m && v.t == r->t, "m and t of a view");
        chultarvi_note_scanned s = eliminate(&l, 1.0f, 1.0f, false, 0, 1, "areas, m and t");
        check(s.refusal == 0 && s.kind == 0 && s.m == r->m && s.t == r->t, "m and t of the best text, which is not named");
        s = eliminate(&l, 1.0f, 1.0f, false, 0, 0, "areas, m and t");
        check(s.refusal == 12 && s.m == 0 && s.t == 0, "none before each stored text is scored");
    }
    lent l = marked();
    check(score(&l, 0, 4, 0, "areas, m and t").t == 6, "t of all lines");
    chultarvi_bounds_found b = bounds(&l, 0, 4, 0, "areas, m and t");
    check(b.m == 2 && b.t == 4, "m and t of the range found, not of the view");
    l.results_len = chultarvi_top_down_results(0.9f, LINES_2);
    chultarvi_note_scanned s = top_down(&l, 0.9f, 0.99f, 1, 1000, "areas, m and t");
    check(s.records == 1 && s.m == 0 && s.t == 0, "top-down has no text as a whole, and no m and t");
}

static void test_texts(void) {
    memset(big, ' ', CHULTARVI_TEXT_MOST + 1);
    lent l = lend(big, CHULTARVI_TEXT_MOST, book_a, BOOK_A);
    each_refuses(&l, 0, true, "1,048,576 bytes");
    l = lend(big, CHULTARVI_TEXT_MOST + 1, book_a, BOOK_A);
    each_refuses(&l, 1, true, "one byte more");
    big[7] = 0x80;
    each_refuses(&l, 1, true, "one byte more comes before a byte of 128");
    for (int byte = 127; byte < 256; byte++) {
        uint8_t one = (uint8_t)byte;
        l = lend(&one, 1, book_a, BOOK_A);
        each_refuses(&l, byte == 127 ? 0 : 2, true, "bytes 127 and 128 to 255");
    }
    memset(big, '\n', CHULTARVI_LINES_MOST);
    l = lend(big, CHULTARVI_LINES_MOST - 1, book_a, BOOK_A);
    l.out_len = 8;
    check(compile(&l, "65,536 lines").refusal == 0, "65,536 lines");
    check(score(&l, 0, CHULTARVI_LINES_MOST, 0, "65,536 lines").refusal == 0, "65,536 lines");
    check(eliminate(&l, 0.9f, 0.99f, false, 0, 1, "65,536 lines").refusal == 0, "65,536 lines");
    l = lend(big, CHULTARVI_LINES_MOST, book_a, BOOK_A);
    each_refuses(&l, 3, true, "one line more");
    big[5] = 0xff;
    each_refuses(&l, 2, true, "a byte of 255 comes before the lines");
    l = lend(0, 0, book_a, BOOK_A);
    each_refuses(&l, 0, true, "a null text of length 0");
}

/* A sound book of `size` bytes with one text, whose entries are `aaaa aaaa` and up; the last is as long as it takes. */
static void large_book(uint8_t *b, size_t size) {
    size_t entries = (size - 21) / 17, rest = (size - 21) % 17;
    uint8_t *p = put_head(b, 1, 1);
    *p++ = 'A';
    p = put_number(put_number(put_head(p, size - 13, 2), entries), entries);
    for (size_t i = 0; i < entries; i++) {
        size_t more = i + 1 == entries ? rest : 0, x = i;
        p = put_number(put_number(p, 1), 9 + more);
        for (int k = 7; k >= 0; k--, x /= 26) p[k < 4 ? k : k + 1] = (uint8_t)('a' + x % 26);
        p[4] = ' ';
        memset(p + 9, 'z', more);
        p += 9 + more;
    }
}
/* A name of `name_len` bytes, an original and `more` alternates, all tables empty. */
static size_t small_book(uint8_t *b, size_t name_len, size_t more) {
    uint8_t *p = put_head(b, name_len, 1);
    memset(p, 'n', name_len);
    p += name_len;
    for (size_t i = 0; i < more + 1; i++) {
        p = put_head(p, 8, i == 0 ? 2 : 3);
        memset(p, 0, 8);
        p += 8;
    }
    return (size_t)(p - b);
}

static void test_books(void) {
    large_book(big, CHULTARVI_BOOK_MOST);
    chultarvi_book_checked c = chultarvi_check_book(big, CHULTARVI_BOOK_MOST);
    check(c.refusal == 0 && c.texts == 1, "a book of 16,777,216 bytes");
    large_book(big, CHULTARVI_BOOK_MOST + 1);
    c = chultarvi_check_book(big, CHULTARVI_BOOK_MOST + 1);
    check(c.refusal == 4 && c.texts == 0, "one byte more");
    c = chultarvi_check_book(big, small_book(big, 1, CHULTARVI_STORED_MOST - 1));
    check(c.refusal == 0 && c.texts == CHULTARVI_STORED_MOST, "1,024 stored texts");
    c = chultarvi_check_book(big, small_book(big, 1, CHULTARVI_STORED_MOST));
    check(c.refusal == 4 && c.texts == 0, "one text more");
    size_t len = small_book(big, CHULTARVI_NAME_MOST, 0);
    check(chultarvi_check_book(big, len).refusal == 0, "a name of 64 bytes");
    lent l = lend("x", 1, big, len);
    chultarvi_note_scanned s = eliminate(&l, 0.0f, 0.0f, false, 0, 1, "areas, name of 64");
    check(s.refusal == 0 && s.kind == 0, "an empty table scores 0.0, which is not above 0.0");
    len = small_book(big, CHULTARVI_NAME_MOST + 1, 0);
    check(chultarvi_check_book(big, len).refusal == 4, "a name of 65 bytes");
    for (size_t n = 0; n < BOOK_A; n++) {
        bool empty = n == 0;
        l = lend("x", 1, book_a, n);
        check(chultarvi_check_book(book_a, n).refusal == (empty ? 0 : 4), "a book cut short");
        each_refuses(&l, empty ? 5 : 4, false, "a book cut short, or empty");
    }
    c = chultarvi_check_book(0, 0);
    check(c.refusal == 0 && c.texts == 0, "a null book of length 0 is sound and empty");
    l = lend("x", 1, 0, 0);
    each_refuses(&l, 5, false, "a null book of length 0");
}

/* A named licence of 64 bytes: no zero ends the name. */
static void test_long_name(void) {
    uint8_t *p = put_head(big, 64, 1);
    memset(p, 'n', 64);
    memcpy(p + 64, book_a + 7, BOOK_A - 7);
    lent l = lend("My First License", 16, big, 70 + BOOK_A - 7);
    chultarvi_note_scanned s = eliminate(&l, 0.9f, 0.99f, true, 0, 1, "areas of a long name");
    check(s.refusal == 0 && s.len == 64 && all_are(s.name, 0, 64, 'n') && s.kind == CHULTARVI_ORIGINAL, "a name that fills its 64 bytes");
}

static void test_limits(void) {
    lent l = marked();
    l.results_len = chultarvi_top_down_results(0.9f, LINES_2);
    const float good[] = {0.0f, -0.0f, 1.0f, FLT_MIN, 0.5f}, bad[] = {-FLT_MIN, 1.0f + FLT_EPSILON, 2.0f, INFINITY, -INFINITY, NAN};
    for (size_t i = 0; i < sizeof good / sizeof *good; i++) {
        check(eliminate(&l, good[i], 0.5f, false, 0, 1, "a good threshold").refusal == 0, "a good threshold");
        check(eliminate(&l, 0.5f, good[i], false, 0, 1, "a good shallow limit").refusal == 0, "a good shallow limit");
    }
    for (size_t i = 0; i < sizeof bad / sizeof *bad; i++) {
        check(eliminate(&l, bad[i], 0.5f, false, 0, 1, "a bad threshold").refusal == 6, "a bad threshold");
        check(eliminate(&l, 0.5f, bad[i], false, 0, 1, "a bad shallow limit").refusal == 6, "a bad shallow limit");
        check(top_down(&l, bad[i], 0.5f, 0, 1, "a bad threshold").refusal == 6, "a bad threshold, before step 0");
        check(top_down(&l, 0.5f, bad[i], 0, 1, "a bad shallow limit").refusal == 6, "a bad shallow limit, before step 0");
    }
    check(top_down(&l, 0.9f, 0.99f, 0, 1000, "step 0").refusal == 7, "step 0");
    check(top_down(&l, 0.9f, 0.99f, 1, 1000, "step 1").refusal == 0, "step 1");
    check(top_down(&l, 0.9f, 0.99f, UINT64_MAX, 1000, "the largest step").refusal == 0, "the largest step");
}

static void test_views(void) {
    lent l = marked();
    static const struct { size_t start, end; uint32_t number, refusal; } view[] = {
        {0, 0, 0, 0}, {4, 4, 0, 0},        {0, 4, 0, 0},        {0, 5, 0, 8}, {5, 5, 0, 8}, {2, 1, 0, 8},
        {1, 1, 0, 0}, {0, SIZE_MAX, 0, 8}, {SIZE_MAX, 0, 0, 8}, {0, 4, 1, 9}, {0, 5, 1, 8}, {0, 4, UINT32_MAX, 9},
    };
    for (size_t i = 0; i < sizeof view / sizeof *view; i++) {
        check(score(&l, view[i].start, view[i].end, view[i].number, "areas, view").refusal == view[i].refusal, "score: views and numbers");
        check(bounds(&l, view[i].start, view[i].end, view[i].number, "areas, view").refusal == view[i].refusal, "bounds: views and numbers");
    }
}

static void each_area(const lent *l, uint32_t refusal, const char *what) {
    check(compile(l, what).refusal == refusal, what);
    check(score(l, 0, 4, 0, what).refusal == refusal, what);
    check(bounds(l, 0, 4, 0, what).refusal == refusal, what);
    check(eliminate(l, 0.9f, 0.99f, true, 10, 20, what).refusal == refusal, what);
    check(top_down(l, 0.9f, 0.99f, 1, 1000, what).refusal == refusal, what);
}
static void test_areas(void) {
    lent l = marked();
    l.out_len = 1024;
    l.results_len = chultarvi_elimination_results(true, 10);
    check(l.area_len == 8 * l.len + 64 && l.words_len == 12 * l.len + 64, "the header's functions give 8n+64 and 12n+64");
    each_area(&l, 0, "areas of 8n+64 and 12n+64");
    l.area_len--;
    each_area(&l, 10, "one byte less");
    l.area_len++;
    l.words_len--;
    each_area(&l, 10, "one number less");
    l.area_len += 1000;
    l.words_len += 1001;
    each_area(&l, 0, "larger areas");
    l = marked();
    l.results_len = chultarvi_elimination_results(true, 10);
    check(l.results_len == 60, "6P");
    check(eliminate(&l, 0.9f, 0.99f, true, 10, 20, "6P").refusal == 0, "results of 6P");
    l.results_len--;
    check(eliminate(&l, 0.9f, 0.99f, true, 10, 20, "6P less one").refusal == 10, "results of 6P less one");
    l.results_len = chultarvi_elimination_results(false, 10);
    check(l.results_len == 0 && eliminate(&l, 0.9f, 0.99f, false, 10, 20, "no results").refusal == 0, "without optimize none are needed");
    check(eliminate(&l, 0.9f, 0.99f, true, 0, 20, "no pass").refusal == 0, "nor without a pass");
    l.results_len = chultarvi_elimination_results(true, UINT16_MAX);
    check(l.results_len == 393210, "6 * 65,535");
    check(eliminate(&l, 0.9f, 0.99f, true, UINT16_MAX, 20, "6 * 65,535").refusal == 0, "results of 6 * 65,535");
    l.results_len--;
    check(eliminate(&l, 0.9f, 0.99f, true, UINT16_MAX, 20, "less one").refusal == 10, "results of 6 * 65,535 less one");
}

static void test_output(void) {
    lent l = lend("My First License", 16, book_a, BOOK_A);
    for (size_t room = 0; room <= 46; room++) {
        l.out_len = room;
        check(compile(&l, "areas, output").refusal == (room < 45 ? 11 : 0), "an output of 45 bytes, and less");
    }
    chultarvi_text_compiled c = chultarvi_compile(0, 0, 1, area, 64, words, 64, 0, 0);
    check(c.refusal == 11 && c.len == 0, "a null output of length 0");
    l.out_len = 44;
    l.area_len--;
    check(compile(&l, "areas, 10 before 11").refusal == 10, "a small area comes before a short output");
}

/* Words of two letters, all their bigrams distinct, and URLs of one letter, each of which grows to three words. */
static void test_table_bytes(void) {
    enum { N = 2025 };
    static uint8_t pairs[N], urls[N];
    for (size_t i = 0; i < N; i++) {
        size_t word = i / 3;
        pairs[i] = i % 3 == 0 ? (uint8_t)('a' + word % 26) : i % 3 == 1 ? (uint8_t)('a' + word / 26) : (uint8_t)' ';
        urls[i] = (uint8_t)"http://a "[i % 9];
    }
    check(chultarvi_table_bytes(0) == 64 && chultarvi_table_bytes(1) == 88, "24n + 64");
    for (size_t len = 0; len <= N; len += 81) {
        lent l = lend(pairs, len, book_a, BOOK_A), u = lend(urls, len, book_a, BOOK_A);
        l.out_len = u.out_len = chultarvi_table_bytes(len);
        check(compile(&l, "areas, words of two letters").refusal == 0, "chultarvi_table_bytes, words of two letters");
        check(compile(&u, "areas, short URLs").refusal == 0, "chultarvi_table_bytes, short URLs");
    }
}

/* The words of each refusal, which stand in the header; the numbers are the library's. */
static void test_refusal_texts(void) {
    static const char *const part[] = {"none", "1,048,576", "ASCII", "65,536", "sound",  "stored", "limit",
                                       "step", "view",      "number", "area",  "output", "budget"};
    static_assert(CHULTARVI_ANSWERED == 0 && CHULTARVI_REFUSED_BOOK_UNSOUND == 4 && CHULTARVI_STOPPED_BY_BUDGET == 12, "numbers of refusals");
    for (uint32_t n = 0; n < 13; n++) check(strstr(chultarvi_refusal_text(n), part[n]) != 0, part[n]);
    check(strstr(chultarvi_refusal_text(CHULTARVI_REFUSED_EDITIONS_DIFFER), "editions") != 0 && CHULTARVI_REFUSED_EDITIONS_DIFFER == 15, "editions");
    check(strstr(chultarvi_refusal_text(CHULTARVI_REFUSED_NO_EXPRESSION), "expression") != 0 && CHULTARVI_REFUSED_NO_EXPRESSION == 13, "13");
    check(strstr(chultarvi_refusal_text(CHULTARVI_REFUSED_TOO_DEEP), "32 parentheses") != 0 && CHULTARVI_REFUSED_TOO_DEEP == 14, "14");
    static const uint32_t none[] = {16, 17, UINT32_MAX};
    for (size_t i = 0; i < sizeof none / sizeof *none; i++) check(strcmp(chultarvi_refusal_text(none[i]), "unknown") == 0, "above 15");
    check(CHULTARVI_REFUSED_OVERDRAWN == 17, "17");
    lent l = lend("\x80", 1, book_a, BOOK_A);
    check(score(&l, 0, 1, 0, "areas").refusal == CHULTARVI_REFUSED_TEXT_BYTES, "an answer's refusal is one of the enum");
    static_assert(CHULTARVI_REFUSED_TEXT_NOT_ASCII == CHULTARVI_REFUSED_TEXT_BYTES, "the old name of 2");
    enum chultarvi_refusal small = CHULTARVI_REFUSED_AREA_SMALL;
    check(small == 10 && strstr(chultarvi_refusal_text(small), "area") != 0, "the enum as a type");
}

/* The version as a string says the same as its numbers. */
static void test_version(void) {
    char numbers[64];
    snprintf(numbers, sizeof numbers, "%d.%d.%d", CHULTARVI_VERSION_MAJOR, CHULTARVI_VERSION_MINOR, CHULTARVI_VERSION_PATCH);
    check(strcmp(numbers, CHULTARVI_VERSION) == 0, "the version's numbers");
}

static void test_budget(void) {
    lent l = marked();
    l.results_len = chultarvi_elimination_results(true, 10);
    for (uint64_t budget = 0; budget <= 21; budget++) {
        chultarvi_note_scanned s = eliminate(&l, 0.9f, 0.99f, true, 10, budget, "areas, budget");
        check(s.refusal == (budget < 20 ? 12 : 0), "12 below a budget of 20, never from there on");
        check(s.count == (budget < 20 ? budget : 20), "the count is the budget, or 20");
        check(s.records == (budget < 9 ? 0 : 1), "one record from a budget of 9 on");
        check((s.score > 0.0f) == (budget >= 1) && s.kind == 0, "the overall score is known once the first text is paid");
        check(s.m == (budget >= 1 ? 2u : 0u) && s.t == (budget >= 1 ? 6u : 0u), "and so are its m and t, though no licence is named");
    }
    l.results_len = chultarvi_top_down_results(0.9f, LINES_2);
    uint64_t full = top_down(&l, 0.9f, 0.99f, 1, UINT64_MAX, "areas, no budget").count;
    check(top_down(&l, 0.9f, 0.99f, 1, full, "areas, budget").refusal == 0, "top-down with its own count as budget");
    chultarvi_note_scanned s = top_down(&l, 0.9f, 0.99f, 1, full - 1, "areas, budget");
    check(s.refusal == 12 && s.count == full - 1, "top-down with one less");
}

/* ---- an allowance */

/* The marked text by case 10's settings, which takes 20 scorings and records after the ninth; and top-down, which takes 12. */
static const how by_elimination = {false, 0.9f, 0.99f, true, 10, 0}, by_top_down = {true, 0.9f, 0.99f, false, 0, 1};
enum { MARKED_SCORINGS = 20, MARKED_FOUND = 9, DOWN_SCORINGS = 12 };
static lent marked_for(const how *h) {
    lent l = marked();
    l.results_len = h->down ? chultarvi_top_down_results(h->threshold, LINES_2) : chultarvi_elimination_results(h->optimize, h->passes);
    return l;
}
/* What a scan answers by an allowance, and what is used then; the book and the results may be so much shorter than they should. */
typedef struct {
    const char *what;
    uint64_t cap, used;
    uint32_t refusal;
    uint64_t count;
    uint32_t records;
    uint64_t after;
    size_t book_less, results_less;
} allowed_row;
static const allowed_row allowed_rows[] = {
    {"100, 0", 100, 0, 0, 20, 1, 20, 0, 0},
    {"20, 0", 20, 0, 0, 20, 1, 20, 0, 0},
    {"19, 0", 19, 0, 12, 19, 1, 19, 0, 0},
    {"29, 20", 29, 20, 12, 9, 1, 29, 0, 0},
    {"5, 5", 5, 5, 12, 0, 0, 5, 0, 0},
    {"5, 6", 5, 6, 17, 0, 0, 6, 0, 0},
    {"2^64-1, 2^64-1", UINT64_MAX, UINT64_MAX, 12, 0, 0, UINT64_MAX, 0, 0},
    {"2^64-1, 2^64-21", UINT64_MAX, UINT64_MAX - 20, 0, 20, 1, UINT64_MAX, 0, 0},
    {"2^64-1, 2^64-20", UINT64_MAX, UINT64_MAX - 19, 12, 19, 1, UINT64_MAX, 0, 0},
    {"2^64-1, 0", UINT64_MAX, 0, 0, 20, 1, 20, 0, 0},
    {"2^32, 0", 1ull << 32, 0, 0, 20, 1, 20, 0, 0},
    {"2^32+5, 6", (1ull << 32) + 5, 6, 0, 20, 1, 26, 0, 0},
    {"2^32+24, 2^32+5", (1ull << 32) + 24, (1ull << 32) + 5, 12, 19, 1, (1ull << 32) + 24, 0, 0},
    {"5, 2^32", 5, 1ull << 32, 17, 0, 0, 1ull << 32, 0, 0},
    {"2^64-2, 2^64-1", UINT64_MAX - 1, UINT64_MAX, 17, 0, 0, UINT64_MAX, 0, 0},
    {"0, 2^64-1", 0, UINT64_MAX, 17, 0, 0, UINT64_MAX, 0, 0},
    {"0, 0", 0, 0, 12, 0, 0, 0, 0, 0},
    {"5, 6, the book a byte short", 5, 6, 4, 0, 0, 6, 1, 0},
    {"6, 5, the book a byte short", 6, 5, 4, 0, 0, 5, 1, 0},
    {"5, 6, results of 59", 5, 6, 10, 0, 0, 6, 0, 1},
    {"100, 0, results of 59", 100, 0, 10, 0, 0, 0, 0, 1},
    {"5, 6, both", 5, 6, 4, 0, 0, 6, 1, 1},
};
static void test_allowed_cases(int by) {
    for (const allowed_row *r = allowed_rows; r < allowed_rows + sizeof allowed_rows / sizeof *allowed_rows; r++) {
        lent l = marked_for(&by_elimination);
        *(form == SECOND ? &l.second_len : &l.book_len) -= r->book_less;
        l.results_len -= r->results_less;
        fenced x = fence(r->cap, r->used);
        chultarvi_note_scanned s = scan_by(by, &l, &by_elimination, &x, r->what);
        check(s.refusal == r->refusal && s.count == r->count && s.records == r->records && x.is.used == r->after, r->what);
        check(s.m == (s.count > 0 ? 2u : 0u) && s.t == (s.count > 0 ? 6u : 0u), r->what);
    }
}
/* Each cap from 0 to some above the count, each used from 0 to some above the cap. */
static void check_allowed_at(int by, const how *h, uint64_t full, uint64_t cap, uint64_t used) {
    lent l = marked_for(h);
    uint64_t left = used <= cap ? cap - used : 0, count = left < full ? left : full;
    fenced x = fence(cap, used);
    chultarvi_note_scanned s = scan_by(by, &l, h, &x, "a small allowance");
    check(s.refusal == (used > cap ? 17u : left < full ? 12u : 0u) && s.count == count && x.is.used == used + count, "a small allowance: the count");
    if (!h->down) check(s.records == (count < MARKED_FOUND ? 0 : 1), "a small allowance: the record");
}
static void test_allowed_grid(int by, const how *h, uint64_t full) {
    for (uint64_t cap = 0; cap <= full + 3; cap++)
        for (uint64_t used = 0; used <= cap + 2; used++) check_allowed_at(by, h, full, cap, used);
}
/* 50 for three scans in turn, and one more; then 32 for the two modes. */
static void test_allowed_turns(int by) {
    static const struct { uint32_t refusal; uint64_t count, used; } turns[] = {{0, 20, 20}, {0, 20, 40}, {12, 10, 50}, {12, 0, 50}};
    lent l = marked_for(&by_elimination), down = marked_for(&by_top_down);
    fenced x = fence(50, 0);
    for (size_t i = 0; i < sizeof turns / sizeof *turns; i++) {
        chultarvi_note_scanned s = scan_by(by, &l, &by_elimination, &x, "scans in turn");
        check(s.refusal == turns[i].refusal && s.count == turns[i].count && x.is.used == turns[i].used, "scans in turn");
    }
    x = fence(MARKED_SCORINGS + DOWN_SCORINGS, 0);
    check(scan_by(by, &l, &by_elimination, &x, "both modes in turn").refusal == 0, "both modes in turn");
    check(scan_by(by, &down, &by_top_down, &x, "both modes in turn").refusal == 0 && x.is.used == x.is.cap, "both modes in turn: all is used");
}
/* A Save of forty notes, each of one scoring, and one scoring too few. */
static void test_allowed_save(int by) {
    const how whole = {false, 0.9f, 0.99f, false, 0, 0};
    lent note = lend("My First License", 16, book_a, BOOK_A);
    fenced x = fence(39, 0);
    for (uint64_t i = 1; i <= 40; i++) {
        chultarvi_note_scanned s = scan_by(by, &note, &whole, &x, "forty notes");
        check(s.refusal == (i < 40 ? 0u : 12u) && x.is.used == (i < 40 ? i : 39) && (s.kind != 0) == (i < 40), "forty notes");
    }
}
static void test_allowance(void) {
    for (int by = 0; by < WAYS; by++) {
        test_allowed_cases(by);
        test_allowed_grid(by, &by_elimination, MARKED_SCORINGS);
        test_allowed_grid(by, &by_top_down, DOWN_SCORINGS);
        test_allowed_turns(by);
        test_allowed_save(by);
    }
}

/* ---- the bytes of a range */

/* A note, how it is scanned against the marked licence, and every record of it. */
enum { PLACED_MOST = 2 };
typedef struct {
    const char *what, *note;
    bool down;
    float threshold;
    uint16_t passes;
    uint64_t budget;
    uint32_t refusal, records;
    one_record record[PLACED_MOST];
} placed_row;
#define ALL UINT64_MAX
#define RETURNS "copyright 20xx me irl\r\n// My First License\r\nfn hello() {\r\n ..."
#define BLANKED "my first\n\n\n\nMy First License\n\nmy first"
#define TWICE "My First License\n\nx\nMy First License"
static const placed_row placed_rows[] = {
    {"text 2", text_2, false, 0.6f, 1, ALL, 0, 1, {{0, 1, 2, 0x3f800000, 22, 41}}},
    {"text 2, top-down", text_2, true, 0.9f, 0, ALL, 0, 1, {{0, 1, 2, 0x3f800000, 22, 41}}},
    {"carriage returns", RETURNS, false, 0.6f, 1, ALL, 0, 1, {{0, 1, 2, 0x3f800000, 23, 43}}},
    {"carriage returns, top-down", RETURNS, true, 0.9f, 0, ALL, 0, 1, {{0, 1, 2, 0x3f800000, 23, 43}}},
    {"one line", "My First License", false, 0.6f, 1, ALL, 0, 1, {{0, 0, 1, 0x3f800000, 0, 16}}},
    {"a last newline", "My First License\n", false, 0.6f, 1, ALL, 0, 1, {{0, 0, 2, 0x3f800000, 0, 17}}},
    {"a last carriage return", "My First License\r", false, 0.6f, 1, ALL, 0, 1, {{0, 0, 1, 0x3f800000, 0, 17}}},
    {"a first newline", "\nMy First License", false, 0.6f, 1, ALL, 0, 1, {{0, 1, 2, 0x3f800000, 1, 17}}},
    {"a line before and behind", "x\nMy First License\ny", false, 0.6f, 1, ALL, 0, 1, {{0, 1, 2, 0x3f800000, 2, 18}}},
    {"an empty note", "", false, 0.0f, 1, ALL, 0, 1, {{0, 1, 1, 0, 0, 0}}},
    {"an empty note, -0.0", "", false, -0.0f, 1, ALL, 0, 1, {{0, 1, 1, 0, 0, 0}}},
    {"an empty note, top-down", "", true, 0.0f, 0, ALL, 0, 1, {{0, 1, 1, 0, 0, 0}}},
    {"an empty range at L", "x\ny", false, 0.0f, 1, ALL, 0, 1, {{0, 2, 2, 0, 3, 3}}},
    {"an empty range at L, top-down", "x\ny", true, -0.0f, 0, ALL, 0, 1, {{0, 2, 2, 0, 3, 3}}},
    {"an empty range at L, behind a last newline", "x\ny\n", false, 0.0f, 1, ALL, 0, 1, {{0, 3, 3, 0, 4, 4}}},
    {"an empty range before L, behind a blanked one", BLANKED, false, 0.0f, 2, ALL, 0, 2, {{0, 4, 6, 0x3f800000, 12, 29}, {0, 6, 6, 0, 30, 30}}},
    {"two ranges, top-down", TWICE, true, 0.9f, 0, ALL, 0, 2, {{0, 0, 2, 0x3f800000, 0, 17}, {0, 3, 4, 0x3f800000, 20, 36}}},
    {"a budget of 9", text_2, false, 0.9f, 10, 9, 12, 1, {{0, 1, 2, 0x3f800000, 22, 41}}},
    {"a budget of 8", text_2, false, 0.9f, 10, 8, 12, 0, {{0}}},
};
/* The results just as large as needed: they are answered. One element less is refused, and they stay as they were. */
static void check_placed(const placed_row *r) {
    lent l = lend(r->note, strlen(r->note), book_a, BOOK_A);
    for (size_t less = 0; less < 2; less++) {
        l.results_len = (r->down ? chultarvi_top_down_results(r->threshold, lines_of(&l)) : chultarvi_elimination_results(true, r->passes)) - less;
        chultarvi_note_scanned s =
            r->down ? top_down(&l, r->threshold, 1.0f, 1, r->budget, r->what) : eliminate(&l, r->threshold, 1.0f, true, r->passes, r->budget, r->what);
        check(s.refusal == (less ? 10 : r->refusal) && s.records == (less ? 0 : r->records), r->what);
        for (size_t k = 0; k < s.records && k < PLACED_MOST; k++) check(same_record(results + CHULTARVI_RECORD_WIDTH * k, r->record[k]), r->what);
    }
}
static void test_placed(void) {
    for (const placed_row *r = placed_rows; r < placed_rows + sizeof placed_rows / sizeof *placed_rows; r++) check_placed(r);
}

/* ---- how many results top-down needs */

static float float_of(uint32_t bits) {
    float f;
    memcpy(&f, &bits, sizeof f);
    return f;
}
/* Thresholds by their bits: 0.8, the smallest above 0.0, and the two that are not above it. */
#define EIGHTY 0x3f4ccccd
#define SMALLEST 0x00000001
#define NOUGHT 0x00000000
#define MINUS_NOUGHT 0x80000000

static void test_result_sizes(void) {
    static const struct { size_t lines, few, all; } sizes[] = {
        {0, 0, 0}, {1, 6, 6}, {2, 6, 12}, {3, 12, 18}, {4, 12, 24}, {5, 18, 30}, {65535, 196608, 393210}, {65536, 196608, 393216},
        {SIZE_MAX / 6, SIZE_MAX / 12 * 6, SIZE_MAX / 6 * 6},
    };
    for (size_t i = 0; i < sizeof sizes / sizeof *sizes; i++) {
        const size_t lines = sizes[i].lines;
        check(chultarvi_top_down_results(0.8f, lines) == sizes[i].few && chultarvi_top_down_results(1.0f, lines) == sizes[i].few, "half above 0.0");
        check(chultarvi_top_down_results(float_of(SMALLEST), lines) == sizes[i].few, "half at the smallest threshold above 0.0");
        check(chultarvi_top_down_results(0.0f, lines) == sizes[i].all && chultarvi_top_down_results(-0.0f, lines) == sizes[i].all, "all at 0.0 and -0.0");
        check(chultarvi_top_down_results(NAN, lines) == sizes[i].all && chultarvi_top_down_results(-1.0f, lines) == sizes[i].all, "all, for no threshold");
    }
    check(chultarvi_top_down_results(0.8f, SIZE_MAX / 3 - 1) == SIZE_MAX - 3, "the most lines whose half has room for its records");
}

/* Lines that are the marked licence and `x` in turn: what top-down needs, its count and its ranges. */
enum { BESIDE_MOST = 3 };
typedef struct { uint32_t lines, threshold; size_t need; uint64_t count; uint32_t records, range[BESIDE_MOST][2]; } beside_row;
static const beside_row beside_rows[] = {
    {1, EIGHTY, 6, 6, 1, {{0, 1}}},
    {2, EIGHTY, 6, 9, 1, {{0, 1}}},
    {3, EIGHTY, 12, 15, 2, {{0, 1}, {2, 3}}},
    {4, EIGHTY, 12, 18, 2, {{0, 1}, {2, 3}}},
    {5, EIGHTY, 18, 24, 3, {{0, 1}, {2, 3}, {4, 5}}},
    {5, SMALLEST, 18, 31, 3, {{0, 1}, {2, 3}, {4, 5}}},
    {2, NOUGHT, 12, 9, 1, {{2, 2}}},
    {2, MINUS_NOUGHT, 12, 9, 1, {{2, 2}}},
    {5, NOUGHT, 30, 24, 1, {{4, 5}}},
    {5, MINUS_NOUGHT, 30, 24, 1, {{4, 5}}},
};
static lent lend_turns(uint32_t lines) {
    uint8_t *p = big;
    for (uint32_t k = 0; k < lines; k++) {
        const char *line = k % 2 ? "x" : "My First License";
        if (k > 0) *p++ = '\n';
        memcpy(p, line, strlen(line));
        p += strlen(line);
    }
    return lend(big, (size_t)(p - big), book_a, BOOK_A);
}
/* The scan stopped or not: its records are the first of the full scan's. */
static void check_beside_at(const lent *l, const beside_row *r, uint64_t budget) {
    chultarvi_note_scanned s = top_down(l, float_of(r->threshold), 1.0f, 1, budget, "areas, lines in turn");
    check(s.refusal == (budget < r->count ? 12 : 0) && s.count == (budget < r->count ? budget : r->count), "lines in turn: the count");
    check(budget < r->count ? s.records <= r->records : s.records == r->records, "lines in turn: how many ranges");
    for (size_t k = 0; k < s.records && k < BESIDE_MOST; k++) {
        const uint32_t *record = results + CHULTARVI_RECORD_WIDTH * k;
        check(record[CHULTARVI_RECORD_FIRST] == r->range[k][0] && record[CHULTARVI_RECORD_AFTER] == r->range[k][1], "lines in turn: the ranges");
    }
}
static void check_beside(const beside_row *r) {
    const float threshold = float_of(r->threshold);
    lent l = lend_turns(r->lines);
    check(chultarvi_top_down_results(threshold, r->lines) == r->need, "lines in turn: what is needed");
    for (l.results_len = 0; l.results_len < r->need; l.results_len++) {
        check(top_down(&l, threshold, 1.0f, 1, UINT64_MAX, "areas, results too short").refusal == 10, "every shorter results are refused");
        check(top_down(&l, threshold, 1.0f, 1, 0, "areas, results too short").refusal == 10, "and before the budget");
    }
    for (uint64_t budget = 0; budget <= r->count + 1; budget++) check_beside_at(&l, r, budget);
    check_beside_at(&l, r, UINT64_MAX);
    l.results_len = r->need + 9;
    check_beside_at(&l, r, UINT64_MAX);
}
/* Lent for the most lines; a budget of 0 shows that nothing is refused. */
static void check_most(size_t lines, float threshold, size_t need) {
    memset(big, '\n', lines - 1);
    lent l = lend(big, lines - 1, book_a, BOOK_A);
    l.results_len = need;
    check(top_down(&l, threshold, 1.0f, 1, 0, "areas, the most lines").refusal == 12, "results for the most lines");
    l.results_len--;
    check(top_down(&l, threshold, 1.0f, 1, 0, "areas, the most lines").refusal == 10, "one less");
}
static void test_beside(void) {
    for (const beside_row *r = beside_rows; r < beside_rows + sizeof beside_rows / sizeof *beside_rows; r++) check_beside(r);
    for (size_t lines = CHULTARVI_LINES_MOST - 1; lines <= CHULTARVI_LINES_MOST; lines++) {
        check_most(lines, float_of(EIGHTY), 196608);
        check_most(lines, float_of(SMALLEST), 196608);
        check_most(lines, 0.0f, 6 * lines);
        check_most(lines, -0.0f, 6 * lines);
    }
    lent l = lend_turns(5);
    l.results_len = 18;
    check(top_down(&l, NAN, 1.0f, 1, 0, "areas, NaN").refusal == 6, "no threshold comes before the results");
    check(top_down(&l, 0.8f, 0.0f, 1, 0, "areas, shallow").refusal == 12, "the shallow limit plays no part");
    check(top_down(&l, 0.0f, 1.0f, 1, 0, "areas, shallow").refusal == 10, "nor above 0.0 for a threshold that is not");
    l.results_len--;
    check(top_down(&l, 0.8f, 0.0f, 1, 0, "areas, shallow").refusal == 10, "nor at 0.0");
}

/* ---- two books */

static lent lend_held(const char *text, held first, held second) { return lend_both(text, strlen(text), first.at, first.len, second.at, second.len); }

/* A licence with one text, its original, at `at`, compiled by the edition of the tests. Gives what stands there from `from` on. */
static held put_licence(uint8_t *from, uint8_t *at, const char *name, const char *text) {
    size_t name_len = strlen(name), len = strlen(text);
    uint8_t *p = put_head(at, name_len, 1);
    memcpy(p, name, name_len);
    p += name_len;
    chultarvi_text_compiled c = chultarvi_compile((const uint8_t *)text, len, edition, area, chultarvi_area_bytes(len), words,
                                                  chultarvi_area_words(len), p + 6, chultarvi_table_bytes(len));
    return hold(from, (size_t)(put_head(p, c.len, 2) - from) + c.len);
}

/* Licence A is the marked one, B another text; C has A's text, after B or after A. other_a has A's name and B's text; again is A elsewhere. */
static const char note_a[] = "My First License", text_b[] = "another text of some words";
static held book_empty, only_a, only_b, b_then_c, a_then_c, cut_a, other_a, again;
static void make_books(void) {
    static uint8_t b[256], bc[512], ac[512], oa[256], aa[256];
    book_empty = hold(book_a, 0);
    only_a = hold(book_a, BOOK_A);
    cut_a = hold(book_a, BOOK_A - 1);
    only_b = put_licence(b, b, "B", text_b);
    memcpy(bc, b, only_b.len);
    b_then_c = put_licence(bc, bc + only_b.len, "C", note_a);
    memcpy(ac, book_a, BOOK_A);
    a_then_c = put_licence(ac, ac + BOOK_A, "C", note_a);
    other_a = put_licence(oa, oa, "A", text_b);
    again = put_licence(aa, aa, "A", note_a);
    check(again.len == BOOK_A && memcmp(again.at, book_a, BOOK_A) == 0, "the books of the tests are made as the marked one is");
}

/* What a scan without ranges answers, and where its name stands. */
typedef struct {
    const char *what;
    held first, second;
    const char *note;
    uint64_t budget;
    uint32_t refusal;
    uint64_t count;
    bool in_second;
    size_t at, len;
} row;
static void check_row(const row *r) {
    lent l = lend_held(r->note, r->first, r->second);
    chultarvi_note_scanned s = eliminate(&l, 0.5f, 0.5f, false, 0, r->budget, r->what);
    const uint8_t *holder = r->in_second ? r->second.at : r->first.at;
    check(s.refusal == r->refusal && s.count == r->count, r->what);
    check(s.second == r->in_second && s.name_at == r->at && s.len == r->len, r->what);
    check(chultarvi_name(r->first.at, r->second.at, &s) == (r->at ? holder + r->at : holder), r->what);
}
static void test_names(void) {
    const uint64_t all = UINT64_MAX;
    const held none = hold(0, 0);
    const row rows[] = {
        {"A, B", only_a, only_b, note_a, all, 0, 2, false, 6, 1},
        {"B, A", only_b, only_a, note_a, all, 0, 2, true, 6, 1},
        {"A, A: both books the same memory", only_a, only_a, note_a, all, 0, 2, false, 6, 1},
        {"A, A: the same bytes elsewhere", only_a, again, note_a, all, 0, 2, false, 6, 1},
        {"A, A: the same bytes elsewhere, in turn", again, only_a, note_a, all, 0, 2, false, 6, 1},
        {"B and C, A", b_then_c, only_a, note_a, all, 0, 3, false, 95, 1},
        {"B, A and C", only_b, a_then_c, note_a, all, 0, 3, true, 6, 1},
        {"B and C, B and C", b_then_c, b_then_c, note_a, all, 0, 4, false, 95, 1},
        {"B, B and C", only_b, b_then_c, note_a, all, 0, 3, true, 95, 1},
        {"equal names, the second's text wins", other_a, only_a, note_a, all, 0, 2, true, 6, 1},
        {"equal names, the first's text wins", only_a, other_a, note_a, all, 0, 2, false, 6, 1},
        {"empty, A", book_empty, only_a, note_a, all, 0, 1, true, 6, 1},
        {"A, empty", only_a, book_empty, note_a, all, 0, 1, false, 6, 1},
        {"null, A", none, only_a, note_a, all, 0, 1, true, 6, 1},
        {"A, null", only_a, none, note_a, all, 0, 1, false, 6, 1},
        {"empty, empty", book_empty, book_empty, note_a, all, 5, 0, false, 0, 0},
        {"A, A cut", only_a, cut_a, note_a, all, 4, 0, false, 0, 0},
        {"A cut, A", cut_a, only_a, note_a, all, 4, 0, false, 0, 0},
        {"empty, A cut: 4 comes before 5", book_empty, cut_a, note_a, all, 4, 0, false, 0, 0},
        {"A cut, empty: 4 comes before 5", cut_a, book_empty, note_a, all, 4, 0, false, 0, 0},
        {"B, A, a budget of 0", only_b, only_a, note_a, 0, 12, 0, false, 0, 0},
        {"B, A, a budget of 1", only_b, only_a, note_a, 1, 12, 1, false, 0, 0},
        {"B, A, a budget of 2", only_b, only_a, note_a, 2, 0, 2, true, 6, 1},
        {"A, B, a budget of 1: the best is met, but not known to be it", only_a, only_b, note_a, 1, 12, 1, false, 0, 0},
        {"B, A, another note", only_b, only_a, "none of it", all, 0, 2, false, 0, 0},
        {"null, B, another note: no name is null", none, only_b, "none of it", all, 0, 1, false, 0, 0},
    };
    for (size_t i = 0; i < sizeof rows / sizeof *rows; i++) check_row(rows + i);
    lent l = lend_held(note_a, only_a, only_b);
    check(eliminate(&l, -1.0f, 0.5f, false, 0, all, "no name below 0.0").refusal == 6, "a threshold of -1.0 names nothing");
}

/* Numbers count on: what stands first in the second book has the number N1. */
static void test_numbers(void) {
    static const float scores[] = {1.0f, 0.0f, 1.0f};
    lent l = lend_held(note_a, only_a, b_then_c);
    for (uint32_t k = 0; k < 3; k++) {
        chultarvi_view_scored v = score(&l, 0, 1, k, "areas of score, two books");
        check(v.refusal == 0 && v.score == scores[k], "score: numbers count on");
        chultarvi_bounds_found b = bounds(&l, 0, 1, k, "areas of bounds, two books");
        check(b.refusal == 0 && b.score == scores[k], "bounds: numbers count on");
    }
    check(score(&l, 0, 1, 3, "areas, number N").refusal == 9 && bounds(&l, 0, 1, 3, "areas, number N").refusal == 9, "number N of both is refused");
    l = lend_held(note_a, only_b, only_a);
    check(score(&l, 0, 1, 1, "areas, stored 1").score == 1.0f && score(&l, 0, 1, 2, "areas, stored 2").refusal == 9, "stored 1 and 2 of B, A");
    check(score(&l, 0, 3, 2, "areas, 8 before 9").refusal == 8, "a view out of range comes before the number");

    static const one_record record = {1, 1, 2, 0x3f800000, 22, 41};
    l = lend_held(text_2, only_b, only_a);
    check(bounds(&l, 0, 4, 1, "areas of bounds, two books").count == 8, "marked case 2 in the second book");
    l.results_len = chultarvi_elimination_results(true, 10);
    chultarvi_note_scanned s = eliminate(&l, 0.9f, 0.99f, true, 10, UINT64_MAX, "areas of elimination, two books");
    check(s.refusal == 0 && s.records == 1 && same_record(results, record), "elimination records the number over both");
    l.results_len = chultarvi_top_down_results(0.9f, LINES_2);
    s = top_down(&l, 0.9f, 0.99f, 1, UINT64_MAX, "areas of top-down, two books");
    check(s.refusal == 0 && s.records == 1 && same_record(results, record), "top-down records the number over both");
}

/* Overdrawn, and refused otherwise: 17 comes behind all but 12, by each way and each such allowance. Step 0 is none of elimination's. */
typedef struct { const char *what; held first, second; const char *text; size_t text_len; how by; size_t area_less, results_len; uint32_t refusal; } over_row;
static void check_over(const over_row *r) {
    for (unsigned i = 0; i < WAYS * OVERDRAWN; i++) {
        lent l = lend_both(r->text, r->text_len, r->first.at, r->first.len, r->second.at, r->second.len);
        l.area_len -= r->area_less;
        l.results_len = r->results_len;
        fenced x = fence(overdrawn[i / WAYS][0], overdrawn[i / WAYS][1]);
        chultarvi_note_scanned s = scan_by((int)(i % WAYS), &l, &r->by, &x, r->what);
        check(is_overdrawn(&s, r->refusal), r->what);
    }
}
static void test_over(void) {
    static const uint8_t of_2[] = {2, 0, 0, 0, 6, 0, 2, 0};
    const held other = hold(of_2, sizeof of_2);
    const char *spaces = (const char *)memset(big, ' ', CHULTARVI_TEXT_MOST + 1), *lines = (const char *)memset(big + ROOM + 1, '\n', CHULTARVI_LINES_MOST);
    const how one = {false, 0.9f, 0.99f, true, 1, 0}, down = {true, 0.9f, 0.99f, false, 0, 1}, none = {true, 0.9f, 0.99f, false, 0, 0};
    const how bad = {false, 1.5f, 0.99f, true, 1, 0}, bad_down = {true, 0.9f, -1.0f, false, 0, 0};
    const over_row rows[] = {
        {"17 behind 1", only_a, only_b, spaces, ROOM + 1, one, 0, 6, 1},
        {"17 behind 2", only_a, only_b, "\x80", 1, one, 0, 6, 2},
        {"17 behind 3", only_a, only_b, lines, CHULTARVI_LINES_MOST, one, 0, 6, 3},
        {"17 behind 4", only_a, cut_a, note_a, 16, one, 0, 6, 4},
        {"17 behind 4, top-down", cut_a, only_a, note_a, 16, down, 0, 6, 4},
        {"17 behind 5", book_empty, book_empty, note_a, 16, one, 0, 6, 5},
        {"17 behind 15", only_a, other, note_a, 16, one, 0, 6, 15},
        {"17 behind 6", only_a, only_b, note_a, 16, bad, 0, 6, 6},
        {"17 behind 6, top-down", only_a, only_b, note_a, 16, bad_down, 0, 6, 6},
        {"17 behind 7", only_a, only_b, note_a, 16, none, 0, 6, 7},
        {"17 behind 10, the area", only_a, only_b, note_a, 16, one, 1, 6, 10},
        {"17 behind 10, the results", only_a, only_b, note_a, 16, one, 0, 5, 10},
        {"17 behind 10, top-down's results", only_a, only_b, note_a, 16, down, 0, 5, 10},
        {"17", only_a, only_b, note_a, 16, one, 0, 6, 0},
        {"17, top-down", only_a, only_b, note_a, 16, down, 0, 6, 0},
        {"17, an empty text", only_a, only_b, note_a, 0, one, 0, 6, 0},
    };
    for (size_t i = 0; i < sizeof rows / sizeof *rows; i++) check_over(rows + i);
}

/* ---- stored texts by their numbers */

/* What naming a stored text answers, of one book or of both, and where its name stands. */
typedef struct {
    const char *what;
    held first, second;
    bool both;
    uint32_t number, refusal, kind;
    bool in_second;
    size_t at, len;
} stored_row;
static chultarvi_text_named name_stored(held first, held second, bool both, uint32_t number) {
    return both ? chultarvi_name_stored_both(first.at, first.len, second.at, second.len, number) : chultarvi_name_stored(first.at, first.len, number);
}
static void check_stored(const stored_row *r) {
    chultarvi_text_named n = name_stored(r->first, r->second, r->both, r->number);
    const uint8_t *holder = r->in_second ? r->second.at : r->first.at;
    check(n.refusal == r->refusal && n.kind == r->kind, r->what);
    check(n.second == r->in_second && n.name_at == r->at && n.len == r->len, r->what);
    check(chultarvi_stored_name(r->first.at, r->second.at, &n) == (r->at ? holder + r->at : holder), r->what);
}
/* Licence A with an original, an alternate, a header and an alias; BC with an original. All tables are empty. */
static held several_texts(void) {
    static uint8_t b[128];
    static const uint8_t table[8] = {0};
    uint8_t *p = put_record(b, CHULTARVI_LICENCE_NAME, "A", 1);
    for (uint32_t kind = CHULTARVI_ORIGINAL; kind <= CHULTARVI_HEADER; kind++) p = put_record(p, kind, table, sizeof table);
    p = put_record(p, CHULTARVI_ALIAS, "AA", 2);
    p = put_record(p, CHULTARVI_LICENCE_NAME, "BC", 2);
    p = put_record(p, CHULTARVI_ORIGINAL, table, sizeof table);
    return hold(b, (size_t)(p - b));
}
static void test_stored(void) {
    const held none = hold(0, 0), several = several_texts();
    uint8_t before[79];
    check(several.len == sizeof before, "the book of several texts");
    memcpy(before, several.at, sizeof before);
    const stored_row rows[] = {
        {"stored: the first", several, none, false, 0, 0, CHULTARVI_ORIGINAL, false, 6, 1},
        {"stored: an alternate has its licence's name", several, none, false, 1, 0, CHULTARVI_ALTERNATE, false, 6, 1},
        {"stored: a header has its licence's name", several, none, false, 2, 0, CHULTARVI_HEADER, false, 6, 1},
        {"stored: the last, behind an alias", several, none, false, 3, 0, CHULTARVI_ORIGINAL, false, 63, 2},
        {"stored: N", several, none, false, 4, 9, 0, false, 0, 0},
        {"stored: the largest number", several, none, false, UINT32_MAX, 9, 0, false, 0, 0},
        {"stored, both: the last of the first", several, only_a, true, 3, 0, CHULTARVI_ORIGINAL, false, 63, 2},
        {"stored, both: the first of the second", several, only_a, true, 4, 0, CHULTARVI_ORIGINAL, true, 6, 1},
        {"stored, both: N", several, only_a, true, 5, 9, 0, false, 0, 0},
        {"stored, both: a header of the second", only_a, several, true, 3, 0, CHULTARVI_HEADER, true, 6, 1},
        {"stored, both: the last of the second", only_a, several, true, 4, 0, CHULTARVI_ORIGINAL, true, 63, 2},
        {"stored, both: equal names, the first's", only_a, again, true, 0, 0, CHULTARVI_ORIGINAL, false, 6, 1},
        {"stored, both: equal names, the second's", only_a, again, true, 1, 0, CHULTARVI_ORIGINAL, true, 6, 1},
        {"stored, both: the same memory", several, several, true, 7, 0, CHULTARVI_ORIGINAL, true, 63, 2},
        {"stored, both: an empty first", book_empty, several, true, 0, 0, CHULTARVI_ORIGINAL, true, 6, 1},
        {"stored, both: a null first", none, several, true, 3, 0, CHULTARVI_ORIGINAL, true, 63, 2},
        {"stored, both: an empty second", several, book_empty, true, 3, 0, CHULTARVI_ORIGINAL, false, 63, 2},
        {"stored, both: N beside a null second", several, none, true, 4, 9, 0, false, 0, 0},
        {"stored: an unsound book", cut_a, none, false, 0, 4, 0, false, 0, 0},
        {"stored: 4 comes before 9", cut_a, none, false, UINT32_MAX, 4, 0, false, 0, 0},
        {"stored, both: an unsound first", cut_a, only_a, true, 0, 4, 0, false, 0, 0},
        {"stored, both: an unsound second, though the text stands in the first", only_a, cut_a, true, 0, 4, 0, false, 0, 0},
        {"stored, both: 4 comes before 5", book_empty, cut_a, true, UINT32_MAX, 4, 0, false, 0, 0},
        {"stored: no text", book_empty, none, false, 0, 5, 0, false, 0, 0},
        {"stored: no text, a null book: 5 comes before 9", none, none, false, UINT32_MAX, 5, 0, false, 0, 0},
        {"stored, both: no text: 5 comes before 9", book_empty, none, true, 1, 5, 0, false, 0, 0},
    };
    for (size_t i = 0; i < sizeof rows / sizeof *rows; i++) check_stored(rows + i);
    check(memcmp(several.at, before, sizeof before) == 0, "a book that was named from is as it was");
}

/* What a scan names and records, named by number. */
static void test_recorded(void) {
    lent l = lend_held(text_2, only_b, only_a);
    l.results_len = chultarvi_elimination_results(true, 10);
    chultarvi_note_scanned s = eliminate(&l, 0.6f, 0.99f, true, 10, UINT64_MAX, "areas of a scan to name");
    chultarvi_text_named n = name_stored(only_b, only_a, true, results[CHULTARVI_RECORD_NUMBER]);
    check(s.refusal == 0 && s.records > 0 && s.kind == CHULTARVI_ORIGINAL, "a scan that names and records");
    check(n.refusal == 0 && n.kind == s.kind && n.len == s.len && n.second == s.second && n.name_at == s.name_at, "the same by its record's number");
    check(memcmp(chultarvi_stored_name(only_b.at, only_a.at, &n), s.name, s.len) == 0, "by the same bytes");
}

/* The first refusal that applies, of two books. */
static void test_order(void) {
    lent l = lend_held("\x80", only_a, cut_a);
    each_refuses(&l, 2, false, "a byte of 128 comes before an unsound second book");
    l = lend_held(note_a, only_a, cut_a);
    l.area_len = 0;
    each_refuses(&l, 4, false, "an unsound second book comes before a small area");
    check(eliminate(&l, 2.0f, 0.5f, true, 1, 1, "areas, 4 before 6").refusal == 4, "an unsound second book comes before a bad limit");
    check(score(&l, 5, 5, 9, "areas, 4 before 8").refusal == 4, "an unsound second book comes before a view out of range");
    l = lend_held(note_a, book_empty, book_empty);
    l.area_len = 0;
    each_refuses(&l, 5, false, "no text in both comes before a small area");
    check(top_down(&l, 0.5f, 2.0f, 0, 1, "areas, 5 before 6").refusal == 5, "no text in both comes before a bad limit");
    l = lend_held(note_a, only_b, only_a);
    check(top_down(&l, 0.5f, 0.5f, 0, 1, "areas, 7 before 10").refusal == 7, "step 0 comes before small results");
    check(top_down(&l, 0.5f, 0.5f, 1, 1, "areas, small results").refusal == 10, "small results over two books");
    check(eliminate(&l, 0.5f, 0.5f, true, 1, 0, "areas, 10 before 12").refusal == 10, "small results come before the budget");
}

/* 2,048 texts, 1,024 in each book: only the last is not empty, and is the note's. */
static void test_largest(void) {
    static uint8_t one[16384], two[16384];
    held first = hold(one, small_book(one, 1, CHULTARVI_STORED_MOST - 1));
    size_t len = small_book(two, 64, CHULTARVI_STORED_MOST - 2);
    memcpy(put_head(two + len, 45, 3), book_a + 13, 45);
    held second = hold(two, len + 51);
    check(chultarvi_check_book(first.at, first.len).texts == 1024 && chultarvi_check_book(second.at, second.len).texts == 1024, "1,024 texts each");
    lent l = lend_held(note_a, first, second);
    chultarvi_view_scored v = score(&l, 0, 1, 2046, "areas, 2,048 texts");
    check(v.refusal == 0 && v.score == 0.0f, "the last but one of 2,048 texts");
    check(score(&l, 0, 1, 2047, "areas, 2,048 texts").score == 1.0f, "the last of 2,048 texts");
    check(score(&l, 0, 1, 2048, "areas, 2,048 texts").refusal == 9, "one number more");
    check(bounds(&l, 0, 1, 2047, "areas, 2,048 texts").score == 1.0f && bounds(&l, 0, 1, 2048, "areas, 2,048 texts").refusal == 9, "and its bounds");
    l.results_len = CHULTARVI_RECORD_WIDTH;
    chultarvi_note_scanned s = eliminate(&l, 0.9f, 0.99f, true, 1, 2047, "areas, a budget of 2,047");
    check(s.refusal == 12 && s.count == 2047 && s.kind == 0, "a budget of N - 1 names nothing");
    s = eliminate(&l, 0.9f, 0.99f, true, 1, 2048, "areas, a budget of 2,048");
    check(s.refusal == 0 && s.count == 2048 && s.kind == CHULTARVI_ALTERNATE && s.second && s.name_at == 6 && s.len == 64, "a budget of N names it");
    s = top_down(&l, 0.9f, 0.99f, 1, UINT64_MAX, "areas, top-down over 2,048 texts");
    check(s.refusal == 0 && s.records == 1 && results[CHULTARVI_RECORD_NUMBER] == 2047, "a record of number 2,047");
    const stored_row rows[] = {
        {"1,024 texts each: the last of the first", first, second, true, 1023, 0, CHULTARVI_ALTERNATE, false, 6, 1},
        {"1,024 texts each: the first of the second", first, second, true, 1024, 0, CHULTARVI_ORIGINAL, true, 6, 64},
        {"1,024 texts each: the last", first, second, true, 2047, 0, CHULTARVI_ALTERNATE, true, 6, 64},
        {"1,024 texts each: one number more", first, second, true, 2048, 9, 0, false, 0, 0},
    };
    for (size_t i = 0; i < sizeof rows / sizeof *rows; i++) check_stored(rows + i);
    second.len = small_book(two, 1, CHULTARVI_STORED_MOST);
    check(name_stored(second, first, false, 0).refusal == 4, "1,025 texts: none is named");
    l = lend_held(note_a, first, second);
    each_refuses(&l, 4, false, "1,025 texts in the second book");
    l = lend_held(note_a, second, first);
    each_refuses(&l, 4, false, "1,025 texts in the first book");
}

/* Each book has its own 16,777,216 bytes. */
static void test_large_books(void) {
    large_book(big, CHULTARVI_BOOK_MOST);
    held large = hold(big, CHULTARVI_BOOK_MOST), over = hold(big, CHULTARVI_BOOK_MOST + 1);
    const row rows[] = {
        {"A, a book of 16,777,216 bytes", only_a, large, note_a, UINT64_MAX, 0, 2, false, 6, 1},
        {"a book of 16,777,216 bytes, A", large, only_a, note_a, UINT64_MAX, 0, 2, true, 6, 1},
        {"two books of 16,777,216 bytes", large, large, note_a, UINT64_MAX, 0, 2, false, 0, 0},
    };
    for (size_t i = 0; i < sizeof rows / sizeof *rows; i++) check_row(rows + i);
    large_book(big, CHULTARVI_BOOK_MOST + 1);
    lent l = lend_held(note_a, only_a, over);
    each_refuses(&l, 4, false, "one byte more in the second book");
    l = lend_held(note_a, over, only_a);
    each_refuses(&l, 4, false, "one byte more in the first book");
}

/* The overall answer is known once each text of both is scored; from the full count on nothing is stopped. */
static void test_both_budget(void) {
    lent l = lend_held(text_2, only_b, only_a);
    l.results_len = chultarvi_elimination_results(true, 10);
    uint64_t full = eliminate(&l, 0.6f, 0.99f, true, 10, UINT64_MAX, "areas, two books, no budget").count;
    for (uint64_t budget = 0; budget <= full + 1; budget++) {
        chultarvi_note_scanned s = eliminate(&l, 0.6f, 0.99f, true, 10, budget, "areas, two books, budget");
        check(s.refusal == (budget < full ? 12 : 0) && s.count == (budget < full ? budget : full), "12 below the full count, never from there on");
        check((s.kind != 0) == (budget >= 2) && (s.score > 0.0f) == (budget >= 2), "named once both texts are paid");
    }
    l.results_len = chultarvi_top_down_results(0.9f, LINES_2);
    full = top_down(&l, 0.9f, 0.99f, 1, UINT64_MAX, "areas, two books, no budget").count;
    check(top_down(&l, 0.9f, 0.99f, 1, full, "areas, two books, budget").refusal == 0, "top-down over two books with its own count as budget");
    chultarvi_note_scanned s = top_down(&l, 0.9f, 0.99f, 1, full - 1, "areas, two books, budget");
    check(s.refusal == 12 && s.count == full - 1, "top-down over two books with one less");
}

/* ---- editions */

/* Of editions 2 and 3: the record before the marked book; that record alone; A and B. */
static const uint8_t record_2[] = {2, 0, 0, 0, 6, 0, 2, 0}, record_3[] = {2, 0, 0, 0, 6, 0, 3, 0};
typedef struct { held just, a, b; } of_edition;
static of_edition in_2, in_3;
static of_edition make_edition(uint32_t by, const uint8_t record[8], uint8_t *a, uint8_t *b) {
    of_edition made;
    edition = by;
    made.just = hold(record, 8);
    made.a = by_edition(a, book_a, BOOK_A);
    made.b = by_edition(b, only_b.at, only_b.len);
    edition = 1;
    check(made.a.len == BOOK_A + 8 && memcmp(made.a.at, record, 8) == 0, "records.h writes the record of an edition");
    return made;
}
static void make_editions(void) {
    static uint8_t a_2[128], b_2[256], a_3[128], b_3[256];
    in_2 = make_edition(2, record_2, a_2, b_2);
    in_3 = make_edition(3, record_3, a_3, b_3);
    check(put_edition(a_2 + 100, 1) == a_2 + 100, "and none of edition 1");
}

/* Some bytes as a book: what check answers, and its edition. */
typedef struct { const char *what; const char *bytes; size_t len; uint32_t refusal, texts, edition; } bytes_row;
#define RECORD_2 "\x02\0\0\0\x06\0\x02\0"
#define RECORD_3 "\x02\0\0\0\x06\0\x03\0"
#define NAME_A "\x01\0\0\0\x01\0A"
#define EMPTY_TEXT "\x08\0\0\0\x02\0\0\0\0\0\0\0\0\0"
#define BYTES(text) text, sizeof(text) - 1
static const bytes_row edition_rows[] = {
    {"no bytes", BYTES(""), 0, 0, 1},
    {"edition 1", BYTES(NAME_A EMPTY_TEXT), 0, 1, 1},
    {"edition 2 alone", BYTES(RECORD_2), 0, 0, 2},
    {"edition 2 and a licence", BYTES(RECORD_2 NAME_A EMPTY_TEXT), 0, 1, 2},
    {"edition 2 and two texts", BYTES(RECORD_2 NAME_A EMPTY_TEXT "\x08\0\0\0\x03\0\0\0\0\0\0\0\0\0"), 0, 2, 2},
    {"edition 0", BYTES("\x02\0\0\0\x06\0\0\0"), 4, 0, 1},
    {"edition 1 said", BYTES("\x02\0\0\0\x06\0\x01\0"), 4, 0, 1},
    {"edition 1 said, and a licence", BYTES("\x02\0\0\0\x06\0\x01\0" NAME_A EMPTY_TEXT), 4, 0, 1},
    {"edition 3 alone", BYTES(RECORD_3), 0, 0, 3},
    {"edition 3 and a licence", BYTES(RECORD_3 NAME_A EMPTY_TEXT), 0, 1, 3},
    {"edition 3 and one byte", BYTES(RECORD_3 "\x01"), 4, 0, 3},
    {"edition 3 twice", BYTES(RECORD_3 RECORD_3), 4, 0, 3},
    {"edition 3, then 2", BYTES(RECORD_3 RECORD_2), 4, 0, 3},
    {"edition 3 behind a text", BYTES(NAME_A EMPTY_TEXT RECORD_3), 4, 0, 1},
    {"edition 3 in one byte", BYTES("\x01\0\0\0\x06\0\x03"), 4, 0, 1},
    {"edition 3 in three bytes", BYTES("\x03\0\0\0\x06\0\x03\0\0"), 4, 0, 1},
    {"edition 4", BYTES("\x02\0\0\0\x06\0\x04\0"), 4, 0, 1},
    {"edition 512", BYTES("\x02\0\0\0\x06\0\0\x02"), 4, 0, 1},
    {"edition 259", BYTES("\x02\0\0\0\x06\0\x03\x01"), 4, 0, 1},
    {"edition 258", BYTES("\x02\0\0\0\x06\0\x02\x01"), 4, 0, 1},
    {"a body of no bytes", BYTES("\0\0\0\0\x06\0"), 4, 0, 1},
    {"a body of one byte", BYTES("\x01\0\0\0\x06\0\x02"), 4, 0, 1},
    {"a body of one byte, and another zero", BYTES("\x01\0\0\0\x06\0\x02\0"), 4, 0, 1},
    {"a body of three bytes", BYTES("\x03\0\0\0\x06\0\x02\0\0"), 4, 0, 1},
    {"a body of four bytes", BYTES("\x04\0\0\0\x06\0\x02\0\0\0"), 4, 0, 1},
    {"a body of 258 bytes that are not there", BYTES("\x02\x01\0\0\x06\0\x02\0"), 4, 0, 1},
    {"kind 7", BYTES("\x02\0\0\0\x07\0\x02\0"), 4, 0, 1},
    {"kind 262", BYTES("\x02\0\0\0\x06\x01\x02\0"), 4, 0, 1},
    {"twice", BYTES(RECORD_2 RECORD_2), 4, 0, 2},
    {"twice, and a licence", BYTES(RECORD_2 RECORD_2 NAME_A EMPTY_TEXT), 4, 0, 2},
    {"behind a name", BYTES(NAME_A RECORD_2 EMPTY_TEXT), 4, 0, 1},
    {"behind a text, last", BYTES(NAME_A EMPTY_TEXT RECORD_2), 4, 0, 1},
    {"first and last", BYTES(RECORD_2 NAME_A EMPTY_TEXT RECORD_2), 4, 0, 2},
    {"between two licences", BYTES(NAME_A EMPTY_TEXT RECORD_2 "\x01\0\0\0\x01\0B" EMPTY_TEXT), 4, 0, 1},
    {"and a text", BYTES(RECORD_2 EMPTY_TEXT), 4, 0, 2},
    {"and an alias", BYTES(RECORD_2 "\x01\0\0\0\x05\0A"), 4, 0, 2},
    {"and a name alone", BYTES(RECORD_2 NAME_A), 4, 0, 2},
    {"and one byte", BYTES(RECORD_2 "\x01"), 4, 0, 2},
};
static void test_edition_records(void) {
    for (const bytes_row *r = edition_rows; r < edition_rows + sizeof edition_rows / sizeof *edition_rows; r++) {
        const uint8_t *bytes = (const uint8_t *)r->bytes;
        chultarvi_book_checked c = chultarvi_check_book(bytes, r->len);
        check(c.refusal == r->refusal && c.texts == r->texts, r->what);
        check(chultarvi_edition(bytes, r->len) == r->edition, r->what);
    }
    check(chultarvi_edition(0, 0) == 1, "a null book of length 0 is of edition 1");
    check(chultarvi_edition(book_a, BOOK_A) == 1 && chultarvi_edition(in_2.a.at, in_2.a.len) == 2, "the marked book, and behind the record of edition 2");
    check(chultarvi_edition(in_3.a.at, in_3.a.len) == 3, "and of edition 3");
    check(CHULTARVI_EDITION_MOST == 3 && CHULTARVI_EDITION == 6, "the last edition, and its record's kind");
}
static void test_cut_record(const uint8_t record[8]) {
    for (size_t n = 1; n < 8; n++) {
        check(chultarvi_check_book(record, n).refusal == 4, "a record of an edition cut short");
        check(chultarvi_edition(record, n) == 1, "a record of an edition cut short is none");
    }
}

/* The record counts in a book's bytes, and is no text. */
static void test_edition_limits(const uint8_t record[8]) {
    memcpy(big, record, 8);
    large_book(big + 8, CHULTARVI_BOOK_MOST - 8);
    chultarvi_book_checked c = chultarvi_check_book(big, CHULTARVI_BOOK_MOST);
    check(c.refusal == 0 && c.texts == 1, "a book behind its edition of 16,777,216 bytes");
    large_book(big + 8, CHULTARVI_BOOK_MOST - 7);
    check(chultarvi_check_book(big, CHULTARVI_BOOK_MOST + 1).refusal == 4, "one byte more behind an edition");
    c = chultarvi_check_book(big, 8 + small_book(big + 8, 1, CHULTARVI_STORED_MOST - 1));
    check(c.refusal == 0 && c.texts == CHULTARVI_STORED_MOST, "1,024 stored texts behind an edition");
    check(chultarvi_check_book(big, 8 + small_book(big + 8, 1, CHULTARVI_STORED_MOST)).refusal == 4, "one text more behind an edition");
}

static void compiles(const char *text, uint32_t by, const char *table, size_t table_len, const char *what) {
    lent l = lend(text, strlen(text), book_a, BOOK_A);
    l.out_len = 64;
    l.edition = by;
    chultarvi_text_compiled c = compile(&l, what);
    check(c.refusal == 0 && c.len == table_len && memcmp(out, table, table_len) == 0, what);
}
#define NO_PAIRS BYTES("\0\0\0\0\0\0\0\0")
#define ONE_PAIR(len, pair) BYTES("\x01\0\0\0\x01\0\0\0\x01\0\0\0" len "\0\0\0" pair)
static void test_compiled_editions(void) {
    compiles("a 4", 1, NO_PAIRS, "`a 4` in edition 1: 8 bytes");
    compiles("a 4", 2, ONE_PAIR("\x03", "a 4"), "`a 4` in edition 2: 19 bytes");
    compiles("GPL 4x", 1, ONE_PAIR("\x05", "gpl x"), "`GPL 4x` in edition 1");
    compiles("GPL 4x", 2, ONE_PAIR("\x06", "gpl 4x"), "`GPL 4x` in edition 2");
    compiles("4/4|4", 1, NO_PAIRS, "`4/4|4` in edition 1");
    compiles("4/4|4", 2, ONE_PAIR("\x04", "4 44"), "`4/4|4` in edition 2");
    compiles("a 5", 1, ONE_PAIR("\x03", "a 5"), "`a 5` in edition 1");
    compiles("a 5", 2, ONE_PAIR("\x03", "a 5"), "`a 5` in edition 2");
    compiles("a 4", 3, ONE_PAIR("\x03", "a 4"), "`a 4` in edition 3");
    compiles("4/4|4", 3, ONE_PAIR("\x04", "4 44"), "`4/4|4` in edition 3");
}

/* Compile takes 1 to 3, after what is wrong with the text and before what is wrong with the areas. By any other number a text is read as ASCII. */
static void test_compile_refuses(void) {
    static const uint32_t wrong[] = {0, 4, 9, 256, 257, 259, 65537, 65538, 65539, 0x80000002u, 0x80000003u, UINT32_MAX};
    for (size_t i = 0; i < sizeof wrong / sizeof *wrong; i++) {
        lent l = lend("a 4", 3, book_a, BOOK_A);
        l.edition = wrong[i];
        l.out_len = 64;
        check(compile(&l, "areas, no such edition").refusal == 4, "no such edition");
        l.out_len = 0;
        check(compile(&l, "areas, 4 before 11").refusal == 4, "no such edition comes before a short output");
        l.area_len = l.words_len = 0;
        check(compile(&l, "areas, 4 before 10").refusal == 4, "no such edition comes before a small area");
        l = lend("\x80", 1, book_a, BOOK_A);
        l.edition = wrong[i];
        check(compile(&l, "areas, 2 before 4").refusal == 2, "a byte of 128 comes before the edition");
        l = lend("\xc3\xa9", 2, book_a, BOOK_A);
        l.edition = wrong[i];
        check(compile(&l, "areas, 2 before 4").refusal == 2, "so does a letter that edition 3 takes");
    }
    memset(big, '\n', CHULTARVI_TEXT_MOST + 1);
    lent l = lend(big, CHULTARVI_LINES_MOST, book_a, BOOK_A);
    l.edition = 0;
    check(compile(&l, "areas, 3 before 4").refusal == 3, "too many lines come before the edition");
    l = lend(big, CHULTARVI_TEXT_MOST + 1, book_a, BOOK_A);
    l.edition = 4;
    check(compile(&l, "areas, 1 before 4").refusal == 1, "a long text comes before the edition");
}

/* Two books of differing editions: each call is refused, whatever else is wrong behind it, and nothing has changed. */
static void check_differing(held first, held second, const char *what) {
    lent l = lend_held(note_a, first, second);
    each_refuses(&l, 15, false, what);
    chultarvi_text_named n = name_stored(first, second, true, 0);
    check(n.refusal == 15 && n.kind == 0 && n.len == 0 && !n.second && n.name_at == 0, what);
    check(name_stored(first, second, true, UINT32_MAX).refusal == 15, "15 comes before a number of N or more");
    check(score(&l, 5, 5, 9, "areas, 15 before 8").refusal == 15 && bounds(&l, 0, 1, 9, "areas, 15 before 9").refusal == 15, "15 comes before 8 and 9");
    check(eliminate(&l, NAN, 0.5f, true, 1, 1, "areas, 15 before 6").refusal == 15, "15 comes before a bad limit");
    check(top_down(&l, 0.5f, NAN, 0, 1, "areas, 15 before 6").refusal == 15, "15 comes before a bad limit and step 0");
    check(top_down(&l, 0.5f, 0.5f, 0, 1, "areas, 15 before 7").refusal == 15, "15 comes before step 0");
    check(eliminate(&l, 0.5f, 0.5f, true, 1, 0, "areas, 15 before 12").refusal == 15, "15 comes before small results and the budget");
    l.area_len = l.words_len = 0;
    each_refuses(&l, 15, false, "15 comes before a small area");
    l = lend_held("\x80", first, second);
    each_refuses(&l, 2, false, "a byte of 128 comes before 15");
}
static void test_differing(const of_edition *in) {
    const held none = hold(0, 0);
    check_differing(only_a, in->a, "edition 1, another");
    check_differing(in->a, only_a, "another edition, edition 1");
    check_differing(in->a, only_b, "another edition, another book of edition 1");
    check_differing(in->a, book_empty, "another edition, an empty book");
    check_differing(book_empty, in->a, "an empty book, another edition");
    check_differing(in->a, none, "another edition, a null book");
    check_differing(none, in->a, "a null book, another edition");
    check_differing(only_a, in->just, "edition 1, the record of another alone");
    check_differing(in->just, only_a, "the record of another edition alone, edition 1");
    lent l = lend_held(note_a, in->a, cut_a);
    each_refuses(&l, 4, false, "4 comes before 15");
    l = lend_held(note_a, hold(in->a.at, in->a.len - 1), only_a);
    each_refuses(&l, 4, false, "4 comes before 15, another edition cut short");
    const held no_text[][2] = {{in->just, book_empty}, {book_empty, in->just}, {in->just, none}, {in->just, in->just}};
    for (size_t i = 0; i < sizeof no_text / sizeof *no_text; i++) {
        l = lend_held(note_a, no_text[i][0], no_text[i][1]);
        each_refuses(&l, 5, false, "5 comes before 15");
        check(name_stored(no_text[i][0], no_text[i][1], true, 0).refusal == 5, "name: 5 comes before 15");
    }
}
static void test_2_and_3(void) {
    check_differing(in_2.a, in_3.a, "edition 2, edition 3");
    check_differing(in_3.a, in_2.a, "edition 3, edition 2");
    check_differing(in_2.a, in_3.just, "edition 2, the record of edition 3 alone");
    check_differing(in_3.just, in_2.a, "the record of edition 3 alone, edition 2");
}

/* Two books of another edition answer as two of edition 1 do, with their names eight bytes further on. */
static void test_both_editions(const of_edition *in) {
    const uint64_t all = UINT64_MAX;
    const row rows[] = {
        {"A, B in another edition", in->a, in->b, note_a, all, 0, 2, false, 14, 1},
        {"B, A in another edition", in->b, in->a, note_a, all, 0, 2, true, 14, 1},
        {"A, A in another edition: the same memory", in->a, in->a, note_a, all, 0, 2, false, 14, 1},
        {"A, no text in another edition", in->a, in->just, note_a, all, 0, 1, false, 14, 1},
        {"no text, A in another edition", in->just, in->a, note_a, all, 0, 1, true, 14, 1},
        {"B, A in another edition, a budget of 1", in->b, in->a, note_a, 1, 12, 1, false, 0, 0},
        {"B, A in another edition, another note", in->b, in->a, "none of it", all, 0, 2, false, 0, 0},
    };
    for (size_t i = 0; i < sizeof rows / sizeof *rows; i++) check_row(rows + i);
    const held none = hold(0, 0);
    const stored_row stored[] = {
        {"stored, another edition", in->a, none, false, 0, 0, CHULTARVI_ORIGINAL, false, 14, 1},
        {"stored, another edition: N", in->a, none, false, 1, 9, 0, false, 0, 0},
        {"stored, another edition: no text", in->just, none, false, 0, 5, 0, false, 0, 0},
        {"stored, another edition, both: the first of the second", in->a, in->b, true, 1, 0, CHULTARVI_ORIGINAL, true, 14, 1},
        {"stored, another edition, both: N", in->a, in->b, true, 2, 9, 0, false, 0, 0},
        {"stored, another edition, both: a first without a text", in->just, in->b, true, 0, 0, CHULTARVI_ORIGINAL, true, 14, 1},
    };
    for (size_t i = 0; i < sizeof stored / sizeof *stored; i++) check_stored(stored + i);
}

/* G4 has `version 4`, G5 has no number: which is named, and by which score? */
static void check_gpl(held book, const char *note, const char *name, const char *what) {
    lent l = lend_both(note, strlen(note), book.at, book.len, 0, 0);
    l.both = false;
    chultarvi_note_scanned s = eliminate(&l, 0.9f, 0.99f, false, 0, 2, what);
    check(s.refusal == 0 && s.score == 1.0f && s.count == 2 && s.len == 2 && memcmp(s.name, name, 2) == 0, what);
}
static held put_gpl(uint8_t *room) {
    uint8_t *p = put_edition(room, edition);
    held first = put_licence(room, p, "G4", "use the GPL version 4 now");
    return put_licence(room, room + first.len, "G5", "use the GPL version now");
}
static void test_four(void) {
    static uint8_t room[512];
    held one = put_gpl(room);
    check(chultarvi_edition(one.at, one.len) == 1, "a book of edition 1");
    check_gpl(one, "use the GPL version now", "G4", "no number, edition 1: both score 1.0, the earlier wins");
    check_gpl(one, "use the GPL version 4 now", "G4", "version 4, edition 1");
    check_gpl(one, "use the GPL version 4 now 4", "G4", "every 4 goes, edition 1");
    for (edition = 2; edition <= CHULTARVI_EDITION_MOST; edition++) {
        held later = put_gpl(room);
        check(chultarvi_edition(later.at, later.len) == edition, "a book of a later edition");
        check_gpl(later, "use the GPL version now", "G5", "no number, a later edition: its own text");
        check_gpl(later, "use the GPL version 4 now", "G4", "version 4, a later edition");
    }
    edition = 1;
}

/* ---- accents */

#define E_ACUTE "\xc3\xa9"
#define A_GRAVE "\xc3\xa0"
#define NO_BREAK "\xc2\xa0"
#define NEXT_LINE "\xc2\x85"

/* A table as the rules have it, of words with one space between: their pairs, sorted, each with its count. Gives its length. */
static int by_bytes(const void *a, const void *b) { return strcmp((const char *)a, (const char *)b); }
enum { PAIRS_MOST = 16, PAIR_MOST = 64 };
static size_t put_table(uint8_t *to, const char *text) {
    char pairs[PAIRS_MOST][PAIR_MOST];
    size_t count = 0, distinct = 0;
    for (const char *p = text, *next; (next = strchr(p, ' ')) != 0; p = next + 1)
        snprintf(pairs[count++], PAIR_MOST, "%.*s", (int)((size_t)(next + 1 - p) + strcspn(next + 1, " ")), p);
    qsort(pairs, count, PAIR_MOST, by_bytes);
    uint8_t *at = to + 8;
    for (size_t i = 0, same; i < count; i += same, distinct++) {
        for (same = 1; i + same < count && strcmp(pairs[i], pairs[i + same]) == 0;) same++;
        size_t len = strlen(pairs[i]);
        at = put_number(put_number(at, same), len);
        memcpy(at, pairs[i], len);
        at += len;
    }
    put_number(put_number(to, count), distinct);
    return (size_t)(at - to);
}

/* A text by edition 3, and the words that are left of it. */
typedef struct { const char *text, *left; } left_row;
static const left_row left_rows[] = {
    {"\xc3\x89t" E_ACUTE " " A_GRAVE " la PLAGE", E_ACUTE "t" E_ACUTE " " A_GRAVE " la plage"},
    {"\xc2\xab a \xc2\xbb b" NO_BREAK "c" NEXT_LINE "d", "a b c d"},
    {"\xc2\xa9 2004 4 \xc2\xb2 x", "2004 4 x"},
    {"http://" E_ACUTE NO_BREAK "x y", "http blackboxed url x y"},
    {E_ACUTE E_ACUTE " x\n" E_ACUTE E_ACUTE " y\n" E_ACUTE E_ACUTE " z", "x y z"},
    {E_ACUTE "a x\n" E_ACUTE "a y\n" E_ACUTE "a z", E_ACUTE "a x " E_ACUTE "a y " E_ACUTE "a z"},
    {"a" E_ACUTE A_GRAVE "\na" E_ACUTE "\xc3\xa1\na" E_ACUTE "\xc3\xa2", "a" E_ACUTE A_GRAVE " a" E_ACUTE "\xc3\xa1 a" E_ACUTE "\xc3\xa2"},
    {"a\ncopyright" NEXT_LINE "c 1999\nb", "a b"},
    {"\xc2\xaa \xc2\xba \xc2\xb5 \xc3\xbf \xc3\xb7 \xc3\x97", "\xc2\xaa \xc2\xba \xc2\xb5 \xc3\xbf"},
    {E_ACUTE " " E_ACUTE, E_ACUTE " " E_ACUTE},
    {"x\xc2\xa7y \xc2\xbfz\xc2\xad" E_ACUTE " \xc2\xa1" A_GRAVE "\xc2\xb6\xc2\xb7", "xy z" E_ACUTE " " A_GRAVE},
    {"a\xc2\x80" E_ACUTE "\xc2\x84 \xc2\x86" A_GRAVE "\xc2\x9f", "a" E_ACUTE " " A_GRAVE},
    {"\xc3\x80\xc3\x9e \xc3\x9f\xc3\xb0", A_GRAVE "\xc3\xbe \xc3\x9f\xc3\xb0"},
};
static void test_left(void) {
    uint8_t want[PAIRS_MOST * PAIR_MOST];
    for (const left_row *r = left_rows; r < left_rows + sizeof left_rows / sizeof *left_rows; r++) {
        size_t len = put_table(want, r->left);
        lent l = lend(r->text, strlen(r->text), book_a, BOOK_A);
        l.edition = 3;
        l.out_len = len;
        chultarvi_text_compiled c = compile(&l, r->text);
        check(c.refusal == 0 && c.len == len && memcmp(out, want, len) == 0, r->text);
        l.out_len--;
        check(compile(&l, r->text).refusal == 11, "one byte less of output, edition 3");
        l.area_len--;
        check(compile(&l, r->text).refusal == 10, "one byte less of area, edition 3");
        for (uint32_t by = 1; by <= 2; by++) {
            l.edition = by;
            check(compile(&l, r->text).refusal == 2, "the same in editions 1 and 2");
        }
    }
    lent l = lend(E_ACUTE " " E_ACUTE, 5, book_a, BOOK_A);
    l.edition = 3;
    l.out_len = 21;
    check(l.area_len == 104 && l.words_len == 124 && compile(&l, "areas, 5 bytes").len == 21, "5 bytes of text: areas of 104 and 124, a table of 21");
}

/* Each text of two bytes: taken where it is ASCII, or C2 or C3 and one of 80 to BF. */
static void test_two_bytes(void) {
    for (unsigned first = 0; first < 256; first++) {
        bool good = true;
        for (unsigned second = 0; second < 256; second++) {
            const uint8_t text[] = {(uint8_t)first, (uint8_t)second};
            bool taken = (first < 0x80 && second < 0x80) || ((first == 0xc2 || first == 0xc3) && second >= 0x80 && second < 0xc0);
            chultarvi_text_compiled c = chultarvi_compile(text, 2, 3, area, chultarvi_area_bytes(2), words, chultarvi_area_words(2), out, 32);
            good = good && c.refusal == (taken ? 0u : 2u);
        }
        check(good, "the texts of two bytes that begin with one byte");
    }
}

/* Refusal 2 of every call, by editions 1 and 2 and by edition 3. */
typedef struct { const char *text; size_t len; uint32_t narrow, wide; } taken_row;
static const taken_row taken_rows[] = {
    {BYTES(E_ACUTE), 2, 0},         {BYTES("\xc2\x80"), 2, 0},      {BYTES("\xc3\xbf"), 2, 0},          {BYTES(NEXT_LINE), 2, 0},
    {BYTES("a" E_ACUTE " b"), 2, 0}, {BYTES("\xc0\x80"), 2, 2},      {BYTES("\xc1\xbf"), 2, 2},          {BYTES("\xc4\x80"), 2, 2},
    {BYTES("\x80"), 2, 2},          {BYTES("a\xbf"), 2, 2},         {BYTES("\xc3"), 2, 2},              {BYTES("\xc2\n"), 2, 2},
    {BYTES("\xc3\n\xa9"), 2, 2},    {BYTES("\xc3" E_ACUTE), 2, 2},  {BYTES(E_ACUTE "\xa9"), 2, 2},      {BYTES("\xc3 \xa9"), 2, 2},
    {BYTES("\xef\xbb\xbf" "a"), 2, 2}, {BYTES("\xe2\x80\x99"), 2, 2}, {BYTES("\xf0\x9f\x94\x92"), 2, 2}, {BYTES("caf\xe9"), 2, 2},
    {BYTES("\xe0\x83\xa9"), 2, 2}, {BYTES(E_ACUTE "\xc3"), 2, 2},  {BYTES("\xff"), 2, 2},              {BYTES("e"), 0, 0},
};
static void test_taken(void) {
    for (const taken_row *r = taken_rows; r < taken_rows + sizeof taken_rows / sizeof *taken_rows; r++) {
        for (edition = 1; edition <= CHULTARVI_EDITION_MOST; edition++) {
            for (form = ALONE; form < FORMS; form++) {
                lent l = lend(r->text, r->len, book_a, BOOK_A);
                each_refuses(&l, edition == 3 ? r->wide : r->narrow, true, r->text);
            }
        }
    }
    form = ALONE;
    edition = 1;
}

/* By which edition a text is refused: that of the first book's first record, sound or not. Of `e` with an accent, and without one. */
typedef struct { const char *what; held first, second; bool both; uint32_t accented, plain; } first_row;
static void test_first_book(void) {
    const held none = hold(0, 0), cut = hold(in_3.a.at, in_3.a.len - 1);
#define HELD(text) hold((const uint8_t *)text, sizeof(text) - 1)
    const first_row rows[] = {
        {"edition 3", in_3.a, none, false, 0, 0},
        {"edition 3, edition 3", in_3.a, in_3.b, true, 0, 0},
        {"edition 3 without a text, edition 3", in_3.just, in_3.a, true, 0, 0},
        {"edition 2", in_2.a, none, false, 2, 0},
        {"empty, edition 3", book_empty, in_3.a, true, 2, 15},
        {"null, edition 3", none, in_3.a, true, 2, 15},
        {"edition 2, edition 3", in_2.a, in_3.a, true, 2, 15},
        {"edition 3, edition 2", in_3.a, in_2.a, true, 15, 15},
        {"edition 3, empty", in_3.a, book_empty, true, 15, 15},
        {"edition 3, an unsound book", in_3.a, cut_a, true, 4, 4},
        {"an unsound book, edition 3", cut_a, in_3.a, true, 2, 4},
        {"edition 3 cut short", cut, none, false, 4, 4},
        {"edition 3 cut short, edition 3", cut, in_3.a, true, 4, 4},
        {"edition 3 without a text", in_3.just, none, false, 5, 5},
        {"edition 3, then edition 2", HELD(RECORD_3 RECORD_2), none, false, 4, 4},
        {"edition 2, then edition 3", HELD(RECORD_2 RECORD_3), none, false, 2, 4},
        {"a record of seven bytes", HELD("\x02\0\0\0\x06\0\x03"), none, false, 2, 4},
        {"a body of one byte", HELD("\x01\0\0\0\x06\0\x03"), none, false, 2, 4},
        {"a body of three bytes", HELD("\x03\0\0\0\x06\0\x03\0\0"), none, false, 2, 4},
        {"edition 0", HELD("\x02\0\0\0\x06\0\0\0"), none, false, 2, 4},
        {"edition 1 said", HELD("\x02\0\0\0\x06\0\x01\0"), none, false, 2, 4},
        {"edition 4", HELD("\x02\0\0\0\x06\0\x04\0"), none, false, 2, 4},
        {"edition 259", HELD("\x02\0\0\0\x06\0\x03\x01"), none, false, 2, 4},
        {"edition 3 behind a licence", HELD(NAME_A EMPTY_TEXT RECORD_3), none, false, 2, 4},
        {"empty", book_empty, none, false, 2, 5},
    };
    for (const first_row *r = rows; r < rows + sizeof rows / sizeof *rows; r++) {
        lent accented = lend_held(E_ACUTE, r->first, r->second), plain = lend_held("e", r->first, r->second);
        accented.both = plain.both = r->both;
        each_refuses(&accented, r->accented, false, r->what);
        each_refuses(&plain, r->plain, false, r->what);
    }
}

/* A book of this edition, A, whose original has one pair: is it sound? */
static uint32_t pair_refused(uint32_t by, const char *pair, size_t len) {
    static const uint8_t count[] = {1, 0, 0, 0, 1, 0, 0, 0, 1, 0, 0, 0};
    uint8_t *p = put_record(put_edition(big, by), CHULTARVI_LICENCE_NAME, "A", 1);
    p = put_head(p, sizeof count + 4 + len, CHULTARVI_ORIGINAL);
    memcpy(p, count, sizeof count);
    p = put_number(p + sizeof count, len);
    memcpy(p, pair, len);
    return chultarvi_check_book(big, (size_t)(p - big) + len).refusal;
}
typedef struct { const char *pair; size_t len; uint32_t wide; } pair_row;
static const pair_row pair_rows[] = {
    {BYTES(E_ACUTE " " A_GRAVE), 0}, {BYTES("\xc3\x89 " A_GRAVE), 4}, {BYTES("\xc3\x9f \xc3\xbf"), 0},     {BYTES("\xc3\xb7 a"), 4},
    {BYTES("a \xc2\xb2"), 4},       {BYTES("\xc3 \xa9"), 4},         {BYTES("\xc2\xaa \xc2\xba"), 0},     {BYTES("x\xc2\xb5y _" E_ACUTE "9"), 0},
    {BYTES("a " E_ACUTE "\xc3"), 4}, {BYTES("\xa9 a"), 4},            {BYTES(E_ACUTE "\xa9 a"), 4},        {BYTES("a" NO_BREAK E_ACUTE), 4},
    {BYTES("a " NEXT_LINE), 4},      {BYTES("a " "\xc4\x80"), 4},     {BYTES("a \xc1\xa1"), 4},           {BYTES(E_ACUTE), 4},
    {BYTES(E_ACUTE "  a"), 4},       {BYTES(" " E_ACUTE), 4},          {BYTES(E_ACUTE " "), 4},             {BYTES(E_ACUTE " a " A_GRAVE), 4},
};
/* A licence with the pair `a a` so many times. */
static uint8_t *put_often(uint8_t *p, const char *name, uint32_t times) {
    p = put_head(put_record(p, CHULTARVI_LICENCE_NAME, name, 1), 8 + 8 + 3, CHULTARVI_ORIGINAL);
    p = put_number(put_number(put_number(put_number(p, times), 1), times), 3);
    memcpy(p, "a a", 3);
    return p + 3;
}
/* A note with that pair `pairs` times, and two licences with it so often, in one book and in two: which wins, with which m and t? */
static void check_ranked(uint32_t pairs, uint32_t first, uint32_t second, uint32_t wins, const char *what) {
    static uint8_t one[64], two[64];
    for (size_t i = 0; i <= pairs; i++) memcpy(big + 2 * i, "a ", 2);
    uint8_t *middle = put_often(one, "A", first), *end = put_often(middle, "B", second);
    size_t two_len = (size_t)(put_often(two, "B", second) - two), both = (size_t)(end - one), alone = (size_t)(middle - one);
    const lent ways[] = {lend_both(big, 2 * pairs + 2, one, alone, two, two_len), lend_both(big, 2 * pairs + 2, one, both, 0, 0)};
    for (int i = 0; i < 2; i++) {
        lent l = ways[i];
        l.both = i == 0;
        chultarvi_note_scanned s = eliminate(&l, 0.0f, 0.99f, false, 0, 2, what);
        check(s.refusal == 0 && s.m == (wins < pairs ? wins : pairs) && s.t == pairs + wins && s.name[0] == (wins == first ? 'A' : 'B'), what);
    }
}
static void test_ranked(void) {
    check_ranked(4096, 4095, 4097, 4095, "2*4095/8191 before 2*4096/8193: one float, the earlier wins though its fraction is smaller");
    check_ranked(4096, 4097, 4095, 4097, "2*4096/8193 before 2*4095/8191: the earlier wins");
    check_ranked(4096, 4094, 4098, 4098, "2*4094/8190 before 2*4096/8194: two floats, the higher wins");
    check_ranked(4096, 4098, 4094, 4098, "2*4096/8194 before 2*4094/8190: the higher wins");
    check_ranked(4096, 4096, 4095, 4096, "all pairs shared");
    check_ranked(1, CHULTARVI_TEXT_MOST, 8 * CHULTARVI_TEXT_MOST, CHULTARVI_TEXT_MOST, "totals to 8,388,608");
}

/* ---- equal scores: the kind decides, and only then the place */

enum { SHARERS = 3 };
/* Licences of A, B and C share the marked text, each as its kind, behind an empty original where that is another. */
static held put_sharers(uint8_t *at, const uint32_t kinds[SHARERS], size_t first, size_t after) {
    static const uint8_t empty[8] = {0};
    uint8_t *p = put_edition(at, edition);
    for (size_t i = first; i < after; i++) {
        p = put_record(p, CHULTARVI_LICENCE_NAME, &"ABC"[i], 1);
        if (kinds[i] != CHULTARVI_ORIGINAL) p = put_record(p, CHULTARVI_ORIGINAL, empty, sizeof empty);
        p = put_record(p, kinds[i], book_a + 13, BOOK_A - 13);
    }
    return hold(at, (size_t)(p - at));
}
static size_t texts_of(const uint32_t kinds[SHARERS], size_t after) {
    size_t texts = 0;
    for (size_t i = 0; i < after; i++) texts += kinds[i] == CHULTARVI_ORIGINAL ? 1 : 2;
    return texts;
}
/* The licences before the border stand in the first book; without one behind it a single book is lent. */
static void check_sharers(const uint32_t kinds[SHARERS], size_t border, size_t wins) {
    static uint8_t one[512], other[512];
    held first = put_sharers(one, kinds, 0, border), second = put_sharers(other, kinds, border, SHARERS);
    lent l = lend_held(note_a, first, second);
    l.both = border < SHARERS;
    chultarvi_note_scanned s = eliminate(&l, 0.5f, 0.5f, false, 0, UINT64_MAX, "areas, equal scores");
    check(s.refusal == 0 && s.kind == kinds[wins] && s.len == 1 && s.name[0] == "ABC"[wins], "of equal scores the smallest kind, then the first");
    check(s.second == (wins >= border) && s.count == texts_of(kinds, SHARERS) && s.score == 1.0f, "of equal scores: its book, and all are scored");
    const one_record record = {(uint32_t)texts_of(kinds, wins + 1) - 1, 1, 2, 0x3f800000, 22, 41};
    l = lend_held(text_2, first, second);
    l.both = border < SHARERS;
    l.results_len = chultarvi_elimination_results(true, LINES_2);
    s = eliminate(&l, 0.9f, 0.99f, true, LINES_2, UINT64_MAX, "areas, equal scores in a pass");
    check(s.refusal == 0 && s.records == 1 && same_record(results, record), "elimination bounds the same text");
    s = top_down(&l, 0.9f, 0.99f, 1, UINT64_MAX, "areas, equal scores in top-down");
    check(s.refusal == 0 && s.records == 1 && same_record(results, record), "top-down takes the same text");
}
static void test_sharers(void) {
    for (uint32_t all = 0; all < 27; all++) {
        const uint32_t kinds[SHARERS] = {2 + all / 9, 2 + all / 3 % 3, 2 + all % 3};
        size_t wins = 0;
        for (size_t i = 1; i < SHARERS; i++) if (kinds[i] < kinds[wins]) wins = i;
        for (size_t border = 1; border <= SHARERS; border++) check_sharers(kinds, border, wins);
    }
}

static void test_pairs(void) {
    for (const pair_row *r = pair_rows; r < pair_rows + sizeof pair_rows / sizeof *pair_rows; r++) {
        for (uint32_t by = 1; by <= 2; by++) check(pair_refused(by, r->pair, r->len) == 4, "a wide word in editions 1 and 2");
        check(pair_refused(3, r->pair, r->len) == r->wide, r->pair);
    }
    for (unsigned code = 0x80; code < 0x100; code++) {
        const char pair[] = {'a', ' ', (char)(0xc0 | code >> 6), (char)(0x80 | (code & 0x3f))};
        bool word = code == 0xaa || code == 0xb5 || code == 0xba || (code >= 0xdf && code != 0xf7);
        check(pair_refused(3, pair, sizeof pair) == (word ? 0u : 4u), "letters as lower case leaves them, and no others");
    }
    static const uint8_t empty[8] = {0};
    uint8_t *p = put_record(put_edition(big, 3), CHULTARVI_LICENCE_NAME, E_ACUTE, 2);
    p = put_record(p, CHULTARVI_ORIGINAL, empty, sizeof empty);
    check(chultarvi_check_book(big, (size_t)(p - big)).refusal == 4, "a name stays ASCII in edition 3");
    p = put_record(put_edition(big, 3), CHULTARVI_LICENCE_NAME, "A", 1);
    p = put_record(put_record(p, CHULTARVI_ORIGINAL, empty, sizeof empty), CHULTARVI_ALIAS, E_ACUTE, 2);
    check(chultarvi_check_book(big, (size_t)(p - big)).refusal == 4, "and so does an alias");
}

/* A French licence behind another, in a note in capitals and other signs: every call over a book of edition 3. */
static const char french[] = "La pr" E_ACUTE "sente licence est r" E_ACUTE "gie par la loi fran\xc3\xa7" "aise";
static const char french_note[] =
    "d" E_ACUTE "but\n# LA PR\xc3\x89SENTE\xc2\xa0LICENCE \xc2\xab est \xc2\xbb\n# R\xc3\x89GIE PAR LA LOI FRAN\xc3\x87" "AISE\nfin";
static void test_french(void) {
    static uint8_t room[1024];
    static const one_record record = {1, 1, 3, 0x3f800000, 7, 71};
    edition = 3;
    held first = put_licence(room, put_edition(room, edition), "B", text_b), both = put_licence(room, room + first.len, "FR", french);
    edition = 1;
    check(chultarvi_check_book(both.at, both.len).texts == 2 && chultarvi_edition(both.at, both.len) == 3, "a book with a French licence");
    lent l = lend_held(french_note, both, hold(0, 0));
    l.both = false;
    check(score(&l, 1, 3, 1, "areas, French").score == 1.0f && score(&l, 0, 4, 0, "areas, French").score == 0.0f, "its score");
    chultarvi_bounds_found b = bounds(&l, 0, 4, 1, "areas of French bounds");
    check(b.refusal == 0 && b.first == 1 && b.after == 3 && b.score == 1.0f, "its bounds");
    l.results_len = chultarvi_elimination_results(true, 10);
    chultarvi_note_scanned s = eliminate(&l, 0.9f, 0.99f, true, 10, UINT64_MAX, "areas of French elimination");
    check(s.refusal == 0 && s.records == 1 && same_record(results, record), "elimination finds it, by its bytes");
    s = top_down(&l, 0.9f, 0.99f, 1, UINT64_MAX, "areas of French top-down");
    check(s.refusal == 0 && s.records == 1 && same_record(results, record), "top-down finds it, by its bytes");
    l = lend_held(french, both, hold(0, 0));
    l.both = false;
    s = eliminate(&l, 0.9f, 0.99f, false, 0, 2, "areas of a French name");
    check(s.refusal == 0 && s.len == 2 && memcmp(s.name, "FR", 2) == 0 && s.score == 1.0f, "it is named");
    l = lend_held(french, in_3.a, both);
    s = eliminate(&l, 0.9f, 0.99f, false, 0, 3, "areas of a French name in the second book");
    check(s.refusal == 0 && s.len == 2 && s.second && s.score == 1.0f, "it is named in the second book");
    l.area_len--;
    each_refuses(&l, 10, false, "one byte less of area, a text of two-byte letters");
}

/* Byte areas and texts may stand at any address: the same answer, and nothing beside them changes. */
static void test_addresses(void) {
    uint8_t want[PAIRS_MOST * PAIR_MOST], text[64];
    const char *given = left_rows[0].text;
    size_t n = strlen(given), len = put_table(want, left_rows[0].left), bytes = chultarvi_area_bytes(n), count = chultarvi_area_words(n);
    for (size_t at = 0; at < 8; at++) {
        memset(area, 0xa5, bytes + 16);
        memset(words, 0xa5, 4 * count);
        memset(out, 0xa5, len + 16);
        memcpy(text + at, given, n);
        chultarvi_text_compiled c = chultarvi_compile(text + at, n, 3, area + at, bytes, words, count, out + 7 - at, len);
        check(c.refusal == 0 && c.len == len && memcmp(out + 7 - at, want, len) == 0, "a table at any address");
        check(all_are(area, 0, at, 0xa5) && all_are(area, at, at + bytes, 0) && all_are(area, at + bytes, bytes + 16, 0xa5), "an area at any address");
        check(all_are(words, 0, 4 * count, 0) && all_are(out, 0, 7 - at, 0xa5) && all_are(out, 7 - at + len, len + 16, 0xa5), "and what is beside");
    }
}

/* The most bytes: letters of two, in one line, and in as many lines as there may be. */
static void test_wide_most(void) {
    for (size_t i = 0; i + 4 <= CHULTARVI_TEXT_MOST; i += 4) memcpy(big + i, E_ACUTE "a ", 4);
    edition = 3;
    lent l = lend(big, CHULTARVI_TEXT_MOST, book_a, BOOK_A);
    each_refuses(&l, 0, true, "1,048,576 bytes of edition 3");
    big[CHULTARVI_TEXT_MOST - 1] = 0xc3;
    each_refuses(&l, 2, true, "its last byte a lead");
    l = lend(big, CHULTARVI_TEXT_MOST + 1, book_a, BOOK_A);
    each_refuses(&l, 1, true, "one byte more in edition 3 comes before the bytes");
    for (size_t i = 0; i < 3 * CHULTARVI_LINES_MOST; i += 3) memcpy(big + i, E_ACUTE "\n", 3);
    l = lend(big, 3 * (size_t)(CHULTARVI_LINES_MOST - 1), book_a, BOOK_A);
    l.out_len = chultarvi_table_bytes(64);
    check(compile(&l, "65,536 lines in edition 3").refusal == 0, "65,536 lines in edition 3");
    l = lend(big, 3 * (size_t)CHULTARVI_LINES_MOST, book_a, BOOK_A);
    each_refuses(&l, 3, true, "one line more in edition 3");
    edition = 1;
}

static void test_one_book(void) {
    for (form = ALONE; form < FORMS; form++) {
        test_answers();
        test_behind();
        test_texts();
        test_books();
        test_long_name();
        test_limits();
        test_views();
        test_areas();
        test_budget();
        test_allowance();
        test_placed();
        test_beside();
    }
    form = ALONE;
}

/* What the editions differ in. */
static void test_editions(void) {
    make_editions();
    test_edition_records();
    test_cut_record(record_2);
    test_cut_record(record_3);
    test_edition_limits(record_2);
    test_edition_limits(record_3);
    test_compiled_editions();
    test_compile_refuses();
    test_differing(&in_2);
    test_differing(&in_3);
    test_2_and_3();
    test_both_editions(&in_2);
    test_both_editions(&in_3);
    test_four();
    test_left();
    test_two_bytes();
    test_taken();
    test_first_book();
    test_pairs();
    test_french();
}

int main(void) {
    take_areas();
    for (edition = 1; edition <= CHULTARVI_EDITION_MOST; edition++) test_one_book();
    edition = 1;
    test_output();
    test_table_bytes();
    test_result_sizes();
    test_refusal_texts();
    test_version();
    make_books();
    test_names();
    test_numbers();
    test_over();
    test_stored();
    test_recorded();
    test_order();
    test_largest();
    test_large_books();
    test_both_budget();
    test_ranked();
    for (edition = 1; edition <= CHULTARVI_EDITION_MOST; edition++) test_sharers();
    edition = 1;
    test_editions();
    test_addresses();
    test_wide_most();
    printf("%d passed, %d failed\n", passed, failed);
    return failed != 0;
}
