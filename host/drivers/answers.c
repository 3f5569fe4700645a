/* Answers the oracle's questions (oracle/README.md) by the archive: table, score, countbounds, clear, add, counteliminate, countdown; behind
   `border K` by the calls that take two books, behind `placed` with the bytes of each range, behind `allowed` by those that take an allowance: the one
   that `allowance CAP USED` has set, as the scans since have left it. The edition is the argument, and 1 without it: texts are compiled under it, and
   every book has it.
   Every area is filled with garbage before a call and looked at after it, and so is the name's part.
   A question that cannot be held or read stops the program with a message and status 2. Build and run: host/drivers/answers.sh. Nothing here is part
   of the gate. */
#include "../pairs.h"
#include "../records.h"
#include <errno.h>
#include <inttypes.h>
#include <stdio.h>
#include <stdlib.h>

enum { SPARE = 3, WORDS = 12, LINE_MOST = 16 << 20 };
static uint32_t edition = 1;
static uint8_t book[CHULTARVI_BOOK_MOST];
static size_t book_len;
/* The name that the next text stands under, if it has the same; with no licence yet it is empty, which is no name. */
static uint8_t name_above[CHULTARVI_NAME_MOST];
static size_t name_above_len;
static chultarvi_allowance allowance;

static void stop(const char *why) { fprintf(stderr, "answers: %s\n", why); exit(2); }
static void *take(size_t bytes) {
    void *p = malloc(bytes ? bytes : 1);
    if (!p) stop("no memory");
    return p;
}

/* ---- what a question is made of */

typedef struct { uint8_t *bytes; size_t len; } text_t;

static uint8_t digit(char c) {
    if (c >= '0' && c <= '9') return (uint8_t)(c - '0');
    if (c >= 'a' && c <= 'f') return (uint8_t)(c - 'a' + 10);
    stop("a text is not written in the digits 0 to 9 and a to f");
    return 0;
}
static text_t unhex(const char *w) {
    size_t digits = strcmp(w, "-") == 0 ? 0 : strlen(w);
    if (digits % 2) stop("a text has half a byte");
    text_t t = {take(digits / 2), digits / 2};
    for (size_t i = 0; i < t.len; i++) t.bytes[i] = (uint8_t)(digit(w[2 * i]) << 4 | digit(w[2 * i + 1]));
    return t;
}
static uint64_t number_of(const char *w, int base, uint64_t most) {
    char *end;
    errno = 0;
    unsigned long long x = strtoull(w, &end, base);
    if (errno || end == w || *end || *w == '-' || x > most) stop("a number is none, or too large");
    return x;
}
static uint64_t whole(const char *w, uint64_t most) { return number_of(w, 10, most); }
static uint32_t bits(float x) { uint32_t b; memcpy(&b, &x, 4); return b; }
static float unbits(const char *w) { uint32_t b = (uint32_t)number_of(w, 16, UINT32_MAX); float x; memcpy(&x, &b, 4); return x; }

/* ---- the areas */

typedef struct { uint8_t *area; uint32_t *words, *results; size_t bytes, count, room; } areas_t;
static areas_t lend(size_t n, size_t room) {
    areas_t a = {.bytes = chultarvi_area_bytes(n) + SPARE, .count = chultarvi_area_words(n) + SPARE, .room = room};
    a.area = take(a.bytes);
    a.words = take(4 * a.count);
    a.results = take(4 * (room + SPARE));
    memset(a.area, 0xa5, a.bytes);
    memset(a.words, 0x5a, 4 * a.count);
    memset(a.results, 0xc3, 4 * (room + SPARE));
    return a;
}
/* both work areas are zero, and the results beyond what is recorded as they were */
static void give_back(areas_t a, size_t used) {
    for (size_t i = 0; i < a.bytes; i++) if (a.area[i]) stop("a byte of the area is left");
    for (size_t i = 0; i < a.count; i++) if (a.words[i]) stop("a number of the area is left");
    for (size_t i = used; i < a.room + SPARE; i++) if (a.results[i] != 0xc3c3c3c3u) stop("the results are written past the records");
    free(a.area);
    free(a.words);
    free(a.results);
}

/* ---- books of the questions: each has room for CHULTARVI_BOOK_MOST bytes, and `at` of them are written */

static size_t add_record(uint8_t *to, size_t at, uint32_t kind, const uint8_t *body, size_t len) {
    if (CHULTARVI_BOOK_MOST - at < CHULTARVI_RECORD_HEAD + len) stop("a book is over 16,777,216 bytes");
    return (size_t)(put_record(to + at, kind, body, len) - to);
}
/* A book begins with its edition, or with nothing where that is 1. */
static size_t begin_book(uint8_t *to) { return (size_t)(put_edition(to, edition) - to); }
static size_t add_table(uint8_t *to, size_t at, uint32_t kind, text_t t) {
    areas_t a = lend(t.len, 0);
    size_t room = chultarvi_table_bytes(t.len);
    uint8_t *out = take(room);
    chultarvi_text_compiled c = chultarvi_compile(t.bytes, t.len, edition, a.area, a.bytes, a.words, a.count, out, room);
    if (c.refusal) stop(chultarvi_refusal_text(c.refusal));
    give_back(a, 0);
    at = add_record(to, at, kind, out, c.len);
    free(out);
    return at;
}

static void answer_table(const char *w) {
    text_t t = unhex(w);
    static uint8_t one[CHULTARVI_BOOK_MOST];
    size_t n = add_table(one, 0, CHULTARVI_ORIGINAL, t);
    printf("%" PRIu32, get_number(one + 6));
    for (size_t i = 14; i < n;) {
        uint32_t count = get_number(one + i), len = get_number(one + i + 4);
        printf(" %" PRIu32 ":", count);
        for (uint32_t k = 0; k < len; k++) printf("%02x", one[i + 8 + k]);
        i += 8 + len;
    }
    printf("\n");
    free(t.bytes);
}

/* What is lent: one book, or two. */
typedef struct { const uint8_t *first, *second; size_t first_len, second_len; bool two; } books_t;
#define TEXT_AND_BOOK t.bytes, t.len, b.first, b.first_len
#define TEXT_AND_BOTH TEXT_AND_BOOK, b.second, b.second_len
#define WORK a.area, a.bytes, a.words, a.count
#define WORK_AND_RESULTS WORK, a.results, a.room

/* the licence's own book, beside the store with a border: before it, or at border 0 behind it, and then all stored texts count first */
static books_t beside_store(const uint8_t *own, size_t own_len, const char *border, uint32_t *number) {
    bool behind = border && strcmp(border, "0") == 0;
    *number = behind ? chultarvi_check_book(book, book_len).texts : 0;
    if (behind) return (books_t){book, own, book_len, own_len, true};
    return (books_t){own, book, own_len, book_len, border != 0};
}
/* every score, which the original is asked for, is 2m/t of the m and t beside it, and these are 0 where there is none */
static void look_at_pairs(float score, uint32_t m, uint32_t t, bool any) {
    if (!is_two_m_by_t(score, m, t)) stop("a score is not 2m/t");
    if (!any && t) stop("m and t without a score");
}
static float score_of(text_t t, books_t b, size_t start, size_t end, uint32_t number) {
    areas_t a = lend(t.len, 0);
    chultarvi_view_scored s = b.two ? chultarvi_score_both(TEXT_AND_BOTH, start, end, number, WORK)
                                    : chultarvi_score(TEXT_AND_BOOK, start, end, number, WORK);
    if (s.refusal) stop("a score is refused");
    look_at_pairs(s.score, s.m, s.t, true);
    give_back(a, 0);
    return s.score;
}
static void print_bounds(text_t t, books_t b, size_t start, size_t end, uint32_t number) {
    areas_t a = lend(t.len, 0);
    chultarvi_bounds_found f = b.two ? chultarvi_bounds_both(TEXT_AND_BOTH, start, end, number, WORK)
                                     : chultarvi_bounds(TEXT_AND_BOOK, start, end, number, WORK);
    if (f.refusal) stop("bounds are refused");
    look_at_pairs(f.score, f.m, f.t, true);
    printf("%" PRIu64 " %" PRIu32 " %" PRIu32 " %08" PRIx32 "\n", f.count, f.first, f.after, bits(f.score));
    give_back(a, 0);
}
static void answer_view(char **w, const char *border, bool whole_bounds) {
    text_t t = unhex(w[3]), licence = unhex(w[4]);
    static uint8_t one[CHULTARVI_BOOK_MOST];
    size_t n = add_record(one, begin_book(one), CHULTARVI_LICENCE_NAME, (const uint8_t *)"A", 1);
    n = add_table(one, n, CHULTARVI_ORIGINAL, licence);
    uint32_t number;
    books_t b = beside_store(one, n, border, &number);
    size_t start = whole(w[1], SIZE_MAX), end = whole(w[2], SIZE_MAX);
    if (whole_bounds) print_bounds(t, b, start, end, number);
    else printf("%08" PRIx32 "\n", bits(score_of(t, b, start, end, number)));
    free(t.bytes);
    free(licence.bytes);
}
static void clear(void) {
    book_len = begin_book(book);
    name_above_len = 0;
}
/* A new name is a new licence of the store. */
static void add(char **w) {
    text_t name = unhex(w[1]), t = unhex(w[3]);
    if (name.len < 1 || name.len > CHULTARVI_NAME_MOST) stop("a name is not of 1 to 64 bytes");
    size_t at = book_len;
    bool above = name.len == name_above_len && memcmp(name.bytes, name_above, name.len) == 0;
    if (!above) at = add_record(book, at, CHULTARVI_LICENCE_NAME, name.bytes, name.len);
    book_len = add_table(book, at, (uint32_t)whole(w[2], UINT16_MAX), t);
    memcpy(name_above, name.bytes, name.len);
    name_above_len = name.len;
    if (chultarvi_check_book(book, book_len).refusal) stop("the book is unsound");
    if (chultarvi_edition(book, book_len) != edition) stop("the book has another edition");
    printf("ok\n");
    free(name.bytes);
    free(t.bytes);
}
/* the store, or its licences before the border and, behind an edition of their own, those from it on */
static books_t parted(const char *border) {
    static uint8_t second[CHULTARVI_BOOK_MOST];
    if (!border) return (books_t){.first = book, .first_len = book_len};
    uint64_t before = whole(border, UINT64_MAX);
    size_t at = 0, n = begin_book(second);
    for (; at < book_len; at = record_at(book, at).after) if (record_at(book, at).kind == CHULTARVI_LICENCE_NAME && before-- == 0) break;
    memcpy(second + n, book + at, book_len - at);
    return (books_t){book, second, at, n + book_len - at, true};
}
/* where the name that a book's stored text *k stands under starts; null where *k counts on into another book, and is then its number there */
static const uint8_t *name_in(const uint8_t *lent, size_t len, uint32_t *k) {
    const uint8_t *name = 0;
    book_record r;
    for (size_t at = 0; at < len; at = r.after) {
        r = record_at(lent, at);
        if (r.kind == CHULTARVI_LICENCE_NAME) name = r.body;
        else if (is_stored(r.kind) && (*k)-- == 0) return name;
    }
    return 0;
}
static size_t lines_of(text_t t) {
    size_t lines = 1;
    for (size_t i = 0; i < t.len; i++) lines += t.bytes[i] == '\n';
    return lines;
}
static uint32_t kind_of(books_t b, uint32_t k) {
    return b.two ? chultarvi_name_stored_both(b.first, b.first_len, b.second, b.second_len, k).kind : chultarvi_name_stored(b.first, b.first_len, k).kind;
}
/* the stored number of the named licence, which the oracle tells: the first text of that kind with that score, since no other kind goes before it */
static uint32_t stored_number(const chultarvi_note_scanned *s, text_t t, books_t b) {
    uint32_t texts = chultarvi_check_book(book, book_len).texts;
    for (uint32_t k = 0; k < texts; k++) if (kind_of(b, k) == s->kind && bits(score_of(t, b, 0, lines_of(t), k)) == bits(s->score)) return k;
    stop("no stored text of the named kind has the score of the named one");
    return 0;
}
/* writes who is named, whose name must stand where the answer says: with no name that is the first book's start */
static void print_named(const chultarvi_note_scanned *s, text_t t, books_t b) {
    const uint8_t *name = b.first;
    bool second = false;
    if (s->kind) {
        uint32_t k = stored_number(s, t, b);
        printf("%" PRIu32, k);
        name = name_in(b.first, b.first_len, &k);
        second = !name;
        if (second) name = name_in(b.second, b.second_len, &k);
    } else printf("none");
    if (chultarvi_name(b.first, b.second, s) != name || memcmp(name, s->name, s->len) != 0) stop("the name is not where it stands");
    if (s->second != second) stop("the name is not in the book that holds it");
}
/* What a scan is asked: of elimination optimize and passes count, of top-down the step. */
typedef struct { float threshold, shallow; bool down, optimize; uint16_t passes; uint64_t step, budget; } scan_t;
static scan_t scan_asked(char **w, bool down) {
    scan_t q = {.threshold = unbits(w[1]), .shallow = unbits(w[2]), .down = down, .budget = whole(w[down ? 4 : 5], UINT64_MAX)};
    if (down) q.step = whole(w[3], UINT64_MAX);
    else q.optimize = strcmp(w[3], "1") == 0, q.passes = (uint16_t)whole(w[4], UINT16_MAX);
    return q;
}
static chultarvi_note_scanned scan(scan_t q, text_t t, books_t b, areas_t a) {
    if (q.down)
        return b.two ? chultarvi_top_down_both(TEXT_AND_BOTH, q.threshold, q.shallow, q.step, q.budget, WORK_AND_RESULTS)
                     : chultarvi_top_down(TEXT_AND_BOOK, q.threshold, q.shallow, q.step, q.budget, WORK_AND_RESULTS);
    return b.two ? chultarvi_eliminate_both(TEXT_AND_BOTH, q.threshold, q.shallow, q.optimize, q.passes, q.budget, WORK_AND_RESULTS)
                 : chultarvi_eliminate(TEXT_AND_BOOK, q.threshold, q.shallow, q.optimize, q.passes, q.budget, WORK_AND_RESULTS);
}
static chultarvi_note_scanned charged_scan(scan_t q, text_t t, books_t b, areas_t a) {
    if (q.down)
        return b.two ? chultarvi_top_down_both_allowed(TEXT_AND_BOTH, q.threshold, q.shallow, q.step, &allowance, WORK_AND_RESULTS)
                     : chultarvi_top_down_allowed(TEXT_AND_BOOK, q.threshold, q.shallow, q.step, &allowance, WORK_AND_RESULTS);
    return b.two ? chultarvi_eliminate_both_allowed(TEXT_AND_BOTH, q.threshold, q.shallow, q.optimize, q.passes, &allowance, WORK_AND_RESULTS)
                 : chultarvi_eliminate_allowed(TEXT_AND_BOOK, q.threshold, q.shallow, q.optimize, q.passes, &allowance, WORK_AND_RESULTS);
}
/* The question's budget is what the original's counts have left of the allowance: so it must be left here too. */
static chultarvi_note_scanned allowed_scan(scan_t q, text_t t, books_t b, areas_t a) {
    chultarvi_allowance before = allowance;
    if (before.used > before.cap || before.cap - before.used != q.budget) stop("what is left of the allowance is not the budget");
    chultarvi_note_scanned s = charged_scan(q, t, b, a);
    if (allowance.cap != before.cap || allowance.used - before.used != s.count) stop("the allowance is not charged by the count");
    return s;
}
static void print_record(const uint32_t *r, bool placed) {
    printf(" ; %" PRIu32 " %" PRIu32 " %" PRIu32 " %08" PRIx32, r[CHULTARVI_RECORD_NUMBER], r[CHULTARVI_RECORD_FIRST], r[CHULTARVI_RECORD_AFTER],
           r[CHULTARVI_RECORD_SCORE]);
    if (placed) printf(" %" PRIu32 " %" PRIu32, r[CHULTARVI_RECORD_START], r[CHULTARVI_RECORD_END]);
}
/* What is said before a question: the number behind `border`, or null where it is not said; is `placed`, is `allowed` said? */
typedef struct { const char *border; bool placed, allowed; } said_t;

static void answer_scan(char **w, said_t said, bool down) {
    scan_t q = scan_asked(w, down);
    text_t t = unhex(w[down ? 5 : 6]);
    books_t b = parted(said.border);
    areas_t a = lend(t.len, down ? chultarvi_top_down_results(q.threshold, lines_of(t)) : chultarvi_elimination_results(q.optimize, q.passes));
    chultarvi_note_scanned s = said.allowed ? allowed_scan(q, t, b, a) : scan(q, t, b, a);
    if (s.refusal && s.refusal != CHULTARVI_STOPPED_BY_BUDGET) stop(chultarvi_refusal_text(s.refusal));
    look_at_pairs(s.score, s.m, s.t, !down && q.budget >= chultarvi_check_book(book, book_len).texts);
    printf("%" PRIu32 " %" PRIu64 " %08" PRIx32 " ", s.refusal, s.count, bits(s.score));
    print_named(&s, t, b);
    for (size_t k = 0; k < s.records; k++) print_record(a.results + CHULTARVI_RECORD_WIDTH * k, said.placed);
    printf("\n");
    give_back(a, CHULTARVI_RECORD_WIDTH * (size_t)s.records);
    free(t.bytes);
}

static void lend_allowance(char **w) {
    allowance = (chultarvi_allowance){whole(w[1], UINT64_MAX), whole(w[2], UINT64_MAX)};
    printf("ok\n");
}
static void answer(char **w, int n, said_t said) {
    if (!strcmp(w[0], "counteliminate") && n == 7) answer_scan(w, said, false);
    else if (!strcmp(w[0], "countdown") && n == 6) answer_scan(w, said, true);
    else if (said.placed) stop("no such question with places");
    else if (said.allowed) stop("no such question with an allowance");
    else if (!strcmp(w[0], "score") && n == 5) answer_view(w, said.border, false);
    else if (!strcmp(w[0], "countbounds") && n == 5) answer_view(w, said.border, true);
    else if (said.border) stop("no such question of two books");
    else if (!strcmp(w[0], "table") && n == 2) answer_table(w[1]);
    else if (!strcmp(w[0], "clear") && n == 1) { clear(); printf("ok\n"); }
    else if (!strcmp(w[0], "add") && n == 4) add(w);
    else if (!strcmp(w[0], "allowance") && n == 3) lend_allowance(w);
    else stop("no such question");
}

/* Before a question stand `allowed`, `border K` and `placed`, in this order, each or not. */
static void answer_words(char **w, int n) {
    said_t said = {0};
    int before = said.allowed = !strcmp(w[0], "allowed") && n > 1;
    if (!strcmp(w[before], "border") && n > before + 2) said.border = w[before + 1], before += 2;
    said.placed = !strcmp(w[before], "placed") && n > before + 1;
    before += said.placed;
    answer(w + before, n - before, said);
}

/* Parts the line at its spaces. One word more than a question may have suffices to find it wrong. */
static int words_of(char *line, char *w[WORDS]) {
    char *save = 0;
    int n = 0;
    for (char *p = strtok_r(line, " \n", &save); p && n < WORDS; p = strtok_r(0, " \n", &save)) w[n++] = p;
    return n;
}

int main(int argc, char **argv) {
    if (argc > 1) edition = (uint32_t)whole(argv[1], CHULTARVI_EDITION_MOST);
    clear();
    char *line = take(LINE_MOST);
    while (fgets(line, LINE_MOST, stdin)) {
        if (strlen(line) == LINE_MOST - 1 && line[LINE_MOST - 2] != '\n') stop("a question is over 16,777,214 bytes");
        char *w[WORDS] = {0};
        int n = words_of(line, w);
        if (n == 0 || w[0][0] == '#') continue;
        answer_words(w, n);
        if (fflush(stdout) != 0) stop("an answer is not taken");
    }
    free(line);
    return 0;
}
