/* The calls of the library that the subcommand scan makes, over a whole note or over lines of it, against whole books or parts of them. Where the shelf
   has one book that is the call of one, since an empty second book would be one of edition 1. Each call is lent only what its text needs, since the
   library clears it. A budget is an allowance for one note, so that whatever is scanned for it is charged at one place. */
#include "scan.h"
#include <string.h>

#define TEXT text.bytes, text.len
#define ONE_BOOK books[0].bytes, books[0].len
#define TWO_BOOKS ONE_BOOK, books[1].bytes, books[1].len
#define WORK w->lent.area, lent_bytes(text.len), w->lent.words, lent_words(text.len)
#define AREAS WORK, w->results

static chultarvi_note_scanned eliminate(worker *w, part text, const part books[2], way by) {
    uint16_t passes = w->from->with.passes;
    size_t results = chultarvi_elimination_results(by.optimize, passes);
    if (!w->from->with.beside)
        return chultarvi_eliminate_allowed(TEXT, ONE_BOOK, by.threshold, by.shallow, by.optimize, passes, &w->pays.of, AREAS, results);
    return chultarvi_eliminate_both_allowed(TEXT, TWO_BOOKS, by.threshold, by.shallow, by.optimize, passes, &w->pays.of, AREAS, results);
}

static size_t count_lines(part text) {
    size_t lines = 1;
    for (size_t i = 0; i < text.len; i++) lines += text.bytes[i] == '\n';
    return lines < CHULTARVI_LINES_MOST ? lines : CHULTARVI_LINES_MOST;
}

static chultarvi_note_scanned top_down(worker *w, part text, const part books[2]) {
    const settings *s = &w->from->with;
    size_t results = chultarvi_top_down_results(s->threshold, count_lines(text));
    if (!s->beside) return chultarvi_top_down_allowed(TEXT, ONE_BOOK, s->threshold, s->shallow, s->step, &w->pays.of, AREAS, results);
    return chultarvi_top_down_both_allowed(TEXT, TWO_BOOKS, s->threshold, s->shallow, s->step, &w->pays.of, AREAS, results);
}

chultarvi_note_scanned scan_whole(worker *w, part text) {
    const settings *s = &w->from->with;
    const lent_book *b = w->from->books;
    const part books[2] = {{b[0].bytes, b[0].len}, {b[1].bytes, b[1].len}};
    return s->down ? top_down(w, text, books) : eliminate(w, text, books, (way){s->threshold, s->shallow, s->optimize});
}

bool is_answered(const chultarvi_note_scanned *a) { return a->refusal == CHULTARVI_ANSWERED || a->refusal == CHULTARVI_STOPPED_BY_BUDGET; }

stored_text named_by(const shelf *s, const chultarvi_note_scanned *a) {
    if (!a->kind) return (stored_text){0};
    const char *name = (const char *)chultarvi_name(s->books[0].bytes, s->books[1].bytes, a);
    return (stored_text){.name = name, .book = s->books[a->second].file, .len = a->len, .kind = a->kind};
}

value overall_of(const chultarvi_note_scanned *a) { return (value){a->score, a->m, a->t, true}; }

finding *add_finding(findings *to, finding f) {
    if (to->count == to->room) {
        to->room = 2 * to->room + 8;
        to->at = more_room(to->at, to->room * sizeof *to->at);
    }
    to->at[to->count] = f;
    return to->at + to->count++;
}

void add_records(const worker *w, const chultarvi_note_scanned *a, uint32_t first, const uint32_t *numbers, findings *to) {
    for (uint32_t k = 0; k < a->records; k++) {
        const uint32_t *record = w->results + CHULTARVI_RECORD_WIDTH * (size_t)k;
        uint32_t number = record[CHULTARVI_RECORD_NUMBER], shift = w->starts[first];
        if (numbers) number = numbers[number];
        finding f = {.text = w->from->stored[number], .number = number};
        f.first = first + record[CHULTARVI_RECORD_FIRST], f.after = first + record[CHULTARVI_RECORD_AFTER];
        f.start = shift + record[CHULTARVI_RECORD_START], f.end = shift + record[CHULTARVI_RECORD_END];
        memcpy(&f.of.score, record + CHULTARVI_RECORD_SCORE, sizeof f.of.score);
        /* at a part's end an empty range is told the part's length, and the note's next line starts behind it */
        if (f.first == f.after) place_lines(w, &f);
        add_finding(to, f);
    }
}

/* One scoring more, of a record's lines against its stored text, where it is paid; the library charges scans alone. It scores what is recorded. */
static void count_pair(worker *w, report *r, part text, finding *f) {
    part book;
    if (w->pays.of.used == w->pays.of.cap) return;
    w->pays.of.used++;
    r->more++;
    uint32_t number = choose_one(w, f->number, &book);
    chultarvi_view_scored s = chultarvi_score(TEXT, book.bytes, book.len, 0, f->after - f->first, number, WORK);
    f->of = (value){f->of.score, s.m, s.t, s.refusal == 0 && s.score == f->of.score};
}

/* Blanks these lines of `blanked`; newlines stay. */
static void blank_lines(worker *w, part lines) {
    uint8_t *at = w->blanked + (lines.bytes - w->blanked);
    for (size_t k = 0; k < lines.len; k++) if (at[k] != '\n') at[k] = ' ';
}

void look_in_all(worker *w, report *r, uint32_t first, uint32_t after, findings *all, look *at) {
    if (all->count == 0) return;
    part scanned = lines_part(w, (part){r->text, r->len}, first, after);
    memcpy(w->blanked + (scanned.bytes - r->text), scanned.bytes, scanned.len);
    for (size_t i = 0; i < all->count; i++) {
        finding *f = all->at + i;
        part lines = lines_part(w, (part){w->blanked, r->len}, f->first, f->after);
        at(w, r, lines, f);
        blank_lines(w, lines);
    }
}

void count_pairs(worker *w, report *r, uint32_t first, uint32_t after, findings *made) { look_in_all(w, r, first, after, made, count_pair); }

chultarvi_note_scanned scan_more(worker *w, report *r, part text, const part books[2], way by) {
    chultarvi_note_scanned a = eliminate(w, text, books, by);
    r->more += a.count;
    return a;
}

void find_lines(worker *w, part text) {
    w->lines = 0;
    w->starts[w->lines++] = 0;
    for (size_t i = 0; i < text.len; i++) if (text.bytes[i] == '\n') w->starts[w->lines++] = (uint32_t)i + 1;
    w->starts[w->lines] = (uint32_t)text.len + 1;
}

part lines_part(const worker *w, part text, uint32_t first, uint32_t after) {
    if (first >= after) return (part){text.bytes, 0};
    return (part){text.bytes + w->starts[first], w->starts[after] - 1 - w->starts[first]};
}

/* No line starts at the text's end plus one, where a range behind the last line would. */
void place_lines(const worker *w, finding *f) {
    bool behind = f->first == w->lines, none = f->first == f->after;
    f->start = w->starts[f->first] - behind;
    f->end = none ? f->start : w->starts[f->after] - 1;
}

static void place_all(const worker *w, findings *all) {
    for (size_t i = 0; i < all->count; i++) place_lines(w, all->at + i);
}

void place_in_file(worker *w, report *r) {
    if (r->changed == 0) return;
    find_lines(w, r->raw);
    place_all(w, &r->ranges);
    place_all(w, &r->further);
}
