/* A note's lines on a page, with its ranges and further findings marked. Ranges are whole lines and may lie over each other, so the lines are cut where a
   range begins or ends, and each run between two cuts has a bar for each range that holds it. A range's label stands beside its first run; one
   without lines has a run of its own, before the line that it names. The work grows with lines and ranges: a run shows BARS_MOST bars at most. */
#include "page.h"
#include <inttypes.h>
#include <stdlib.h>

/* The tests have fewer. */
#ifndef BARS_MOST
#define BARS_MOST 16
#endif

/* A finding to mark. Those that hold the run at hand are a ring through `all[count]`, the innermost first. */
typedef struct { const finding *of; bool further; size_t number, next, last; } mark;
typedef struct {
    const pen *to;
    const report *r;
    mark *all;
    size_t count, *begins, *ends, begun, ended, held;
    part rest;
    uint32_t line;
} sweep;

void put_mark_name(const pen *p, bool further, size_t number) { fprintf(p->tags, "n%zu%c%zu", p->note, further ? 'f' : 'r', number + 1); }

/* Golden angles from blue on; further findings begin elsewhere. */
unsigned hue_of(bool further, size_t number) { return (unsigned)((210 + 137 * number + (further ? 70 : 0)) % 360); }

void put_title(const pen *p, const finding *f) {
    plain_name(p->words, &f->text);
    fputs(", ", p->words);
    plain_place(p->words, f);
}

static int rising(uint32_t a, uint32_t b) { return a < b ? -1 : a > b; }

/* The wider first, so that the narrower is the inner one. */
static int by_first(const void *a, const void *b, void *all) {
    const mark *x = (const mark *)all + *(const size_t *)a, *y = (const mark *)all + *(const size_t *)b;
    int order = rising(x->of->first, y->of->first);
    if (order == 0) order = rising(y->of->after, x->of->after);
    return order ? order : x < y ? -1 : x > y;
}

static int by_after(const void *a, const void *b, void *all) {
    const mark *x = (const mark *)all + *(const size_t *)a, *y = (const mark *)all + *(const size_t *)b;
    return rising(x->of->after, y->of->after);
}

static void add_marks(sweep *s, const findings *from, bool further) {
    for (size_t k = 0; k < from->count; k++) {
        s->begins[s->count] = s->ends[s->count] = s->count;
        s->all[s->count++] = (mark){.of = from->at + k, .further = further, .number = k};
    }
}

static void take_in(sweep *s, size_t k) {
    mark *ring = s->all + s->count, *m = s->all + k;
    m->last = s->count, m->next = ring->next;
    s->all[ring->next].last = k;
    ring->next = k;
    s->held++;
}

static void let_go(sweep *s, const mark *m) {
    s->all[m->last].next = m->next;
    s->all[m->next].last = m->last;
    s->held--;
}

static bool has_lines(const mark *m) { return m->of->first < m->of->after; }

/* The ranges that end before this line. One without lines was never taken in. */
static void end_marks(sweep *s) {
    for (; s->ended < s->count && s->all[s->ends[s->ended]].of->after <= s->line; s->ended++) {
        const mark *m = s->all + s->ends[s->ended];
        if (has_lines(m)) let_go(s, m);
    }
}

/* The line before which the lines are cut next, or their end. */
static uint32_t next_cut(const sweep *s) {
    uint32_t cut = s->r->whole.after;
    if (s->begun < s->count && s->all[s->begins[s->begun]].of->first < cut) cut = s->all[s->begins[s->begun]].of->first;
    if (s->ended < s->count && s->all[s->ends[s->ended]].of->after < cut) cut = s->all[s->ends[s->ended]].of->after;
    return cut;
}

static void put_bar(const sweep *s, const mark *m) {
    FILE *tags = s->to->tags;
    fputs("<a href=\"#", tags);
    put_mark_name(s->to, m->further, m->number);
    fprintf(tags, "\" class=\"%s\" style=\"--h:%u\" title=\"", m->further ? "bar further" : "bar", hue_of(m->further, m->number));
    put_title(s->to, m->of);
    fputs("\"></a>", tags);
}

static void put_bars(const sweep *s) {
    size_t shown = 0;
    fputs("<div class=\"bars\">", s->to->tags);
    for (size_t k = s->all[s->count].next; k != s->count && shown < BARS_MOST; k = s->all[k].next, shown++) put_bar(s, s->all + k);
    if (shown < s->held) fprintf(s->to->tags, "<small>+%zu</small>", s->held - shown);
    fputs("</div>\n", s->to->tags);
}

static void put_places(const sweep *s, const mark *m) {
    const finding *f = m->of;
    FILE *tags = s->to->tags;
    fprintf(tags, " data-first=\"%" PRIu32 "\" data-after=\"%" PRIu32 "\" data-start=\"%" PRIu32 "\" data-end=\"%" PRIu32 "\"", f->first, f->after, f->start,
            f->end);
    fprintf(tags, " data-kind=\"%s\" data-score=\"%.9g\" data-licence=\"", kind_words(f->text.kind), (double)f->of.score);
    plain_name(s->to->words, &f->text);
    fputc('"', tags);
}

void put_doubt(const pen *p, const report *r, const finding *f) {
    const char *lead = doubt_of(r, f);
    if (!lead) return;
    fprintf(p->tags, "<p class=\"%s\">", has_rival(f) ? "bad" : "rest");
    fputs(lead, p->words);
    plain_text(p->words, r, &f->other, &f->other_of);
    fputs("</p>\n", p->tags);
}

static void put_label(const sweep *s, const mark *m) {
    const finding *f = m->of;
    FILE *tags = s->to->tags, *words = s->to->words;
    fputs("<div id=\"", tags);
    put_mark_name(s->to, m->further, m->number);
    fprintf(tags, "\" class=\"%s\" style=\"--h:%u\"", m->further ? "label further" : "label", hue_of(m->further, m->number));
    put_places(s, m);
    fputs("><b>", tags);
    plain_name(words, &f->text);
    fprintf(tags, "</b> <span>%s", m->further ? "further, " : "");
    plain_place(words, f);
    fputs("</span><p>", tags);
    plain_kind(words, s->r, &f->text, &f->of);
    fputs("</p>\n", tags);
    put_doubt(s->to, s->r, f);
    fputs("</div>\n", tags);
}

static void open_run(const sweep *s, const char *kind, const mark *inner) {
    fprintf(s->to->tags, "<div class=\"run%s\"", kind);
    if (inner) fprintf(s->to->tags, " style=\"--h:%u\"", hue_of(inner->further, inner->number));
    fputs(">\n", s->to->tags);
}

/* A range without lines: a run of its own. */
static void put_empty(sweep *s, const mark *m) {
    open_run(s, m->further ? " none further" : " none", m);
    put_label(s, m);
    fputs("</div>\n", s->to->tags);
}

/* Takes in what begins with this line, and gives the number behind the last of it. Wider ones come first, so those without a line come last. */
static size_t begin_marks(sweep *s) {
    size_t k = s->begun;
    for (; k < s->count && s->all[s->begins[k]].of->first == s->line; k++) {
        const mark *m = s->all + s->begins[k];
        if (has_lines(m)) take_in(s, s->begins[k]);
        else put_empty(s, m);
    }
    return k;
}

/* Those without a line have their labels already, and come last. */
static void put_labels(const sweep *s, size_t from, size_t to) {
    if (from == to || !has_lines(s->all + s->begins[from])) return;
    fputs("<div class=\"labels\">\n", s->to->tags);
    for (size_t k = from; k < to && has_lines(s->all + s->begins[k]); k++) put_label(s, s->all + s->begins[k]);
    fputs("</div>\n", s->to->tags);
}

static void put_lines(sweep *s, uint32_t to) {
    fprintf(s->to->tags, "<ol start=\"%" PRIu32 "\">\n", s->line + 1);
    for (; s->line < to; s->line++) {
        fputs("<li>", s->to->tags);
        put_html(s->to->tags, take_line(&s->rest));
        fputs("</li>\n", s->to->tags);
    }
    fputs("</ol>\n", s->to->tags);
}

/* The lines up to the next cut, with what holds them. */
static void put_run(sweep *s) {
    end_marks(s);
    size_t from = s->begun, to = begin_marks(s);
    s->begun = to;
    if (s->line == s->r->whole.after) return;
    const mark *inner = s->held ? s->all + s->all[s->count].next : 0;
    open_run(s, !inner ? "" : inner->further ? " held further" : " held", inner);
    put_bars(s);
    put_labels(s, from, to);
    put_lines(s, next_cut(s));
    fputs("</div>\n", s->to->tags);
}

void put_marked(const pen *p, const report *r) {
    size_t most = r->ranges.count + r->further.count;
    sweep s = {.to = p, .r = r, .all = take((most + 1) * sizeof *s.all), .rest = r->raw};
    s.begins = take((most + 1) * sizeof *s.begins);
    s.ends = take((most + 1) * sizeof *s.ends);
    add_marks(&s, &r->ranges, false);
    add_marks(&s, &r->further, true);
    s.all[most] = (mark){.next = most, .last = most};
    qsort_r(s.begins, most, sizeof *s.begins, by_first, s.all);
    qsort_r(s.ends, most, sizeof *s.ends, by_after, s.all);
    while (s.line < r->whole.after) put_run(&s);
    put_run(&s);
    free(s.all);
    free(s.begins);
    free(s.ends);
}
