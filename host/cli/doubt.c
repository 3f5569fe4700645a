/* Doubt about an answer: the best of the other licences on the same lines. For a rival that is a scan against those texts alone that may be named
   there; for the next one in any case (--second) a scan against all texts of other licences. */
#include "scan.h"

static void look_for_other(worker *w, report *r, part text, finding *f) {
    part books[2];
    f->looked = true;
    if (!(r->from->with.second ? choose_others(w, &f->text, books) : choose_texts(w, text, &f->text, books))) return;
    chultarvi_note_scanned a = scan_more(w, r, text, books, (way){0});
    f->looked = a.refusal == 0;
    f->other = chosen_by(w, &a);
    f->other_of = overall_of(&a);
}

static bool is_higher(const finding *f) { return has_rival(f) && f->other_of.score > f->of.score; }

/* The other one is the better: higher, or as high and of a kind that goes before. */
static bool is_better(const finding *f) { return is_higher(f) || (has_rival(f) && f->other.kind < f->text.kind); }

/* The finding as if the other licence had been found first. */
static finding turned(const finding *f) {
    finding t = *f;
    t.text = f->other, t.of = f->other_of;
    t.other = f->text, t.other_of = f->of;
    return t;
}

/* What is found further is named after the best, and falls away where the scan itself has that on these lines. */
static void name_best(worker *w, report *r) {
    size_t kept = 0;
    list_owners(w, &r->ranges);
    for (size_t i = 0; i < r->further.count; i++) {
        finding f = is_better(r->further.at + i) ? turned(r->further.at + i) : r->further.at[i];
        if (!is_among(w, &r->ranges, &f)) r->further.at[kept++] = f;
    }
    r->further.count = kept;
}

/* A scan names a range after the text that was best before its bounds were known; another may score higher within them. Of the scan's own ranges
   that is said beside, and with --thorough it is a further finding, unless it is one already. */
static void add_higher(worker *w, report *r) {
    list_owners(w, &r->further);
    for (size_t i = 0; i < r->ranges.count; i++) {
        finding t = turned(r->ranges.at + i);
        if (is_higher(r->ranges.at + i) && !is_among(w, &r->further, &t)) add_finding(&r->further, t);
    }
}

void look_for_others(worker *w, report *r) {
    const settings *s = &r->from->with;
    bool named = r->whole.text.kind;
    if (r->answer.refusal) return;
    if (named || (s->second && !s->down)) look_for_other(w, r, (part){r->text, r->len}, &r->whole);
    look_in_all(w, r, 0, r->whole.after, &r->ranges, look_for_other);
    look_in_all(w, r, 0, r->whole.after, &r->further, look_for_other);
    if (!s->thorough) return;
    name_best(w, r);
    add_higher(w, r);
}

bool has_rival(const finding *f) { return f->text.kind && f->looked && f->other.kind && f->other_of.score >= f->of.score; }
