/* Licences that a scan left unread (--thorough). What no range holds is cut out at the recorded lines and scanned; then each of its stanzas, which
   stand between empty lines; then runs of 2, 4, 8 .. stanzas, each run reaching half into the next, so that every licence of several stanzas lies
   within a run of at most four times its own; then the same once more of what is left, with stanzas between lines without a word (`.`, `*`, `---`).
   The coarse stanzas come first, since a licence may be the first stanza of another (MIT of X11). Each line is scanned at most twice at each width, so
   the text that is scanned grows as n log n. */
#include "scan.h"
#include <stdlib.h>
#include <string.h>

/* Lines that part nothing and that nothing found holds, between such as do. */
typedef struct { uint32_t first, after; } stanza;
typedef struct { stanza *at; size_t count; } stanzas;
/* Does a line part stanzas? */
typedef bool parting(const worker *w, part text, uint32_t line);

/* Is each character of the line such, or none? The text was taken, so it is UTF-8. */
static bool each_is(const worker *w, part text, uint32_t line, bool (*such)(uint32_t code), bool wanted) {
    part p = lines_part(w, text, line, line + 1);
    for (size_t at = 0, bytes; at < p.len; at += bytes) if (such(read_character(p.bytes + at, p.len - at, &bytes)) != wanted) return false;
    return true;
}

static bool is_blank(const worker *w, part text, uint32_t line) { return each_is(w, text, line, is_space, true); }
static bool is_wordless(const worker *w, part text, uint32_t line) { return each_is(w, text, line, is_letter_or_digit, false); }

static void hold(worker *w, const finding *f) {
    for (uint32_t line = f->first; line < f->after; line++) w->held[line] = true;
}

/* Has the scan read the note as one licence? It is named, and no range of it was looked for or found. */
static bool is_one_licence(const report *r) { return r->whole.text.kind && r->ranges.count == 0; }

/* Marks anew what is held: by the scan's ranges above a score, and by everything that was found further. */
static const float every_range = -1.0f;
static void hold_found(worker *w, const report *r, float above) {
    memset(w->held, 0, w->lines * sizeof *w->held);
    for (size_t i = 0; i < r->ranges.count; i++) if (r->ranges.at[i].of.score > above) hold(w, r->ranges.at + i);
    for (size_t i = 0; i < r->further.count; i++) hold(w, r->further.at + i);
}

void count_unheld(worker *w, report *r) {
    part text = {r->text, r->len};
    hold_found(w, r, every_range);
    r->unheld = 0;
    if (is_one_licence(r)) return;
    for (uint32_t line = 0; line < w->lines; line++) r->unheld += !w->held[line] && !is_wordless(w, text, line);
}

void list_owners(worker *w, const findings *all) {
    memset(w->owner, 0, w->lines * sizeof *w->owner);
    for (size_t i = all->count; i > 0; i--)
        for (uint32_t line = all->at[i - 1].first; line < all->at[i - 1].after; line++) w->owner[line] = (uint32_t)i;
}

bool is_among(const worker *w, const findings *all, const finding *f) {
    for (uint32_t line = f->first; line < f->after; line++)
        if (w->owner[line] && same_licence(&all->at[w->owner[line] - 1].text, &f->text)) return true;
    return false;
}

/* Has the scan itself found it, on some of these lines or as the licence of the whole note? */
static bool is_double(const worker *w, const report *r, const finding *f) {
    return (is_one_licence(r) && same_licence(&r->whole.text, &f->text)) || is_among(w, &r->ranges, f);
}

/* What one scan of lines has found: its ranges, or the lines as a whole where there are none. */
static void take_answer(worker *w, report *r, const chultarvi_note_scanned *a, uint32_t first, uint32_t after) {
    finding whole = {.text = chosen_by(w, a), .first = first, .after = after, .of = overall_of(a)};
    findings found = {0};
    add_records(w, a, first, w->chosen, &found);
    count_pairs(w, r, first, after, &found);
    place_lines(w, &whole);
    if (whole.text.kind && found.count == 0) add_finding(&found, whole);
    for (size_t i = 0; i < found.count; i++) {
        hold(w, found.at + i);
        if (!is_double(w, r, found.at + i)) add_finding(&r->further, found.at[i]);
    }
    free(found.at);
}

/* Scans lines and takes what is found there. A text above `shallow` has all of them, and no range is looked for. */
static void scan_cut(worker *w, report *r, uint32_t first, uint32_t after, float shallow) {
    part lines = lines_part(w, (part){r->text, r->len}, first, after), books[2];
    if (!choose_texts(w, lines, 0, books)) return;
    chultarvi_note_scanned a = scan_more(w, r, lines, books, (way){.threshold = r->from->with.threshold, .shallow = shallow, .optimize = true});
    r->stopped = a.refusal == CHULTARVI_STOPPED_BY_BUDGET;
    take_answer(w, r, &a, first, after);
}

/* Scans lines, without those at either end that are blank, unless the same lines were scanned last from there. True where a licence is found. */
static bool scan_lines(worker *w, report *r, uint32_t first, uint32_t after) {
    part text = {r->text, r->len};
    while (first < after && is_blank(w, text, first)) first++;
    while (first < after && is_blank(w, text, after - 1)) after--;
    if (first == after || w->seen[first] == after || r->stopped) return false;
    w->seen[first] = after;
    size_t before = r->further.count;
    scan_cut(w, r, first, after, r->from->with.shallow);
    return r->further.count > before;
}

/* What no range holds, from one range to the next. */
static void scan_gaps(worker *w, report *r) {
    uint32_t line = 0, lines = (uint32_t)w->lines;
    while (line < lines) {
        uint32_t first = line;
        while (line < lines && !w->held[line]) line++;
        uint32_t after = line;
        while (line < lines && w->held[line]) line++;
        scan_lines(w, r, first, after);
    }
}

static void list_stanzas(const worker *w, part text, parting *parts, stanzas *to) {
    to->count = 0;
    stanza *last = 0;
    for (uint32_t line = 0; line < w->lines; line++) {
        if (w->held[line] || parts(w, text, line)) {
            last = 0;
            continue;
        }
        if (!last) {
            last = to->at + to->count++;
            *last = (stanza){line, line};
        }
        last->after = line + 1;
    }
}

/* How many stanzas from number k on follow each other with only blank lines between, that no range holds; at most `most`. */
static size_t run_from(const worker *w, const stanzas *all, size_t k, size_t most) {
    size_t count = 1;
    for (; count < most && k + count < all->count; count++)
        for (uint32_t line = all->at[k + count - 1].after; line < all->at[k + count].first; line++) if (w->held[line]) return count;
    return count;
}

/* Runs of `width` stanzas, each from the middle of the last. After a find the next begins behind it. True where some run is as wide as that. */
static bool scan_runs(worker *w, report *r, const stanzas *all, size_t width) {
    bool wide = false;
    for (size_t k = 0; k < all->count;) {
        size_t count = run_from(w, all, k, width);
        const stanza *from = all->at + k, *last = from + count - 1;
        wide = wide || count == width;
        bool found = count > 1 && scan_lines(w, r, from->first, last->after);
        k += count < width || found ? count : width / 2;
    }
    return wide;
}

/* Holds what the note's own scan has read: its ranges; of a note that is one licence the lines where that stands, which the scan did not look for. */
static void hold_own(worker *w, report *r) {
    hold_found(w, r, every_range);
    if (is_one_licence(r)) scan_cut(w, r, 0, (uint32_t)w->lines, 1.0f);
}

/* Stanzas by themselves, then runs of them. */
static void scan_stanzas(worker *w, report *r, parting *parts, stanzas *all) {
    part text = {r->text, r->len};
    list_stanzas(w, text, parts, all);
    for (size_t k = 0; k < all->count; k++) scan_lines(w, r, all->at[k].first, all->at[k].after);
    bool wide = true;
    for (size_t width = 2; wide && !r->stopped; width *= 2) {
        list_stanzas(w, text, parts, all);
        wide = scan_runs(w, r, all, width);
    }
}

void look_further(worker *w, report *r) {
    bool one = is_one_licence(r);
    if (r->answer.refusal || (one && r->whole.of.score == 1.0f)) return;
    memset(w->seen, 0, w->lines * sizeof *w->seen);
    list_owners(w, &r->ranges);
    hold_own(w, r);
    if (one || r->ranges.count > 0) scan_gaps(w, r);
    /* lines of ranges that do not reach the shallow limit are looked at again: such a range may lie over two licences that are like a third */
    if (!one) hold_found(w, r, r->from->with.shallow);
    stanzas all = {take(w->lines * sizeof *all.at), 0};
    scan_stanzas(w, r, is_blank, &all);
    scan_stanzas(w, r, is_wordless, &all);
    free(all.at);
}
