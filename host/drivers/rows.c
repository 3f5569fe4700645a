/* Calls the archive as it is told: a call on standard input, what came of it on standard output, until the input ends. oracle/rows.py asks.
   Every number is a u64, little-endian. A call: the numbers below, then what text, both books, area, words, out and results hold; of the
   books only the first is lent, or both, or the first twice, or the second where none is looked at. A scan spends a budget, or an allowance: one that
   is made for it, or that of the call before as it was left. The answer: fifteen numbers, the last two the allowance's, the 64 bytes of the name and
   where it stands, whether chultarvi_name or chultarvi_stored_name finds it elsewhere, whether the bytes behind a buffer or on either side of the
   allowance have changed, then what the seven hold now. An empty buffer is lent as a null pointer. */
#include "../../include/chultarvi.h"
#include <stdio.h>
#include <stdlib.h>
#include <string.h>

enum { CHECK, COMPILE, SCORE, BOUNDS, ELIMINATE, DOWN, NAME, EDITION };
enum { TEXT, BOOK, SECOND, AREA, WORDS, OUT, RESULTS, BUFFERS };
enum { ONE, TWO, SAME, ASIDE };
enum { BUDGET, NEW_ALLOWANCE, KEPT_ALLOWANCE };
enum { FENCE = 64, FENCE_BYTE = 0xd7 };
typedef struct {
    uint64_t job, edition, start, end, number, threshold, shallow, optimize, passes, step, budget, spends, cap, used, books, len[BUFFERS];
} call;
typedef struct {
    uint64_t refusal, texts, len, first, after, score, m, t, count, records, kind, name_len, edition, cap, used;
    uint8_t name[64];
    uint64_t second, name_at, misplaced, crossed;
} reply;
static uint8_t *buffer[BUFFERS];
static struct { uint8_t before[FENCE]; chultarvi_allowance held; uint8_t behind[FENCE]; } allowance;

static size_t bytes_of(const call *c, int i) { return (size_t)c->len[i] * (i == WORDS || i == RESULTS ? 4 : 1); }

static void stop(const char *why) { fprintf(stderr, "rows: %s\n", why); exit(2); }

static void take(const call *c) {
    for (int i = 0; i < BUFFERS; i++) {
        size_t n = bytes_of(c, i);
        buffer[i] = malloc(n + FENCE);
        if (!buffer[i]) stop("no memory");
        if (fread(buffer[i], 1, n, stdin) != n) stop("a call breaks off");
        memset(buffer[i] + n, FENCE_BYTE, FENCE);
    }
}
static void take_allowance(const call *c) {
    if (c->spends != NEW_ALLOWANCE) return;
    memset(&allowance, FENCE_BYTE, sizeof allowance);
    allowance.held = (chultarvi_allowance){c->cap, c->used};
}
static bool fenced(const uint8_t *fence) {
    for (int k = 0; k < FENCE; k++) if (fence[k] != FENCE_BYTE) return false;
    return true;
}
static bool crossed(const call *c) {
    for (int i = 0; i < BUFFERS; i++) if (!fenced(buffer[i] + bytes_of(c, i))) return true;
    return c->spends != BUDGET && !(fenced(allowance.before) && fenced(allowance.behind));
}
static void give(const call *c, const reply *r) {
    bool good = fwrite(r, sizeof *r, 1, stdout) == 1;
    for (int i = 0; i < BUFFERS; i++) {
        size_t n = bytes_of(c, i);
        good = fwrite(buffer[i], 1, n, stdout) == n && good;
        free(buffer[i]);
    }
    if (!good || fflush(stdout) != 0) stop("an answer is not taken");
}

static float float_of(uint64_t bits) { uint32_t b = (uint32_t)bits; float x; memcpy(&x, &b, 4); return x; }
static uint32_t bits_of(float x) { uint32_t b; memcpy(&b, &x, 4); return b; }
static void *lent(const call *c, int i) { return c->len[i] ? buffer[i] : 0; }

static const uint8_t *second_book(const call *c) { return c->books == ONE ? 0 : lent(c, c->books == SAME ? BOOK : SECOND); }

/* what several calls are lent, all of a `c` */
#define TEXT_AND_BOOK lent(c, TEXT), c->len[TEXT], lent(c, BOOK), c->len[BOOK]
#define TEXT_AND_BOTH TEXT_AND_BOOK, second_book(c), c->len[SECOND]
#define VIEW c->start, c->end, (uint32_t)c->number
#define LIMITS float_of(c->threshold), float_of(c->shallow)
#define PASSES c->optimize != 0, (uint16_t)c->passes
#define STEPS c->step
#define WORK lent(c, AREA), c->len[AREA], lent(c, WORDS), c->len[WORDS]
#define WORK_AND_RESULTS WORK, lent(c, RESULTS), c->len[RESULTS]

static void view_job(const call *c, reply *r) {
    if (c->job == SCORE) {
        chultarvi_view_scored s = c->books == ONE ? chultarvi_score(TEXT_AND_BOOK, VIEW, WORK) : chultarvi_score_both(TEXT_AND_BOTH, VIEW, WORK);
        r->refusal = s.refusal, r->score = bits_of(s.score), r->m = s.m, r->t = s.t;
    } else {
        chultarvi_bounds_found b = c->books == ONE ? chultarvi_bounds(TEXT_AND_BOOK, VIEW, WORK) : chultarvi_bounds_both(TEXT_AND_BOTH, VIEW, WORK);
        r->refusal = b.refusal, r->first = b.first, r->after = b.after, r->score = bits_of(b.score), r->m = b.m, r->t = b.t, r->count = b.count;
    }
}
/* Does `name`, which the header finds for this part, point elsewhere than into the lent book that holds it? Without a name: than at the first book's
   start. */
static bool astray(const call *c, const uint8_t *name, bool in_second, size_t at, size_t len) {
    const uint8_t *first = lent(c, BOOK), *holder = in_second ? second_book(c) : first;
    size_t held = holder ? (size_t)c->len[in_second ? SECOND : BOOK] : 0;
    if (len == 0) return in_second || at != 0 || name != first;
    return len > CHULTARVI_NAME_MOST || at > held || len > held - at || name != holder + at;
}
/* The name's bytes come from where it is found to stand. */
static void name_job(const call *c, reply *r) {
    chultarvi_text_named n = c->books == ONE
        ? chultarvi_name_stored(lent(c, BOOK), c->len[BOOK], (uint32_t)c->number)
        : chultarvi_name_stored_both(lent(c, BOOK), c->len[BOOK], second_book(c), c->len[SECOND], (uint32_t)c->number);
    const uint8_t *name = chultarvi_stored_name(lent(c, BOOK), second_book(c), &n);
    r->refusal = n.refusal, r->kind = n.kind, r->name_len = n.len, r->second = n.second, r->name_at = n.name_at;
    r->misplaced = astray(c, name, n.second, n.name_at, n.len);
    if (!r->misplaced && n.len > 0) memcpy(r->name, name, n.len);
}
static chultarvi_note_scanned scanned(const call *c) {
    if (c->job == ELIMINATE)
        return c->books == ONE ? chultarvi_eliminate(TEXT_AND_BOOK, LIMITS, PASSES, c->budget, WORK_AND_RESULTS)
                               : chultarvi_eliminate_both(TEXT_AND_BOTH, LIMITS, PASSES, c->budget, WORK_AND_RESULTS);
    return c->books == ONE ? chultarvi_top_down(TEXT_AND_BOOK, LIMITS, STEPS, c->budget, WORK_AND_RESULTS)
                           : chultarvi_top_down_both(TEXT_AND_BOTH, LIMITS, STEPS, c->budget, WORK_AND_RESULTS);
}
/* One book and two by the header's names for them; one book twice, and one beside bytes that are none, by the function below these, which is lent
   everything, also what it does not look at. */
static chultarvi_note_scanned allowed(const call *c) {
    chultarvi_allowance *held = &allowance.held;
    if (c->books == SAME || c->books == ASIDE)
        return chultarvi_scan_allowed(TEXT_AND_BOTH, c->books == SAME, c->job == DOWN, LIMITS, PASSES, STEPS, held, WORK_AND_RESULTS);
    if (c->job == ELIMINATE)
        return c->books == ONE ? chultarvi_eliminate_allowed(TEXT_AND_BOOK, LIMITS, PASSES, held, WORK_AND_RESULTS)
                               : chultarvi_eliminate_both_allowed(TEXT_AND_BOTH, LIMITS, PASSES, held, WORK_AND_RESULTS);
    return c->books == ONE ? chultarvi_top_down_allowed(TEXT_AND_BOOK, LIMITS, STEPS, held, WORK_AND_RESULTS)
                           : chultarvi_top_down_both_allowed(TEXT_AND_BOTH, LIMITS, STEPS, held, WORK_AND_RESULTS);
}
static void scan_job(const call *c, reply *r) {
    chultarvi_note_scanned s = c->spends == BUDGET ? scanned(c) : allowed(c);
    r->cap = allowance.held.cap, r->used = allowance.held.used;
    r->refusal = s.refusal, r->records = s.records, r->count = s.count, r->score = bits_of(s.score), r->m = s.m, r->t = s.t;
    r->kind = s.kind, r->name_len = s.len;
    memcpy(r->name, s.name, sizeof s.name);
    const uint8_t *name = chultarvi_name(lent(c, BOOK), second_book(c), &s);
    r->second = s.second, r->name_at = s.name_at;
    r->misplaced = astray(c, name, s.second, s.name_at, s.len) || (s.len > 0 && memcmp(name, s.name, s.len) != 0);
}
static void answer(const call *c, reply *r) {
    if (c->books > ASIDE || (c->books == SAME && c->len[SECOND] != c->len[BOOK])) stop("no such books");
    if (c->spends > KEPT_ALLOWANCE || (c->books == ASIDE && c->spends == BUDGET)) stop("no such allowance");
    if (c->job == CHECK) {
        chultarvi_book_checked b = chultarvi_check_book(lent(c, BOOK), c->len[BOOK]);
        r->refusal = b.refusal, r->texts = b.texts;
    } else if (c->job == COMPILE) {
        chultarvi_text_compiled t = chultarvi_compile(lent(c, TEXT), c->len[TEXT], (uint32_t)c->edition, WORK, lent(c, OUT), c->len[OUT]);
        r->refusal = t.refusal, r->len = t.len;
    } else if (c->job == SCORE || c->job == BOUNDS) view_job(c, r);
    else if (c->job == ELIMINATE || c->job == DOWN) scan_job(c, r);
    else if (c->job == NAME) name_job(c, r);
    else if (c->job == EDITION) r->edition = chultarvi_edition(lent(c, BOOK), c->len[BOOK]);
    else stop("no such job");
}

int main(void) {
    call c;
    while (fread(&c, sizeof c, 1, stdin) == 1) {
        reply r = {0};
        take(&c);
        take_allowance(&c);
        answer(&c, &r);
        r.crossed = crossed(&c);
        give(&c, &r);
    }
    return 0;
}
