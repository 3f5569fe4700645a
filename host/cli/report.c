/* What is said of a scanned note: lines for a person, which count from 1 and name the last line of a range, or one line of JSON, whose numbers
   are the library's own (lines from 0, and the line after the last; bytes of the file). host/scan.schema.json says each field of the JSON. */
#include "scan.h"
#include <inttypes.h>
#include <stdlib.h>
#include <string.h>

bool overall_known(const report *r) {
    return !r->from->with.down && (r->answer.refusal == 0 || r->answer.count >= r->from->stored_count);
}

/* `lead` is what stands before the string: the key, and the comma or brace before it. No string is null. */
static void json_bytes(FILE *to, const char *lead, const char *bytes, size_t len) {
    fputs(lead, to);
    if (bytes) put_json(to, bytes, len);
    else fputs("null", to);
}
static void json_word(FILE *to, const char *lead, const char *word) { json_bytes(to, lead, word, word ? strlen(word) : 0); }

/* Which book is said only where there are two. */
static void json_licence(FILE *to, const report *r, const stored_text *s) {
    json_bytes(to, "\"licence\":", s->name, s->len);
    if (r->from->with.beside) json_word(to, ",\"book\":", s->book);
    json_word(to, ",\"kind\":", s->kind ? kind_words(s->kind) : 0);
}

/* A score with the numbers behind it; none is null, and so are m and t where they are not counted. */
static void json_value(FILE *to, const value *v) {
    if (v) fprintf(to, ",\"score\":%.9g", (double)v->score);
    else fputs(",\"score\":null", to);
    if (v && v->counted) fprintf(to, ",\"m\":%" PRIu32 ",\"t\":%" PRIu32, v->m, v->t);
    else fputs(",\"m\":null,\"t\":null", to);
}

static void json_other(FILE *to, const report *r, const char *key, const finding *f) {
    fprintf(to, ",\"%s\":{", key);
    json_licence(to, r, &f->other);
    json_value(to, &f->other_of);
    fputc('}', to);
}

/* Whether another licence scores as high: false for none, null where nobody looked. And with --second the next one, null where there is none. */
static void json_doubt(FILE *to, const report *r, const finding *f) {
    if (has_rival(f)) json_other(to, r, "rival", f);
    else fprintf(to, ",\"rival\":%s", f->looked && f->text.kind ? "false" : "null");
    if (!r->from->with.second) return;
    if (f->looked && f->other.kind) json_other(to, r, "second", f);
    else fputs(",\"second\":null", to);
}

static void json_finding(FILE *to, const report *r, const finding *f, bool numbered) {
    fputc('{', to);
    json_licence(to, r, &f->text);
    if (numbered) fprintf(to, ",\"number\":%" PRIu32, f->number);
    fprintf(to, ",\"first\":%" PRIu32 ",\"after\":%" PRIu32 ",\"start\":%" PRIu32 ",\"end\":%" PRIu32, f->first, f->after, f->start, f->end);
    json_value(to, &f->of);
    json_doubt(to, r, f);
    fputc('}', to);
}

static void json_findings(FILE *to, const report *r, const char *key, const findings *all, bool numbered) {
    fprintf(to, ",\"%s\":[", key);
    for (size_t k = 0; k < all->count; k++) {
        if (k > 0) fputc(',', to);
        json_finding(to, r, all->at + k, numbered);
    }
    fputc(']', to);
}

static void json_answer(FILE *to, const report *r) {
    const settings *s = &r->from->with;
    fputc(',', to);
    json_licence(to, r, &r->whole.text);
    json_value(to, overall_known(r) ? &r->whole.of : 0);
    json_doubt(to, r, &r->whole);
    fprintf(to, ",\"scorings\":%" PRIu64, r->answer.count);
    json_findings(to, r, "ranges", &r->ranges, true);
    if (s->thorough) {
        json_findings(to, r, "further", &r->further, false);
        fprintf(to, ",\"stopped\":%s", r->stopped ? "true" : "false");
    }
    fprintf(to, ",\"unheld\":%zu,\"more\":%" PRIu64, r->unheld, r->more);
}

/* Is it a default book, by its file's name and its edition? */
static bool is_default(const lent_book *b) {
    const char *slash = strrchr(b->file, '/');
    return strcmp(slash ? slash + 1 : b->file, default_book(b->edition)) == 0;
}

/* How two books come to be of one edition. Beside a default book the other is the reader's own, which the default book of its edition fits. */
static void put_editions_step(FILE *to, const lent_book *one, const lent_book *two) {
    const lent_book *own = is_default(one) ? two : one, *other = own == one ? two : one;
    if (is_default(own)) fputs("both are default books, so scan with one of them", to);
    else if (is_default(other)) {
        fprintf(to, "scan with %s, which is of edition %" PRIu32 ", or make ", default_book(own->edition), own->edition);
        put_plain(to, own->file);
        fprintf(to, " anew by chultarvi book --edition %" PRIu32, other->edition);
    } else {
        const lent_book *older = one->edition < two->edition ? one : two, *newer = older == one ? two : one;
        fputs("make ", to);
        put_plain(to, older->file);
        fprintf(to, " anew by chultarvi book --edition %" PRIu32 "; the default book of edition %" PRIu32 " is %s", newer->edition, newer->edition,
                default_book(newer->edition));
    }
}

static void put_editions_message(FILE *to, const lent_book *one, const lent_book *two) {
    put_plain(to, one->file);
    fprintf(to, " is of edition %" PRIu32 " and ", one->edition);
    put_plain(to, two->file);
    fprintf(to, " of edition %" PRIu32 "; ", two->edition);
    put_editions_step(to, one, two);
}

/* Refusals 4, 5 and 15 of two books. */
static void put_books_message(FILE *to, const report *r) {
    const lent_book *one = r->from->books, *two = one + 1;
    fprintf(to, "refused (%" PRIu32 "): ", r->answer.refusal);
    if (r->answer.refusal == CHULTARVI_REFUSED_BOOK_EMPTY) fputs("neither book has a stored text; make one by chultarvi book", to);
    else if (r->answer.refusal == CHULTARVI_REFUSED_EDITIONS_DIFFER) put_editions_message(to, one, two);
    else if (!one->sound && !two->sound) fputs("neither book is sound; make them anew by chultarvi book", to);
    else {
        fputs("the book ", to);
        put_plain(to, one->sound ? two->file : one->file);
        fputs(" is not sound" MAKE_ANEW, to);
    }
}

static bool is_of_books(uint32_t refusal) {
    return refusal == CHULTARVI_REFUSED_BOOK_UNSOUND || refusal == CHULTARVI_REFUSED_BOOK_EMPTY || refusal == CHULTARVI_REFUSED_EDITIONS_DIFFER;
}

#define MAPPED "--ascii scans it with such characters mapped or dropped"
static const next_steps steps = {
    "a BOOK of edition 3 takes it (" DEFAULT_BOOK ", or yours made anew by chultarvi book --edition 3); " MAPPED,
    MAPPED,
    "--ascii scans it with such bytes read as Latin-1",
};

/* What stops the scans of a note where it does not pay for them. */
static const char *payer_of(const report *r) { return r->from->with.allowed ? "allowance" : "budget"; }

char *message_of(const report *r) {
    uint32_t refusal = r->answer.refusal;
    char *message = 0;
    size_t len;
    FILE *to = open_memstream(&message, &len);
    if (to && r->from->with.beside && is_of_books(refusal)) put_books_message(to, r);
    else if (to && r->from->with.allowed && refusal == CHULTARVI_STOPPED_BY_BUDGET)
        fprintf(to, "refused (%" PRIu32 "): stopped by the allowance; scan this note alone, or all with a larger one", refusal);
    else if (to) {
        char words[MESSAGE_MOST];
        refusal_message(words, refusal, r->text, r->len, r->from->books[0].edition, &steps);
        fputs(words, to);
    }
    if (to && fclose(to) == 0) return message;
    say("no memory for a message");
    exit(TROUBLE);
}

/* Behind all else of a note. */
static void json_end(FILE *to, const report *r) {
    if (r->from->with.allowed) fprintf(to, ",\"used\":%" PRIu64, r->used);
    fputs("}\n", to);
}

static void report_json(const report *r, FILE *to) {
    uint32_t refusal = r->answer.refusal;
    char *message = refusal ? message_of(r) : 0;
    json_word(to, "{\"note\":", r->file);
    fprintf(to, ",\"refusal\":%" PRIu32, refusal);
    if (message) json_word(to, ",\"message\":", message);
    free(message);
    if (refusal == CHULTARVI_REFUSED_TEXT_BYTES) fprintf(to, ",\"offset\":%zu", first_refused(r->text, r->len, r->from->books[0].edition));
    if (r->from->with.ascii) fprintf(to, ",\"changed\":%zu", r->changed);
    if (is_answered(&r->answer)) json_answer(to, r);
    json_end(to, r);
}

/* 2m/t with m itself to be read, for it says how many pairs are shared. */
static void plain_value(FILE *to, const value *v) {
    fprintf(to, "score %.4f", (double)v->score);
    if (v->counted) fprintf(to, ", 2m/t = 2*%" PRIu32 "/%" PRIu32, v->m, v->t);
}

void plain_name(FILE *to, const stored_text *s) { fprintf(to, "%.*s", (int)s->len, s->name); }

void plain_kind(FILE *to, const report *r, const stored_text *s, const value *v) {
    fprintf(to, "%s, ", kind_words(s->kind));
    plain_value(to, v);
    if (!r->from->with.beside) return;
    fputs(", from ", to);
    put_plain(to, s->book);
}

void plain_text(FILE *to, const report *r, const stored_text *s, const value *v) {
    plain_name(to, s);
    fputs(", ", to);
    plain_kind(to, r, s, v);
}

const char *doubt_of(const report *r, const finding *f) {
    if (has_rival(f)) return f->other_of.score > f->of.score ? "but higher on these lines: " : "but as high: ";
    if (r->from->with.second && f->looked && f->other.kind) return f->text.kind ? "next: " : "nearest: ";
    return 0;
}

static void plain_doubt(FILE *to, const report *r, const finding *f) {
    const char *lead = doubt_of(r, f);
    if (!lead) return;
    fprintf(to, "    %s", lead);
    plain_text(to, r, &f->other, &f->other_of);
    fputc('\n', to);
}

void plain_place(FILE *to, const finding *f) {
    if (f->first == f->after) fprintf(to, "no line, after line %" PRIu32, f->first);
    else if (f->first + 1 == f->after) fprintf(to, "line %" PRIu32, f->after);
    else fprintf(to, "lines %" PRIu32 " to %" PRIu32, f->first + 1, f->after);
}

/* The lines as they stand in the file; of no line there is nothing. */
static void plain_lines(FILE *to, const report *r, const finding *f) {
    part rest = {r->raw.bytes + f->start, f->end - f->start};
    for (uint32_t line = f->first; line < f->after; line++) {
        fputs("    | ", to);
        put_line(to, take_line(&rest));
        fputc('\n', to);
    }
}

static void plain_finding(FILE *to, const report *r, const finding *f, const char *lead) {
    fprintf(to, "  %s", lead);
    plain_place(to, f);
    fputs(": ", to);
    plain_text(to, r, &f->text, &f->of);
    fputc('\n', to);
    plain_doubt(to, r, f);
    if (r->from->with.show) plain_lines(to, r, f);
}

void plain_rest(FILE *to, const report *r) {
    const settings *s = &r->from->with;
    if (r->changed) fprintf(to, "  --ascii changed %zu character%s\n", r->changed, r->changed == 1 ? "" : "s");
    if (r->stopped) fprintf(to, "  the further scans were stopped by the %s\n", payer_of(r));
    if (r->unheld && r->answer.refusal == 0) {
        fprintf(to, "  %zu line%s with words %s in no range", r->unheld, r->unheld == 1 ? "" : "s", r->unheld == 1 ? "is" : "are");
        fputs(s->thorough ? "\n" : "; --thorough looks there\n", to);
    }
    fprintf(to, "  %" PRIu64 " scoring%s", r->answer.count, r->answer.count == 1 ? "" : "s");
    if (r->more) fprintf(to, ", %" PRIu64 " more behind the scan", r->more);
    fputc('\n', to);
}

static void put_message(FILE *err, const char *file, const char *lead, const char *message) {
    fputs("chultarvi: ", err);
    put_plain(err, file);
    fprintf(err, ": %s%s\n", lead, message);
}

void plain_whole(FILE *to, const report *r) {
    const chultarvi_note_scanned *a = &r->answer;
    if (r->whole.text.kind) plain_text(to, r, &r->whole.text, &r->whole.of);
    else if (overall_known(r)) {
        fputs("no licence as a whole (best ", to);
        plain_value(to, &r->whole.of);
        fputc(')', to);
    } else if (!r->from->with.down) fputs("not known as a whole", to);
    else fputs(a->records ? "ranges" : "no range", to);
    if (a->refusal) fprintf(to, "; stopped by the %s", payer_of(r));
}

static void report_plain(const report *r, FILE *to, FILE *err) {
    const chultarvi_note_scanned *a = &r->answer;
    if (a->refusal) {
        char *message = message_of(r);
        put_message(err, r->file, "", message);
        free(message);
        if (!is_answered(a)) return;
    }
    put_plain(to, r->file);
    fputs(": ", to);
    plain_whole(to, r);
    fputc('\n', to);
    plain_doubt(to, r, &r->whole);
    for (size_t k = 0; k < r->ranges.count; k++) plain_finding(to, r, r->ranges.at + k, "");
    for (size_t k = 0; k < r->further.count; k++) plain_finding(to, r, r->further.at + k, "further, ");
    plain_rest(to, r);
}

void report_note(const report *r, FILE *out, FILE *err) {
    if (r->from->with.json) report_json(r, out);
    else report_plain(r, out, err);
}

void report_trouble(const report *r, const char *why, FILE *out, FILE *err) {
    if (!r->from->with.json) {
        put_message(err, r->file, "cannot be read: ", why);
        return;
    }
    json_word(out, "{\"note\":", r->file);
    json_word(out, ",\"trouble\":", why);
    json_end(out, r);
}

static const struct { const char *json, *plain; } skipped_words[SKIPPED_KINDS] = {
    [SKIPPED_LARGE] = {"large", "over 1,048,576 bytes"},
    [SKIPPED_ODD] = {"odd", "no regular file"},
    [SKIPPED_LINKS] = {"links", "a link to a folder"},
    [SKIPPED_GIT] = {"git", ".git"},
};

static void json_folder(FILE *to, const walked *f) {
    json_word(to, "{\"folder\":", f->folder);
    fprintf(to, ",\"notes\":%zu,\"skipped\":{", f->notes);
    for (int i = 0; i < SKIPPED_KINDS; i++) fprintf(to, "%s\"%s\":%zu", i ? "," : "", skipped_words[i].json, f->skipped[i]);
    fputs("}}\n", to);
}

void plain_folder(FILE *to, const walked *f) {
    put_plain(to, f->folder);
    fprintf(to, ": %zu note%s", f->notes, f->notes == 1 ? "" : "s");
    const char *lead = "; skipped: ";
    for (int i = 0; i < SKIPPED_KINDS; i++) {
        if (!f->skipped[i]) continue;
        fprintf(to, "%s%zu %s", lead, f->skipped[i], skipped_words[i].plain);
        lead = ", ";
    }
    fputc('\n', to);
}

void plain_used(FILE *to, const purse *p) {
    fprintf(to, "%" PRIu64 " of %" PRIu64 " scoring%s of the allowance used", p->of.used, p->of.cap, plural(p->of.cap));
    if (p->stopped)
        fprintf(to, "; it stopped %zu note%s: scan %s alone, or all with a larger one", p->stopped, plural(p->stopped), p->stopped == 1 ? "it" : "them");
    fputc('\n', to);
}

void report_folder(const walked *f, bool json) {
    if (json) json_folder(stdout, f);
    else plain_folder(stdout, f);
}
