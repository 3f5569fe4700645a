/* The page of --html: one file for all notes of a call. Each note's part is made when it is scanned, by whichever thread, and kept in a file without a
   name; at the end all parts go, in the notes' order and behind a list of all, into the file itself, which stands once it is whole. */
#include "page.h"
#include <errno.h>
#include <inttypes.h>
#include <pthread.h>
#include <stdlib.h>
#include <string.h>
#include <sys/stat.h>
#include <unistd.h>

/* Where a note's part stands in the file without a name: its row of the list first, then the rest. `bad`: it was refused or could not be read. */
typedef struct { off_t at; size_t row, len; bool there, bad; } section;
struct page {
    const char *path;
    int kept, why;
    off_t end;
    section *of;
    size_t count;
    pthread_mutex_t lock;
};

/* Of a note's ranges so many are linked in the list of notes. */
enum { CHIPS_MOST = 12 };

static void *no_memory(void) {
    say("no memory for a page; scan fewer notes at once, or without --html");
    exit(TROUBLE);
}

/* What to do about a page that cannot be written, by errno's number. */
static void say_unwritten(const char *path, int why) {
    const char *next = "";
    if (why == ENOENT) next = "make its folder, or ";
    else if (why == ENOSPC || why == EDQUOT || why == EFBIG) next = "make room there, or ";
    say_of(path, "no new page stands there: %s; %sname another file behind --html, and scan again", strerror(why), next);
}

static bool is_same(const struct stat *a, const struct stat *b) { return a->st_dev == b->st_dev && a->st_ino == b->st_ino; }

static bool is_stream(const struct stat *old, int stream) {
    struct stat s;
    return fstat(stream, &s) == 0 && is_same(old, &s);
}

static bool is_read(const struct stat *old, const char *file) {
    struct stat s;
    return strcmp(file, "-") == 0 ? is_stream(old, STDIN_FILENO) : stat(file, &s) == 0 && is_same(old, &s);
}

bool is_page_free(const settings *s, const notes *n) {
    struct stat old;
    if (stat(s->html, &old) != 0 || !S_ISREG(old.st_mode)) return true;
    bool taken = is_read(&old, s->book) || (s->beside && is_read(&old, s->beside));
    taken = taken || is_stream(&old, STDOUT_FILENO) || is_stream(&old, STDERR_FILENO);
    for (size_t i = 0; i < n->count && !taken; i++) taken = is_read(&old, n->at[i]);
    if (taken)
        say_of(s->html, "--html would write over it, and it is a note, a book or the answers of this scan; name another file, outside of folders that "
                        "-r walks");
    return !taken;
}

page *open_page(const char *path, size_t count) {
    struct stat old;
    if (stat(path, &old) == 0 && !S_ISREG(old.st_mode)) {
        say_of(path, "no page can stand there, since it is no regular file; name another file behind --html, and scan again");
        return 0;
    }
    int kept = open_unnamed(path);
    if (kept < 0) {
        say_unwritten(path, errno);
        return 0;
    }
    page *p = take(sizeof *p);
    *p = (page){.path = path, .kept = kept, .of = take((count + 1) * sizeof *p->of), .count = count};
    memset(p->of, 0, (count + 1) * sizeof *p->of);
    if (pthread_mutex_init(&p->lock, 0) != 0) no_memory();
    return p;
}

/* A note's part while it is made, or what stands around all. */
typedef struct { pen by; char *bytes; size_t len, row; } draft;

static draft *open_draft(size_t index) {
    draft *d = take(sizeof *d);
    *d = (draft){.by.note = index + 1};
    d->by.tags = open_memstream(&d->bytes, &d->len);
    d->by.words = d->by.tags ? open_html(d->by.tags) : 0;
    return d->by.words ? d : no_memory();
}

/* The row is whole. */
static void end_row(draft *d) {
    if (fflush(d->by.tags) != 0) no_memory();
    d->row = d->len;
}

/* Its bytes are all there. */
static part end_draft(draft *d) {
    if (fclose(d->by.words) != 0 || fclose(d->by.tags) != 0) no_memory();
    return (part){(const uint8_t *)d->bytes, d->len};
}

static void free_draft(draft *d) {
    free(d->bytes);
    free(d);
}

static void keep_draft(page *p, draft *d, bool bad) {
    part bytes = end_draft(d);
    pthread_mutex_lock(&p->lock);
    if (p->why == 0 && !write_bytes(p->kept, bytes)) p->why = errno;
    p->of[d->by.note - 1] = (section){p->end, d->row, bytes.len, true, bad};
    p->end += (off_t)bytes.len;
    pthread_mutex_unlock(&p->lock);
    free_draft(d);
}

/* The first cell of a row, and the head of what it leads to. */
static void put_row_head(const pen *p, const char *file) {
    fprintf(p->tags, "<tr><td><a href=\"#n%zu\">", p->note);
    put_plain(p->words, file);
    fputs("</a></td>", p->tags);
}
static void open_section(const pen *p, const char *file) {
    fprintf(p->tags, "<section id=\"n%zu\">\n<h2><span>", p->note);
    put_plain(p->words, file);
    fputs("</span> <a href=\"#top\">all notes</a></h2>\n", p->tags);
}

static void put_bad(draft *d, const char *file, const char *lead, const char *message) {
    const pen *p = &d->by;
    put_row_head(p, file);
    fputs("<td class=\"bad\" colspan=\"3\">", p->tags);
    fprintf(p->words, "%s%s", lead, message);
    fputs("</td></tr>\n", p->tags);
    end_row(d);
    open_section(p, file);
    fputs("<p class=\"bad\">", p->tags);
    fprintf(p->words, "%s%s", lead, message);
    fputs("</p>\n</section>\n", p->tags);
}

static void put_chip(const pen *p, const finding *f, bool further, size_t number) {
    fputs("<a href=\"#", p->tags);
    put_mark_name(p, further, number);
    fprintf(p->tags, "\" class=\"%s\" style=\"--h:%u\">", further ? "chip further" : "chip", hue_of(further, number));
    plain_name(p->words, &f->text);
    fprintf(p->tags, " <span>%s", further ? "further, " : "");
    plain_place(p->words, f);
    fputs("</span></a>", p->tags);
}

/* Gives how many are not linked. */
static size_t put_chips(const pen *p, const findings *all, bool further) {
    size_t shown = all->count < CHIPS_MOST ? all->count : CHIPS_MOST;
    for (size_t k = 0; k < shown; k++) put_chip(p, all->at + k, further, k);
    return all->count - shown;
}

static void put_row(draft *d, const report *r) {
    const pen *p = &d->by;
    put_row_head(p, r->file);
    fputs("<td>", p->tags);
    if (r->whole.text.kind) plain_name(p->words, &r->whole.text);
    else fputs("<span class=\"more\">none as a whole</span>", p->tags);
    fputs("</td><td>", p->tags);
    if (overall_known(r)) fprintf(p->words, "%.4f", (double)r->whole.of.score);
    fputs("</td><td>", p->tags);
    size_t more = put_chips(p, &r->ranges, false) + put_chips(p, &r->further, true);
    if (more) fprintf(p->tags, "<span class=\"more\">and %zu more</span>", more);
    fputs("</td></tr>\n", p->tags);
    end_row(d);
}

/* What is said of the note as a whole. */
static void put_head(const pen *p, const report *r, const char *message) {
    if (message) {
        fputs("<p class=\"bad\">", p->tags);
        fputs(message, p->words);
        fputs("</p>\n", p->tags);
    }
    fputs("<p class=\"whole\">", p->tags);
    plain_whole(p->words, r);
    fputs("</p>\n", p->tags);
    put_doubt(p, r, &r->whole);
    fputs("<p class=\"rest\">", p->tags);
    plain_rest(p->words, r);
    fputs("</p>\n", p->tags);
}

void add_to_page(page *p, size_t index, const report *r) {
    draft *d = open_draft(index);
    char *message = r->answer.refusal ? message_of(r) : 0;
    if (is_answered(&r->answer)) {
        put_row(d, r);
        open_section(&d->by, r->file);
        put_head(&d->by, r, message);
        put_strip(&d->by, r);
        fputs("<div class=\"text\">\n", d->by.tags);
        put_marked(&d->by, r);
        fputs("</div>\n</section>\n", d->by.tags);
    } else put_bad(d, r->file, "", message);
    free(message);
    keep_draft(p, d, !is_answered(&r->answer));
}

void add_unread(page *p, size_t index, const char *file, const char *why) {
    draft *d = open_draft(index);
    put_bad(d, file, "cannot be read: ", why);
    keep_draft(p, d, true);
}

/* The page around its notes. No script runs in it and it asks for nothing from elsewhere, whatever a note holds. */
static const char before_title[] =
    "<!DOCTYPE html>\n<html lang=\"en\">\n<head>\n<meta charset=\"utf-8\">\n"
    "<meta http-equiv=\"Content-Security-Policy\" content=\"default-src 'none'; style-src 'unsafe-inline'; base-uri 'none'; form-action 'none'\">\n"
    "<meta name=\"viewport\" content=\"width=device-width, initial-scale=1\">\n<meta name=\"color-scheme\" content=\"light dark\">\n"
    "<meta name=\"generator\" content=\"chultarvi " VERSION "\">\n<title>";
static const char of_strips[] =
    "<p>A strip above a note's lines is the whole note, from its first line to its last: each range is a piece as wide as its share of the lines, and "
    "never too narrow to be seen, in their order; it leads to the range's label. What is found further is not in it.</p>\n";
static const char before_rows[] = "<table>\n<thead><tr><th>Note</th><th>Licence</th><th>Score</th><th>Ranges</th></tr></thead>\n<tbody>\n";
static const char before_notes[] = "</tbody>\n</table>\n</header>\n<main>\n";

static void put_book(const pen *by, const char *lead, const lent_book *b) {
    fputs(lead, by->tags);
    put_plain(by->words, b->file);
    fprintf(by->tags, ", edition %" PRIu32, b->edition);
}

static void put_front(const pen *by, const page *p, const shelf *s) {
    size_t bad = 0;
    for (size_t i = 0; i < p->count; i++) bad += p->of[i].bad;
    fprintf(by->tags, "%sLicences of %zu note%s</title>\n<style>\n%s</style>\n", before_title, p->count, plural(p->count), page_style);
    fprintf(by->tags, "</head>\n<body id=\"top\">\n<header>\n<h1>Licences of %zu note%s</h1>\n", p->count, plural(p->count));
    put_book(by, "<p>Scanned against ", s->books);
    if (s->with.beside) put_book(by, ", and beside it ", s->books + 1);
    fprintf(by->tags, "; a licence is named above score %g.", (double)s->with.threshold);
    if (bad) fprintf(by->tags, " <span class=\"bad\">%zu note%s refused or not read.</span>", bad, bad == 1 ? " was" : "s were");
    fputs("</p>\n<p>Each range has a bar at the left of its lines and a label; what is found further has dots. <i>\\x0d</i> is a byte that cannot be shown "
          "as it stands.</p>\n", by->tags);
    if (has_strips(&s->with)) fputs(of_strips, by->tags);
    fputs(before_rows, by->tags);
}

static void put_back(const pen *by, const shelf *s, const notes *n) {
    fputs("</main>\n<footer>\n", by->tags);
    for (size_t i = 0; i < n->folder_count; i++) {
        fputs("<p>", by->tags);
        plain_folder(by->words, n->folders + i);
        fputs("</p>\n", by->tags);
    }
    if (s->with.allowed) {
        fputs("<p>", by->tags);
        plain_used(by->words, &s->spent);
        fputs("</p>\n", by->tags);
    }
    fputs("<p>Made by chultarvi " VERSION ".</p>\n</footer>\n</body>\n</html>\n", by->tags);
}

typedef struct { const page *of; part front, back; } whole_page;

static bool copy_sections(int file, const page *p, bool rows) {
    bool good = true;
    for (size_t i = 0; i < p->count && good; i++) {
        const section *s = p->of + i;
        good = rows ? copy_bytes(file, p->kept, s->at, s->row) : copy_bytes(file, p->kept, s->at + (off_t)s->row, s->len - s->row);
    }
    return good;
}

static bool fill_page(int file, void *with) {
    const whole_page *w = with;
    const part between = {(const uint8_t *)before_notes, sizeof before_notes - 1};
    return write_bytes(file, w->front) && copy_sections(file, w->of, true) && write_bytes(file, between) && copy_sections(file, w->of, false) &&
           write_bytes(file, w->back);
}

/* Are the parts of all notes there? What is missing is said. */
static bool is_whole(const page *p) {
    size_t there = 0;
    for (size_t i = 0; i < p->count; i++) there += p->of[i].there;
    if (p->why) say_unwritten(p->path, p->why);
    else if (there < p->count)
        say_of(p->path, "no new page stands there: standard output takes nothing, so not all notes were scanned; mend that, and scan again");
    return p->why == 0 && there == p->count;
}

static bool write_page(const page *p, const shelf *s, const notes *n) {
    draft *front = open_draft(0), *back = open_draft(0);
    put_front(&front->by, p, s);
    put_back(&back->by, s, n);
    whole_page w = {p, end_draft(front), end_draft(back)};
    bool done = write_by(p->path, fill_page, &w);
    if (!done) say("--html: name another file, or mend what is said of this one, and scan again");
    free_draft(front);
    free_draft(back);
    return done;
}

bool close_page(page *p, const shelf *s, const notes *n) {
    bool done = is_whole(p) && write_page(p, s, n);
    pthread_mutex_destroy(&p->lock);
    close(p->kept);
    free(p->of);
    free(p);
    return done;
}
