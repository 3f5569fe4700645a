/* The subcommand scan: its options, and each note in turn against the book, or against both. Memory is taken once for all notes. A note that
   cannot be read or is refused is said and the others are still scanned; the exit status is the worst of all. */
#include "scan.h"
#include <getopt.h>
#include <inttypes.h>
#include <stdlib.h>
#include <string.h>
#include <sys/ioctl.h>
#include <unistd.h>

/* OPERAND is getopt's number for a word that is no option. The options' own lie above every byte: a letter that is none comes back as its byte. */
enum { OPERAND = 1, BESIDE = 256, THRESHOLD, SHALLOW, PASSES, NO_OPTIMIZE, TOP_DOWN, BUDGET, ALLOWANCE, JSON, THOROUGH, SECOND, ASCII, SHOW, HTML, OPTIONS };
static const struct option options[] = {
    {"beside", required_argument, 0, BESIDE},       {"threshold", required_argument, 0, THRESHOLD},
    {"shallow", required_argument, 0, SHALLOW},     {"passes", required_argument, 0, PASSES},
    {"no-optimize", no_argument, 0, NO_OPTIMIZE},   {"top-down", required_argument, 0, TOP_DOWN},
    {"budget", required_argument, 0, BUDGET},       {"allowance", required_argument, 0, ALLOWANCE},
    {"json", no_argument, 0, JSON},                 {"thorough", no_argument, 0, THOROUGH},
    {"second", no_argument, 0, SECOND},             {"ascii", no_argument, 0, ASCII},
    {"show", no_argument, 0, SHOW},                 {"html", required_argument, 0, HTML},
    {"recursive", no_argument, 0, 'r'},             {"jobs", required_argument, 0, 'j'},
    {"help", no_argument, 0, 'h'},                  {0, 0, 0, 0},
};
enum { JOBS_MOST = 256 };

static const char *option_name(int which) {
    const struct option *o = options;
    while (o->name && o->val != which) o++;
    return o->name;
}

static bool wrong_value(int which, const char *wanted) {
    say("--%s wants %s, not '%s'", option_name(which), wanted, optarg);
    return false;
}

/* getopt's own words would name the subcommand as if it were the program. */
static bool wrong_option(int which, const char *word) {
    const char *name = option_name(optopt);
    if (which == ':') say("--%s wants a value", name);
    else if (name) say("--%s takes no value", name);
    else {
        char letter[] = {'-', (char)optopt, 0};
        say_of(optopt ? letter : word, "scan has no such option; chultarvi scan --help tells more");
    }
    return false;
}

static bool read_beside(settings *s) {
    if (*optarg == 0) return wrong_value(BESIDE, "a book");
    if (s->beside) {
        say("--beside stands twice; a scan takes one book beside BOOK");
        return false;
    }
    s->beside = optarg;
    return true;
}

static bool read_page(settings *s) {
    const char *wrong = 0;
    if (*optarg == 0) return wrong_value(HTML, "a file");
    if (strcmp(optarg, "-") == 0) wrong = "wants a file, since standard output has the answers; ./- is one of that name";
    else if (s->html) wrong = "stands twice; one page has all notes";
    if (wrong) say("--html %s", wrong);
    s->html = optarg;
    return !wrong;
}

/* Said here once, and not of each note by the library's refusal 6. */
static bool read_share(int which, float *limit) {
    bool good = read_limit(optarg, limit) && *limit >= 0.0f && *limit <= 1.0f;
    return good || wrong_value(which, "a number from 0.0 to 1.0");
}

static bool read_count(int which, uint64_t least, uint64_t most, uint64_t *count, const char *wanted) {
    bool good = read_number(optarg, most, count) && *count >= least;
    return good || wrong_value(which, wanted);
}

static bool read_option(int which, settings *s) {
    uint64_t n = 0;
    bool good = true;
    switch (which) {
    case BESIDE: return read_beside(s);
    case THRESHOLD: return read_share(which, &s->threshold);
    case SHALLOW: return read_share(which, &s->shallow);
    case PASSES:
        good = read_count(which, 0, UINT16_MAX, &n, "a whole number up to 65535");
        s->passes = (uint16_t)n;
        return good;
    case NO_OPTIMIZE: s->optimize = false; return true;
    case TOP_DOWN: s->down = true; return read_count(which, 1, UINT64_MAX, &s->step, "a number of lines, at least 1");
    case BUDGET:
    case ALLOWANCE:
        s->allowed = which == ALLOWANCE;
        return read_count(which, 0, UINT64_MAX, &s->budget, "a number of scorings");
    case JSON: return s->json = true;
    case THOROUGH: return s->thorough = true;
    case SECOND: return s->second = true;
    case ASCII: return s->ascii = true;
    case SHOW: return s->show = true;
    case HTML: return read_page(s);
    case 'r': return s->recursive = true;
    case 'j':
        good = read_count(which, 1, JOBS_MOST, &n, "a number of threads from 1 to 256");
        s->jobs = n;
        return good;
    default: return false;
    }
}

/* An option that would have no effect is an error, so that nobody trusts in it. */
static bool have_effect(const settings *s, const bool seen[OPTIONS]) {
    const char *wrong = 0;
    if (s->down && (seen[PASSES] || seen[NO_OPTIMIZE])) wrong = "--passes and --no-optimize have no meaning with --top-down";
    else if (!s->optimize && seen[PASSES]) wrong = "--passes has no meaning with --no-optimize";
    else if (seen[ALLOWANCE] && seen[BUDGET]) wrong = "--budget has no meaning with --allowance, which pays for all notes together; leave one of them out";
    else if (s->allowed && s->jobs > 1)
        wrong = "--allowance pays for the notes one after another, so -j above 1 has no meaning; leave -j out, or give each note its own by --budget";
    else if (s->show && s->json) wrong = "--show has no meaning with --json; cut the lines from the note by `start` and `end` of each range";
    else if (s->show && !s->optimize && !s->thorough) wrong = "--show has no meaning with --no-optimize, which looks for no ranges; --thorough does";
    if (wrong) say("%s", wrong);
    return !wrong;
}

/* Takes a name: the first is the book's, the others are notes. */
static void take_name(char *word, settings *s, char **names, size_t *count) {
    if (!s->book) s->book = word;
    else names[(*count)++] = word;
}

/* Options stand anywhere before `--`. The notes' names go to `names`, which has room for all words. False where all is said: then `status` is the
   exit status. */
static bool read_words(int count, char **words, settings *s, char **names, size_t *name_count, int *status) {
    bool seen[OPTIONS] = {false};
    opterr = 0;
    *status = TROUBLE;
    for (int which; (which = getopt_long(count, words, "-:hrj:", options, 0)) != -1;) {
        if (which == 'h') {
            *status = print_help("scan") ? DONE : TROUBLE;
            return false;
        }
        if (which == '?' || which == ':') return wrong_option(which, words[optind - 1]);
        if (which == OPERAND) take_name(optarg, s, names, name_count);
        else if (!read_option(which, s)) return false;
        seen[which] = true;
    }
    while (optind < count) take_name(words[optind++], s, names, name_count);
    return have_effect(s, seen);
}

/* What is scanned now; the report and the progress name it. */
static notes all_notes;

static int by_line(const void *a, const void *b) {
    const finding *x = a, *y = b;
    if (x->first != y->first) return x->first < y->first ? -1 : 1;
    return x->after < y->after ? -1 : x->after > y->after;
}

static void scan_text(worker *w, report *r) {
    part text = {r->text, r->len};
    r->answer = scan_whole(w, text);
    if (!is_answered(&r->answer)) return;
    r->whole = (finding){.text = named_by(w->from, &r->answer), .of = overall_of(&r->answer)};
    find_lines(w, text);
    r->whole.after = (uint32_t)w->lines;
    add_records(w, &r->answer, 0, 0, &r->ranges);
    count_pairs(w, r, 0, r->whole.after, &r->ranges);
    if (w->from->with.thorough) look_further(w, r);
    look_for_others(w, r);
    count_unheld(w, r);
    place_in_file(w, r);
    if (r->further.count) qsort(r->further.at, r->further.count, sizeof *r->further.at, by_line);
}

/* The note into the text that is lent; with --ascii by way of `raw`. The first book's edition is the one that the text is refused by. */
static const char *read_text(worker *w, const char *file, report *r) {
    bool ascii = w->from->with.ascii;
    uint8_t *to = ascii ? w->raw : w->lent.text;
    const char *why = read_note(file, to, CHULTARVI_TEXT_MOST, &r->len);
    r->raw = (part){to, r->len};
    if (!why && ascii) r->changed = to_taken(w->raw, r->len, w->from->books[0].edition, w->lent.text, &r->len);
    return why;
}

static int scan_note(worker *w, size_t index, FILE *out, FILE *err) {
    const char *file = all_notes.at[index];
    if (!w->from->with.allowed) w->pays.of.used = 0;
    report r = {.file = file, .text = w->lent.text, .from = w->from, .used = w->pays.of.used};
    const char *why = read_text(w, file, &r);
    if (why) {
        report_trouble(&r, why, out, err);
        if (w->from->page) add_unread(w->from->page, index, file, why);
        return TROUBLE;
    }
    scan_text(w, &r);
    r.used = w->pays.of.used;
    w->pays.stopped += r.stopped || r.answer.refusal == CHULTARVI_STOPPED_BY_BUDGET;
    report_note(&r, out, err);
    if (w->from->page) add_to_page(w->from->page, index, &r);
    free(r.ranges.at);
    free(r.further.at);
    return r.answer.refusal || r.stopped ? REFUSED : DONE;
}

/* One line, no wider than the terminal, and cut between characters. */
static void show_progress(size_t index) {
    fputs("\r\033[K", stderr);
    if (index == all_notes.count) return;
    struct winsize size;
    size_t width = ioctl(STDERR_FILENO, TIOCGWINSZ, &size) == 0 && size.ws_col ? size.ws_col : 80;
    char *line = 0;
    size_t len = 0;
    FILE *to = open_memstream(&line, &len);
    if (!to) return;
    fprintf(to, "%zu of %zu: ", index + 1, all_notes.count);
    put_plain(to, all_notes.at[index]);
    if (fclose(to) == 0) {
        /* bytes that go on with a character take no column */
        size_t at = 0;
        for (size_t columns = 0; at < len; at++) if ((line[at] & 0xc0) != 0x80 && ++columns >= width) break;
        fwrite(line, 1, at, stderr);
        fflush(stderr);
    }
    free(line);
}

/* Progress is only for a person who waits, at a terminal that can take a line back. */
static bool is_watched(void) {
    const char *term = getenv("TERM");
    return all_notes.count > 1 && isatty(STDERR_FILENO) && term && *term && strcmp(term, "dumb") != 0;
}

static bool open_book(lent_book *b, const char *file) {
    b->bytes = take(CHULTARVI_BOOK_MOST + 1);
    const char *why = read_book(b, file);
    if (why) unreadable(file, why);
    return !why;
}

static bool open_shelf(shelf *s) {
    const char *beside = s->with.beside;
    size_t books = beside ? 2 : 1;
    if (!open_book(s->books, s->with.book) || (beside && !open_book(s->books + 1, beside))) return false;
    s->stored = take(books * CHULTARVI_STORED_MOST * sizeof *s->stored);
    /* an unsound book is refused with each note, by the library's number; its records are not to be walked */
    for (size_t i = 0; i < books; i++)
        if (s->books[i].sound) s->stored_count += list_stored(s->books + i, s->stored + s->stored_count);
    open_pairs(s);
    return true;
}

static void close_shelf(shelf *s) {
    free(s->books[0].bytes);
    free(s->books[1].bytes);
    free(s->stored);
    free(s->pairs);
    free(s->pair_room);
}

static void open_worker(worker *w, const shelf *s) {
    *w = (worker){.from = s, .pays = s->spent, .lent = take_memory()};
    if (s->with.ascii) w->raw = take(CHULTARVI_TEXT_MOST + 1);
    w->blanked = take(CHULTARVI_TEXT_MOST);
    /* for the worst of all settings, top-down at threshold 0.0: a record for each line; elimination has at most 65,535 records, which is less */
    w->results = take(chultarvi_top_down_results(0.0f, CHULTARVI_LINES_MOST) * sizeof *w->results);
    w->starts = take((CHULTARVI_LINES_MOST + 1) * sizeof *w->starts);
    w->held = take(CHULTARVI_LINES_MOST * sizeof *w->held);
    open_choice(w);
    if (!s->with.thorough) return;
    w->seen = take(CHULTARVI_LINES_MOST * sizeof *w->seen);
    w->owner = take(CHULTARVI_LINES_MOST * sizeof *w->owner);
}

static void close_worker(worker *w) {
    free(w->lent.text);
    free(w->lent.area);
    free(w->lent.words);
    free(w->raw);
    free(w->blanked);
    free(w->results);
    free(w->starts);
    free(w->held);
    free(w->seen);
    free(w->owner);
    close_choice(w);
}

static int scan_all(shelf *s) {
    s->spent = (purse){.of.cap = s->with.budget};
    size_t jobs = s->with.jobs < all_notes.count ? s->with.jobs : all_notes.count;
    if (jobs == 0) return DONE;
    worker *workers = take(jobs * sizeof *workers);
    for (size_t i = 0; i < jobs; i++) open_worker(workers + i, s);
    int status = do_in_row(workers, jobs, all_notes.count, scan_note, is_watched() ? show_progress : 0);
    /* with --allowance the first is the only one */
    s->spent = workers->pays;
    for (size_t i = 0; i < jobs; i++) close_worker(workers + i);
    free(workers);
    return status;
}

/* The notes scanned, and their page. One that cannot be written keeps nothing from being scanned. */
static int scan_to_page(shelf *s) {
    const char *html = s->with.html;
    if (html && !is_page_free(&s->with, &all_notes)) return TROUBLE;
    if (html) s->page = open_page(html, all_notes.count);
    int status = scan_all(s);
    for (size_t i = 0; i < all_notes.folder_count; i++) report_folder(all_notes.folders + i, s->with.json);
    if (s->with.allowed && !s->with.json) plain_used(stdout, &s->spent);
    bool paged = !html || (s->page && close_page(s->page, s, &all_notes));
    return paged ? status : TROUBLE;
}

static int scan_names(shelf *s, char **names, size_t count) {
    if (!open_shelf(s)) return TROUBLE;
    for (size_t i = 0; i < count; i++) add_word(&all_notes, names[i], &s->with);
    int status = scan_to_page(s);
    if (all_notes.status > status) status = all_notes.status;
    free_notes(&all_notes);
    return status;
}

int run_scan(int count, char **words) {
    shelf s = {.with = {.threshold = 0.9f, .shallow = 0.99f, .optimize = true, .passes = 10, .budget = UINT64_MAX, .jobs = 1}};
    char **names = take((size_t)count * sizeof *names);
    size_t name_count = 0;
    int status;
    if (read_words(count, words, &s.with, names, &name_count, &status)) {
        if (name_count > 0) status = scan_names(&s, names, name_count);
        else say("scan wants a book and at least one note; chultarvi scan --help tells more");
        close_shelf(&s);
    }
    free(names);
    return status;
}
