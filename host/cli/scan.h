/* What the files of the subcommand scan share: its settings, its books, a note with all that was found in it, and the memory of one worker.
   scan.c reads the words and goes through the notes, walk.c finds them in folders, row.c keeps their answers in order, calls.c calls the library,
   further.c looks for licences that the scan left unread, doubt.c for a licence that scores as high, report.c says it all, page.c writes it as a page. */
#ifndef SCAN_H
#define SCAN_H

#include "host.h"

/* beside: the file of the second book; null where the scan has one. html: the page's; null where none is wanted. budget: how many scorings each
   note may make, or where `allowed` is true, by --allowance, all notes together. */
typedef struct {
    const char *book, *beside, *html;
    float threshold, shallow;
    bool optimize, down, json, thorough, second, ascii, recursive, show, allowed;
    uint16_t passes;
    uint64_t step, budget;
    size_t jobs;
} settings;

/* The pairs of words of a stored text: of each a hash and its count, one after the other; how many distinct ones, and how many in all. */
typedef struct { const uint32_t *at; uint32_t count, total; } pair_list;

/* The page of --html, while it is made (page.c). */
typedef struct page page;

/* What every scoring is paid from and charged to, and how many notes it has stopped. */
typedef struct { chultarvi_allowance of; size_t stopped; } purse;

/* The books of a scan with their stored texts, by number, and these texts' pairs. Nothing here changes while notes are scanned, so all workers read it at once;
   the page, null where there is none, locks itself. `spent` is the purse of --allowance once all notes are scanned. */
typedef struct {
    settings with;
    page *page;
    purse spent;
    lent_book books[2];
    stored_text *stored;
    size_t stored_count;
    pair_list *pairs;
    uint32_t *pair_room;
} shelf;

/* What a scoring yields: m word pairs shared, t word pairs of both together, and the score, 2m/t. A record has its score alone, and m and t are asked
   for behind it: `counted` is false where the budget did not pay for that, or the answer had another score, which it never has. */
typedef struct { float score; uint32_t m, t; bool counted; } value;

/* A licence that was found, in the whole note or in the lines from `first` up to, and without, `after`. No name: none was found.
   start, end: the bytes of the file that these lines are, their last newline not counted; of the whole note neither is told.
   other: the best of the other licences on the same lines, with its value; `looked` is false where the budget did not pay for the look. */
typedef struct {
    stored_text text;
    uint32_t number, first, after, start, end;
    value of;
    stored_text other;
    value other_of;
    bool looked;
} finding;
typedef struct { finding *at; size_t count, room; } findings;
finding *add_finding(findings *to, finding f);

/* All that there is to say of one note. `text` is what was lent; `raw`, which places count in, is the file, and another only where --ascii changed it.
   Behind its own scan `more` scorings were made, and by then `used` are charged to what pays; `stopped` says that this ended the further scans.
   unheld: lines with words that neither a range nor a further finding holds. */
typedef struct {
    const char *file;
    const uint8_t *text;
    size_t len, changed;
    part raw;
    const shelf *from;
    chultarvi_note_scanned answer;
    finding whole;
    findings ranges, further;
    uint64_t more, used;
    bool stopped;
    size_t unheld;
} report;

/* One worker's memory, taken once. `pays` is filled anew for each note, but for that of --allowance. `raw` is for the note as it was read, where --ascii
   changes it; `blanked` for the note without what was found (calls.c); what is by lines, for further.c; from `table` on, for choice.c. */
typedef struct {
    const shelf *from;
    purse pays;
    memory lent;
    uint8_t *raw, *blanked;
    uint32_t *results;
    uint32_t *starts, *seen, *owner;
    bool *held;
    size_t lines;
    uint8_t *table, *few[2];
    void *slots;
    size_t slot_room, chosen_count;
    bool *may;
    uint32_t *chosen;
} worker;

/* calls.c */

/* Scans a text against the books of the shelf. */
chultarvi_note_scanned scan_whole(worker *w, part text);
/* Is there something to say of the note, to its end or until the budget stopped it? */
bool is_answered(const chultarvi_note_scanned *a);
/* The licence that the answer of a scan against whole books names, as if it were stored. All is null where none is named. */
stored_text named_by(const shelf *s, const chultarvi_note_scanned *a);
/* The overall value of an answer. */
value overall_of(const chultarvi_note_scanned *a);
/* Adds what the answer recorded, its lines counted on from `first`, and its bytes from where that line starts. `numbers` says which stored text each
   number of the answer means; null where the numbers are the shelf's own. */
void add_records(const worker *w, const chultarvi_note_scanned *a, uint32_t first, const uint32_t *numbers, findings *to);
/* Looks at findings of a scan of the note's lines from `first` up to, and without, `after`, in the order in which they were made, each with its lines as
   they were then: elimination blanks what it has recorded, and a later range may reach over it; top-down's ranges lie apart. */
typedef void look(worker *w, report *r, part lines, finding *f);
void look_in_all(worker *w, report *r, uint32_t first, uint32_t after, findings *all, look *at);
/* Asks for m and t of what such a scan recorded, as far as that is paid. */
void count_pairs(worker *w, report *r, uint32_t first, uint32_t after, findings *made);
/* One more scan for a note, against parts of the books, by what is left to pay it. */
typedef struct { float threshold, shallow; bool optimize; } way;
chultarvi_note_scanned scan_more(worker *w, report *r, part text, const part books[2], way by);
/* Where each line starts, and one past the end of the last; the text is no longer than a text may be. */
void find_lines(worker *w, part text);
/* The places of a finding by its lines: where it is a part as a whole, and no record, and where it is empty. */
void place_lines(const worker *w, finding *f);
/* The places of all findings in the file, where the text that was lent is another: --ascii leaves lines as they are, so by these. */
void place_in_file(worker *w, report *r);
part lines_part(const worker *w, part text, uint32_t first, uint32_t after);

/* choice.c */
void open_pairs(shelf *s);
void open_choice(worker *w);
void close_choice(worker *w);
/* Books of those stored texts alone that may be named on these lines, without the licence `but`, where it is not null. False where there are none. */
bool choose_texts(worker *w, part text, const stored_text *but, part books[2]);
/* The same of all stored texts but that licence's. */
bool choose_others(worker *w, const stored_text *but, part books[2]);
/* A book in which this stored text alone has words, and its number there. */
uint32_t choose_one(worker *w, uint32_t number, part *book);
/* The licence that an answer over the chosen texts names. */
stored_text chosen_by(const worker *w, const chultarvi_note_scanned *a);
bool same_licence(const stored_text *a, const stored_text *b);

/* further.c */
void look_further(worker *w, report *r);
/* Notes of each line which finding holds it, where several do the first; and whether one of them is of the same licence on some of the same lines. */
void list_owners(worker *w, const findings *all);
bool is_among(const worker *w, const findings *all, const finding *f);
/* Marks what ranges hold, and counts the lines with words that none holds. */
void count_unheld(worker *w, report *r);

/* doubt.c */
void look_for_others(worker *w, report *r);
/* Does another licence score as high on the same lines, or higher? */
bool has_rival(const finding *f);

/* walk.c */

/* The notes to scan. A folder's are those of its files; of what it skips there is a count. */
enum { SKIPPED_LARGE, SKIPPED_ODD, SKIPPED_LINKS, SKIPPED_GIT, SKIPPED_KINDS };
typedef struct { const char *folder; size_t notes, skipped[SKIPPED_KINDS]; } walked;
typedef struct { char **at; size_t count, room; walked *folders; size_t folder_count; int status; } notes;
/* Adds a word of the command line: itself, or where it is a folder and folders are walked, the notes in it. */
void add_word(notes *to, char *word, const settings *s);
void free_notes(notes *n);

/* row.c */

/* Does all of `count` tasks by workers, as many as `jobs`, and writes what each says in their order: to standard output and standard error.
   Gives the worst status of all. `progress`, where there is one, shows which task is waited for, and with the number `count` nothing. */
typedef int task(worker *w, size_t index, FILE *out, FILE *err);
int do_in_row(worker *workers, size_t jobs, size_t count, task *do_one, void (*progress)(size_t index));

/* report.c */
void report_note(const report *r, FILE *out, FILE *err);
void report_trouble(const report *r, const char *why, FILE *out, FILE *err);
void report_folder(const walked *f, bool json);
/* The words of a report, which a page has too: of the note as a whole; of a licence its name, its kind and value, or all of them; which lines; what nobody
   has read, and what it cost; what a folder had; what all notes have used of the allowance. Without the lead and the newline of the report, but for the last
   three. */
void plain_whole(FILE *to, const report *r);
void plain_name(FILE *to, const stored_text *s);
void plain_kind(FILE *to, const report *r, const stored_text *s, const value *v);
void plain_text(FILE *to, const report *r, const stored_text *s, const value *v);
void plain_place(FILE *to, const finding *f);
void plain_rest(FILE *to, const report *r);
void plain_folder(FILE *to, const walked *f);
void plain_used(FILE *to, const purse *p);
/* What leads to the other licence of a finding; null where nothing is to say of one. */
const char *doubt_of(const report *r, const finding *f);
/* What to say of the note's refusal; the caller frees it. */
char *message_of(const report *r);
/* Top-down has no overall score, and a scan stopped before each stored text was scored once knows none yet. */
bool overall_known(const report *r);

/* page.c */

/* Would the page of --html write over nothing that this scan reads, nor over its answers? What it would write over is said. */
bool is_page_free(const settings *s, const notes *n);
/* The page of so many notes; null where it cannot be, which is said. */
page *open_page(const char *path, size_t count);
/* What is on it of the note of this number: what was found, or why it could not be read. Several threads may add at once. */
void add_to_page(page *p, size_t index, const report *r);
void add_unread(page *p, size_t index, const char *file, const char *why);
/* Writes it, where all notes are there. False where it is not written, which is said. */
bool close_page(page *p, const shelf *s, const notes *n);

#endif
