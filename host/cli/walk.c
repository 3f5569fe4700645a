/* The notes of a scan: words of the command line, and with -r the files of folders, in the order of their names. Links to files are followed, links
   to folders below a named one are not, so no walk goes round. What is skipped is counted, and what cannot be read is said. */
#include "scan.h"
#include <errno.h>
#include <fts.h>
#include <stdlib.h>
#include <string.h>
#include <sys/stat.h>

static void add_note(notes *to, const char *path) {
    if (to->count == to->room) {
        to->room = 2 * to->room + 64;
        to->at = more_room(to->at, to->room * sizeof *to->at);
    }
    to->at[to->count] = strdup(path);
    if (!to->at[to->count++]) {
        say("no memory for the names of notes");
        exit(TROUBLE);
    }
}

static int by_name(const FTSENT **a, const FTSENT **b) { return strcmp((*a)->fts_name, (*b)->fts_name); }

static void add_file(notes *to, walked *f, const char *path, const struct stat *kind) {
    if (kind->st_size > CHULTARVI_TEXT_MOST) f->skipped[SKIPPED_LARGE]++;
    else {
        add_note(to, path);
        f->notes++;
    }
}

static void add_link(notes *to, walked *f, const char *path) {
    struct stat kind;
    if (stat(path, &kind) != 0) f->skipped[SKIPPED_ODD]++;
    else if (S_ISREG(kind.st_mode)) add_file(to, f, path, &kind);
    else f->skipped[S_ISDIR(kind.st_mode) ? SKIPPED_LINKS : SKIPPED_ODD]++;
}

static void add_entry(notes *to, walked *f, FTS *walk, FTSENT *e) {
    switch (e->fts_info) {
    case FTS_D:
        if (e->fts_level == 0 || strcmp(e->fts_name, ".git") != 0) return;
        f->skipped[SKIPPED_GIT]++;
        fts_set(walk, e, FTS_SKIP);
        return;
    case FTS_DP: return;
    case FTS_F: add_file(to, f, e->fts_path, e->fts_statp); return;
    case FTS_SL:
    case FTS_SLNONE: add_link(to, f, e->fts_path); return;
    case FTS_DC: f->skipped[SKIPPED_LINKS]++; return;
    case FTS_DNR:
    case FTS_ERR:
    case FTS_NS:
        say_of(e->fts_path, "cannot be read: %s", strerror(e->fts_errno));
        to->status = TROUBLE;
        return;
    default: f->skipped[SKIPPED_ODD]++;
    }
}

static void walk_folder(notes *to, char *folder) {
    char *const paths[] = {folder, 0};
    walked f = {folder, 0, {0}};
    /* a link that is named is followed; nothing else is, and no folder is entered by a change of the working directory */
    FTS *walk = fts_open(paths, FTS_PHYSICAL | FTS_COMFOLLOW | FTS_NOCHDIR, by_name);
    if (walk) errno = 0;
    for (FTSENT *e; walk && (e = fts_read(walk)); errno = 0) add_entry(to, &f, walk, e);
    if (errno != 0) {
        say_of(folder, "cannot be read to its end: %s", strerror(errno));
        to->status = TROUBLE;
    }
    if (walk) fts_close(walk);
    to->folders = more_room(to->folders, (to->folder_count + 1) * sizeof f);
    to->folders[to->folder_count++] = f;
}

void add_word(notes *to, char *word, const settings *s) {
    struct stat kind;
    bool folder = s->recursive && strcmp(word, "-") != 0 && stat(word, &kind) == 0 && S_ISDIR(kind.st_mode);
    if (folder) walk_folder(to, word);
    else add_note(to, word);
}

void free_notes(notes *n) {
    for (size_t i = 0; i < n->count; i++) free(n->at[i]);
    free(n->at);
    free(n->folders);
}
