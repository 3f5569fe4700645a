/* Tasks done by several threads whose words come out in the tasks' order. What a task says is kept until those before it are out; no thread begins a
   task that lies too far behind the one that is waited for, so what is kept stays small. */
#include "scan.h"
#include <errno.h>
#include <pthread.h>
#include <stdlib.h>
#include <string.h>

/* How far ahead of the one that is waited for, for each worker. */
enum { AHEAD = 16 };

typedef struct { char *out, *err; size_t out_len, err_len; bool there; } words;

typedef struct {
    pthread_mutex_t lock;
    pthread_cond_t moved;
    task *do_one;
    void (*progress)(size_t index);
    words *kept;
    size_t room, count, next, written;
    int status;
    bool deaf;
} row;
typedef struct { row *in; worker *by; } seat;

static void must(int error) {
    if (error == 0) return;
    say("threads: %s; -j 1 needs none", strerror(error));
    exit(TROUBLE);
}

static FILE *open_words(char **at, size_t *len) {
    FILE *f = open_memstream(at, len);
    if (f) return f;
    say("no memory for an answer");
    exit(TROUBLE);
}

static int say_into(words *to, row *r, worker *by, size_t index) {
    FILE *out = open_words(&to->out, &to->out_len), *err = open_words(&to->err, &to->err_len);
    int status = r->do_one(by, index, out, err);
    if (fclose(out) == 0 && fclose(err) == 0) return status;
    say("no memory for an answer");
    exit(TROUBLE);
}

/* Under the lock. Each answer is seen when it is there; when none can be written any more, the rest is not worth its time. */
static void write_words(row *r, words *w) {
    if (!r->deaf) {
        fwrite(w->err, 1, w->err_len, stderr);
        fwrite(w->out, 1, w->out_len, stdout);
        r->deaf = flush_output() != 0;
    }
    free(w->out);
    free(w->err);
    *w = (words){0};
}

/* Under the lock: what is there in order. The line of progress gives way to it. */
static void write_ready(row *r) {
    if (r->progress) r->progress(r->count);
    for (words *w; (w = r->kept + r->written % r->room)->there; r->written++) write_words(r, w);
    if (r->progress && r->written < r->next && !r->deaf) r->progress(r->written);
    must(pthread_cond_broadcast(&r->moved));
}

static void work_through(row *r, worker *by) {
    must(pthread_mutex_lock(&r->lock));
    while (r->next < r->count && !r->deaf) {
        if (r->next >= r->written + r->room) {
            must(pthread_cond_wait(&r->moved, &r->lock));
            continue;
        }
        size_t index = r->next++;
        if (r->progress && index == r->written) r->progress(index);
        must(pthread_mutex_unlock(&r->lock));
        words said = {0};
        int status = say_into(&said, r, by, index);
        said.there = true;
        must(pthread_mutex_lock(&r->lock));
        if (status > r->status) r->status = status;
        r->kept[index % r->room] = said;
        write_ready(r);
    }
    must(pthread_mutex_unlock(&r->lock));
}

static void *sit(void *at) {
    seat *s = at;
    work_through(s->in, s->by);
    return 0;
}

int do_in_row(worker *workers, size_t jobs, size_t count, task *do_one, void (*progress)(size_t index)) {
    row r = {.do_one = do_one, .progress = progress, .count = count, .room = AHEAD * jobs};
    pthread_t *threads = take(jobs * sizeof *threads);
    seat *seats = take(jobs * sizeof *seats);
    r.kept = take(r.room * sizeof *r.kept);
    memset(r.kept, 0, r.room * sizeof *r.kept);
    must(pthread_mutex_init(&r.lock, 0));
    must(pthread_cond_init(&r.moved, 0));
    for (size_t i = 0; i < jobs; i++) seats[i] = (seat){&r, workers + i};
    /* the first worker is this thread */
    for (size_t i = 1; i < jobs; i++) must(pthread_create(threads + i, 0, sit, seats + i));
    work_through(&r, workers);
    for (size_t i = 1; i < jobs; i++) must(pthread_join(threads[i], 0));
    for (size_t i = 0; i < r.room; i++) if (r.kept[i].there) write_words(&r, r.kept + i);
    free(r.kept);
    free(seats);
    free(threads);
    return r.status;
}
