/* Which stored texts may be named on given lines at all, and books of these alone, so that the many short scans of one note do not each read and
   check whole books. A score is twice the common pairs of words over the pairs of both. So a text that scores above T has more than T / (2 - T) of its
   pairs in the lines (0.9: nine elevenths). Three quarters of that is asked: what is left out cannot be named on the lines as a whole, and on some of
   them only if the passes, which see a view whole, change a quarter of its pairs between the two. What is kept is scored by the library. */
#include "scan.h"
#include "../records.h"
#include <stdlib.h>
#include <string.h>

typedef struct { uint32_t hash, count; } slot;

/* FNV-1a. Two pairs of one hash are taken for the same, by which a text may be kept too much and never left out. */
static uint32_t hash_of(const uint8_t *bytes, uint32_t len) {
    uint32_t hash = 2166136261u;
    for (uint32_t i = 0; i < len; i++) hash = (hash ^ bytes[i]) * 16777619u;
    return hash ? hash : 1;
}

/* The entries of a table's body: from after its total and their number, each a count, a length and bytes. */
static const uint8_t *read_pair(const uint8_t *at, uint32_t *hash, uint32_t *count) {
    uint32_t len = get_number(at + 4);
    *count = get_number(at);
    *hash = hash_of(at + 8, len);
    return at + 8 + len;
}

static void list_pairs(pair_list *to, const uint8_t *body, uint32_t *room) {
    *to = (pair_list){room, get_number(body + 4), get_number(body)};
    const uint8_t *at = body + 8;
    for (uint32_t i = 0; i < to->count; i++) at = read_pair(at, room + 2 * (size_t)i, room + 2 * (size_t)i + 1);
}

void open_pairs(shelf *s) {
    size_t all = 0;
    for (size_t k = 0; k < s->stored_count; k++) all += get_number(s->stored[k].body + 4);
    s->pairs = take((s->stored_count + 1) * sizeof *s->pairs);
    s->pair_room = take((2 * all + 1) * sizeof *s->pair_room);
    uint32_t *room = s->pair_room;
    for (size_t k = 0; k < s->stored_count; k++) {
        list_pairs(s->pairs + k, s->stored[k].body, room);
        room += 2 * (size_t)s->pairs[k].count;
    }
}

static slot *find_slot(slot *slots, size_t mask, uint32_t hash) {
    size_t i = hash & mask;
    while (slots[i].hash && slots[i].hash != hash) i = (i + 1) & mask;
    return slots + i;
}

static void need_slots(worker *w, size_t size) {
    if (size <= w->slot_room) return;
    free(w->slots);
    w->slots = take(size * sizeof(slot));
    w->slot_room = size;
}

/* The lines' own pairs into the slots, at most half of which fill. Gives how many pairs there are. Two books that are scanned are of one edition. */
static uint32_t fill_slots(worker *w, part text, size_t *mask) {
    chultarvi_text_compiled c = chultarvi_compile(text.bytes, text.len, w->from->books[0].edition, w->lent.area, lent_bytes(text.len),
                                                  w->lent.words, lent_words(text.len), w->table, chultarvi_table_bytes(text.len));
    uint32_t count = c.refusal ? 0 : get_number(w->table + 4);
    size_t size = 2;
    while (size < 2 * (size_t)count) size *= 2;
    need_slots(w, size);
    slot *slots = w->slots;
    memset(slots, 0, size * sizeof *slots);
    *mask = size - 1;
    const uint8_t *at = w->table + 8;
    for (uint32_t i = 0; i < count; i++) {
        uint32_t hash, times;
        at = read_pair(at, &hash, &times);
        slot *s = find_slot(slots, *mask, hash);
        s->hash = hash;
        s->count += times;
    }
    return c.refusal ? 0 : get_number(w->table);
}

static bool may_be_named(const worker *w, const pair_list *p, uint32_t total, size_t mask, double share) {
    double wanted = share * p->total;
    if (wanted > total || (share > 0 && p->total == 0)) return false;
    uint64_t common = 0;
    for (uint32_t i = 0; i < p->count && (double)common < wanted; i++) {
        uint32_t here = find_slot(w->slots, mask, p->at[2 * (size_t)i])->count, there = p->at[2 * (size_t)i + 1];
        common += here < there ? here : there;
    }
    return (double)common >= wanted;
}

bool same_licence(const stored_text *a, const stored_text *b) { return a->len == b->len && memcmp(a->name, b->name, a->len) == 0; }

/* Writes the chosen texts of the licence whose texts are `from` up to `to`, where there are any. Its original stands there in any case, since a
   licence has one: an empty one, which nothing is like, where it is not chosen. */
static uint8_t *put_licence(worker *w, uint8_t *p, size_t from, size_t to) {
    static const uint8_t empty[8];
    const stored_text *all = w->from->stored;
    bool any = false;
    for (size_t k = from; k < to; k++) any = any || w->may[k];
    if (!any) return p;
    p = put_record(p, KIND_NAME, all[from].name, all[from].len);
    for (size_t k = from; k < to; k++) {
        if (!w->may[k] && all[k].kind != CHULTARVI_ORIGINAL) continue;
        p = w->may[k] ? put_record(p, all[k].kind, all[k].body, all[k].body_len) : put_record(p, all[k].kind, empty, sizeof empty);
        w->chosen[w->chosen_count++] = (uint32_t)k;
    }
    return p;
}

/* Each book of its own edition. False where no text is chosen. */
static bool put_books(worker *w, part books[2]) {
    const shelf *s = w->from;
    uint8_t *p[2] = {put_edition(w->few[0], s->books[0].edition), put_edition(w->few[1], s->books[1].edition)};
    w->chosen_count = 0;
    for (size_t from = 0, to; from < s->stored_count; from = to) {
        int book = s->stored[from].book != s->books[0].file;
        for (to = from + 1; to < s->stored_count && s->stored[to].name == s->stored[from].name; to++) continue;
        p[book] = put_licence(w, p[book], from, to);
    }
    for (int i = 0; i < 2; i++) books[i] = (part){w->few[i], (size_t)(p[i] - w->few[i])};
    return w->chosen_count > 0;
}

bool choose_texts(worker *w, part text, const stored_text *but, part books[2]) {
    const shelf *s = w->from;
    double threshold = s->with.threshold, share = 0.75 * threshold / (2 - threshold);
    size_t mask;
    uint32_t total = fill_slots(w, text, &mask);
    for (size_t k = 0; k < s->stored_count; k++)
        w->may[k] = !(but && same_licence(but, s->stored + k)) && may_be_named(w, s->pairs + k, total, mask, share);
    return put_books(w, books);
}

bool choose_others(worker *w, const stored_text *but, part books[2]) {
    const shelf *s = w->from;
    for (size_t k = 0; k < s->stored_count; k++) w->may[k] = !same_licence(but, s->stored + k);
    return put_books(w, books);
}

uint32_t choose_one(worker *w, uint32_t number, part *book) {
    const shelf *s = w->from;
    part books[2];
    for (size_t k = 0; k < s->stored_count; k++) w->may[k] = k == number;
    put_books(w, books);
    *book = books[s->stored[number].book != s->books[0].file];
    return (uint32_t)w->chosen_count - 1;
}

stored_text chosen_by(const worker *w, const chultarvi_note_scanned *a) {
    const shelf *s = w->from;
    for (size_t i = 0; i < w->chosen_count && a->kind; i++) {
        const stored_text *t = s->stored + w->chosen[i];
        bool in_book = a->second == (t->book != s->books[0].file);
        if (in_book && t->kind == a->kind && t->len == a->len && memcmp(t->name, a->name, a->len) == 0) return *t;
    }
    return (stored_text){0};
}

void open_choice(worker *w) {
    const shelf *s = w->from;
    w->table = take(chultarvi_table_bytes(CHULTARVI_TEXT_MOST));
    w->may = take((s->stored_count + 1) * sizeof *w->may);
    w->chosen = take((s->stored_count + 1) * sizeof *w->chosen);
    for (int i = 0; i < 2; i++) w->few[i] = take(s->books[i].len + 1);
}

void close_choice(worker *w) {
    free(w->table);
    free(w->slots);
    free(w->may);
    free(w->chosen);
    for (int i = 0; i < 2; i++) free(w->few[i]);
}
