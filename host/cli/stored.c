/* A book as it is read for any command, and its stored texts, by number, as reports name them. */
#include "host.h"
#include "../records.h"

const char *read_book(lent_book *b, const char *file) {
    b->file = file;
    const char *why = read_file(file, b->bytes, CHULTARVI_BOOK_MOST, &b->len);
    if (why) return why;
    b->sound = chultarvi_check_book(b->bytes, b->len).refusal == CHULTARVI_ANSWERED;
    b->edition = chultarvi_edition(b->bytes, b->len);
    return 0;
}

size_t list_stored(const lent_book *book, stored_text *to) {
    book_record name = {0}, r;
    size_t count = 0;
    for (size_t at = 0; at < book->len; at = r.after) {
        r = record_at(book->bytes, at);
        if (r.kind == KIND_NAME) name = r;
        if (is_stored(r.kind)) to[count++] = (stored_text){(const char *)name.body, book->file, name.len, r.kind, r.body, r.len};
    }
    return count;
}
