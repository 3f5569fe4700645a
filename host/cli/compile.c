/* The subcommand compile: the table of one text, its size said or its bytes written. */
#include "host.h"
#include "../records.h"
#include <inttypes.h>
#include <stdlib.h>
#include <string.h>

static int give_table(const char *text, uint32_t edition, const char *out, const uint8_t *table, size_t len) {
    if (out && strcmp(out, "-") == 0) {
        fwrite(table, 1, len, stdout);
        return DONE;
    }
    if (out && !write_file(out, table, len)) return TROUBLE;
    put_plain(stdout, text);
    printf(": a table of %zu bytes, %" PRIu32 " bigrams, %" PRIu32 " of them distinct, edition %" PRIu32 "\n", len, get_number(table),
           get_number(table + 4), edition);
    return DONE;
}

static const next_steps steps = {
    "--edition 3 takes it",
    "nothing is filtered, so change it first",
    "nothing is filtered, so change it to UTF-8 first, for --edition 3",
};

static int compile_to(const char *path, uint32_t edition, const char *out, const memory *m) {
    size_t len;
    const char *why = read_file(path, m->text, CHULTARVI_TEXT_MOST, &len);
    if (why) return unreadable(path, why);
    uint8_t *table = take(chultarvi_table_bytes(len));
    chultarvi_text_compiled c = compile_text(m, len, edition, table, chultarvi_table_bytes(len));
    int status = REFUSED;
    if (c.refusal) {
        char message[MESSAGE_MOST];
        refusal_message(message, c.refusal, m->text, len, edition, &steps);
        say_of(path, "%s", message);
    } else {
        status = give_table(path, edition, out, table, c.len);
    }
    free(table);
    return status;
}

int run_compile(int count, char **words) {
    const char *out = 0, *edition_word = 0;
    const option_place places[] = {{.letter = 'o', .value = &out}, {.name = "edition", .value = &edition_word}};
    uint32_t edition;
    int status;
    if (!read_options(&count, words, places, 2, &status)) return status;
    if (!read_edition("compile", edition_word, &edition)) return TROUBLE;
    if (count != 2) return wrong_words("compile", "wants one text");
    memory m = take_memory();
    status = compile_to(words[1], edition, out, &m);
    free_memory(&m);
    return status;
}
