/* A note's ranges side by side: a strip above its lines that is the whole note, from its first line to its last, in which each range is a piece as wide as
   its share of the lines, and never too narrow to be seen. Only of a top-down scan with a threshold above 0.0: of it include/chultarvi.h promises that the
   ranges are not empty, rise, and have a line between one and the next (top_down_beside, crates/rules/proofs; at the face ranges_beside,
   crates/scan_job/proofs). So they are drawn in one walk, as they were recorded: nothing is sorted or laid into lanes, and nothing tests for overlaps. */
#include "page.h"
#include <inttypes.h>

/* So many ranges, each wide enough to be seen, have room in one row of a narrow window. More take several rows, which are not filled: so equal ranges are
   equally wide in all of them. */
enum { IN_A_ROW = 48 };

bool has_strips(const settings *with) { return with->down && with->threshold > 0.0f; }

/* Lines that no range holds. Between two ranges there always are some; before the first and behind the last there may be none. */
static void put_gap(const pen *p, uint32_t lines) {
    if (lines > 0) fprintf(p->tags, "<span style=\"--n:%" PRIu32 "\"></span>\n", lines);
}

static void put_piece(const pen *p, const finding *f, size_t number) {
    fputs("<a href=\"#", p->tags);
    put_mark_name(p, false, number);
    fprintf(p->tags, "\" style=\"--n:%" PRIu32 ";--h:%u\" title=\"", f->after - f->first, hue_of(false, number));
    put_title(p, f);
    fputs("\" aria-label=\"", p->tags);
    put_title(p, f);
    fputs("\">", p->tags);
    plain_name(p->words, &f->text);
    fputs("</a>\n", p->tags);
}

/* What further scans found may lie anywhere, so it is not in the strip. */
void put_strip(const pen *p, const report *r) {
    uint32_t line = 0;
    if (!has_strips(&r->from->with) || r->ranges.count == 0) return;
    fprintf(p->tags, "<div class=\"strip%s\" role=\"group\" aria-label=\"Ranges side by side\" style=\"--of:%" PRIu32 "\">\n",
            r->ranges.count > IN_A_ROW ? " rows" : "", r->whole.after);
    for (size_t k = 0; k < r->ranges.count; k++) {
        const finding *f = r->ranges.at + k;
        put_gap(p, f->first - line);
        put_piece(p, f, k);
        line = f->after;
    }
    put_gap(p, r->whole.after - line);
    fputs("</div>\n", p->tags);
}
