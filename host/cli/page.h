/* What the files of a page share (--html of scan). html.c makes text safe, marks.c writes a note's lines with its ranges marked, strip.c its ranges side by
   side, style.c has the page's look, page.c puts the notes into one file. */
#ifndef PAGE_H
#define PAGE_H

#include "scan.h"

/* html.c */
void put_html(FILE *to, part text);
/* A stream whose words reach `to` as put_html writes them; null where there is no memory. */
FILE *open_html(FILE *to);

/* Where a note's part of the page is written: tags to `tags`, all else to `words`. `note` counts from 1. */
typedef struct { FILE *tags, *words; size_t note; } pen;

/* marks.c */

/* The name of a range, or of a further finding, that counts from 0: its element's id. */
void put_mark_name(const pen *p, bool further, size_t number);
/* The colour that it has, as an angle: neighbours lie far apart. */
unsigned hue_of(bool further, size_t number);
/* The licence and the lines of a finding, for an attribute. */
void put_title(const pen *p, const finding *f);
/* The other licence of a finding, where there is something to say of one. */
void put_doubt(const pen *p, const report *r, const finding *f);
/* The lines of the note, with what was found in them. */
void put_marked(const pen *p, const report *r);

/* strip.c */

/* Have the notes of such a scan a strip, where they have ranges? */
bool has_strips(const settings *with);
/* The strip of a note that has one. */
void put_strip(const pen *p, const report *r);

/* style.c */
extern const char page_style[];

#endif
