/* A text as its edition takes it (--ascii of scan and of book): each character that the edition does not take becomes what stands for it in ASCII, or
   nothing. Bytes that are no UTF-8 are read as Latin-1, which old notes are in. No line break is added or taken, so lines count as in the file. */
#include "host.h"
#include <string.h>

/* Characters in a row that become the same. */
static const struct { uint32_t from, to; const char *ascii; } like[] = {
    {0x85, 0x85, " "},       {0xa0, 0xa0, " "},       {0xa1, 0xa1, "!"},       {0xa6, 0xa6, "|"},       {0xa9, 0xa9, "(c)"},     {0xaa, 0xaa, "a"},
    {0xab, 0xab, "\""},      {0xad, 0xad, ""},        {0xae, 0xae, "(r)"},     {0xb2, 0xb2, "2"},       {0xb3, 0xb3, "3"},       {0xb4, 0xb4, "'"},
    {0xb5, 0xb5, "u"},       {0xb7, 0xb7, "*"},       {0xb9, 0xb9, "1"},       {0xba, 0xba, "o"},       {0xbb, 0xbb, "\""},      {0xbc, 0xbc, "1/4"},
    {0xbd, 0xbd, "1/2"},     {0xbe, 0xbe, "3/4"},     {0xbf, 0xbf, "?"},       {0xc0, 0xc5, "A"},       {0xc6, 0xc6, "AE"},      {0xc7, 0xc7, "C"},
    {0xc8, 0xcb, "E"},       {0xcc, 0xcf, "I"},       {0xd0, 0xd0, "D"},       {0xd1, 0xd1, "N"},       {0xd2, 0xd6, "O"},       {0xd7, 0xd7, "x"},
    {0xd8, 0xd8, "O"},       {0xd9, 0xdc, "U"},       {0xdd, 0xdd, "Y"},       {0xde, 0xde, "Th"},      {0xdf, 0xdf, "ss"},      {0xe0, 0xe5, "a"},
    {0xe6, 0xe6, "ae"},      {0xe7, 0xe7, "c"},       {0xe8, 0xeb, "e"},       {0xec, 0xef, "i"},       {0xf0, 0xf0, "d"},       {0xf1, 0xf1, "n"},
    {0xf2, 0xf6, "o"},       {0xf7, 0xf7, "/"},       {0xf8, 0xf8, "o"},       {0xf9, 0xfc, "u"},       {0xfd, 0xfd, "y"},       {0xfe, 0xfe, "th"},
    {0xff, 0xff, "y"},       {0x152, 0x152, "OE"},    {0x153, 0x153, "oe"},    {0x2000, 0x200a, " "},   {0x2010, 0x2015, "-"},   {0x2018, 0x201b, "'"},
    {0x201c, 0x201f, "\""},  {0x2020, 0x2023, "*"},   {0x2024, 0x2024, "."},   {0x2025, 0x2025, ".."},  {0x2026, 0x2026, "..."}, {0x2027, 0x2027, "*"},
    {0x2028, 0x2029, " "},   {0x202f, 0x202f, " "},   {0x2032, 0x2032, "'"},   {0x2033, 0x2033, "\""},  {0x2039, 0x203a, "'"},   {0x2043, 0x2043, "-"},
    {0x2044, 0x2044, "/"},   {0x205f, 0x205f, " "},   {0x2122, 0x2122, "(tm)"}, {0x2190, 0x2190, "<-"}, {0x2192, 0x2192, "->"},  {0x2212, 0x2212, "-"},
    {0x25a0, 0x25ff, "*"},   {0x3000, 0x3000, " "},   {0xfb00, 0xfb00, "ff"},  {0xfb01, 0xfb01, "fi"},  {0xfb02, 0xfb02, "fl"},  {0xfb03, 0xfb03, "ffi"},
    {0xfb04, 0xfb04, "ffl"},
};

/* U+0100 to U+017F: the letter without its accent. */
static const char extended[] =
    "AaAaAaCcCcCcCcDdDdEeEeEeEeEeGgGgGgGgHhHhIiIiIiIiIiIiJjKkkLlLlLlLlLlNnNnNnnNnOoOoOoOoRrRrRrSsSsSsSsTtTtTtUuUuUuUuUuUuWwYyYZzZzZzs";

/* What stands for a character, and how many bytes that has; nothing for what has no like. */
static const char *ascii_like(uint32_t code, size_t *len) {
    *len = 0;
    for (size_t i = 0; i < sizeof like / sizeof *like; i++) {
        if (code < like[i].from || code > like[i].to) continue;
        *len = strlen(like[i].ascii);
        return like[i].ascii;
    }
    if (code < 0x100 || code > 0x17f) return "";
    *len = 1;
    return extended + (code - 0x100);
}

size_t to_taken(const uint8_t *from, size_t from_len, uint32_t edition, uint8_t *to, size_t *len) {
    const size_t most = CHULTARVI_TEXT_MOST + 1;
    size_t changed = 0;
    *len = 0;
    if (from_len >= most) {
        memcpy(to, from, most);
        *len = most;
        return 0;
    }
    for (size_t at = 0, bytes; at < from_len && *len < most; at += bytes) {
        uint32_t code = read_character(from + at, from_len - at, &bytes);
        uint8_t latin[2]; /* for a byte that is no UTF-8 */
        const void *as = bytes ? from + at : latin;
        size_t width = bytes ? bytes : sizeof latin;
        changed += !bytes || !is_taken(code, edition);
        if (!is_taken(code, edition)) as = ascii_like(code, &width);
        else if (!bytes) put_latin(latin, code);
        if (!bytes) bytes = 1;
        if (width > most - *len) width = most - *len;
        memcpy(to + *len, as, width);
        *len += width;
    }
    return changed;
}
