/* What the files of the subcommand expression share: the accepted parts, and an expression as the library writes it. */
#ifndef EXPRESSION_H
#define EXPRESSION_H

#include "host.h"

/* At most so many bytes are shown of what is quoted to a person. */
enum { SHOWN_MOST = 60 };

/* accept.c */

/* The accepted parts, a part a line, as the library takes them. */
typedef struct { uint8_t *bytes; size_t len; } accepted_parts;
/* From lists and from single parts. What is no part in a list is warned of. False where a list cannot be read or a single part is none, which is said. */
bool accept_parts(accepted_parts *to, word_list lists, word_list parts);
/* As the library writes it; the caller frees the bytes. Where it is refused they are null. */
chultarvi_expression_spelled written_form(part text, uint8_t **bytes);

#endif
