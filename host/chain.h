/* Long licence expressions, for drivers and tests: a unit over and over, and what ends it, alone or in groups. */
#ifndef CHAIN_H
#define CHAIN_H

#include <stddef.h>
#include <stdint.h>
#include <string.h>

/* As many units as fit with `last` behind them, so at most n bytes. Gives how many. */
static inline size_t put_chain(uint8_t *to, size_t n, const char *unit, const char *last) {
    size_t k = strlen(unit), end = strlen(last), units = (n - end) / k * k;
    for (size_t i = 0; i < units; i++) to[i] = (uint8_t)unit[i % k];
    memcpy(to + units, last, end);
    return units + end;
}

/* The same within so many groups in one another, each an OR under an AND: `x AND (y OR x AND (y OR ..`. */
static inline size_t put_groups(uint8_t *to, size_t n, size_t groups, const char *unit, const char *last) {
    static const char front[] = "x AND (y OR ";
    size_t f = sizeof front - 1, head = groups * f;
    for (size_t i = 0; i < head; i++) to[i] = (uint8_t)front[i % f];
    size_t inner = put_chain(to + head, n - head - groups, unit, last);
    memset(to + head + inner, ')', groups);
    return head + inner + groups;
}

#endif
