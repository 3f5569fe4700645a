/* The numbers behind a score, as the header says them: what the tests and drivers hold every answer with a score to. */
#ifndef PAIRS_H
#define PAIRS_H

#include <stdbool.h>
#include <stdint.h>
#include <string.h>

/* The score is, bit by bit, 2m/t by one division in binary32, and 0.0 where t is 0; 2m is at most t, and t below 2^24. */
static inline bool is_two_m_by_t(float score, uint32_t m, uint32_t t) {
    const float by_both = t ? (float)(2 * m) / (float)t : 0.0f;
    return 2 * m <= t && t < 1u << 24 && memcmp(&by_both, &score, sizeof score) == 0;
}

#endif
