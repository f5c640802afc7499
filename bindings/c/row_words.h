/* What is wrong with a refused row, in words: which number, what it was and what the rule asks. */
#ifndef ROW_WORDS_H
#define ROW_WORDS_H

#include "../../include/spoonripple.h"
#include <stdio.h>

/* Writes a line about a result whose number is SPOONRIPPLE_BAD_ROW. `row` is what the call was given: the nine numbers of a record,
 * or the five of spoonripple_row_check and then zeros, since parts 1 to 9 are about the five alone. */
static inline void row_words(FILE *to, uint32_t result, const uint64_t row[9]) {
    static const char *const names[] = {"K'", "J", "S", "H", "W", "L", "P", "B", "P1"};
    static const char *const due[] = {"K' + S + H =", "L - W =", "W - S =", "the smallest prime not below P, which is"};
    /* With a sign: B and P can be below 0. */
    long long k = (long long)row[0], s = (long long)row[2], h = (long long)row[3], w = (long long)row[4];
    uint64_t right[9] = {0};
    int at = 0;
    fprintf(to, "refused %u, part %u: ", (unsigned)SPOONRIPPLE_NUMBER(result), (unsigned)SPOONRIPPLE_PART(result));
    switch (SPOONRIPPLE_PART(result)) {
    case SPOONRIPPLE_PART_WIDE:
        while (at < 4 && row[at] < 65536) at++;
        fprintf(to, "%s is %lld, and must be below 65,536", names[at], (long long)row[at]);
        break;
    case SPOONRIPPLE_PART_KP: fprintf(to, "K' is %lld, and must be from 1 to 56,403", k); break;
    case SPOONRIPPLE_PART_S: fprintf(to, "S is %lld, and must be odd and at least 3", s); break;
    case SPOONRIPPLE_PART_H: fprintf(to, "H is %lld, and must be from 2 to 255", h); break;
    case SPOONRIPPLE_PART_W: fprintf(to, "W is %lld, and must be a prime", w); break;
    case SPOONRIPPLE_PART_B: fprintf(to, "B = W - S is %lld - %lld = %lld, and must be at least 1", w, s, w - s); break;
    case SPOONRIPPLE_PART_P:
        fprintf(to, "P = K' + S + H - W is %lld + %lld + %lld - %lld = %lld, and must be at least 3", k, s, h, w, k + s + h - w);
        break;
    case SPOONRIPPLE_PART_LDPC: /* rounded up: B and S are at least 1 here */
        fprintf(to, "ceil(B/S) = ceil((W - S)/S) is ceil((%lld - %lld)/%lld) = %lld, and must be below S", w, s, s, (w - 1) / s);
        break;
    case SPOONRIPPLE_PART_L:
        fprintf(to, "L = K' + S + H is %lld + %lld + %lld = %lld, and must be at most 65,535", k, s, h, k + s + h);
        break;
    case SPOONRIPPLE_PART_DERIVED: /* the check alone knows what the five make */
        spoonripple_row_check((uint32_t)k, (uint32_t)row[1], (uint32_t)s, (uint32_t)h, (uint32_t)w, right, 9);
        for (at = 5; at < 8 && row[at] == right[at];) at++;
        fprintf(to, "%s is %lld, and must be %s %lld", names[at], (long long)row[at], due[at - 5], (long long)right[at]);
    }
    fputc('\n', to);
}

#endif
