/* Single octets, held to products that are worked out another way than the library does it: as polynomials over bits, and what is past x^7 taken
 * off by x^8 + x^4 + x^3 + x^2 + 1 at the end (RFC 6330, 5.7). Every pair, with sums onto each octet for some, every exponent up to 1,024 and
 * large ones. Whatever is not to be written stays. */
#include "../../include/spoonripple.h"
#include <stdio.h>

enum { UNTOUCHED = 0x5a5a, REFUSED = -1 };

static unsigned long cases, faults;

static uint8_t product(uint8_t a, uint8_t b) {
    unsigned sum = 0;
    for (int i = 0; i < 8; i++) sum ^= (b >> i & 1u) * ((unsigned)a << i);
    for (int i = 14; i >= 8; i--) sum ^= (sum >> i & 1u) * (285u << (i - 8));
    return (uint8_t)sum;
}

/* What a call gave, in a slice of one place with one more behind it: an octet, or a refusal that left both alone. */
static void held(const char *call, unsigned a, unsigned b, uint32_t code, const uint64_t *out, uint32_t due_code, int due) {
    cases++;
    int right = code == due_code && out[0] == (due == REFUSED ? UNTOUCHED : (uint64_t)due) && out[1] == UNTOUCHED;
    if (!right && ++faults <= 20) fprintf(stderr, "%s, %u and %u: answer %u, %u\n", call, a, b, (unsigned)code, (unsigned)out[0]);
}

#define HELD(due_code, due, call, a, b, ...)                                            \
    do {                                                                                \
        uint64_t out[2] = {UNTOUCHED, UNTOUCHED};                                       \
        uint32_t code = spoonripple_octet_##call(__VA_ARGS__, out, 1);                  \
        held("octet_" #call, (unsigned)(a), (unsigned)(b), code, out, (due_code), (due)); \
    } while (0)

static void pair(uint8_t a, uint8_t b, int quotient) {
    HELD(SPOONRIPPLE_DONE, a ^ b, add, a, b, a, b);
    HELD(SPOONRIPPLE_DONE, a ^ b, sub, a, b, a, b);
    HELD(SPOONRIPPLE_DONE, product(a, b), mul, a, b, a, b);
    for (unsigned x = 0; x < 256; x += b % 16 == 3 ? 1 : 85)
        HELD(SPOONRIPPLE_DONE, (int)(x ^ product(a, b)), fma, a, b, (uint8_t)x, a, b);
    HELD(quotient == REFUSED ? SPOONRIPPLE_DIVISOR_ZERO : SPOONRIPPLE_DONE, quotient, div, a, b, a, b);
}

int main(void) {
    for (unsigned b = 0; b < 256; b++) {
        /* The quotient by b is the octet whose product with b is a: there is one for each a, unless b is 0. */
        int quotients[256];
        for (unsigned q = 0; q < 256; q++) quotients[b == 0 ? q : product((uint8_t)q, (uint8_t)b)] = b == 0 ? REFUSED : (int)q;
        for (unsigned a = 0; a < 256; a++) pair((uint8_t)a, (uint8_t)b, quotients[a]);
    }
    uint8_t power = 1;
    for (size_t i = 0; i <= 1024; i++, power = product(power, 2))
        HELD(i < 256 ? SPOONRIPPLE_DONE : SPOONRIPPLE_OUT_OF_RANGE, i < 256 ? power : REFUSED, alpha, i, 0, i);
    HELD(SPOONRIPPLE_OUT_OF_RANGE, REFUSED, alpha, SIZE_MAX, 0, SIZE_MAX);
    HELD(SPOONRIPPLE_OUT_OF_RANGE, REFUSED, alpha, SIZE_MAX - 255, 0, SIZE_MAX - 255);
    printf("octets: %lu cases, %lu faults\n", cases, faults);
    return faults != 0;
}
