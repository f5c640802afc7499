/* The check of transmission information: values on each side of every rule with the answer that is due, and then all that a few values
 * of each number make together, held to a plain model of the rules. Reading and writing apply none: whatever the check says of five
 * numbers, they are written to 12 bytes and read back. */
#include "../../include/spoonripple.h"
#include <stdio.h>
#include <string.h>

/* The rules in the order of the header. */
enum { LENGTH, ALIGNMENT, MULTIPLE, SIZE, BLOCKS, SUB_BLOCKS, PARTS, SYMBOLS, KEPT };
static const char *const rules[KEPT] = {"F", "Al not 0", "T a multiple of Al", "T not 0", "Z not 0", "N not 0", "N at most T/Al", "ceil(ceil(F/T)/Z)"};

static unsigned cases, taken, faults, met[KEPT + 1];

static uint64_t up(uint64_t a, uint64_t b) { return a / b + (a % b != 0); }

/* The first rule that breaks. */
static int broken(uint64_t f, uint64_t t, uint64_t z, uint64_t n, uint64_t al) {
    if (f > 942574504275u) return LENGTH;
    if (al == 0) return ALIGNMENT;
    if (t % al != 0) return MULTIPLE;
    if (t == 0) return SIZE;
    if (z == 0) return BLOCKS;
    if (n == 0) return SUB_BLOCKS;
    if (n > t / al) return PARTS;
    return up(up(f, t), z) > 56403 ? SYMBOLS : KEPT;
}

static void fault(const char *what, uint64_t f, unsigned t, unsigned z, unsigned n, unsigned al) {
    faults++;
    fprintf(stderr, "%s: F = %llu, T = %u, Z = %u, N = %u, Al = %u\n", what, (unsigned long long)f, t, z, n, al);
}

/* The check's answer, and that the five numbers are written and read where F has room. */
static void judge(uint32_t due, uint64_t f, uint16_t t, uint8_t z, uint16_t n, uint8_t al) {
    const uint64_t numbers[5] = {f, t, z, n, al};
    uint64_t out[6] = {9, 9, 9, 9, 9, 9};
    uint8_t store[13], laid[13];
    cases++;
    if (due == SPOONRIPPLE_DONE) taken++;
    if (spoonripple_transmission_check(f, t, z, n, al) != due) fault(due == SPOONRIPPLE_DONE ? "not taken" : "not refused", f, t, z, n, al);
    memset(store, 9, sizeof store);
    memset(laid, 9, sizeof laid);
    uint32_t written = spoonripple_transmission_write(f, t, z, n, al, store, sizeof store);
    if (f >> 40 != 0) {
        if (written != SPOONRIPPLE_OUT_OF_RANGE || memcmp(store, laid, sizeof laid) != 0) fault("written", f, t, z, n, al);
        return;
    }
    for (int i = 0; i < 5; i++) laid[i] = (uint8_t)(f >> (32 - 8 * i));
    laid[5] = 0, laid[6] = (uint8_t)(t >> 8), laid[7] = (uint8_t)t, laid[8] = z, laid[9] = (uint8_t)(n >> 8), laid[10] = (uint8_t)n, laid[11] = al;
    if (written != SPOONRIPPLE_DONE || memcmp(store, laid, sizeof laid) != 0) fault("not written", f, t, z, n, al);
    if (spoonripple_transmission_read(laid, 12, out, 6) != SPOONRIPPLE_DONE || memcmp(out, numbers, sizeof numbers) != 0 || out[5] != 9)
        fault("not read", f, t, z, n, al);
}

/* A rule broken, and its neighbour that keeps all. With T = 0 no N keeps its rule, and an F that is too large is too large for 255
 * blocks of 56,403 symbols of 65,535 bytes too; every other rule breaks alone in one of these. */
static void sides(void) {
    judge(0, 10000, 1024, 2, 3, 8);
    judge(3, 10000, 0, 1, 1, 8);
    judge(3, 10000, 0, 1, 0, 8);
    judge(3, 0, 0, 1, 1, 8);
    judge(0, 10000, 8, 1, 1, 8);
    judge(3, 10000, 1024, 0, 1, 8);
    judge(3, 0, 1024, 0, 1, 8);
    judge(0, 10000, 1024, 1, 1, 8);
    judge(3, 10000, 1024, 1, 0, 8);
    judge(3, 10000, 1024, 1, 129, 8);
    judge(3, 10000, 1024, 1, 65535, 8);
    judge(0, 10000, 1024, 1, 128, 8);
    judge(3, 10000, 0, 0, 0, 8);
    judge(3, 10000, 1024, 2, 3, 0);
    judge(3, 10000, 1024, 2, 3, 3);
    judge(0, 10000, 1023, 2, 3, 3);
    judge(3, 942574504276u, 65535, 255, 1, 1);
    judge(0, 942574504275u, 65535, 255, 1, 1);
    judge(3, (uint64_t)56403 * 1024 + 1, 1024, 1, 1, 8);
    judge(0, (uint64_t)56403 * 1024, 1024, 1, 1, 8);
    judge(3, (uint64_t)2 * 56403 * 1024 + 1, 1024, 2, 1, 8);
    judge(0, (uint64_t)2 * 56403 * 1024, 1024, 2, 1, 8);
    judge(0, 0, 1024, 1, 1, 8);
    judge(0, 1, 1024, 255, 1, 8);
}

#define EACH(at, list) for (size_t at = 0; at < sizeof list / sizeof *list; at++)

static void together(void) {
    static const uint64_t f[] = {0, 1, 34, 10000, 56403, 56404, 56403 * 8, 56403 * 8 + 1, 942574504275u, 942574504276u, ((uint64_t)1 << 40) - 1, UINT64_MAX};
    static const uint16_t t[] = {0, 1, 2, 3, 4, 7, 8, 12, 16, 24, 255, 256, 510, 1024, 32768, 65280, 65535};
    static const uint8_t z[] = {0, 1, 2, 3, 128, 255}, al[] = {0, 1, 2, 3, 4, 8, 16, 128, 255};
    static const uint16_t n[] = {0, 1, 2, 3, 4, 5, 8, 9, 128, 129, 255, 256, 257, 1024, 1025, 32768, 65535};
    EACH(a, f) EACH(b, t) EACH(c, z) EACH(d, n) EACH(e, al) {
        int first = broken(f[a], t[b], z[c], n[d], al[e]);
        met[first]++;
        judge(first == KEPT ? SPOONRIPPLE_DONE : SPOONRIPPLE_BAD_TRANSMISSION, f[a], t[b], z[c], n[d], al[e]);
    }
}

int main(void) {
    sides(), together();
    for (int rule = 0; rule < KEPT; rule++)
        if (met[rule] == 0) faults++, fprintf(stderr, "nothing breaks this rule first: %s\n", rules[rule]);
    if (met[KEPT] == 0) faults++, fputs("nothing keeps all rules\n", stderr);
    printf("transmission information: %u cases, %u of them taken, %u faults\n", cases, taken, faults);
    return faults != 0;
}
