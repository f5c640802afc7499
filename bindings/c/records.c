/* Every call that takes the record of a row verifies it: where the five numbers break a rule, or L, P, B or P1 is not what
 * spoonripple_row_check makes of them, the answer is 4 with the part of the first rule that breaks, before any other refusal, and all
 * that is lent stays as it was. Each case is called with the record of the check, which has to give the answer that stands here, and
 * then with each wrong one. Which part is due a plain model of the rules says. */
#include "../../include/spoonripple.h"
#include <stdio.h>
#include <string.h>

/* The first row of Table 2, and what the check has to make of it. */
#define FIVE 10, 254, 7, 10, 17
static const uint64_t due_record[9] = {FIVE, 27, 10, 10, 11};

/* What stands there instead. */
static const uint64_t wrong[][9] = {
    {FIVE, 26, 10, 10, 11}, {FIVE, 28, 10, 10, 11}, {FIVE, 27, 9, 10, 11}, {FIVE, 27, 11, 10, 11},
    {FIVE, 27, 10, 9, 11}, {FIVE, 27, 10, 11, 11}, {FIVE, 27, 10, 10, 10}, {FIVE, 27, 10, 10, 12},
    {FIVE, 28, 11, 10, 11}, /* these fit one another, but not the row */
    {FIVE, 27, 11, 9, 11},
    {FIVE, 27, 10, 10, 13}, /* a prime, but not the smallest */
    {FIVE, 65563, 10, 10, 11}, {FIVE, 27, 65546, 10, 11}, {FIVE, 27, 10, 65546, 11}, {FIVE, 27, 10, 10, 65547}, /* the same in 16 bits */
    {FIVE, 0, 10, 10, 11}, {FIVE, 27, 0, 10, 11}, {FIVE, 27, 10, 0, 11}, {FIVE, 27, 10, 10, 0}, {FIVE, 0, 0, 0, 0},
    {FIVE, UINT32_MAX, 10, 10, 11}, {FIVE, 27, UINT32_MAX, 10, 11}, {FIVE, 27, 10, UINT32_MAX, 11}, {FIVE, 27, 10, 10, UINT32_MAX},
    /* of the five one is wrong, and the other four are left or follow it */
    {65536, 254, 7, 10, 17, 27, 10, 10, 11}, {10, 65536, 7, 10, 17, 27, 10, 10, 11}, {10, 254, 65543, 10, 17, 27, 10, 10, 11},
    {10, 254, 7, 65546, 17, 27, 10, 10, 11}, {10, 254, 7, 10, 65553, 27, 10, 10, 11}, {0, 254, 7, 10, 17, 17, 0, 10, 2},
    {56404, 254, 7, 10, 17, 56421, 56404, 10, 56417}, {10, 254, 8, 10, 17, 28, 11, 9, 11}, {10, 254, 1, 10, 17, 21, 4, 16, 5},
    {10, 254, 7, 1, 17, 18, 1, 10, 2}, {10, 254, 7, 256, 17, 273, 256, 10, 257}, {10, 254, 7, 10, 16, 27, 11, 9, 11},
    {10, 254, 7, 10, 7, 27, 20, 0, 23}, {10, 254, 7, 10, 5, 27, 22, UINT32_MAX - 1, 23}, {10, 254, 7, 8, 23, 25, 2, 16, 2},
    {10, 254, 7, 10, 29, 27, UINT32_MAX - 1, 22, 2}, {10, 254, 3, 10, 17, 23, 6, 14, 7}, {56403, 471, 9011, 255, 56951, 65669, 8718, 47940, 8719},
    {11, 254, 7, 10, 17, 27, 10, 10, 11}, {10, 254, 7, 10, 19, 27, 10, 10, 11},
    /* more than one rule is broken: the first counts */
    {0, 65536, 8, 1, 16, 0, 0, 0, 0}, {0, 254, 8, 1, 16, 0, 0, 0, 0}, {10, 254, 8, 1, 16, 0, 0, 0, 0}, {10, 254, 7, 1, 16, 0, 0, 0, 0},
    {1, 254, 7, 2, 4, 0, 0, 0, 0}, {1, 254, 65535, 2, 31, 0, 0, 0, 0}, {1, 254, 3, 2, 31, 0, 0, 0, 0}, {56403, 1, 65535, 255, 2, 0, 0, 0, 0},
    {56403, 471, 9011, 255, 56951, 0, 0, 0, 0}, {0, 0, 0, 0, 0, 0, 0, 0, 0},
};

static int prime(int64_t x) {
    for (int64_t d = 2; d * d <= x; d++)
        if (x % d == 0) return 0;
    return x >= 2;
}

/* The first rule that a record breaks, 0 where it keeps all. Only the first nine are about the five, so that without a record the
 * derived numbers are taken to be right. */
static uint32_t part_due(const uint64_t r[9], int record) {
    int64_t k = (int64_t)r[0], s = (int64_t)r[2], h = (int64_t)r[3], w = (int64_t)r[4], l = k + s + h, b = w - s, p = l - w, p1 = p;
    for (int i = 0; i < 5; i++)
        if (r[i] > 65535) return 1;
    if (k == 0 || k > 56403) return 2;
    if (s < 3 || s % 2 == 0) return 3;
    if (h < 2 || h > 255) return 4;
    if (!prime(w)) return 5;
    if (b < 1) return 6;
    if (p < 3) return 7;
    if ((b + s - 1) / s >= s) return 8;
    if (l > 65535) return 9;
    while (!prime(p1)) p1++;
    return record && (r[5] != (uint64_t)l || r[6] != (uint64_t)p || r[7] != (uint64_t)b || r[8] != (uint64_t)p1) ? 10 : 0;
}

/* The answer that is due to a part, or without one. */
static uint32_t refused(uint32_t part, uint32_t otherwise) { return part == 0 ? otherwise : 4 + 256 * part; }

static const uint32_t published[1024] = {
#include "../data/random_tables.txt"
};

/* All that is lent, with room for an L of 28. */
enum { T = 4, N = 10, WIDE = 28 };
static struct {
    uint64_t out[10], words[64];
    uint32_t tables[1024], list[64], isis[20], esis[N], state[SPOONRIPPLE_INTAKE_STATE];
    uint16_t pivots[WIDE];
    uint8_t symbols[N * T], rows[WIDE * WIDE], values[WIDE * T], set[WIDE * T], symbol[T];
} lent, kept;

static uint64_t row[9];
static unsigned cases, faults, met[11];

static void refill(void) {
    for (size_t i = 0; i < sizeof lent; i++) ((uint8_t *)&lent)[i] = (uint8_t)(i * 167 + 13);
    memcpy(lent.tables, published, sizeof published);
    memset(lent.symbols, 0, sizeof lent.symbols);
    for (uint32_t i = 0; i < N; i++) lent.esis[i] = i;
    for (uint32_t i = 0; i < 20; i++) lent.isis[i] = i;
    memcpy(&kept, &lent, sizeof lent);
}

static void judge(const char *call, uint32_t due, uint32_t code, int stays) {
    int changed = memcmp(&lent, &kept, sizeof lent) != 0;
    cases++;
    if (due % 256 == 4) met[due / 256]++;
    if (code == due && SPOONRIPPLE_NUMBER(code) == due % 256 && SPOONRIPPLE_PART(code) == due / 256 && !(stays && changed)) return;
    faults++;
    fprintf(stderr, "%s with the row", call);
    for (int i = 0; i < 9; i++) fprintf(stderr, " %u", (unsigned)row[i]);
    fprintf(stderr, ": %u, part %u, due %u, part %u%s\n", (unsigned)SPOONRIPPLE_NUMBER(code), (unsigned)SPOONRIPPLE_PART(code), (unsigned)(due % 256),
            (unsigned)(due / 256), stays && changed ? ", and what is lent has changed" : "");
}

/* ROW in the call is the record. */
#define ROW SPOONRIPPLE_ROW(row)
#define CASE(due, call)                                                                \
    do {                                                                               \
        memcpy(row, due_record, sizeof row);                                           \
        refill();                                                                      \
        judge(#call, refused(part_due(row, 1), due), spoonripple_##call, 0);           \
        for (size_t i = 0; i < sizeof wrong / sizeof *wrong; i++) {                    \
            memcpy(row, wrong[i], sizeof row);                                         \
            refill();                                                                  \
            judge(#call, refused(part_due(row, 1), UINT32_MAX), spoonripple_##call, 1); \
        }                                                                              \
    } while (0)

#define OUT lent.out, 10
#define TABLES lent.tables, 1024
#define NONE NULL, 0

/* With nothing else to refuse; then with as much as the call can refuse besides. */
static void records(void) {
    CASE(0, isi(ROW, 10, 12, OUT));
    CASE(9, isi(ROW, 0, UINT32_MAX, NONE));
    CASE(0, tuple(ROW, TABLES, 3, OUT));
    CASE(5, tuple(ROW, NONE, 3, NONE));
    CASE(0, enc_indices(ROW, 3, 1, 0, 2, 1, 0, lent.list, 64));
    CASE(2, enc_indices(ROW, 0, 0, 17, 0, 0, 11, NONE));
    CASE(0, hdpc_rows(ROW, TABLES, lent.rows, sizeof lent.rows));
    CASE(5, hdpc_rows(ROW, NONE, NONE));
    CASE(0, constraint_matrix(ROW, TABLES, lent.isis, 10, lent.words, 64));
    CASE(5, constraint_matrix(ROW, NONE, NONE, NONE));
    CASE(0, constraint_matrix_no_hdpc(ROW, TABLES, lent.isis, 20, lent.words, 64));
    CASE(5, constraint_matrix_no_hdpc(ROW, NONE, NONE, NONE));
    CASE(0, encode(ROW, TABLES, 10, T, 3, lent.set, sizeof lent.set, lent.symbol, T));
    CASE(5, encode(ROW, NONE, 0, 0, UINT32_MAX, NONE, NONE));
    CASE(0, solve(ROW, TABLES, 10, T, lent.esis, N, lent.symbols, N * T, lent.rows, sizeof lent.rows, lent.values, sizeof lent.values,
                  lent.set, sizeof lent.set, OUT));
    CASE(101, solve(ROW, TABLES, 10, T, NONE, NONE, lent.rows, sizeof lent.rows, lent.values, sizeof lent.values, lent.set, sizeof lent.set, OUT));
    CASE(5, solve(ROW, NONE, 0, 0, NONE, lent.symbols, 1, NONE, NONE, NONE, NONE));
    CASE(0, intake_begin(ROW, TABLES, 10, T, lent.state, SPOONRIPPLE_INTAKE_STATE, lent.pivots, WIDE, lent.rows, sizeof lent.rows,
                         lent.values, sizeof lent.values));
    CASE(5, intake_begin(ROW, NONE, 0, 0, NONE, NONE, NONE, NONE));
}

/* The check writes its nine numbers and no more, and none where there is no room for all or the row breaks a rule, which comes first. */
static void check(void) {
    memcpy(row, due_record, sizeof row);
    refill();
    judge("row_check in 8 places", 8, spoonripple_row_check(FIVE, lent.out, 8), 1);
    for (size_t i = 0; i < sizeof wrong / sizeof *wrong; i++) {
        memcpy(row, wrong[i], sizeof row);
        uint32_t k = (uint32_t)row[0], j = (uint32_t)row[1], s = (uint32_t)row[2], h = (uint32_t)row[3], w = (uint32_t)row[4];
        judge("row_check in 8 places", refused(part_due(row, 0), 8), spoonripple_row_check(k, j, s, h, w, lent.out, 8), 1);
        if (part_due(row, 0) != 0) judge("row_check", refused(part_due(row, 0), 0), spoonripple_row_check(k, j, s, h, w, OUT), 1);
    }
    memcpy(kept.out, due_record, sizeof due_record);
    judge("row_check in 10 places", 0, spoonripple_row_check(FIVE, OUT), 1);
}

/* The check at the ends of every rule, in all combinations; and of each record that it makes, that one number more or less is part 10. */
static void ends(void) {
    static const uint32_t ks[] = {0, 1, 10, 56403, 56404, 65535, 65536, UINT32_MAX}, js[] = {0, 65535, 65536, UINT32_MAX};
    static const uint32_t ss[] = {0, 1, 2, 3, 4, 7, 907, 8877, 8878, 8879, 9011, 65535, 65536, UINT32_MAX};
    static const uint32_t hs[] = {0, 1, 2, 10, 254, 255, 256, 65536, UINT32_MAX};
    static const uint32_t ws[] = {0, 1, 2, 3, 4, 5, 7, 11, 13, 17, 23, 29, 49, 56951, 65521, 65535, 65536, UINT32_MAX};
#define EACH(x, of) for (const uint32_t *x = of; x < of + sizeof of / sizeof *of; x++)
    EACH(k, ks) EACH(j, js) EACH(s, ss) EACH(h, hs) EACH(w, ws) {
        uint64_t out[1], five[9] = {*k, *j, *s, *h, *w};
        memcpy(row, five, sizeof row);
        uint32_t due = refused(part_due(row, 0), 0);
        judge("row_check", due, spoonripple_row_check(*k, *j, *s, *h, *w, row, 9), 0);
        judge("isi", refused(part_due(row, 1), 0), spoonripple_isi(ROW, 1, 0, out, 1), 0);
        for (int i = 5; i < 9 && due == 0; i++)
            for (int by = -1; by < 2; by += 2) {
                row[i] += (uint64_t)by;
                judge("isi", refused(10, 0), spoonripple_isi(ROW, 1, 0, out, 1), 0);
                row[i] -= (uint64_t)by;
            }
    }
}

int main(void) {
    check(), records(), ends();
    for (int part = 1; part <= 10; part++)
        if (met[part] == 0) faults++, fprintf(stderr, "no case has part %d\n", part);
    printf("records of a row: %u cases, %u faults\n", cases, faults);
    return faults != 0;
}
