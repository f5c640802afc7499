/* Walks, held to a plain one. A caller's own tuple may have 33 places, d = 30 and d1 = 3: they go into a list of 33, and with one of 32 the
 * answer is 8. The tuple of an ISI has at most 32, since d1 is 3 only where d is below 4: the symbol of an ESI is the sum over all of its
 * places, with the published tables and with some that make every walk as long as it can be. Whatever is not to be written stays, in
 * the store that is lent and on both sides of it. */
#include "../../include/spoonripple.h"
#include <stdio.h>
#include <string.h>

enum { D, A, B, D1, A1, B1, TUPLE };
enum { W = 4, L = 5, P = 6, P1 = 8 };
enum { GUARD = 4, MOST = 33, LONGEST = 32, T = 5, LARGEST = 1071, ESIS = 4000 };

/* K', J, S, H, W. W of 37 is the least prime with which d may be 30: W - 2 bounds it too, which W of 31 and 5 show. */
enum { ROWS = 6 };
static const uint32_t fives[ROWS][5] = {
    {30, 254, 7, 10, 37}, {26, 80, 11, 10, 37}, {20, 293, 11, 10, 31}, {114, 5, 19, 10, 127}, {1002, 299, 59, 10, 1021}, {3, 0, 3, 2, 5},
};

/* The published tables, and two that have only their upper 12 bits: every random number that the one makes ends in twenty ones, so that d is
 * as large as W allows and d1 is 3 wherever it is drawn; with the other d is 3, and d1 too. */
enum { PUBLISHED, LONG, THREES, KINDS };
static uint32_t tables[KINDS][1024] = {{
#include "../data/random_tables.txt"
}};

static unsigned cases, faults, written[MOST + 1], refused[MOST + 1], encoded[MOST + 1], threes;

static void fault(const char *what, const uint64_t *row, const uint32_t *tuple, uint32_t code, size_t room) {
    if (++faults > 20) return;
    fprintf(stderr, "%s: answer %u, K' = %u, W = %u, room %zu, tuple", what, (unsigned)code, (unsigned)row[0], (unsigned)row[W], room);
    for (int i = 0; i < TUPLE; i++) fprintf(stderr, " %u", (unsigned)tuple[i]);
    fputc('\n', stderr);
}

/* The places of a tuple, of which it gives the number (5.3.5.3). */
static size_t walk(const uint64_t *row, const uint32_t *tuple, uint32_t *places) {
    uint64_t b = tuple[B], b1 = tuple[B1];
    size_t n = 0;
    for (; n < tuple[D]; b = (b + tuple[A]) % row[W]) places[n++] = (uint32_t)b;
    for (; n < tuple[D] + tuple[D1]; b1 = (b1 + tuple[A1]) % row[P1])
        if (b1 < row[P]) places[n++] = (uint32_t)(row[W] + b1);
    return n;
}

/* A caller's own tuple, into a list with this room. */
static void own(const uint64_t *row, const uint32_t *tuple, size_t room) {
    uint32_t list[GUARD + MOST + 2 + GUARD], due[sizeof list / sizeof *list], code = SPOONRIPPLE_DONE;
    size_t n = tuple[D] + tuple[D1];
    for (size_t i = 0; i < sizeof list / sizeof *list; i++) list[i] = due[i] = 0xa5a5a5a5u + (uint32_t)i;
    if (tuple[D] > 30 || tuple[D] > row[W] - 2) code = SPOONRIPPLE_OUT_OF_RANGE;
    else if (room < n) code = SPOONRIPPLE_WRONG_LENGTH, refused[n]++;
    else walk(row, tuple, due + GUARD), written[n]++;
    uint32_t given = spoonripple_enc_indices(SPOONRIPPLE_ROW(row), tuple[D], tuple[A], tuple[B], tuple[D1], tuple[A1], tuple[B1], list + GUARD, room);
    cases++;
    if (given != code || memcmp(list, due, sizeof due) != 0) fault(code == SPOONRIPPLE_DONE ? "not the walk" : "not refused", row, tuple, given, room);
}

/* Tuples of every length, at the ends of their bounds and between, with room for none, for one place less, for all and for more. */
static void own_tuples(const uint64_t *row) {
    const uint32_t w = (uint32_t)row[W], p1 = (uint32_t)row[P1];
    const uint32_t a[] = {1, w / 2, w - 1}, b[] = {0, w / 2, w - 1}, a1[] = {1, p1 / 2, p1 - 1}, b1[] = {0, (uint32_t)row[P] - 1, p1 - 1};
    for (uint32_t d = 1; d <= 31; d++)
        for (uint32_t d1 = 2; d1 <= 3; d1++)
            for (size_t i = 0; i < 81; i++) {
                const uint32_t tuple[TUPLE] = {d, a[i % 3], b[i / 3 % 3], d1, a1[i / 9 % 3], b1[i / 27]};
                const size_t n = d + d1, rooms[] = {0, n - 1, n, n + 1};
                for (size_t r = 0; r < 4; r++) own(row, tuple, rooms[r]);
            }
}

/* The symbol of an ESI of a block of count source symbols, from intermediate symbols of any octets. */
static void encode(const uint64_t *row, const uint32_t *lent, uint32_t count, uint32_t esi) {
    static uint8_t set[LARGEST * T];
    uint8_t out[GUARD + T + GUARD], due[sizeof out];
    uint32_t places[MOST], tuple[TUPLE];
    uint64_t isi[1] = {0}, numbers[TUPLE] = {0};
    for (size_t i = 0; i < row[L] * T; i++) set[i] = (uint8_t)(((uint32_t)i + esi) * 2654435761u >> 24);
    for (size_t i = 0; i < sizeof out; i++) out[i] = due[i] = (uint8_t)(0xa5 + i);
    uint32_t code = spoonripple_isi(SPOONRIPPLE_ROW(row), count, esi, isi, 1);
    if (code == SPOONRIPPLE_DONE) code = spoonripple_tuple(SPOONRIPPLE_ROW(row), lent, 1024, (uint32_t)isi[0], numbers, TUPLE);
    for (int i = 0; i < TUPLE; i++) tuple[i] = (uint32_t)numbers[i];
    cases++;
    if (code != SPOONRIPPLE_DONE || tuple[D] < 1 || tuple[D] > 30 || tuple[D1] < 2 || tuple[D1] > (tuple[D] < 4 ? 3u : 2u)) {
        fault("not a tuple", row, tuple, code, TUPLE);
        return;
    }
    size_t n = walk(row, tuple, places);
    encoded[n]++, threes += tuple[D1] == 3;
    memset(due + GUARD, 0, T);
    for (size_t i = 0; i < n; i++)
        for (size_t at = 0; at < T; at++) due[GUARD + at] ^= set[places[i] * T + at];
    code = spoonripple_encode(SPOONRIPPLE_ROW(row), lent, 1024, count, T, esi, set, row[L] * T, out + GUARD, T);
    if (code != SPOONRIPPLE_DONE || memcmp(out, due, sizeof due) != 0) fault("not the sum", row, tuple, code, T);
}

/* The first ESIs of a block of K' source symbols, the last one there is, and some of a shorter block, whose ESIs are shifted. */
static void encodings(const uint64_t *row, const uint32_t *lent, uint32_t esis) {
    const uint32_t k = (uint32_t)row[0];
    for (uint32_t esi = 0; esi < esis; esi++) encode(row, lent, k, esi);
    for (uint32_t esi = k - 1; esi < k + 100; esi++) encode(row, lent, k - 1, esi);
    encode(row, lent, k, (1 << 24) - 1);
}

int main(void) {
    for (size_t i = 0; i < 1024; i++) {
        uint32_t upper = tables[PUBLISHED][i] >> 20 << 20;
        tables[LONG][i] = upper + (i < 256 ? 1048575 : 0);
        tables[THREES][i] = upper + (i < 256 ? 529531 : 0); /* the least number whose degree is 3, and odd */
    }
    for (size_t i = 0; i < ROWS; i++) {
        uint64_t row[9];
        if (spoonripple_row_check(fives[i][0], fives[i][1], fives[i][2], fives[i][3], fives[i][4], row, 9) != SPOONRIPPLE_DONE)
            return fprintf(stderr, "row %zu is refused\n", i), 2;
        own_tuples(row);
        encodings(row, tables[PUBLISHED], ESIS);
        unsigned others = cases - encoded[LONGEST];
        encodings(row, tables[LONG], 200);
        if (row[W] >= 37 && cases - encoded[LONGEST] != others) faults++, fprintf(stderr, "not all walks have 32 places: W = %u\n", (unsigned)row[W]);
        others = cases - threes;
        encodings(row, tables[THREES], 200);
        if (cases - threes != others) faults++, fprintf(stderr, "not all walks have d1 = 3: W = %u\n", (unsigned)row[W]);
    }
    printf("walks: %u cases; of a caller's 33 places %u written, %u refused; %u symbols of 32 places, %u with d1 = 3; %u faults\n", cases, written[MOST],
           refused[MOST], encoded[LONGEST], threes, faults);
    for (size_t n = 3; n <= MOST; n++)
        if (written[n] < 100 || refused[n] < 100 || (n < MOST && encoded[n] < 10)) return fprintf(stderr, "too few walks of %zu places\n", n), 2;
    return faults != 0;
}
