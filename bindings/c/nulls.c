/* A slice of length 0 may be lent as a null pointer: every call of the header that takes a slice, each of its slices in turn.
 * Each case is called with a pointer to a place in memory and with a null pointer, both of length 0. Both have to give the
 * answer that stands here, and to leave all that is lent with the same bytes. A load or a store by the null pointer ends the
 * program. Some cases are refused for the missing slice; wherever a slice of length 0 is taken there is one that is done. */
#include "../../include/spoonripple.h"
#include <stdio.h>
#include <string.h>

/* K', J, S, H, W of the first row of Table 2, and the record that the check makes of it: L is 27. */
#define FIVE 10, 254, 7, 10, 17
#define ROW SPOONRIPPLE_ROW(row)
static uint64_t row[9];
enum { L = 27, T = 4, M = 17 };

static const uint32_t published[1024] = {
#include "../data/random_tables.txt"
};

/* The state of an intake that was begun. */
static uint32_t begun[SPOONRIPPLE_INTAKE_STATE];

/* All that is lent. */
static struct {
    uint64_t out[8], words[64];
    uint32_t tables[1024], list[64], esis[2], order[2], isis[32], state[SPOONRIPPLE_INTAKE_STATE];
    uint16_t pivots[L];
    uint8_t bytes[16], more[16], symbols[2 * T], rows[L * L], values[L * T], set[L * T], rebuilt[10 * T];
    uint64_t place[2]; /* lent with length 0 */
} lent, kept;

static void refill(void) {
    for (size_t i = 0; i < sizeof lent; i++) ((uint8_t *)&lent)[i] = (uint8_t)(i * 167 + 13);
    memcpy(lent.tables, published, sizeof published);
    memcpy(lent.state, begun, sizeof begun);
    memset(lent.symbols, 0, sizeof lent.symbols);
    for (uint32_t i = 0; i < 2; i++) lent.esis[i] = 3 + i, lent.order[i] = 1 - i;
    for (uint32_t i = 0; i < 32; i++) lent.isis[i] = i;
}

static unsigned cases, faults;

static void judge(const char *call, uint32_t due, uint32_t with_place, uint32_t with_null) {
    cases++;
    if (with_place == due && with_null == due && memcmp(&lent, &kept, sizeof lent) == 0) return;
    faults++;
    fprintf(stderr, "%s: due %u, with a pointer %u, with null %u%s\n", call, (unsigned)due, (unsigned)with_place, (unsigned)with_null,
            memcmp(&lent, &kept, sizeof lent) == 0 ? "" : ", and what is lent differs");
}

/* NONE in the call is the pointer that is tried. */
#define NONE none, 0
#define CASE(due, call)                                 \
    do {                                                \
        void *none = &lent.place[1];                    \
        refill();                                       \
        uint32_t with_place = spoonripple_##call;       \
        memcpy(&kept, &lent, sizeof lent);              \
        none = NULL;                                    \
        refill();                                       \
        judge(#call, due, with_place, spoonripple_##call); \
    } while (0)

#define OUT lent.out, 8
#define TABLES lent.tables, 1024
#define LIST lent.list, 64
#define WORDS lent.words, 64
#define BYTES lent.bytes, 16
#define MORE lent.more, 16
#define ORDER lent.order, 2

static void octets(void) {
    CASE(8, octet_add(3, 5, NONE));
    CASE(8, octet_sub(3, 5, NONE));
    CASE(8, octet_mul(3, 5, NONE));
    CASE(8, octet_fma(3, 5, 7, NONE));
    CASE(8, octet_div(3, 5, NONE));
    CASE(8, octet_div(3, 0, NONE));
    CASE(8, octet_alpha(3, NONE));
    CASE(2, octet_alpha(256, NONE));
    CASE(0, run_add(NONE, NONE, OUT));
    CASE(0, run_add(NONE, lent.bytes, 0, OUT));
    CASE(0, run_add(lent.bytes, 0, NONE, OUT));
    CASE(8, run_add(NONE, BYTES, OUT));
    CASE(8, run_add(BYTES, NONE, OUT));
    CASE(8, run_add(BYTES, MORE, NONE));
    CASE(8, run_add(NONE, NONE, NONE));
    for (unsigned c = 0; c < 256; c++) {
        CASE(0, run_scale(NONE, (uint8_t)c, OUT));
        CASE(8, run_scale(BYTES, (uint8_t)c, NONE));
        CASE(8, run_scale(NONE, (uint8_t)c, NONE));
        CASE(0, run_fma(NONE, NONE, (uint8_t)c, OUT));
        CASE(0, run_fma(NONE, lent.bytes, 0, (uint8_t)c, OUT));
        CASE(0, run_fma(lent.bytes, 0, NONE, (uint8_t)c, OUT));
        CASE(8, run_fma(NONE, BYTES, (uint8_t)c, OUT));
        CASE(8, run_fma(BYTES, NONE, (uint8_t)c, OUT));
        CASE(8, run_fma(BYTES, MORE, (uint8_t)c, NONE));
        CASE(8, run_fma(NONE, NONE, (uint8_t)c, NONE));
    }
}

static void packets(void) {
    CASE(8, payload_id_read(NONE, OUT));
    CASE(8, payload_id_read(lent.bytes, 4, NONE));
    CASE(8, payload_id_write(1, 2, NONE));
    CASE(9, payload_id_write(1, 1 << 24, NONE));
    CASE(8, transmission_read(NONE, OUT));
    CASE(8, transmission_read(lent.bytes, 12, NONE));
    CASE(8, transmission_write(34, 4, 1, 1, 1, NONE));
    CASE(2, transmission_write((uint64_t)1 << 40, 4, 1, 1, 1, NONE));
    CASE(8, packet_read(NONE, OUT));
    CASE(8, packet_read(BYTES, NONE));
    CASE(0, packet_write(1, 2, NONE, MORE)); /* a payload id alone */
    CASE(8, packet_write(1, 2, NONE, NONE));
    CASE(8, packet_write(1, 2, BYTES, NONE));
    CASE(8, partition(10, 3, NONE));
    CASE(2, partition(10, 0, NONE));
}

static void generators(void) {
    CASE(5, rand(NONE, 5, 6, 7, OUT));
    CASE(8, rand(TABLES, 5, 6, 7, NONE));
    CASE(8, deg(5, 17, NONE));
    CASE(8, row_check(FIVE, NONE));
    CASE(516, row_check(0, 0, 0, 0, 0, NONE)); /* 4, part 2 */
    CASE(8, isi(ROW, 10, 3, NONE));
    CASE(5, tuple(ROW, NONE, 3, OUT));
    CASE(8, tuple(ROW, TABLES, 3, NONE));
}

/* A slab has an order or none, and no bytes where it has no symbol or its symbols have none. */
static void slabs(void) {
    CASE(0, slab_with_zeros(NONE, 0, T));
    CASE(0, slab_with_zeros(NONE, 3, 0));
    CASE(8, slab_with_zeros(NONE, 3, T));
    CASE(0, slab_locate(8, 2, T, NONE, 1, OUT));
    CASE(8, slab_locate(8, 2, T, NONE, 1, NONE));
    CASE(8, slab_locate(8, 2, T, ORDER, 1, NONE));
    CASE(0, slab_add_assign(BYTES, 2, T, NONE, 0, 1, OUT));
    CASE(0, slab_add_assign(NONE, 2, 0, NONE, 0, 1, OUT));
    CASE(0, slab_add_assign(NONE, 2, 0, ORDER, 0, 1, OUT));
    CASE(7, slab_add_assign(NONE, 2, 0, NONE, 1, 1, OUT));
    CASE(8, slab_add_assign(NONE, 2, T, ORDER, 0, 1, OUT));
    CASE(6, slab_add_assign(NONE, 0, T, NONE, 0, 1, OUT));
    CASE(8, slab_add_assign(BYTES, 2, T, ORDER, 0, 1, NONE));
    CASE(8, slab_add_assign(NONE, 0, T, NONE, 0, 1, NONE));
    CASE(2, slab_add_assign(NONE, 131071, 0, NONE, 0, 1, NONE));
    for (unsigned c = 0; c < 256; c++) {
        CASE(0, slab_mulassign_scalar(BYTES, 2, T, NONE, 1, (uint8_t)c, OUT));
        CASE(0, slab_mulassign_scalar(NONE, 2, 0, NONE, 1, (uint8_t)c, OUT));
        CASE(0, slab_mulassign_scalar(NONE, 2, 0, ORDER, 1, (uint8_t)c, OUT));
        CASE(8, slab_mulassign_scalar(NONE, 2, T, ORDER, 1, (uint8_t)c, OUT));
        CASE(6, slab_mulassign_scalar(NONE, 0, T, NONE, 1, (uint8_t)c, OUT));
        CASE(8, slab_mulassign_scalar(BYTES, 2, T, ORDER, 1, (uint8_t)c, NONE));
        CASE(8, slab_mulassign_scalar(NONE, 0, T, NONE, 1, (uint8_t)c, NONE));
        CASE(0, slab_fma(BYTES, 2, T, NONE, 0, 1, (uint8_t)c, OUT));
        CASE(0, slab_fma(NONE, 2, 0, NONE, 0, 1, (uint8_t)c, OUT));
        CASE(0, slab_fma(NONE, 2, 0, ORDER, 0, 1, (uint8_t)c, OUT));
        CASE(8, slab_fma(NONE, 2, T, ORDER, 0, 1, (uint8_t)c, OUT));
        CASE(8, slab_fma(BYTES, 2, T, ORDER, 0, 1, (uint8_t)c, NONE));
        CASE(8, slab_fma(NONE, 0, T, NONE, 0, 1, (uint8_t)c, NONE));
    }
}

/* A matrix of no rows, or of rows of no columns, has no words. */
static void matrices(void) {
    CASE(0, matrix_new(NONE, 0, 70));
    CASE(0, matrix_new(NONE, 3, 0));
    CASE(8, matrix_new(NONE, 3, 70));
    CASE(6, matrix_set(NONE, 0, 0, 0, 0, 1));
    CASE(8, matrix_set(NONE, 3, 70, 0, 0, 1));
    CASE(6, matrix_get(NONE, 3, 0, 0, 0, OUT));
    CASE(8, matrix_get(NONE, 3, 70, 0, 0, OUT));
    CASE(8, matrix_get(WORDS, 3, 70, 0, 0, NONE));
    CASE(0, matrix_count_ones(NONE, 3, 0, 1, 0, 0, OUT));
    CASE(8, matrix_count_ones(NONE, 3, 70, 1, 0, 9, OUT));
    CASE(8, matrix_count_ones(WORDS, 3, 70, 1, 0, 9, NONE));
    CASE(0, matrix_get_ones_in_column(NONE, 0, 70, 5, 0, 0, LIST, OUT));
    CASE(0, matrix_get_ones_in_column(NONE, 0, 70, 5, 0, 0, NONE, OUT));
    CASE(0, matrix_get_ones_in_column(WORDS, 3, 70, 5, 1, 1, NONE, OUT));
    CASE(8, matrix_get_ones_in_column(NONE, 3, 70, 5, 0, 3, LIST, OUT));
    CASE(8, matrix_get_ones_in_column(WORDS, 3, 70, 5, 0, 3, NONE, OUT));
    CASE(8, matrix_get_ones_in_column(WORDS, 3, 70, 5, 0, 3, LIST, NONE));
    CASE(0, matrix_query_non_zero_columns(NONE, 3, 0, 1, 0, LIST, OUT));
    CASE(0, matrix_query_non_zero_columns(NONE, 3, 0, 1, 0, NONE, OUT));
    CASE(0, matrix_query_non_zero_columns(WORDS, 3, 20, 1, 20, NONE, OUT));
    CASE(8, matrix_query_non_zero_columns(NONE, 3, 20, 1, 0, LIST, OUT));
    CASE(8, matrix_query_non_zero_columns(WORDS, 3, 20, 1, 0, NONE, OUT));
    CASE(8, matrix_query_non_zero_columns(WORDS, 3, 20, 1, 0, LIST, NONE));
    CASE(0, matrix_swap_rows(NONE, 3, 0, 0, 1));
    CASE(6, matrix_swap_rows(NONE, 0, 70, 0, 1));
    CASE(8, matrix_swap_rows(NONE, 3, 70, 0, 1));
    CASE(0, matrix_swap_columns(NONE, 0, 70, 5, 66, 0));
    CASE(6, matrix_swap_columns(NONE, 3, 0, 5, 66, 0));
    CASE(8, matrix_swap_columns(NONE, 3, 70, 5, 66, 0));
    CASE(0, matrix_add_assign_rows(NONE, 3, 0, 0, 1));
    CASE(7, matrix_add_assign_rows(NONE, 3, 0, 1, 1));
    CASE(8, matrix_add_assign_rows(NONE, 3, 70, 0, 1));
    CASE(0, matrix_resize(NONE, 3, 0, 2, 0));
    CASE(0, matrix_resize(NONE, 0, 70, 0, 7));
    CASE(8, matrix_resize(NONE, 3, 70, 2, 7));
}

static void systems(void) {
    CASE(8, enc_indices(ROW, 3, 1, 0, 2, 1, 0, NONE));
    CASE(2, enc_indices(ROW, 0, 1, 0, 2, 1, 0, NONE));
    CASE(5, hdpc_rows(ROW, NONE, lent.rows, 10 * L));
    CASE(8, hdpc_rows(ROW, TABLES, NONE));
    CASE(5, constraint_matrix(ROW, NONE, lent.isis, 10, WORDS));
    CASE(9, constraint_matrix(ROW, TABLES, NONE, WORDS));
    CASE(8, constraint_matrix(ROW, TABLES, lent.isis, 10, NONE));
    CASE(5, constraint_matrix_no_hdpc(ROW, NONE, lent.isis, 20, WORDS));
    CASE(9, constraint_matrix_no_hdpc(ROW, TABLES, NONE, WORDS));
    CASE(8, constraint_matrix_no_hdpc(ROW, TABLES, lent.isis, 20, NONE));
}

#define SET lent.set, L * T
#define STORES lent.rows, (M + 2) * L, lent.values, (M + 2) * T

/* Where nothing arrived, no ESIs and no symbols are lent. */
static void blocks(void) {
    CASE(5, encode(ROW, NONE, 10, T, 3, SET, BYTES));
    CASE(8, encode(ROW, TABLES, 10, T, 3, NONE, BYTES));
    CASE(8, encode(ROW, TABLES, 10, T, 3, SET, NONE));
    CASE(101, solve(ROW, TABLES, 10, T, NONE, NONE, STORES, SET, OUT));
    CASE(101, solve(ROW, TABLES, 10, T, NONE, lent.symbols, 0, STORES, SET, OUT));
    CASE(101, solve(ROW, TABLES, 10, T, lent.esis, 0, NONE, STORES, SET, OUT));
    CASE(5, solve(ROW, NONE, 10, T, lent.esis, 2, lent.symbols, 2 * T, STORES, SET, OUT));
    CASE(10, solve(ROW, TABLES, 10, T, NONE, lent.symbols, 2 * T, STORES, SET, OUT));
    CASE(10, solve(ROW, TABLES, 10, T, lent.esis, 2, NONE, STORES, SET, OUT));
    CASE(8, solve(ROW, TABLES, 10, T, lent.esis, 2, lent.symbols, 2 * T, NONE, lent.values, (M + 2) * T, SET, OUT));
    CASE(8, solve(ROW, TABLES, 10, T, lent.esis, 2, lent.symbols, 2 * T, lent.rows, (M + 2) * L, NONE, SET, OUT));
    CASE(8, solve(ROW, TABLES, 10, T, lent.esis, 2, lent.symbols, 2 * T, STORES, NONE, OUT));
    CASE(8, solve(ROW, TABLES, 10, T, lent.esis, 2, lent.symbols, 2 * T, STORES, SET, NONE));
    CASE(8, solve(ROW, TABLES, 10, T, NONE, NONE, NONE, NONE, NONE, NONE));
    CASE(0, display(10, T, NONE, NONE, lent.rebuilt, 10 * T, 3, OUT));
    CASE(0, display(10, T, NONE, lent.symbols, 0, lent.rebuilt, 10 * T, 3, OUT));
    CASE(0, display(10, T, lent.esis, 0, NONE, lent.rebuilt, 10 * T, 3, OUT));
    CASE(10, display(10, T, NONE, lent.symbols, 2 * T, lent.rebuilt, 10 * T, 3, OUT));
    CASE(10, display(10, T, lent.esis, 2, NONE, lent.rebuilt, 10 * T, 3, OUT));
    CASE(8, display(10, T, lent.esis, 2, lent.symbols, 2 * T, NONE, 3, OUT));
    CASE(8, display(10, T, lent.esis, 2, lent.symbols, 2 * T, lent.rebuilt, 10 * T, 3, NONE));
}

#define STATE lent.state, SPOONRIPPLE_INTAKE_STATE
#define PIVOTS lent.pivots, L
#define ROWS lent.rows, L *L
#define VALUES lent.values, L *T

/* No slice of an intake is taken with length 0, since T is not 0 and L is above K: each is refused. */
static void intakes(void) {
    CASE(5, intake_begin(ROW, NONE, 10, T, STATE, PIVOTS, ROWS, VALUES));
    CASE(8, intake_begin(ROW, TABLES, 10, T, NONE, PIVOTS, ROWS, VALUES));
    CASE(8, intake_begin(ROW, TABLES, 10, T, STATE, NONE, ROWS, VALUES));
    CASE(8, intake_begin(ROW, TABLES, 10, T, STATE, PIVOTS, NONE, VALUES));
    CASE(8, intake_begin(ROW, TABLES, 10, T, STATE, PIVOTS, ROWS, NONE));
    CASE(8, intake_begin(ROW, TABLES, 10, T, NONE, NONE, NONE, NONE));
    CASE(10, intake_packet(3, NONE, STATE, PIVOTS, ROWS, VALUES));
    CASE(14, intake_packet(3, lent.symbols, T, NONE, PIVOTS, ROWS, VALUES));
    CASE(14, intake_packet(3, lent.symbols, T, STATE, NONE, ROWS, VALUES));
    CASE(8, intake_packet(3, lent.symbols, T, STATE, PIVOTS, NONE, VALUES));
    CASE(8, intake_packet(3, lent.symbols, T, STATE, PIVOTS, ROWS, NONE));
    CASE(14, intake_packet(3, NONE, NONE, NONE, NONE, NONE));
    CASE(14, intake_question(NONE, PIVOTS, ROWS, VALUES, SET, OUT));
    CASE(14, intake_question(STATE, NONE, ROWS, VALUES, SET, OUT));
    CASE(8, intake_question(STATE, PIVOTS, NONE, VALUES, SET, OUT));
    CASE(8, intake_question(STATE, PIVOTS, ROWS, NONE, SET, OUT));
    CASE(8, intake_question(STATE, PIVOTS, ROWS, VALUES, NONE, OUT));
    CASE(8, intake_question(STATE, PIVOTS, ROWS, VALUES, SET, NONE));
    CASE(14, intake_question(NONE, NONE, NONE, NONE, NONE, NONE));
}

int main(void) {
    if (spoonripple_row_check(FIVE, row, 9) != SPOONRIPPLE_DONE || row[5] != L) return fputs("the row has no such record\n", stderr), 2;
    if (spoonripple_intake_begin(ROW, published, 1024, 10, T, begun, SPOONRIPPLE_INTAKE_STATE, PIVOTS, ROWS, VALUES) != SPOONRIPPLE_DONE)
        return fputs("no intake is begun\n", stderr), 2;
    octets(), packets(), generators(), slabs(), matrices(), systems(), blocks(), intakes();
    printf("null pointers of length 0: %u cases, %u faults\n", cases, faults);
    return faults != 0;
}
