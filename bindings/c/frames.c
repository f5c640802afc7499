/* How much stack spoonripple_solve and the intake's packet and question take, measured on each side of the size at which their frames
 * change, and held to what the header says. Each call is made on a thread whose stack was filled with one byte: what changed below the
 * caller is counted. The second of two calls counts, since in the first one the loader may still bind libc's memcpy and memset. */
#define _POSIX_C_SOURCE 200809L
#include "../../include/spoonripple.h"
#include <pthread.h>
#include <stdio.h>
#include <stdlib.h>
#include <string.h>

enum { STACK = 1 << 20, FILL = 0xa5, SMALL = 16 * 1024, LARGE = 300 * 1024, ASKED = 160 * 1024 };

static const uint32_t tables[1024] = {
#include "../data/random_tables.txt"
};

/* K', J, S, H, W of rows of Table 2: the first one, and the two on either side of L = 2,048. */
static const uint32_t first[5] = {10, 254, 7, 10, 17}, last_small[5] = {1954, 278, 83, 11, 1979}, first_large[5] = {1979, 580, 83, 11, 2003};

/* A block of K' symbols of t octets of which the symbols of ESI 0, 1, .. come, all 0, and the answer that is due. With `damaged` ESI 0
 * comes once more and differs. */
static const struct block {
    const uint32_t *row;
    uint16_t t;
    uint32_t n;
    int damaged;
    uint32_t due, most;
} blocks[] = {
    {first, 4, 10, 0, SPOONRIPPLE_DONE, SMALL},
    {first, 2048, 10, 0, SPOONRIPPLE_DONE, SMALL},
    {first, 2048, 10, 1, SPOONRIPPLE_CONTRADICTION, SMALL},
    {last_small, 1, 2, 0, SPOONRIPPLE_OPEN, SMALL},
    {last_small, 2048, 2, 0, SPOONRIPPLE_OPEN, SMALL},
    {first_large, 0, 2, 0, SPOONRIPPLE_BAD_SIZE, SMALL},
    {first, 2049, 10, 0, SPOONRIPPLE_DONE, LARGE},
    {first, 65535, 10, 1, SPOONRIPPLE_CONTRADICTION, LARGE},
    {first_large, 1, 2, 0, SPOONRIPPLE_OPEN, LARGE},
    {first_large, 2049, 2, 0, SPOONRIPPLE_OPEN, LARGE},
};

enum { SOLVE, PACKET, QUESTION, KINDS };
static const char *const names[KINDS] = {"spoonripple_solve", "spoonripple_intake_packet", "spoonripple_intake_question"};
static size_t most[KINDS][2];
static int faults;

/* A block with its row's record and its stores: one call, its answer, and where its stack begins. */
struct run {
    const struct block *block;
    int kind;
    uint64_t record[9], shortfall[1];
    uint32_t state[SPOONRIPPLE_INTAKE_STATE], *esis, esi, code;
    uint16_t *pivots;
    uint8_t *symbols, *symbol, *rows, *values, *out;
    size_t n, l, m;
    uintptr_t top;
};

static void *room(size_t octets) {
    void *store = calloc(octets + 1, 1);
    if (store == NULL) {
        fprintf(stderr, "no memory for %zu octets\n", octets);
        exit(2);
    }
    return store;
}

/* As long as the solver asks, or an intake. */
#define STORES(r) (r)->rows, (r)->m *(r)->l, (r)->values, (r)->m *(r)->block->t
#define INTAKE(r) (r)->state, SPOONRIPPLE_INTAKE_STATE, (r)->pivots, (r)->l, STORES(r)

static void *made(void *given) {
    struct run *r = given;
    const struct block *b = r->block;
    uint8_t here;
    r->top = (uintptr_t)&here;
    if (r->kind == SOLVE)
        r->code = spoonripple_solve(SPOONRIPPLE_ROW(r->record), tables, 1024, b->row[0], b->t, r->esis, r->n, r->symbols, r->n * b->t, STORES(r),
                                    r->out, r->l * b->t, r->shortfall, 1);
    if (r->kind == PACKET) r->code = spoonripple_intake_packet(r->esi, r->symbol, b->t, INTAKE(r));
    if (r->kind == QUESTION) r->code = spoonripple_intake_question(INTAKE(r), r->out, r->l * b->t, r->shortfall, 1);
    return NULL;
}

/* How many bytes below the caller the call changed. */
static size_t on_a_thread(struct run *r, uint8_t *stack) {
    pthread_attr_t attributes;
    pthread_t thread;
    memset(stack, FILL, STACK);
    if (pthread_attr_init(&attributes) != 0 || pthread_attr_setstack(&attributes, stack, STACK) != 0 ||
        pthread_create(&thread, &attributes, made, r) != 0 || pthread_join(thread, NULL) != 0) {
        fputs("no thread\n", stderr);
        exit(2);
    }
    pthread_attr_destroy(&attributes);
    uint8_t *lowest = stack;
    while (*lowest == FILL) lowest++;
    return (size_t)(r->top - (uintptr_t)lowest);
}

/* A call of a kind: its answer is due, and where it `counts`, at most so much stack. */
static void take(struct run *r, uint8_t *stack, int kind, uint32_t due, int counts) {
    const struct block *b = r->block;
    r->kind = kind;
    size_t taken = on_a_thread(r, stack);
    uint32_t bound = kind == QUESTION ? ASKED : b->most; /* the frame of a question is one on every input */
    if (counts && taken > most[kind][b->most == LARGE]) most[kind][b->most == LARGE] = taken;
    if (r->code == due && (!counts || taken <= bound)) return;
    faults++;
    fprintf(stderr, "%s, L = %zu, T = %u: answer %u, due %u; %zu bytes of stack, at most %u\n", names[kind], r->l, (unsigned)b->t, (unsigned)r->code,
            (unsigned)due, taken, (unsigned)bound);
}

/* All that came, in one call, and then one by one: begun three times, so that each call has been made before it counts, and so that the
 * last packet comes before the first question and after it. */
static void try_block(struct run *r, uint8_t *stack) {
    const struct block *b = r->block;
    uint32_t refused = b->due == SPOONRIPPLE_BAD_SIZE ? SPOONRIPPLE_NOT_BEGUN : 0;
    for (int turn = 0; turn < 3; turn++) {
        int counts = turn > 0;
        take(r, stack, SOLVE, b->due, counts);
        uint32_t begun = spoonripple_intake_begin(SPOONRIPPLE_ROW(r->record), tables, 1024, b->row[0], b->t, INTAKE(r));
        if (begun != (refused ? b->due : SPOONRIPPLE_DONE)) faults++, fprintf(stderr, "begin: %u\n", (unsigned)begun);
        for (size_t i = 0; i < r->n; i++) {
            if (turn == 2 && i + 1 == r->n) take(r, stack, QUESTION, refused ? refused : i < b->row[0] ? SPOONRIPPLE_OPEN : SPOONRIPPLE_DONE, counts);
            r->esi = r->esis[i], r->symbol = r->symbols + i * b->t;
            take(r, stack, PACKET, refused, counts);
        }
        take(r, stack, QUESTION, refused ? refused : b->due, counts);
        /* And where the rows of LDPC, HDPC and padding are held already. */
        take(r, stack, QUESTION, refused ? refused : b->due, counts);
    }
}

int main(void) {
    void *stack;
    if (posix_memalign(&stack, 1 << 16, STACK) != 0) return fputs("no memory\n", stderr), 2;
    for (size_t i = 0; i < sizeof blocks / sizeof *blocks; i++) {
        const struct block *b = blocks + i;
        const uint32_t *row = b->row;
        struct run r = {.block = b, .n = b->n + (size_t)b->damaged};
        if (spoonripple_row_check(row[0], row[1], row[2], row[3], row[4], r.record, 9) != SPOONRIPPLE_DONE) return fputs("a row is refused\n", stderr), 2;
        r.l = r.record[5], r.m = r.l + (size_t)b->damaged;
        r.esis = room(r.n * sizeof *r.esis), r.symbols = room(r.n * b->t), r.pivots = room(r.l * sizeof *r.pivots);
        r.rows = room(r.m * r.l), r.values = room(r.m * b->t), r.out = room(r.l * b->t);
        for (uint32_t e = 0; e < b->n; e++) r.esis[e] = e;
        if (b->damaged) r.symbols[b->n * b->t] = 1;
        try_block(&r, stack);
        free(r.esis), free(r.symbols), free(r.pivots), free(r.rows), free(r.values), free(r.out);
    }
    free(stack);
    for (int kind = 0; kind < KINDS; kind++)
        printf("stack of %s, measured: %zu bytes where L and T are at most 2,048 (at most %d), else %zu (at most %d)\n", names[kind], most[kind][0],
               kind == QUESTION ? ASKED : SMALL, most[kind][1], kind == QUESTION ? ASKED : LARGE);
    return faults != 0;
}
