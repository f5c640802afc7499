/* The six calls that change a run or a symbol tell whether it is all 0 now: out[0] is 1 or 0. Each case is held to a plain model of the
 * refusals, of the bytes and of that answer: the call has to give what the model gives and to leave all that is lent as the model does,
 * the places behind out[0] and the bytes around the destination too. */
#include "../../include/spoonripple.h"
#include <stdio.h>
#include <string.h>

enum { ADD, SCALE, FMA };
enum { MOST = 65535, CHUNK = 1024, LARGE = 131071, GAP = 5, ROOM = 3 * MOST + 2 * GAP };

/* All that is lent. A slab stands at the front of the bytes; so does a run, and behind a gap its source. */
static struct {
    uint64_t out[3];
    uint32_t order[LARGE + 1];
    uint8_t bytes[ROOM];
} lent, due;

/* What a call is given, and what it is to leave of its destination. */
static size_t out_len, dst_len, src_len, store_len, count, order_len, dest, src;
static uint16_t t;
static uint8_t c;
static enum { NOTHING, FIRST, LAST, ONE, TWO_BY_OR, TWO_BY_SUM, FRONT, CHUNKS, BACK, ANY, LEFT } left;

static uint8_t product[256][256], inverse[256];
static unsigned cases, faults, met[9], zero[3][2];

/* A small generator (xorshift64*), so that the cases are the same on every machine. */
static size_t below(size_t n) {
    static uint64_t state = 5;
    state ^= state >> 12, state ^= state << 25, state ^= state >> 27;
    return (size_t)(((state * 0x2545F4914F6CDD1Du) >> 16) % n);
}

/* a * b: copies of a, doubled, for the bits of b. */
static uint8_t times(unsigned a, unsigned b) {
    unsigned sum = 0;
    for (; b != 0; b >>= 1, a = (a << 1) ^ (a >= 128 ? 256 + 29 : 0))
        if (b % 2 == 1) sum ^= a;
    return (uint8_t)sum;
}

/* n octets of which that is left; of too few it may be none. */
static void leave(uint8_t *run, size_t n) {
    uint8_t x = (uint8_t)(1 + below(255));
    memset(run, 0, n);
    if (n == 0) return;
    if (left == FIRST) run[0] = x;
    if (left == LAST) run[n - 1] = x;
    if (left == ONE) run[below(n)] = x;
    if (left == TWO_BY_OR) run[below(n)] = x, run[below(n)] = x;                   /* their exclusive or is 0 */
    if (left == TWO_BY_SUM) run[below(n)] = x, run[below(n)] = (uint8_t)(256 - x); /* their sum in 8 bits is 0 */
    if (left == FRONT && n > CHUNK) memset(run, x, n - CHUNK);                     /* all but the last 1,024 */
    if (left == CHUNKS) memset(run, x, (n - 1) / CHUNK * CHUNK);                   /* all but the last chunk of 1,024 */
    if (left == BACK && n > CHUNK) memset(run + CHUNK, x, n - CHUNK);              /* all but the first chunk */
    for (size_t i = 0; left == ANY && i < n; i++) run[i] = (uint8_t)below(256);
}

static size_t lent_bytes(int slab) { return slab ? store_len + GAP : dst_len + src_len + 2 * GAP; }

/* Bytes of any content, or zeros; out[0] is no answer. */
static void refill(int slab) {
    size_t n = lent_bytes(slab);
    for (size_t i = 0; i < 3; i++) lent.out[i] = 0xa5a5a5a5a5a5a5a5u + i;
    memset(lent.bytes, 0, n);
    for (size_t i = 0, any = below(4); any != 0 && i < n; i++) lent.bytes[i] = (uint8_t)below(256);
}

/* Where symbol i lies; outside where that is count or more. */
static size_t place(size_t i) { return order_len == 0 || i >= count ? i : lent.order[i]; }

/* What a call makes of one octet. */
static uint8_t made(int kind, uint8_t a, uint8_t b) { return kind == SCALE ? product[c][a] : a ^ product[kind == ADD ? 1 : c][b]; }

/* The refusal that is due, the first that applies. Where there is none, 0: then the destination is laid so that the call leaves of it
 * what it is to leave. What is lent after the call is `due`. */
static uint32_t model(int kind, int slab) {
    size_t n = slab ? t : dst_len, to = 0, from = dst_len + GAP;
    int both = kind != SCALE, all = 1;
    memcpy(due.out, lent.out, sizeof due.out), memcpy(due.bytes, lent.bytes, lent_bytes(slab));
    if (slab) memcpy(due.order, lent.order, order_len * sizeof *due.order);
    if (slab && count > 131070) return 2;
    if (out_len == 0) return 8;
    if (slab && (store_len < count * t || (order_len != 0 && order_len != count))) return 8;
    if (!slab && both && dst_len != src_len) return 8;
    if (slab && (place(dest) >= count || (both && place(src) >= count))) return 6;
    if (slab && both && place(dest) == place(src)) return 7;
    if (slab) to = place(dest) * t, from = both ? place(src) * t : to;
    leave(due.bytes + to, n);
    for (size_t i = 0; i < n; i++) {
        uint8_t *a = lent.bytes + to + i, *b = lent.bytes + from + i, *after = due.bytes + to + i;
        /* What is added twice is gone; what is scaled by 0 can be anything. */
        *a = both ? made(kind, *after, *b) : c == 0 ? *after : product[inverse[c]][*after];
        *after = made(kind, *a, *b);
        all = all && *after == 0;
    }
    due.out[0] = (uint64_t)all;
    zero[kind][all]++;
    return 0;
}

static void judge(const char *call, uint32_t code, uint32_t given, int slab) {
    int out = memcmp(lent.out, due.out, sizeof due.out), bytes = memcmp(lent.bytes, due.bytes, lent_bytes(slab));
    int order = slab ? memcmp(lent.order, due.order, order_len * sizeof *due.order) : 0;
    cases++, met[code]++;
    if ((given == code && out == 0 && bytes == 0 && order == 0) || ++faults > 20) return;
    fprintf(stderr, "%s: %u, due %u", call, (unsigned)given, (unsigned)code);
    if (out != 0) fprintf(stderr, ", out is %llx %llx %llx, out[0] due %llx", (unsigned long long)lent.out[0], (unsigned long long)lent.out[1],
                          (unsigned long long)lent.out[2], (unsigned long long)due.out[0]);
    if (bytes != 0 || order != 0) fputs(bytes != 0 ? ", other bytes than are due" : ", the order has changed", stderr);
    if (slab) fprintf(stderr, " (%zu symbols of %u in %zu bytes, an order of %zu, dest %zu, src %zu", count, (unsigned)t, store_len, order_len, dest, src);
    else fprintf(stderr, " (runs of %zu and %zu", dst_len, src_len);
    fprintf(stderr, ", scalar %u, out of %zu, left %u)\n", (unsigned)c, out_len, (unsigned)left);
}

#define CASE(kind, call)                              \
    do {                                              \
        int slab = *#call == 's';                     \
        refill(slab);                                 \
        uint32_t code = model(kind, slab);            \
        judge(#call, code, spoonripple_##call, slab); \
    } while (0)

#define OUT lent.out, out_len
#define DST lent.bytes, dst_len
#define SRC lent.bytes + dst_len + GAP, src_len
#define SLAB lent.bytes, store_len, count, t, lent.order, order_len

static void runs(void) {
    CASE(ADD, run_add(DST, SRC, OUT));
    CASE(SCALE, run_scale(DST, c, OUT));
    CASE(FMA, run_fma(DST, SRC, c, OUT));
}

static void symbols(void) {
    CASE(ADD, slab_add_assign(SLAB, dest, src, OUT));
    CASE(SCALE, slab_mulassign_scalar(SLAB, dest, c, OUT));
    CASE(FMA, slab_fma(SLAB, dest, src, c, OUT));
}

enum { NONE, EACH, SHORTER, LONGER, BACKWARDS, REPEATED, OUTSIDE, ORDERS };

static void lay_order(int kind) {
    order_len = kind == NONE || count == 0 ? 0 : count - (kind == SHORTER) + (kind == LONGER);
    for (size_t i = 0; i < order_len; i++)
        lent.order[i] = (uint32_t)(kind == BACKWARDS ? count - 1 - i : kind == REPEATED ? below(count) : kind == OUTSIDE ? count - 1 + i % 3 : i);
    if (kind == OUTSIDE && count > 2) lent.order[2] = UINT32_MAX;
}

/* Whatever can be left of a destination, of lengths on both sides of what a loop may take at once, and of a chunk. */
static void answers(void) {
    static const size_t lengths[] = {0, 1, 15, 16, 17, 63, 64, 65, 1023, 1024, 1025, 2048, MOST};
    static const uint8_t scalars[] = {0, 1, 2, 142, 255};
    for (size_t n = 0; n < sizeof lengths / sizeof *lengths; n++)
        for (left = NOTHING; left < LEFT; left++)
            for (size_t s = 0; s <= sizeof scalars; s++) {
                c = s < sizeof scalars ? scalars[s] : (uint8_t)below(256);
                t = (uint16_t)lengths[n], dst_len = src_len = t, out_len = 1 + below(3);
                runs();
                for (int kind = NONE; kind < ORDERS; kind++) {
                    if (kind == SHORTER || kind == LONGER || (t == MOST && kind != EACH && kind != REPEATED)) continue;
                    count = t == MOST ? 3 : 2 + below(5), store_len = count * t + below(GAP), dest = below(count), src = below(count);
                    lay_order(kind);
                    symbols();
                }
            }
}

/* Whatever is wrong, alone and with all else. */
static void refusals(void) {
    static const size_t lengths[] = {0, 1, 2, 17, 1025}, counts[] = {0, 1, 2, 3, LARGE - 1, LARGE};
    left = ANY;
    for (size_t i = 0; i < 3 * 5 * 5; i++) {
        out_len = i % 3, dst_len = lengths[i / 3 % 5], src_len = lengths[i / 15], c = (uint8_t)below(4);
        runs();
    }
    for (size_t n = 0; n < 6; n++) {
        count = counts[n];
        /* Of many symbols a part of the cases. */
        size_t named[] = {0, 1, count, count - 1, SIZE_MAX}, names = count > 3 ? 3 : 5;
        int orders = count > 3 ? LONGER : ORDERS;
        for (size_t i = 0; i < 3 * 3 * names * names; i++)
            for (int kind = NONE; kind < orders; kind++) {
                t = (uint16_t)below(count > 3 ? 2 : 4);
                store_len = count * t == 0 || i % 3 < 2 ? count * t + i % 3 : count * t - 1;
                out_len = i / 3 % 3, c = (uint8_t)below(4);
                dest = named[i / 9 % names], src = named[i / 9 / names];
                lay_order(kind);
                symbols();
            }
    }
}

int main(void) {
    for (unsigned a = 0; a < 256; a++)
        for (unsigned b = 0; b < 256; b++) {
            product[a][b] = times(a, b);
            if (product[a][b] == 1) inverse[a] = (uint8_t)b;
        }
    answers(), refusals();
    printf("destinations that are all 0 now: %u of %u, and %u refused, %u faults\n", zero[ADD][1] + zero[SCALE][1] + zero[FMA][1], met[0],
           cases - met[0], faults);
    for (int kind = ADD; kind <= FMA; kind++)
        if (zero[kind][0] < 200 || zero[kind][1] < 200) return fputs("too few of a kind\n", stderr), 2;
    if (met[2] < 200 || met[6] < 200 || met[7] < 200 || met[8] < 200) return fputs("too few refusals\n", stderr), 2;
    return faults != 0;
}
