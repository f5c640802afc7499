/* The intake, call by call. Nights: begins, packets and questions in any order, on stores for L places whatever number of packets comes,
 * held to a plain model of the refusals and, at each question, to spoonripple_solve on the packets accepted since the last accepted begin.
 * Other content: from moments of such nights state, pivots and stores are damaged, mixed up and cut short; each call has to return, to
 * refuse where the model does and else to give an answer, and to write only where the header says.
 * Every call is made twice on the same content, with each slice ending at the end of a page and with each beginning at the start of one;
 * no page beside them can be read or written. Both have to give the same answer and to leave the same octets. What begin measures alone
 * is lent from pages that cannot be read at all. */
#define _DEFAULT_SOURCE
#include "../../include/spoonripple.h"
#include <signal.h>
#include <stdio.h>
#include <stdlib.h>
#include <string.h>
#include <sys/mman.h>
#include <unistd.h>

/* ---- Memory that is lent ---- */

enum { STATE, PIVOTS, ROWS, VALUES, OUT, SHORTFALL, SYMBOL, TABLES, SLICES };
enum { PAGE = 4096, ROOM = 1 << 23, WORDS = SPOONRIPPLE_INTAKE_STATE, K = 9, T, HELD, MARK, COPIED };
static const size_t width[SLICES] = {4, 2, 1, 1, 1, 8, 1, 4};

/* The elements of each slice, and its octets. */
struct memory {
    size_t len[SLICES];
    uint8_t *bytes[SLICES];
};
static struct memory night, other, kept, twice, old[4];
static uint8_t *pages[SLICES], *dark;

static uint8_t *mapped(size_t octets) {
    uint8_t *at = mmap(NULL, octets, PROT_NONE, MAP_PRIVATE | MAP_ANONYMOUS | MAP_NORESERVE, -1, 0);
    if (at == MAP_FAILED) exit((fputs("no memory\n", stderr), 2));
    return at;
}

static void map_all(void) {
    struct memory *all[] = {&night, &other, &kept, &twice, old, old + 1, old + 2, old + 3};
    dark = mapped(2 * ROOM);
    for (int i = 0; i < SLICES; i++) {
        pages[i] = mapped(ROOM + 2 * PAGE) + PAGE;
        mprotect(pages[i], ROOM, PROT_READ | PROT_WRITE);
        for (size_t m = 0; m < sizeof all / sizeof *all; m++) mprotect(all[m]->bytes[i] = mapped(ROOM), ROOM, PROT_READ | PROT_WRITE);
    }
}

static size_t octets(const struct memory *m, int slice) { return m->len[slice] * width[slice]; }

static void copy(struct memory *to, const struct memory *from) {
    memcpy(to->len, from->len, sizeof to->len);
    for (int i = 0; i < SLICES; i++) memcpy(to->bytes[i], from->bytes[i], octets(from, i));
}

static uint32_t word(const struct memory *m, size_t i) { return ((const uint32_t *)(const void *)m->bytes[STATE])[i]; }
static void set_word(struct memory *m, size_t i, uint32_t to) { ((uint32_t *)(void *)m->bytes[STATE])[i] = to; }
static uint16_t *pivots(const struct memory *m) { return (uint16_t *)(void *)m->bytes[PIVOTS]; }

/* ---- Cases ---- */

static unsigned long long seed = 6330;
static unsigned cases, faults, begins, packets, asked[102], crowded, met[2][102];
static int in_other;

/* A small generator (xorshift64*), so that the cases are the same on every machine. */
static size_t below(size_t n) {
    seed ^= seed >> 12, seed ^= seed << 25, seed ^= seed >> 27;
    return (size_t)(((seed * 0x2545F4914F6CDD1Du) >> 16) % n);
}

static void noise(uint8_t *at, size_t n) {
    for (size_t i = 0; i < n; i++) at[i] = (uint8_t)below(256);
}

static void fault(const char *what, uint32_t code, uint32_t due) {
    if (++faults <= 20) fprintf(stderr, "call %u: %s (answer %u, due %u)\n", cases, what, (unsigned)code, (unsigned)due);
}

/* A page beside a slice was touched, or a call does not end. */
static void stopped(int sign) {
    fprintf(stderr, "call %u: stopped by signal %d\n", cases, sign);
    _exit(1);
}

enum { BEGIN, PACKET, QUESTION };

/* A call, and what it is given besides its memory. */
struct call {
    int kind;
    uint32_t esi, count;
    uint16_t t;
    uint64_t row[9];
};

/* Makes it with each slice at the end of its pages, or at their start. What it leaves is read back and taken away: no pointer is kept. */
static uint32_t made(struct memory *m, const struct call *c, int at_end) {
    uint8_t *at[SLICES];
    for (int i = 0; i < SLICES; i++) {
        at[i] = at_end ? pages[i] + ROOM - octets(m, i) : pages[i];
        memcpy(at[i], m->bytes[i], octets(m, i));
    }
    uint32_t *state = (void *)at[STATE], *tables = (void *)at[TABLES], code;
    uint16_t *places = (void *)at[PIVOTS];
    uint64_t *shortfall = (void *)at[SHORTFALL];
    const size_t *n = m->len;
    if (c->kind == BEGIN)
        code = spoonripple_intake_begin(SPOONRIPPLE_ROW(c->row), tables, n[TABLES], c->count, c->t, state, n[STATE], (void *)dark, n[PIVOTS], dark,
                                        n[ROWS], dark, n[VALUES]);
    else if (c->kind == PACKET)
        code = spoonripple_intake_packet(c->esi, at[SYMBOL], n[SYMBOL], state, n[STATE], places, n[PIVOTS], at[ROWS], n[ROWS], at[VALUES], n[VALUES]);
    else
        code = spoonripple_intake_question(state, n[STATE], places, n[PIVOTS], at[ROWS], n[ROWS], at[VALUES], n[VALUES], at[OUT], n[OUT],
                                           shortfall, n[SHORTFALL]);
    for (int i = 0; i < SLICES; i++) memcpy(m->bytes[i], at[i], octets(m, i)), memset(at[i], 0xa5, octets(m, i));
    return code;
}

/* ---- The model ---- */

/* What a state says: whether it was begun, as the header has it; `free` where that may be told either way. */
struct said {
    size_t l, t;
    int begun, free;
};

static struct said reads(const struct memory *m) {
    struct said s = {0, 0, 0, 0};
    uint64_t made_of[9];
    if (m->len[STATE] < WORDS) return s;
    if (spoonripple_row_check(word(m, 0), word(m, 1), word(m, 2), word(m, 3), word(m, 4), made_of, 9) != SPOONRIPPLE_DONE) return s;
    for (size_t i = 5; i < 9; i++)
        if (word(m, i) != made_of[i]) return s;
    uint32_t k = word(m, K), held = word(m, HELD), mark = word(m, MARK);
    s.l = made_of[5], s.t = word(m, T);
    if (m->len[PIVOTS] < s.l || k < 1 || k > word(m, 0) || s.t < 1 || s.t > 65535 || mark < 1 || mark > 3) return s;
    if (mark < 3 && held > s.l) return s;
    for (size_t i = 0; mark < 3 && i < held; i++)
        if (pivots(m)[i] >= s.l) return s;
    /* Of a contradiction no row is held. */
    s.begun = 1, s.free = mark == 3 && held != 0;
    return s;
}

/* The refusal that is due, the first that applies, or 0. */
static uint32_t refusal(const struct memory *m, const struct call *c, const struct said *s) {
    uint64_t out[1];
    uint32_t row = c->kind == BEGIN ? spoonripple_isi(SPOONRIPPLE_ROW(c->row), 1, 0, out, 1) : 0;
    if (c->kind != BEGIN && !s->begun) return SPOONRIPPLE_NOT_BEGUN;
    if (row != 0) return row;
    if (c->kind == BEGIN) {
        if (m->len[TABLES] != 1024) return 5;
        if (c->count < 1 || c->count > c->row[0]) return 9;
        if (c->t == 0) return 10;
        size_t rows = SPOONRIPPLE_INTAKE_ROWS(c->row), values = SPOONRIPPLE_INTAKE_VALUES(c->row, c->t);
        return m->len[ROWS] < rows || m->len[VALUES] < values || m->len[STATE] < WORDS || m->len[PIVOTS] < SPOONRIPPLE_INTAKE_PIVOTS(c->row) ? 8 : 0;
    }
    if (c->kind == PACKET && c->esi >= 1 << 24) return 9;
    if (c->kind == PACKET && m->len[SYMBOL] != s->t) return 10;
    if (m->len[ROWS] < s->l * s->l || m->len[VALUES] < s->l * s->t) return 8;
    return c->kind == QUESTION && (m->len[OUT] < s->l * s->t || m->len[SHORTFALL] < 1) ? 8 : 0;
}

/* Whether all stayed but the octets from `from` to `to` of a slice. */
static int stays(const struct memory *m, int slice, size_t from, size_t to) {
    size_t n = octets(m, slice);
    const uint8_t *was = kept.bytes[slice], *is = m->bytes[slice];
    if (from >= to) return memcmp(was, is, n) == 0;
    return memcmp(was, is, from) == 0 && memcmp(was + to, is + to, n - to) == 0;
}

/* Whether the call wrote only what it may: nothing where it refused. */
static int within(const struct memory *m, const struct call *c, const struct said *s, uint32_t code) {
    int refused = code != 0 && code != 100 && code != 101, begins = c->kind == BEGIN, changed = 0;
    size_t to[SLICES] = {4 * COPIED, 2 * s->l, s->l * s->l, s->l * s->t, code == 0 ? s->l * s->t : 0, code == 101 ? 8 : 0, 0, 0};
    if (c->kind == PACKET) to[OUT] = to[SHORTFALL] = 0;
    for (int i = 0; i < SLICES; i++) {
        size_t from = i == STATE && !begins ? 4 * HELD : 0, end = begins ? (i == STATE ? 4 * WORDS : 0) : to[i];
        changed |= !stays(m, i, from, refused ? 0 : end);
    }
    return !changed;
}

/* The words that a begin leaves. */
static int opens(const struct memory *m, const struct call *c) {
    int right = word(m, K) == c->count && word(m, T) == c->t && word(m, HELD) == 0 && word(m, MARK) == 1;
    for (size_t i = 0; i < 9; i++) right = right && word(m, i) == c->row[i];
    return right && memcmp(m->bytes[STATE] + 4 * COPIED, m->bytes[TABLES], 4 * 1024) == 0;
}

/* Makes a call both ways and holds it to the model: its answer, and what has changed. */
static uint32_t tried(struct memory *m, const struct call *c) {
    cases++;
    struct said s = reads(m);
    uint32_t due = refusal(m, c, &s);
    copy(&kept, m), copy(&twice, m);
    uint32_t code = made(m, c, 1), again = made(&twice, c, 0);
    if (code != again) fault("another answer at the start of a page than at the end", code, again);
    for (int i = 0; i < SLICES; i++)
        if (memcmp(m->bytes[i], twice.bytes[i], octets(m, i)) != 0) fault("other octets at the start of a page than at the end", code, again);
    int answered = due == 0 && (code == 0 || (c->kind == QUESTION && (code == 100 || code == 101)));
    if (code != due && !answered && !(s.free && code == SPOONRIPPLE_NOT_BEGUN)) fault("another answer than is due", code, due);
    if (!within(m, c, &s, code)) fault("octets have changed that must stay", code, due);
    if (c->kind == BEGIN && code == 0 && !opens(m, c)) fault("not the words of a begin", code, due);
    if (SPOONRIPPLE_NUMBER(code) < 102) met[in_other][SPOONRIPPLE_NUMBER(code)]++;
    return code;
}

/* ---- Nights ---- */

enum { SENT = 200 };
static const uint32_t published[1024] = {
#include "../data/random_tables.txt"
};
/* K', J, S, H, W: the smallest that the check takes, rows of Table 2, and the first one with a large frame. */
static const uint32_t five[][5] = {{3, 1, 3, 2, 5},     {1, 254, 7, 12, 17},  {10, 254, 7, 10, 17}, {12, 630, 7, 10, 19},   {18, 682, 11, 10, 29},
                                   {26, 80, 11, 10, 37}, {46, 506, 13, 10, 59}, {114, 5, 19, 10, 127}, {1979, 580, 83, 11, 2003}};
enum { FIRST = 2, LONG = sizeof five / sizeof *five - 1 };
/* A night's blocks: small, of symbols with a large frame, of a row with one. */
enum { ORDINARY, WIDE, LONGER };

/* What was begun last and what was accepted since, the symbols that its sender encodes, and the least number of packets that may solve it: as many as were
 * there when it was open and the shortfall more (theorem not-before-later, docs/PROMISES.md). */
static struct {
    struct call begun;
    uint64_t least;
    uint32_t tables[1024], esis[SENT], n;
    uint8_t symbols[ROOM], set[ROOM];
} stretch;
static uint8_t scratch[2][ROOM], solved[ROOM];

/* What spoonripple_solve says of it. */
static uint32_t solve(uint64_t *shortfall) {
    const struct call *b = &stretch.begun;
    size_t l = b->row[5], m = l - b->count + stretch.n;
    return spoonripple_solve(SPOONRIPPLE_ROW(b->row), stretch.tables, 1024, b->count, b->t, stretch.esis, stretch.n, stretch.symbols,
                             (size_t)stretch.n * b->t, scratch[0], m * l, scratch[1], m * b->t, solved, l * b->t, shortfall, 1);
}

/* A sender's symbols: those of a block of any octets, or 0 where such a block does not make all of them or makes too many. */
static void choose_set(void) {
    const struct call *b = &stretch.begun;
    uint64_t shortfall[1];
    memset(stretch.set, 0, SPOONRIPPLE_INTAKE_OUT(b->row, b->t));
    if (b->count > SENT) return;
    for (uint32_t i = 0; i < b->count; i++) stretch.esis[i] = i;
    noise(stretch.symbols, (size_t)b->count * b->t);
    stretch.n = b->count;
    if (solve(shortfall) == SPOONRIPPLE_DONE) memcpy(stretch.set, solved, SPOONRIPPLE_INTAKE_OUT(b->row, b->t));
    stretch.n = 0;
}

static void take_row(struct call *c, const uint32_t row[5]) { spoonripple_row_check(row[0], row[1], row[2], row[3], row[4], c->row, 9); }

/* One thing that a begin refuses. */
static void wrong_begin(struct call *c, size_t len[SLICES]) {
    switch (below(8)) {
    case 0: c->row[below(9)] ^= (uint64_t)1 << below(16); break;
    case 1: len[TABLES] = below(2) * 1023; break;
    case 2: c->count = below(2) ? 0 : (uint32_t)c->row[0] + 1; break;
    case 3: c->t = 0; break;
    default: len = len + below(VALUES + 1), *len = *len > 0 && below(2) ? *len - 1 : below(*len + 1);
    }
}

static struct call any_begin(int size) {
    static const uint16_t ts[] = {1, 1, 2, 4, 7, 16, 33}, wide[] = {2049, 4000, 65535};
    struct call c = {.kind = BEGIN};
    take_row(&c, five[size == WIDE ? FIRST : size == LONGER ? LONG : below(LONG)]);
    c.count = (uint32_t)(size == LONGER || below(2) ? c.row[0] : 1 + below(c.row[0]));
    c.t = size == WIDE ? wide[below(3)] : ts[below(sizeof ts / sizeof *ts)];
    return c;
}

/* Tables, and slices of the least length; sometimes one to three things are wrong, and sometimes slices are longer. */
static void lend_begin(struct memory *m, struct call *c, size_t wrong) {
    size_t *len = m->len;
    memcpy(m->bytes[TABLES], published, sizeof published);
    if (below(4) == 0) noise(m->bytes[TABLES], sizeof published);
    len[TABLES] = 1024, len[STATE] = WORDS, len[PIVOTS] = SPOONRIPPLE_INTAKE_PIVOTS(c->row);
    len[ROWS] = SPOONRIPPLE_INTAKE_ROWS(c->row), len[VALUES] = SPOONRIPPLE_INTAKE_VALUES(c->row, c->t);
    for (; wrong > 0; wrong--) wrong_begin(c, len);
    if (below(3) == 0) len[STATE] += below(3), len[PIVOTS] += below(3), len[ROWS] += below(3), len[VALUES] += below(3);
}

static void step_begin(int size) {
    struct call c = any_begin(size);
    size_t was[SLICES], *len = night.len;
    memcpy(was, len, sizeof was);
    lend_begin(&night, &c, below(3) == 0 ? 1 + below(3) : 0);
    if (tried(&night, &c) != SPOONRIPPLE_DONE) {
        memcpy(len, was, sizeof was);
        return;
    }
    begins++;
    stretch.begun = c, stretch.n = 0, stretch.least = 0;
    memcpy(stretch.tables, night.bytes[TABLES], sizeof stretch.tables);
    len[TABLES] = 0; /* it has copied them */
    choose_set();
}

/* An ESI that came before, one of the first, any, or one that is refused. */
static uint32_t any_esi(void) {
    size_t kind = below(24);
    if (kind < 4 && stretch.n > 0) return stretch.esis[below(stretch.n)];
    if (kind == 4) return (uint32_t)below(1 << 24);
    if (kind == 5) return below(2) ? 1 << 24 : UINT32_MAX;
    return (uint32_t)below(2 * stretch.begun.count + 6);
}

static void step_packet(size_t damage) {
    const struct call *b = &stretch.begun;
    struct call c = {.kind = PACKET, .esi = any_esi()};
    uint8_t *symbol = night.bytes[SYMBOL];
    size_t l = b->row[5];
    night.len[SYMBOL] = b->t;
    spoonripple_encode(SPOONRIPPLE_ROW(b->row), stretch.tables, 1024, b->count, b->t, c.esi & 0xffffff, stretch.set, l * b->t, symbol, b->t);
    if (b->t > 0 && below(damage) == 0) symbol[below(b->t)] ^= (uint8_t)(1 + below(255));
    if (below(24) == 0) night.len[SYMBOL] = below(2) ? b->t + 1u : b->t / 2u;
    if (tried(&night, &c) != SPOONRIPPLE_DONE) return;
    packets++;
    memcpy(stretch.symbols + (size_t)stretch.n * b->t, symbol, b->t);
    stretch.esis[stretch.n++] = c.esi;
}

static void step_question(void) {
    const struct call *b = &stretch.begun;
    struct call c = {.kind = QUESTION};
    uint64_t told, shortfall[1];
    size_t out = SPOONRIPPLE_INTAKE_OUT(b->row, b->t);
    night.len[OUT] = out + below(3), night.len[SHORTFALL] = 1 + below(2);
    noise(night.bytes[OUT], out < PAGE ? out + 3 : PAGE), noise(night.bytes[SHORTFALL], 16);
    uint32_t code = tried(&night, &c);
    if (code == SPOONRIPPLE_NOT_BEGUN) return;
    uint32_t due = solve(shortfall);
    asked[due]++, crowded += stretch.n > b->row[5];
    memcpy(&told, night.bytes[SHORTFALL], sizeof told);
    if (code != due) fault("another answer than that of spoonripple_solve", code, due);
    else if (code == SPOONRIPPLE_DONE && memcmp(night.bytes[OUT], solved, out) != 0) fault("other symbols than those of spoonripple_solve", code, due);
    else if (code == SPOONRIPPLE_OPEN && told != shortfall[0]) fault("another shortfall than that of spoonripple_solve", code, due);
    else if (code == SPOONRIPPLE_DONE && stretch.n < stretch.least) fault("solved before as many came as the shortfall said", code, due);
    else if (code == SPOONRIPPLE_OPEN && stretch.n + told > stretch.least) stretch.least = stretch.n + told;
}

/* ---- Other content ---- */

/* A word of the front: a number at an end of its range, one beside it, or one that stands elsewhere. */
static void spoil_word(struct memory *m) {
    static const uint32_t ends[] = {0, 1, 2, 3, 4, 65535, 65536, UINT32_MAX};
    size_t at = below(3) == 0 ? below(COPIED) : K + below(COPIED - K), from = below(4);
    uint32_t was = word(m, at);
    set_word(m, at, from == 0 ? ends[below(8)] : from == 1 ? was + 1 : from == 2 ? was - 1 : word(m, below(COPIED)));
}

/* The record of another row, and pivots for it. */
static uint32_t other_row(struct memory *m) {
    struct call c = {0};
    take_row(&c, five[below(200) == 0 ? LONG : below(LONG)]);
    for (size_t i = 0; i < 9; i++) set_word(m, i, (uint32_t)c.row[i]);
    for (size_t i = 0; i < c.row[5]; i++) pivots(m)[i] = (uint16_t)below(c.row[5]);
    if (m->len[PIVOTS] < c.row[5]) m->len[PIVOTS] = c.row[5];
    return (uint32_t)c.row[5];
}

/* Numbers that fit one another, or nearly: any number of rows is held, often all that can be or one less, or one more; of the longest row
 * few, since going back over all of them takes seconds. */
static void plausible(struct memory *m) {
    uint32_t l = other_row(m), kp = word(m, 0), k = kp > 200 ? kp : (uint32_t)(1 + below(kp)), full = l - (uint32_t)below(2);
    set_word(m, K, k), set_word(m, T, (uint32_t)(1 + below(20))), set_word(m, MARK, (uint32_t)(1 + below(3)));
    set_word(m, HELD, l > 1000 ? (uint32_t)below(40) : below(3) == 0 ? full : (uint32_t)below(l + 2));
    if (below(2)) noise(m->bytes[STATE] + 4 * COPIED, 4 * 1024);
}

/* One part of it is another's, or any octets, or 0. */
static void spoil_part(struct memory *m, int slice) {
    const struct memory *from = old + below(4);
    size_t n = octets(m, slice);
    switch (below(4)) {
    case 0: noise(m->bytes[slice], n); break;
    case 1: memset(m->bytes[slice], below(2) ? 0 : 255, n); break;
    case 2: m->bytes[slice][n > 0 ? below(n) : 0] ^= (uint8_t)(1 + below(255)); break;
    default:
        m->len[slice] = from->len[slice];
        memcpy(m->bytes[slice], from->bytes[slice], octets(from, slice));
    }
}

static void spoil(struct memory *m) {
    size_t kind = below(12), l = word(m, 5) % 4096;
    if (kind < 3) spoil_word(m);
    else if (kind == 3 || kind == 10) plausible(m);
    else if (kind == 11) other_row(m);
    else if (kind == 4) set_word(m, MARK, (uint32_t)(1 + below(3)));
    else if (kind == 5) set_word(m, COPIED + below(1024), (uint32_t)below(1 << 30));
    else if (kind == 6 && l > 0) pivots(m)[below(l)] = (uint16_t)(below(3) == 0 ? l : below(l));
    else if (kind == 7 && l > 0) {
        for (size_t i = 0; i < l; i++) pivots(m)[i] = (uint16_t)below(l);
    } else spoil_part(m, (int)below(VALUES + 1));
}

/* Every slice as long as the state says, if there is room; what is new in it holds anything. */
static void fit(struct memory *m) {
    struct said s = reads(m);
    size_t needed[SLICES] = {WORDS, s.l, s.l * s.l, s.l * s.t, s.l * s.t, 1, s.t, 0};
    if (!s.begun || s.l * s.l > ROOM || s.l * s.t > ROOM) return;
    for (int i = 0; i < SLICES; i++) {
        if (needed[i] > m->len[i] && needed[i] - m->len[i] < PAGE) noise(m->bytes[i] + octets(m, i), (needed[i] - m->len[i]) * width[i]);
        m->len[i] = needed[i];
    }
}

/* One slice is shorter by one or by many. */
static void cut(struct memory *m) {
    size_t *len = m->len + below(SYMBOL + 1);
    if (*len > 0) *len = below(2) ? *len - 1 : below(*len);
}

static struct call any_call(void) {
    struct call c = {.kind = below(2) ? PACKET : QUESTION, .esi = any_esi()};
    return c;
}

/* A moment of the night with one to three things that are other than they were left, and one to three calls. */
static void other_content(void) {
    in_other = 1;
    copy(&other, &night);
    for (size_t i = 1 + below(3); i > 0; i--) spoil(&other);
    if (below(4) != 0) fit(&other);
    if (below(4) == 0) cut(&other);
    for (size_t i = 1 + below(3); i > 0; i--) {
        struct call c = any_call();
        tried(&other, &c);
    }
    in_other = 0;
}

/* The same content, and a call that is refused: for one thing, or for more than one, of which the first is told. */
static void refusals(void) {
    copy(&other, &night);
    struct call c = below(3) == 0 ? any_begin(ORDINARY) : any_call();
    if (c.kind == BEGIN) {
        lend_begin(&other, &c, 1 + below(3));
        tried(&other, &c);
        return;
    }
    if (below(3) == 0) c.esi |= 1 << 24;
    if (below(3) == 0) other.len[SYMBOL]++;
    if (below(8) == 0) memset(other.bytes[STATE], 0, octets(&other, STATE));
    for (size_t i = below(4); i > 0; i--) cut(&other);
    tried(&other, &c);
}

static void run_night(int size, size_t steps) {
    static const size_t rates[] = {(size_t)1 << 40, 40, 8};
    size_t damage = rates[below(3)], asked = 2 + below(12), others = size == ORDINARY ? 2 : 1;
    memset(&stretch.begun, 0, sizeof stretch.begun), stretch.n = 0;
    for (int i = 0; i < SLICES; i++) night.len[i] = 0, noise(night.bytes[i], PAGE);
    night.len[STATE] = WORDS;
    memset(night.bytes[STATE], 0, 4 * WORDS);
    while (steps-- > 0) {
        size_t kind = below(40), soon = stretch.n >= 2 * stretch.begun.row[5] ? 8 : 1;
        if (kind < soon) step_begin(size);
        else if (kind % asked == 1) step_question();
        else step_packet(damage);
        for (size_t i = 0; i < others; i++) other_content();
        refusals();
    }
    copy(old + below(4), &night);
}

int main(void) {
    static const uint32_t answers[] = {0, 8, 9, 10, 14, 100, 101};
    unsigned refused = 0;
    signal(SIGSEGV, stopped), signal(SIGBUS, stopped), signal(SIGALRM, stopped);
    alarm(900);
    map_all();
    for (size_t i = 0; i < 500; i++) run_night(ORDINARY, 20 + below(80));
    for (size_t i = 0; i < 6; i++) run_night(WIDE, 30), run_night(LONGER, 15);
    for (uint32_t number = 1; number < 100; number++) refused += met[0][number];
    printf("an intake: %u begins, %u packets, %u questions solved, %u contradictions, %u open, %u of them with more packets than places, ", begins, packets,
           asked[0], asked[100], asked[101], crowded);
    printf("%u refused calls; with other content", refused);
    for (size_t i = 0; i < 7; i++) printf("%s answer %u %u times", i > 0 ? "," : "", (unsigned)answers[i], met[1][answers[i]]);
    printf("; %u calls, each made twice, %u faults\n", cases, faults);
    for (size_t i = 0; i < 7; i++)
        if (met[0][answers[i]] < 200 || met[1][answers[i]] < 200 || crowded < 200) return fprintf(stderr, "too few answers %u\n", (unsigned)answers[i]), 2;
    return faults != 0;
}
