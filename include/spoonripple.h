/* The C interface of Spoonripple (crates/exports): a RaptorQ (RFC 6330) receiving core that is proved never to invent a byte.
 * `bindings/prepare` makes target/staticlib/libexports.a, for x86-64 Linux (x86-64-v2); bindings/c/receive.c is a receiver to begin from.
 *
 * How a call is read
 *   A number passes as itself. A slice passes as a pointer and how many elements are lent there, NAME and NAME_len.
 *   A pointer is aligned and valid for NAME_len elements. Where NAME_len is 0 nothing is read or written by it, and it may be null:
 *   each access is proved to lie below the length, no pointer is given to the compiler as one that is not null or can be
 *   read, and bindings/c/nulls.c tries every slice of every call.
 *   Where the pointer is to const, the call only reads; of all else, "writes" says which elements may change, and all others stay.
 *
 * Overlap
 *   What is lent for writing must overlap nothing else that is lent to the same call. No call can test that: it is the
 *   caller's part, and with an overlap nothing is promised. Slices that are only read may overlap one another.
 *
 * Answers
 *   The low byte of the result is a number, above it stands a part: SPOONRIPPLE_NUMBER and SPOONRIPPLE_PART read them. The number
 *   is SPOONRIPPLE_DONE, or that of a refusal in docs/01-scope.md or, 14, in docs/02-change-requests.md; spoonripple_solve and
 *   spoonripple_intake_question have two more. The part is 0 with every number but 4. A refused row has one, 1 to 10: the first of
 *   its rules that breaks, SPOONRIPPLE_PART_WIDE to SPOONRIPPLE_PART_DERIVED.
 *   So no result is 4 itself: with SPOONRIPPLE_BAD_ROW a result is compared only through SPOONRIPPLE_NUMBER.
 *   Each call lists its refusals in the order in which they are tested: the first that applies is the answer.
 *   A call that refuses has changed nothing that it was lent. No call holds memory, keeps a pointer or has a state of its own:
 *   what an intake remembers from one call to the next stands in memory that the caller lends to each of them. So calls from many
 *   threads on memory of their own are independent, and an intake may be moved between two calls, or copied.
 *   Values go to the front of `out`, which needs room for all of them; a longer slice is taken, and its rest stays. The same
 *   holds for every store and list.
 *
 * Stack
 *   spoonripple_solve and spoonripple_intake_packet take at most 16 KiB of stack where L and t are at most 2,048, and at most 300 KiB
 *   else; spoonripple_intake_question takes at most 160 KiB, on every input; every other call takes less than 2 KiB. That holds
 *   whatever is lent and whatever is answered: frames have a fixed size, no call calls itself, and none allocates. libc's memcpy and
 *   memset come on top, a few KiB where the loader binds them late: a thread with 32 KiB is enough for such blocks but for a question,
 *   which wants 176 KiB, and one with 320 KiB for all; 128 KiB (the default of musl) is not. bindings/c/stack reads the number of each
 *   call from the archive, and bindings/c/frames.c measures that of the three.
 *
 * The record of a row
 *   A parameter row is K', J, S, H, W (5.6 of the RFC, Table 2). Its record is nine numbers: these five and the four that follow
 *   from them, L = K' + S + H, P = L - W, B = W - S and P1, the smallest prime not below P. spoonripple_row_check alone makes
 *   it, of the five. A caller works none of the four out but reads them off: row[5] is L, row[6] P, row[7] B, row[8] P1.
 *   Every other call with a row takes the record, as `k, j, s, h, w, l, p, b, p1`, and verifies it: 4 where it is not one that
 *   spoonripple_row_check makes, with part 1 to 9 where the five are refused there, and part 10 where L, P, B or P1 is another;
 *   bindings/c/records.c tries that of each, and bindings/c/row_words.h says it in words. SPOONRIPPLE_ROW spreads it into the nine
 *   arguments:
 *       uint64_t row[9];
 *       uint32_t code = spoonripple_row_check(10, 254, 7, 10, 17, row, 9);
 *       if (code == SPOONRIPPLE_DONE) code = spoonripple_isi(SPOONRIPPLE_ROW(row), 10, 12, out, 1);
 *
 * Words
 *   K source symbols of T octets make a block. `tables` are the random numbers V0, V1, V2, V3 (5.5) one after the other, 1,024 in
 *   all. Row and tables are lent: any that are not refused are taken. bindings/data has the published ones, ready for #include.
 *   An ESI counts what was sent, an ISI counts rows of the matrix; spoonripple_isi makes the second from the first.
 *   a..b are the numbers from a to b, both included; for rows, columns and lists "from start to end" leaves end out.
 */
#ifndef SPOONRIPPLE_H
#define SPOONRIPPLE_H

#include <stddef.h>
#include <stdint.h>

#ifdef __cplusplus
extern "C" {
#endif

/* The number of a result, and its part: 0 but where the number is SPOONRIPPLE_BAD_ROW. */
#define SPOONRIPPLE_NUMBER(result) ((uint32_t)(result) & 255u)
#define SPOONRIPPLE_PART(result) ((uint32_t)(result) >> 8)

#define SPOONRIPPLE_DONE 0
/* An octet is divided by 0. */
#define SPOONRIPPLE_DIVISOR_ZERO 1
/* A number is outside its range. */
#define SPOONRIPPLE_OUT_OF_RANGE 2
/* Transmission information breaks its rules: spoonripple_transmission_check lists them. */
#define SPOONRIPPLE_BAD_TRANSMISSION 3
/* The parameter row breaks its rules, or L, P, B or P1 of its record is not that of the row: always with a part, so that it is
 * SPOONRIPPLE_NUMBER(result) that is 4, never the result itself. */
#define SPOONRIPPLE_BAD_ROW 4
/* The random tables are not 1,024 numbers. */
#define SPOONRIPPLE_BAD_TABLES 5
/* A row, column, range or symbol lies outside, or a resize would grow. */
#define SPOONRIPPLE_OUTSIDE 6
/* Destination and source are one row, or one physical symbol. */
#define SPOONRIPPLE_SAME_PLACE 7
/* A lent part is too short, or not of its exact length where one is named. */
#define SPOONRIPPLE_WRONG_LENGTH 8
/* An ESI of 2^24 or more, K not in 1..K' (1..56,403 where no row is lent), more than 65,535 ids or arrivals, too few ids for a
 * builder. */
#define SPOONRIPPLE_BAD_COUNT 9
/* Symbol size 0, or symbols that are not T octets each. */
#define SPOONRIPPLE_BAD_SIZE 10
/* A packet or question before the first accepted begin, or with a state that no accepted begin and no call after it left. */
#define SPOONRIPPLE_NOT_BEGUN 14
/* No refusals: what spoonripple_solve and spoonripple_intake_question answer besides. */
#define SPOONRIPPLE_CONTRADICTION 100
#define SPOONRIPPLE_OPEN 101

/* The parts of SPOONRIPPLE_BAD_ROW: the rules of a row in the order in which they are tested, of which the first that breaks is
 * given. Each says which number is wrong, where among the arguments its value stands, and what the rule asks. */
/* Of K', J, S, H, W, the arguments k, j, s, h, w, each must be below 65,536: wrong is the first that is not. */
#define SPOONRIPPLE_PART_WIDE 1
/* K', the argument k, must be from 1 to 56,403. */
#define SPOONRIPPLE_PART_KP 2
/* S, the argument s, must be odd and at least 3. */
#define SPOONRIPPLE_PART_S 3
/* H, the argument h, must be from 2 to 255. */
#define SPOONRIPPLE_PART_H 4
/* W, the argument w, must be a prime. */
#define SPOONRIPPLE_PART_W 5
/* B, which is w - s and can be below 0, must be at least 1. */
#define SPOONRIPPLE_PART_B 6
/* P, which is k + s + h - w and can be below 0, must be at least 3. */
#define SPOONRIPPLE_PART_P 7
/* ceil(B/S), which is (w - s) / s rounded up, must be below S, the argument s. */
#define SPOONRIPPLE_PART_LDPC 8
/* L, which is k + s + h, must be at most 65,535. */
#define SPOONRIPPLE_PART_L 9
/* Of L, P, B, P1, the arguments l, p, b, p1 of a call that takes a record, each must be what spoonripple_row_check makes of the
 * other five: wrong is the first that is not. */
#define SPOONRIPPLE_PART_DERIVED 10

/* The record that spoonripple_row_check wrote to uint64_t row[9], as the nine arguments of a call. */
#define SPOONRIPPLE_ROW(row)                                                                            \
    (uint32_t)(row)[0], (uint32_t)(row)[1], (uint32_t)(row)[2], (uint32_t)(row)[3], (uint32_t)(row)[4], \
    (uint32_t)(row)[5], (uint32_t)(row)[6], (uint32_t)(row)[7], (uint32_t)(row)[8]

/* ---- Octets (RFC 6330, 5.7.2) ----
 * No table is kept for them: products and powers are worked out by doubling and exclusive or, quotients from products. */

/* a + b, which is exclusive or.
 * Refusals: 8 (out has no place). Writes out[0]. */
uint32_t spoonripple_octet_add(uint8_t a, uint8_t b, uint64_t *out, size_t out_len);

/* a - b, which is the same as a + b.
 * Refusals: 8 (out has no place). Writes out[0]. */
uint32_t spoonripple_octet_sub(uint8_t a, uint8_t b, uint64_t *out, size_t out_len);

/* a * b.
 * Refusals: 8 (out has no place). Writes out[0]. */
uint32_t spoonripple_octet_mul(uint8_t a, uint8_t b, uint64_t *out, size_t out_len);

/* a + b * c.
 * Refusals: 8 (out has no place). Writes out[0]. */
uint32_t spoonripple_octet_fma(uint8_t a, uint8_t b, uint8_t c, uint64_t *out, size_t out_len);

/* a / by.
 * Refusals: 8 (out has no place), 1 (by is 0). Writes out[0]. */
uint32_t spoonripple_octet_div(uint8_t a, uint8_t by, uint64_t *out, size_t out_len);

/* Alpha to the power i, in i steps.
 * Refusals: 2 (i above 255), 8 (out has no place). Writes out[0]. */
uint32_t spoonripple_octet_alpha(size_t i, uint64_t *out, size_t out_len);

/* ---- Runs of octets (RFC 6330, 5.7.5) ----
 * Each call tells whether dst is all 0 now, whatever it was before: out[0] is 1 where all octets of dst are 0, and else 0. A dst
 * of no octets is all 0: 1. */

/* dst + src, octet by octet, in dst; out[0] tells whether dst is all 0 now.
 * Refusals: 8 (out has no place), 8 (the two differ in length). Writes all of dst, and out[0]. */
uint32_t spoonripple_run_add(uint8_t *dst, size_t dst_len, const uint8_t *src, size_t src_len, uint64_t *out, size_t out_len);

/* c * dst, octet by octet, in dst; c may be 0 or 1; out[0] tells whether dst is all 0 now.
 * Refusals: 8 (out has no place). Writes all of dst, and out[0]. */
uint32_t spoonripple_run_scale(uint8_t *dst, size_t dst_len, uint8_t c, uint64_t *out, size_t out_len);

/* dst + c * src, octet by octet, in dst; c may be 0 or 1; out[0] tells whether dst is all 0 now.
 * Refusals: 8 (out has no place), 8 (the two differ in length). Writes all of dst, and out[0]. */
uint32_t spoonripple_run_fma(uint8_t *dst, size_t dst_len, const uint8_t *src, size_t src_len, uint8_t c, uint64_t *out, size_t out_len);

/* ---- Headers and packets (RFC 6330, 3.2, 3.3.2, 3.3.3, 4.4.1.2, 4.4.2) ---- */

/* Reads a payload id of exactly 4 bytes: the block's number, the ESI.
 * Refusals: 8 (another length), 8 (out below 2 places). Writes out[0] and out[1]. */
uint32_t spoonripple_payload_id_read(const uint8_t *bytes, size_t bytes_len, uint64_t *out, size_t out_len);

/* Writes a payload id.
 * Refusals: 9 (esi of 2^24 or more), 8 (store below 4 bytes). Writes the first 4 bytes of store. */
uint32_t spoonripple_payload_id_write(uint8_t sbn, uint32_t esi, uint8_t *store, size_t store_len);

/* Reads transmission information of exactly 12 bytes and applies no rule: F, T, Z, N, Al. The reserved byte is ignored.
 * Refusals: 8 (another length), 8 (out below 5 places). Writes out[0] to out[4]. */
uint32_t spoonripple_transmission_read(const uint8_t *bytes, size_t bytes_len, uint64_t *out, size_t out_len);

/* Writes transmission information, with 0 for the reserved byte; no rule is applied.
 * Refusals: 2 (f of 2^40 or more), 8 (store below 12 bytes). Writes the first 12 bytes of store. */
uint32_t spoonripple_transmission_write(uint64_t f, uint16_t t, uint8_t z, uint16_t n, uint8_t al, uint8_t *store, size_t store_len);

/* Applies the rules: F at most 942,574,504,275, Al not 0, T a multiple of Al, T not 0, Z not 0, N not 0, N at most T/Al, and
 * ceil(ceil(F/T)/Z) at most 56,403. So with SPOONRIPPLE_DONE Al and Z are at least 1 and N is in 1..T/Al, which is proved
 * (crates/headers/proofs/Information.antt): T, Z, N and Al may be divided by without asking again. F may be 0, and Z above
 * ceil(F/T): then a block has no symbol. The crate raptorq accepts T, Z or N of 0 and N above T/Al (D36 to D39 of
 * docs/DIFFERENCES.md).
 * Refusals: 3 (a rule is broken). Nothing is lent. */
uint32_t spoonripple_transmission_check(uint64_t f, uint16_t t, uint8_t z, uint16_t n, uint8_t al);

/* Takes a packet apart: the block's number, the ESI, where its symbols' bytes begin, how many they are.
 * Refusals: 8 (below 4 bytes), 8 (out below 4 places). Writes out[0] to out[3]. */
uint32_t spoonripple_packet_read(const uint8_t *bytes, size_t bytes_len, uint64_t *out, size_t out_len);

/* Writes a packet: the payload id, and the bytes after it.
 * Refusals: 9 (esi of 2^24 or more), 8 (store below 4 + bytes_len bytes). Writes the first 4 + bytes_len bytes of store. */
uint32_t spoonripple_packet_write(uint8_t sbn, uint32_t esi, const uint8_t *bytes, size_t bytes_len, uint8_t *store, size_t store_len);

/* Partition[i, j]: IL, IS, JL, JS. i things are JL parts of IL and then JS parts of IS.
 * Refusals: 2 (j is 0), 8 (out below 4 places). Writes out[0] to out[3]. */
uint32_t spoonripple_partition(uint32_t i, uint32_t j, uint64_t *out, size_t out_len);

/* ---- Generators and the parameter row (RFC 6330, 5.3.5, 5.5, 5.6) ---- */

/* Rand[y, i, m] (5.3.5.1).
 * Refusals: 5 (tables of another length than 1,024), 2 (m is 0), 8 (out has no place). Writes out[0]. */
uint32_t spoonripple_rand(const uint32_t *tables, size_t tables_len, uint32_t y, uint8_t i, uint32_t m, uint64_t *out, size_t out_len);

/* Deg[v] (5.3.5.2) for w LT symbols; with w = 2 it is 0.
 * Refusals: 2 (v of 2^20 or more), 2 (w below 2), 8 (out has no place). Writes out[0]. */
uint32_t spoonripple_deg(uint32_t v, uint32_t w, uint64_t *out, size_t out_len);

/* Checks a parameter row and makes its record: K', J, S, H, W, L, P, B, P1. The rules: each number below 65,536, K' in 1..56,403,
 * S odd and at least 3, H in 2..255, W prime, B at least 1, P at least 3, ceil(B/S) below S, L at most 65,535. The calls that
 * take a record add one more, and that last: L, P, B and P1 are what this call makes of the five. Their places in this order are
 * the parts: the first rule that breaks is the part of the refusal, 1 to 9 here.
 * Refusals: 4 (a rule is broken, its part says which), 8 (out below 9 places). Writes out[0] to out[8]. */
uint32_t spoonripple_row_check(uint32_t k, uint32_t j, uint32_t s, uint32_t h, uint32_t w, uint64_t *out, size_t out_len);

/* The ISI of an ESI in a block of count source symbols: esi where it is below count, else esi + K' - count.
 * Refusals: 4 (the row, with its part), 9 (esi of 2^24 or more), 9 (count not in 1..K'), 8 (out has no place). Writes out[0]. */
uint32_t spoonripple_isi(uint32_t k, uint32_t j, uint32_t s, uint32_t h, uint32_t w, uint32_t l, uint32_t p, uint32_t b, uint32_t p1,
                         uint32_t count, uint32_t esi, uint64_t *out, size_t out_len);

/* The tuple of an ISI of any 32 bits (5.3.5.4): d, a, b, d1, a1, b1. An ESI goes through spoonripple_isi first.
 * Refusals: 4 (the row, with its part), 5 (the tables), 8 (out below 6 places). Writes out[0] to out[5]. */
uint32_t spoonripple_tuple(uint32_t k, uint32_t j, uint32_t s, uint32_t h, uint32_t w, uint32_t l, uint32_t p, uint32_t b, uint32_t p1,
                           const uint32_t *tables, size_t tables_len, uint32_t isi, uint64_t *out, size_t out_len);

/* ---- Symbols in lent bytes ----
 * count symbols of t bytes stand at the front of store, one after the other; t may be 0. An order of length 0 is none; one of
 * length count says that symbol i lies at physical place order[i]. Its entries may repeat, and only those used are looked at.
 * A symbol lies outside if i is count or more, or the order puts it at count or more.
 * Each call with a dest tells whether dest is all 0 now, whatever it was before: out[0] is 1 where all t bytes of dest are 0, and
 * else 0. Where t is 0 a dest has no bytes and is all 0: 1. */

/* All count * t bytes become 0.
 * Refusals: 2 (count above 131,070), 8 (store below count * t bytes). Writes the first count * t bytes of store. */
uint32_t spoonripple_slab_with_zeros(uint8_t *store, size_t store_len, size_t count, uint16_t t);

/* Where symbol i lies in a store of len bytes: the first byte, and the byte past the last.
 * Refusals: 2 (count above 131,070), 8 (out below 2 places), 8 (len below count * t), 8 (order of another length), 6 (i outside).
 * Writes out[0] and out[1]. */
uint32_t spoonripple_slab_locate(size_t len, size_t count, uint16_t t, const uint32_t *order, size_t order_len, size_t i,
                                 uint64_t *out, size_t out_len);

/* dest + src, in dest; out[0] tells whether dest is all 0 now.
 * Refusals: 2 (count above 131,070), 8 (out has no place), 8 (store below count * t bytes), 8 (order of another length), 6 (dest or
 * src outside), 7 (dest and src are one physical symbol). Writes the t bytes of dest in store, and out[0]. */
uint32_t spoonripple_slab_add_assign(uint8_t *store, size_t store_len, size_t count, uint16_t t, const uint32_t *order, size_t order_len,
                                     size_t dest, size_t src, uint64_t *out, size_t out_len);

/* scalar * dest, in dest; the scalar may be 0 or 1; out[0] tells whether dest is all 0 now.
 * Refusals: 2 (count above 131,070), 8 (out has no place), 8 (store below count * t bytes), 8 (order of another length), 6 (dest
 * outside). Writes the t bytes of dest in store, and out[0]. */
uint32_t spoonripple_slab_mulassign_scalar(uint8_t *store, size_t store_len, size_t count, uint16_t t, const uint32_t *order, size_t order_len,
                                           size_t dest, uint8_t scalar, uint64_t *out, size_t out_len);

/* dest + scalar * src, in dest; the scalar may be 0 or 1; out[0] tells whether dest is all 0 now.
 * Refusals: 2 (count above 131,070), 8 (out has no place), 8 (store below count * t bytes), 8 (order of another length), 6 (dest or
 * src outside), 7 (dest and src are one physical symbol). Writes the t bytes of dest in store, and out[0]. */
uint32_t spoonripple_slab_fma(uint8_t *store, size_t store_len, size_t count, uint16_t t, const uint32_t *order, size_t order_len,
                              size_t dest, size_t src, uint8_t scalar, uint64_t *out, size_t out_len);

/* ---- The binary matrix in lent words ----
 * height rows of ceil(width / 64) words stand at the front of words; column c of a row is bit c mod 64 of its word c / 64. The
 * bits of a row's last word past the width are stray: what works on whole words moves or adds them too, nothing counts them.
 * "Limits" is refusal 2 with a height above 131,070 or a width above 65,535; "short" is refusal 8 with words below the matrix. */

/* Every word of the matrix becomes 0, stray bits too.
 * Refusals: 2 (limits), 8 (short). Writes the words of the matrix. */
uint32_t spoonripple_matrix_new(uint64_t *words, size_t words_len, size_t height, size_t width);

/* Row i, column j: value 0 clears, any other sets.
 * Refusals: 2 (limits), 8 (short), 6 (i or j outside). Writes that one bit. */
uint32_t spoonripple_matrix_set(uint64_t *words, size_t words_len, size_t height, size_t width, size_t i, size_t j, uint8_t value);

/* Row i, column j: 0 or 1.
 * Refusals: 2 (limits), 8 (out has no place), 8 (short), 6 (i or j outside). Writes out[0]. */
uint32_t spoonripple_matrix_get(const uint64_t *words, size_t words_len, size_t height, size_t width, size_t i, size_t j,
                                uint64_t *out, size_t out_len);

/* How many ones row i has in the columns from start to end; 0 where start is end.
 * Refusals: 2 (limits), 8 (out has no place), 8 (short), 6 (i outside, start above end, end above width). Writes out[0]. */
uint32_t spoonripple_matrix_count_ones(const uint64_t *words, size_t words_len, size_t height, size_t width, size_t i, size_t start, size_t end,
                                       uint64_t *out, size_t out_len);

/* The rows from start to end with a one in column j, rising; out[0] is how many.
 * Refusals: 2 (limits), 8 (out has no place), 8 (short), 8 (list below end - start places, however many there are), 6 (j outside,
 * start above end, end above height). Writes out[0], and the first out[0] places of list. */
uint32_t spoonripple_matrix_get_ones_in_column(const uint64_t *words, size_t words_len, size_t height, size_t width, size_t j, size_t start, size_t end,
                                               uint32_t *list, size_t list_len, uint64_t *out, size_t out_len);

/* The columns from start on with a one in row i, rising; out[0] is how many.
 * Refusals: 2 (limits), 8 (out has no place), 8 (short), 8 (list below width - start places, however many there are), 6 (i
 * outside, start above width). Writes out[0], and the first out[0] places of list. */
uint32_t spoonripple_matrix_query_non_zero_columns(const uint64_t *words, size_t words_len, size_t height, size_t width, size_t i, size_t start,
                                                   uint32_t *list, size_t list_len, uint64_t *out, size_t out_len);

/* Rows i and j change places, whole words; i may be j.
 * Refusals: 2 (limits), 8 (short), 6 (i or j outside). Writes the words of the two rows. */
uint32_t spoonripple_matrix_swap_rows(uint64_t *words, size_t words_len, size_t height, size_t width, size_t i, size_t j);

/* Columns i and j change places in the rows from start on; i may be j, and a start of height or more changes nothing.
 * Refusals: 2 (limits), 8 (short), 6 (i or j outside, whatever start is). Writes the bits of the two columns in these rows. */
uint32_t spoonripple_matrix_swap_columns(uint64_t *words, size_t words_len, size_t height, size_t width, size_t i, size_t j, size_t start);

/* Row dest + row src in row dest, whole words.
 * Refusals: 2 (limits), 8 (short), 6 (dest or src outside), 7 (dest is src). Writes the words of row dest. */
uint32_t spoonripple_matrix_add_assign_rows(uint64_t *words, size_t words_len, size_t height, size_t width, size_t dest, size_t src);

/* The first new_height rows and new_width columns, packed to the front in whole words. Words past the new matrix stay as they
 * were, and bits past new_width in a row's last word are stray.
 * Refusals: 2 (limits, of the new numbers and of the old), 8 (short, of the old), 6 (new_height above height or new_width above
 * width). Writes the words of the new matrix. */
uint32_t spoonripple_matrix_resize(uint64_t *words, size_t words_len, size_t height, size_t width, size_t new_height, size_t new_width);

/* ---- The linear system (RFC 6330, 5.3.3.3 and 5.3.5.3) ---- */

/* The walk of a tuple: the d + d1 intermediate symbols that it adds up, in walk order. That is 32 at most of what
 * spoonripple_tuple gives, and 33 at most of a tuple of the caller's own (d 30 and d1 3, with W of 37 or more).
 * Refusals: 4 (the row, with its part), 2 (the tuple: d not in 1..30 or above W - 2, a not in 1..W - 1, tuple_b not below W, d1
 * not 2 or 3, a1 not in 1..P1 - 1, b1 not below P1), 8 (list below d + d1 places). Writes the first d + d1 places of list. */
uint32_t spoonripple_enc_indices(uint32_t k, uint32_t j, uint32_t s, uint32_t h, uint32_t w, uint32_t l, uint32_t p, uint32_t b, uint32_t p1,
                                 uint32_t d, uint32_t a, uint32_t tuple_b, uint32_t d1, uint32_t a1, uint32_t b1, uint32_t *list, size_t list_len);

/* The HDPC rows: H rows of L octets, row after row.
 * Refusals: 4 (the row, with its part), 5 (the tables), 8 (store below H * L octets). Writes the first H * L octets of store. */
uint32_t spoonripple_hdpc_rows(uint32_t k, uint32_t j, uint32_t s, uint32_t h, uint32_t w, uint32_t l, uint32_t p, uint32_t b, uint32_t p1,
                               const uint32_t *tables, size_t tables_len, uint8_t *store, size_t store_len);

/* The constraint matrix as bits, laid out as above with width L: S LDPC rows, H rows of 0 in the place of the HDPC rows, and one
 * row for each ISI of any 32 bits; stray bits are 0.
 * Refusals: 4 (the row, with its part), 5 (the tables), 9 (below K' ids), 9 (more than 65,535), 8 (words below the matrix).
 * Writes the (S + H + isis_len) * ceil(L / 64) words of the matrix. */
uint32_t spoonripple_constraint_matrix(uint32_t k, uint32_t j, uint32_t s, uint32_t h, uint32_t w, uint32_t l, uint32_t p, uint32_t b, uint32_t p1,
                                       const uint32_t *tables, size_t tables_len, const uint32_t *isis, size_t isis_len,
                                       uint64_t *words, size_t words_len);

/* The same without the H rows of 0.
 * Refusals: 4 (the row, with its part), 5 (the tables), 9 (below K' + H ids), 9 (more than 65,535), 8 (words below the matrix).
 * Writes the (S + isis_len) * ceil(L / 64) words of the matrix. */
uint32_t spoonripple_constraint_matrix_no_hdpc(uint32_t k, uint32_t j, uint32_t s, uint32_t h, uint32_t w, uint32_t l, uint32_t p, uint32_t b, uint32_t p1,
                                               const uint32_t *tables, size_t tables_len, const uint32_t *isis, size_t isis_len,
                                               uint64_t *words, size_t words_len);

/* ---- A block: encoding, solving, display ---- */

/* The symbol of an ESI of a block of count source symbols of t octets, from its L intermediate symbols, L * t octets. For an
 * ESI below count that is a source symbol.
 * Refusals: 4 (the row, with its part), 5 (the tables), 9 (count not in 1..K'), 9 (esi of 2^24 or more), 10 (t is 0), 8
 * (intermediates below L * t octets), 8 (out below t octets). Writes the first t octets of out. */
uint32_t spoonripple_encode(uint32_t k, uint32_t j, uint32_t s, uint32_t h, uint32_t w, uint32_t l, uint32_t p, uint32_t b, uint32_t p1,
                            const uint32_t *tables, size_t tables_len, uint32_t count, uint16_t t, uint32_t esi,
                            const uint8_t *intermediates, size_t intermediates_len, uint8_t *out, size_t out_len);

/* The intermediate symbols of a block of count source symbols of t octets, out of what arrived: n = esis_len ESIs in any order,
 * of which one may come twice, and their symbols in the same order. None is taken too, and open.
 * A set of L intermediate symbols fits if it meets the S LDPC and H HDPC rows and the padding rows K..K' - 1, and its encodings
 * are the symbols that arrived. The answer is
 *   SPOONRIPPLE_DONE           exactly one set fits: intermediate symbol c stands at c * t of out
 *                              (just as many damaged arrivals as are needed fit some set too: drop them by the link's checksum)
 *   SPOONRIPPLE_CONTRADICTION  none fits: something that arrived is not what the sender sent
 *   SPOONRIPPLE_OPEN           more than one fits: shortfall[0] independent rows are missing, so that at least so many more
 *                              arrivals are needed: with fewer, whatever they bring, the answer is not SPOONRIPPLE_DONE (theorem
 *                              not-before, docs/PROMISES.md). One more lowers the number by one or leaves it (falls-by-one), and its
 *                              row alone decides which (row-alone), unless it makes a contradiction
 * or a refusal: 4 (the row, with its part), 5 (the tables), 9 (an ESI of 2^24 or more), 9 (count not in 1..K'), 9 (more than 65,535
 * arrivals), 10 (t is 0), 10 (symbols_len is not n * t), 8 (rows, values or out too short), 8 (shortfall has no place).
 * Lent: rows and values are scratch of any content, M * L and M * t octets, where M = L - count + n; out is L * t octets.
 * Writes: after each answer that is no refusal the first M * L octets of rows and M * t of values are 0. The first L * t octets of
 * out are written only with SPOONRIPPLE_DONE, shortfall[0] only with SPOONRIPPLE_OPEN.
 * Stack: at most 16 KiB where L and t are at most 2,048 and where it refuses, at most 300 KiB else. */
uint32_t spoonripple_solve(uint32_t k, uint32_t j, uint32_t s, uint32_t h, uint32_t w, uint32_t l, uint32_t p, uint32_t b, uint32_t p1,
                           const uint32_t *tables, size_t tables_len, uint32_t count, uint16_t t,
                           const uint32_t *esis, size_t esis_len, const uint8_t *symbols, size_t symbols_len,
                           uint8_t *rows, size_t rows_len, uint8_t *values, size_t values_len, uint8_t *out, size_t out_len,
                           uint64_t *shortfall, size_t shortfall_len);

/* Where source symbol i of a block of count source symbols of t octets is displayed from: out[0] is 0 for the arrivals, of which
 * the first with ESI i counts, and 1 for the rebuilt store of count * t octets; out[1] is where its t octets begin there. Of the
 * two stores only the lengths matter.
 * Refusals: 9 (count not in 1..56,403), 9 (more than 65,535 ESIs), 9 (an ESI of 2^24 or more), 10 (t is 0), 10 (arrivals_len is
 * not esis_len * t), 8 (rebuilt below count * t octets), 8 (out below 2 places), 6 (i is count or more). Writes out[0] and out[1]. */
uint32_t spoonripple_display(uint32_t count, uint16_t t, const uint32_t *esis, size_t esis_len, const uint8_t *arrivals, size_t arrivals_len,
                             const uint8_t *rebuilt, size_t rebuilt_len, uint32_t i, uint64_t *out, size_t out_len);

/* ---- The intake ----
 * The packets of a block one at a time, as they land, and at any moment the answer that spoonripple_solve gives on them. An intake
 * is begun with row, tables, count and t; then it is given packets, in any order, an ESI more than once, and as many as come, and
 * asked, as often as one likes and with packets after it. A begin that is accepted forgets all that came before; what is said of
 * packets is said of those accepted since. Nothing counts them: past 65,535, where spoonripple_solve refuses, the answer is still the
 * one that its definition gives on all of them.
 *
 * Its memory
 *   Four parts belong to an intake and are lent to each of its calls as the last one left them: state, pivots, rows and values. They
 *   are no scratch: nobody else writes there, and no call makes them 0. Each may be longer than is asked here, and its rest stays.
 *   Row, count and t settle how much that is, however many packets come: there is a place for each of L rows and their symbols, and a
 *   packet whose row depends on those that are held takes none. Its symbol is compared with what they say of it, and that is all.
 *   state   1,037 words: 0 to 8 the row's record, 9 count, 10 t, 11 how many rows are held, 12 a mark (1: those of packets alone; 2:
 *           with the first question the LDPC, HDPC and padding rows too; 3: a contradiction came, which stays until the next accepted
 *           begin), 13 to 1,036 the tables. They may be read. All 0 is an intake that was not begun.
 *   pivots  L places.
 *   rows    L * L octets.
 *   values  L * t octets.
 *
 * Other content
 *   With anything else in them, of another intake or of none, each call still returns, reads and writes only what it is lent, and
 *   refuses or answers; what it answers is not promised. L and t are then those that the state says. 14 is the refusal, before all
 *   others, of a state with one of these, which no accepted begin and no call after it leaves: below 1,037 words; words 0 to 8 no
 *   record, word 9 not in 1..K', word 10 not in 1..65,535, word 12 not in 1..3; pivots below L places; and, but where word 12 is 3:
 *   word 11 above L, or a pivot among the first so many as word 11 says that is not below L. bindings/c/intake.c tries such content. */

/* The words of a state. */
#define SPOONRIPPLE_INTAKE_STATE 1037
/* How much an intake is lent, by the record in uint64_t row[9]: the places of pivots, the octets of rows, of values, and of out at a
 * question. They are right for all that spoonripple_intake_begin does not refuse by 4 or 10. */
#define SPOONRIPPLE_INTAKE_PIVOTS(row) ((size_t)(row)[5])
#define SPOONRIPPLE_INTAKE_ROWS(row) ((size_t)(row)[5] * (size_t)(row)[5])
#define SPOONRIPPLE_INTAKE_VALUES(row, t) ((size_t)(row)[5] * (size_t)(t))
#define SPOONRIPPLE_INTAKE_OUT(row, t) ((size_t)(row)[5] * (size_t)(t))

/* Begins the intake of a block of count source symbols of t octets, and forgets all that came before. Row and tables are copied:
 * neither need stay. pivots, rows and values may hold anything: they are measured, neither read nor written.
 * Refusals: 4 (the row, with its part), 5 (the tables), 9 (count not in 1..K'), 10 (t is 0), 8 (rows below L * L octets, values below
 * L * t octets, state below 1,037 words, pivots below L places). Writes the first 1,037 words of state. */
uint32_t spoonripple_intake_begin(uint32_t k, uint32_t j, uint32_t s, uint32_t h, uint32_t w, uint32_t l, uint32_t p, uint32_t b, uint32_t p1,
                                  const uint32_t *tables, size_t tables_len, uint32_t count, uint16_t t,
                                  uint32_t *state, size_t state_len, const uint16_t *pivots, size_t pivots_len,
                                  const uint8_t *rows, size_t rows_len, const uint8_t *values, size_t values_len);

/* Takes one packet: an ESI with its symbol, which need not stay. One that contradicts those before is taken too: the next question
 * tells. No packet is one too many, nor refused for room where the stores are as large as begin asked. The one with which L rows are
 * held takes as long as going back over all of them, and each after it little: the sums of its walk, at most 32 of them.
 * Refusals: 14 (not begun), 9 (esi of 2^24 or more), 10 (symbol_len is not t), 8 (rows below L * L octets, values below L * t octets).
 * Writes words 11 and 12 of state, the first L places of pivots, the first L * L octets of rows and L * t of values.
 * Stack: at most 16 KiB where L and t are at most 2,048 and where it refuses, at most 300 KiB else. */
uint32_t spoonripple_intake_packet(uint32_t esi, const uint8_t *symbol, size_t symbol_len,
                                   uint32_t *state, size_t state_len, uint16_t *pivots, size_t pivots_len,
                                   uint8_t *rows, size_t rows_len, uint8_t *values, size_t values_len);

/* What is known of the packets accepted since the last accepted begin: answer, symbols and shortfall that spoonripple_solve gives on
 * them, SPOONRIPPLE_DONE, SPOONRIPPLE_CONTRADICTION or SPOONRIPPLE_OPEN. Packets may go on after it, and a question may follow a
 * question. The first one takes the LDPC, HDPC and padding rows in, which takes about as long as spoonripple_solve on these packets,
 * and each packet after that costs more until L rows are held: it is worth asking once count packets were accepted. After
 * SPOONRIPPLE_OPEN asking again cannot help before as many more were accepted as the shortfall says, unless a begin was accepted
 * since: until then the answer is SPOONRIPPLE_OPEN or SPOONRIPPLE_CONTRADICTION (theorem not-before-later, docs/PROMISES.md). Packets
 * that were refused do not count.
 * Refusals: 14 (not begun), 8 (rows below L * L octets, values below L * t octets, out below L * t octets), 8 (shortfall has no place).
 * Writes words 11 and 12 of state, the first L places of pivots, the first L * L octets of rows and L * t of values; the first L * t
 * octets of out only with SPOONRIPPLE_DONE, shortfall[0] only with SPOONRIPPLE_OPEN.
 * Stack: at most 160 KiB. */
uint32_t spoonripple_intake_question(uint32_t *state, size_t state_len, uint16_t *pivots, size_t pivots_len,
                                     uint8_t *rows, size_t rows_len, uint8_t *values, size_t values_len,
                                     uint8_t *out, size_t out_len, uint64_t *shortfall, size_t shortfall_len);

#ifdef __cplusplus
}
#endif

#endif
