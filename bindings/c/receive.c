/* A receiver in C: transmission information and packets in, the object out.
 * usage: receive [N]     (only the first N packets come)
 * The delivery is bindings/data/delivery.txt, which the published crate's encoder sent: the 12 bytes of its header, and packets
 * of 4 + 4 bytes, of which three source packets were lost and four repair packets came.
 * Here all packets have come before the block is solved. A station that takes each when it lands gives it to spoonripple_intake_packet in
 * place of the two stores, after spoonripple_intake_begin, and asks spoonripple_intake_question in place of spoonripple_solve. */
#include "../../include/spoonripple.h"
#include "row_words.h"
#include <stdio.h>
#include <stdlib.h>

/* What the sender sent and the receiver has to know besides: RFC 6330's random tables and parameter rows, lent to each call. */
static const uint32_t tables[1024] = {
#include "../data/random_tables.txt"
};
static const uint32_t rows_of_table_2[5 * 477] = {
#include "../data/parameter_rows.txt"
};
static const uint8_t delivery[] = {
#include "../data/delivery.txt"
};

static void stop_at(uint32_t code, const char *where) {
    if (code == SPOONRIPPLE_DONE) return;
    fprintf(stderr, "%s: refused %u", where, (unsigned)SPOONRIPPLE_NUMBER(code));
    if (SPOONRIPPLE_PART(code) != 0) fprintf(stderr, ", part %u", (unsigned)SPOONRIPPLE_PART(code));
    fputc('\n', stderr);
    exit(2);
}

static void *room(size_t octets) {
    void *store = calloc(octets, 1);
    if (store == NULL && octets > 0) { /* a slice of length 0 may be null */
        fprintf(stderr, "no memory for %zu octets\n", octets);
        exit(2);
    }
    return store;
}

int main(int argc, char **argv) {
    uint64_t info[5], packet[4], shortfall[1];
    size_t came = (sizeof delivery - 12) / 8, n = argc > 1 ? strtoul(argv[1], NULL, 10) : came;
    if (n > came) n = came;

    /* Reading applies no rule: without the check a damaged header would make up a block size. After it T is not 0. */
    stop_at(spoonripple_transmission_read(delivery, 12, info, 5), "header");
    stop_at(spoonripple_transmission_check(info[0], info[1], info[2], info[3], info[4]), "header");
    uint64_t length = info[0];
    uint16_t t = (uint16_t)info[1];
    if (t != 4 || info[2] != 1 || info[3] != 1) return fputs("this example takes one block of symbols of 4 bytes\n", stderr), 2;

    /* K, and the row of Table 2 with the smallest K' that is not below; spoonripple_partition gives K where Z is above 1. */
    uint32_t count = (uint32_t)((length + t - 1) / t);
    const uint32_t *r = rows_of_table_2;
    while (r[0] < count) r += 5;
    /* The check makes the row's record: whatever is asked of the row, L too, is read off it. Where it refuses, `row` stays, and
     * the words name the number that is wrong: rows are typed in. */
    uint64_t row[9] = {r[0], r[1], r[2], r[3], r[4]};
    uint32_t code = spoonripple_row_check(r[0], r[1], r[2], r[3], r[4], row, 9);
    if (code != SPOONRIPPLE_DONE) return row_words(stderr, code, row), 2;

    /* The packets in the order in which they came: ESIs in one store, symbols in the other. */
    uint32_t *esis = room(n * sizeof *esis);
    uint8_t *symbols = room(n * t);
    for (size_t i = 0; i < n; i++) {
        const uint8_t *bytes = delivery + 12 + 8 * i;
        stop_at(spoonripple_packet_read(bytes, 8, packet, 4), "packet");
        esis[i] = (uint32_t)packet[1];
        for (size_t b = 0; b < t; b++) symbols[i * t + b] = bytes[packet[2] + b];
    }

    /* Each store is memory of its own: what is lent for writing may overlap nothing. */
    size_t l = row[5], m = l - count + n;
    uint8_t *rows = room(m * l), *values = room(m * t), *set = room(l * t), *source = room((size_t)count * t);
    code = spoonripple_solve(SPOONRIPPLE_ROW(row), tables, 1024, count, t, esis, n, symbols, n * t,
                             rows, m * l, values, m * t, set, l * t, shortfall, 1);
    /* Words are no bytes of the object: they go to standard error. */
    /* 'At least': fewer more do not solve it, whatever they bring (theorem not-before, docs/PROMISES.md). */
    if (code == SPOONRIPPLE_OPEN) return fprintf(stderr, "open, %u more independent packets at least\n", (unsigned)shortfall[0]), 1;
    if (code == SPOONRIPPLE_CONTRADICTION) return fputs("contradiction\n", stderr), 1;
    stop_at(code, "solve");

    /* The source symbols are the encodings of ESI 0 to K - 1; the last one ends in padding past F. */
    for (uint32_t esi = 0; esi < count; esi++)
        stop_at(spoonripple_encode(SPOONRIPPLE_ROW(row), tables, 1024, count, t, esi, set, l * t, source + (size_t)esi * t, t), "encode");
    fwrite(source, 1, length, stdout);
    return 0;
}
