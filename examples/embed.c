/* Two stations and one question: which coupons of station 1 were weighed at station 2, and what did they lose?
 *
 * COUPON (number, date) is at site 1, WEIGH (number, date, loss) at site 2, joined on their numbers; the program reduces each by the
 * other and brings the rows to site 1. Messages go through `carry`, where a radio would be; each value message is sent twice.
 *
 * Build: bin/staticlib && cc -std=c99 -Iinclude examples/embed.c target/staticlib/libboundary.a -o embed
 */
#include <stdio.h>
#include <stdlib.h>

#include "legestran.h"

#define SLICE(array) { array, sizeof(array) / sizeof((array)[0]) }

/* Domains: number, date, loss, each of 1,000. A join; the targets are COUPON's number and WEIGH's loss. */
static const uint8_t envelope_bytes[] = {
    'C', 'P', 'N', 1, 0,
    3, 0xe8, 3, 0, 0, 0xe8, 3, 0, 0, 0xe8, 3, 0, 0,
    2,
    1, 2, 3, 0, 0, 0, 0, 4, 3, 0, 0, 0, 1, 4, 2, 0, 0, 0,
    2, 3, 4, 0, 0, 0, 0, 4, 3, 0, 0, 0, 1, 4, 2, 0, 0, 0, 2, 4, 3, 0, 0, 0,
    1, 2, 0, 0, 1, 0,
    2, 0, 0, 1, 2,
};

/* Site 1 assembles. Step 0 reduces WEIGH by COUPON's numbers, step 1 COUPON by WEIGH's. */
static const uint8_t program_bytes[] = { 'S', 'J', 'P', 1, 0, 1, 2, 1, 0, 0, 0, 0, 0, 1, 0 };

/* Row counts, then rows; the other site's relation has none. */
static const uint32_t coupons[] = { 3, 0, 11, 20, 12, 20, 13, 21 };
static const uint32_t weighings[] = { 0, 4, 11, 20, 5, 12, 20, 7, 12, 20, 7, 14, 22, 3 };

static const legestran_bytes envelope = SLICE(envelope_bytes);
static const legestran_bytes program = SLICE(program_bytes);

/* A station: its tables, and what it keeps between calls. */
struct station {
    legestran_words tables;
    uint8_t marks[4];
    uint32_t state[LEGESTRAN_STATE_WORDS];
    uint32_t store[LEGESTRAN_STORE_WORDS];
};

static struct station one = { SLICE(coupons), { 0 }, { 0 }, { 0 } };
static struct station two = { SLICE(weighings), { 0 }, { 0 }, { 0 } };

/* The length that a call wrote; a refusal ends the example. */
static uint32_t taken(const char *what, uint64_t answer)
{
    if (legestran_number(answer) != LEGESTRAN_TAKEN) {
        printf("%s: refused %u %u\n", what, legestran_number(answer), legestran_value(answer));
        exit(1);
    }
    return legestran_value(answer);
}

static legestran_words state_of(struct station *s) { legestran_words w = { s->state, LEGESTRAN_STATE_WORDS }; return w; }
static legestran_bytes marks_of(struct station *s) { legestran_bytes b = { s->marks, sizeof s->marks }; return b; }

static void open_station(struct station *s, uint32_t site)
{
    legestran_bytes_out marks = { s->marks, sizeof s->marks };
    legestran_words_out state = { s->state, LEGESTRAN_STATE_WORDS };
    taken("open", legestran_open(envelope, program, site, 7, s->tables, marks, state));
}

/* Where the radio would be. */
static uint64_t carry(const uint32_t *message, uint32_t length, struct station *to)
{
    legestran_words_out state = { to->state, LEGESTRAN_STATE_WORDS };
    legestran_bytes_out marks = { to->marks, sizeof to->marks };
    legestran_words_out store = { to->store, LEGESTRAN_STORE_WORDS };
    legestran_words words = { message, length };
    return legestran_receive(envelope, program, state, to->tables, marks, store, words);
}

static void send_values(struct station *from, uint32_t step, struct station *to)
{
    static uint32_t message[LEGESTRAN_VALUES_WORDS];
    legestran_words_out out = SLICE(message);
    uint32_t length = taken("make values", legestran_make_values(envelope, program, state_of(from), from->tables, marks_of(from), step, out));
    taken("receive values", carry(message, length, to));
    printf("step %u: %u values\n", step, length - 3);
    uint64_t again = carry(message, length, to);
    printf("the same once more: refused %u\n", legestran_number(again));
}

static void send_rows(struct station *from, uint32_t relation, struct station *to)
{
    static uint32_t message[LEGESTRAN_ROWS_WORDS];
    legestran_words_out out = SLICE(message);
    uint32_t length = taken("make rows", legestran_make_rows(envelope, program, state_of(from), from->tables, marks_of(from), relation, out));
    taken("receive rows", carry(message, length, to));
    printf("relation %u: %u rows\n", relation, message[2]);
}

int main(void)
{
    static uint32_t answer[64];
    legestran_words_out out = SLICE(answer);
    legestran_words store = { one.store, LEGESTRAN_STORE_WORDS };

    open_station(&one, 1);
    open_station(&two, 2);
    send_values(&one, 0, &two);
    send_values(&two, 1, &one);
    send_rows(&one, 0, &one);
    send_rows(&two, 1, &one);
    uint32_t words = taken("answer", legestran_answer_at_end(envelope, program, state_of(&one), store, out));
    for (uint32_t i = 0; i + 1 < words; i += 2)
        printf("coupon %u lost %u\n", answer[i], answer[i + 1]);
    return 0;
}
