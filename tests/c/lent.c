/* The lent forms, run: every call is made twice, by the library's whole call on one table, and on a second table by a caller who keeps it: the walk, the entry
 * that it finds or a new one, the lent call, the clock, the bytes held, which it counts. After each call the replies, all entries, the clocks, the bytes held and both
 * memories are compared. */
#include "block_handler.h"

#include <stdio.h>
#include <string.h>

/* These are in liblent.a, and in no header of the library: a C program calls block_handler_request and block_handler_response, which make the checks too. */
size_t block_handler_find_and_free(
    struct block_handler_entry *entries, size_t entries_len, uint64_t lifetime, uint64_t time, const uint8_t *key, size_t key_len);
struct request_numbers {
    uint64_t time;
    size_t bare;
    bool given1, given2;
};
struct response_numbers {
    uint64_t time;
    size_t bare;
    bool own;
};
struct block_handler_reply block_handler_lent_request(struct block_handler_entry *e, struct block_handler_config config, size_t home, size_t away,
    uint8_t *piece, size_t piece_len, struct request_numbers numbers, const uint8_t *block1, size_t block1_len,
    const uint8_t *block2, size_t block2_len, const uint8_t *payload, size_t payload_len);
struct block_handler_reply block_handler_lent_response(struct block_handler_entry *e, struct block_handler_config config,
    uint8_t *piece, size_t piece_len, struct response_numbers numbers, const uint8_t *head, size_t head_len, const uint8_t *payload, size_t payload_len);

#define U 160
#define V 96
#define T 100
#define LIFETIME 200
#define KEYS 20      /* Four more than a table holds. */
#define CALLS 250000 /* In each mode. */

static int checks, faults;

#define CHECK(fact) check((fact), #fact, __LINE__)

static void check(bool fact, const char *text, int line)
{
    checks++;
    if (!fact && faults++ < 20)
        printf("lent.c:%d: %s\n", line, text);
}

/* ---- Chance. */

static uint64_t seed = 1;

static uint32_t chance(uint32_t below)
{
    seed ^= seed << 13;
    seed ^= seed >> 7;
    seed ^= seed << 17;
    return (uint32_t)(seed >> 32) % below;
}

/* ---- What is compared: each field, since bytes between fields say nothing. */

static bool same_block(struct block_handler_block a, struct block_handler_block b)
{
    return a.given == b.given && a.more == b.more && a.exponent == b.exponent && a.num == b.num;
}

static bool same_part(struct block_handler_part a, struct block_handler_part b)
{
    return a.from == b.from && a.to == b.to;
}

static bool same_reply(struct block_handler_reply a, struct block_handler_reply b)
{
    return a.kind == b.kind && a.refusal == b.refusal && a.code == b.code && same_block(a.block1, b.block1) && same_block(a.block2, b.block2)
        && same_part(a.part, b.part) && same_part(a.head, b.head);
}

static bool same_state(const struct block_handler_state *a, const struct block_handler_state *b)
{
    return a->assembled.len == b->assembled.len && a->assembled.exponent == b->assembled.exponent && a->cached.held == b->cached.held
        && a->cached.head == b->cached.head && a->cached.payload == b->cached.payload && same_block(a->recorded, b->recorded);
}

static bool same_entry(const struct block_handler_entry *a, const struct block_handler_entry *b)
{
    return memcmp(a->key.bytes, b->key.bytes, sizeof a->key.bytes) == 0 && a->key.len == b->key.len && a->used == b->used
        && a->touched == b->touched && same_state(&a->state, &b->state);
}

/* ---- A table with its memories. */

struct world {
    struct block_handler_table table;
    uint8_t upload[16 * U];
    uint8_t response[16 * V];
};

static struct block_handler_config config;
static struct world whole, lent;

static bool same_world(void)
{
    for (size_t i = 0; i < BLOCK_HANDLER_ENTRIES; i++)
        if (!same_entry(&whole.table.entries[i], &lent.table.entries[i]))
            return false;
    return whole.table.clock == lent.table.clock && block_handler_bytes_held(&whole.table) == lent.table.held
        && memcmp(whole.upload, lent.upload, sizeof whole.upload) == 0 && memcmp(whole.response, lent.response, sizeof whole.response) == 0;
}

static void start(bool strict)
{
    config = (struct block_handler_config){strict, T, LIFETIME, U, V};
    memset(&whole, 0xa5, sizeof whole);
    whole.table = block_handler_fresh();
    lent = whole;
}

/* ---- A call: a request, or a response. */

struct call {
    bool response;
    uint64_t time;
    uint8_t key[64], head[128], payload[256];
    size_t key_len, head_len, payload_len, bare;
    bool given1, given2, own;
    struct block_handler_option block1, block2;
};

static struct block_handler_reply by_the_library(const struct call *q)
{
    if (q->response)
        return block_handler_response(&whole.table, config, whole.upload, sizeof whole.upload, whole.response, sizeof whole.response,
            q->time, q->key, q->key_len, q->bare, q->own, q->head, q->head_len, q->payload, q->payload_len);
    return block_handler_request(&whole.table, config, whole.upload, sizeof whole.upload, whole.response, sizeof whole.response,
        q->time, q->key, q->key_len, q->bare, q->given1, q->block1.bytes, q->block1.len, q->given2, q->block2.bytes, q->block2.len,
        q->payload, q->payload_len);
}

/* A new key's entry: in use, the key's bytes and then zeros, nothing in its state. */
static struct block_handler_entry started(const struct call *q)
{
    struct block_handler_entry e;
    memset(&e, 0, sizeof e);
    memcpy(e.key.bytes, q->key, q->key_len);
    e.key.len = (uint8_t)q->key_len;
    e.used = true;
    return e;
}

static struct block_handler_reply on_entry(struct block_handler_entry *e, size_t place, const struct call *q)
{
    if (q->response)
        return block_handler_lent_response(e, config, lent.response + place * V, V, (struct response_numbers){q->time, q->bare, q->own},
            q->head, q->head_len, q->payload, q->payload_len);
    return block_handler_lent_request(e, config, place * U, place * V, lent.upload + place * U, U,
        (struct request_numbers){q->time, q->bare, q->given1, q->given2}, q->block1.bytes, q->block1.len, q->block2.bytes, q->block2.len,
        q->payload, q->payload_len);
}

static uint64_t counted(const struct block_handler_entry *entries)
{
    uint64_t sum = 0;
    for (size_t i = 0; i < BLOCK_HANDLER_ENTRIES; i++) {
        const struct block_handler_state *state = &entries[i].state;
        if (entries[i].used)
            sum += (uint64_t)state->assembled.len + (state->cached.held ? (uint64_t)state->cached.head + state->cached.payload : 0);
    }
    return sum;
}

/* Checks 2 and 3 are this caller's; every call here keeps to the limits, and so does the table. Where the walk finds no place, sixteen keys are live, and
 * it freed nothing. */
static struct block_handler_reply by_the_caller(const struct call *q)
{
    struct block_handler_reply refused = {.kind = BLOCK_HANDLER_REFUSED, .refusal = BLOCK_HANDLER_CLOCK};
    if (q->time < lent.table.clock)
        return refused;
    size_t place = block_handler_find_and_free(lent.table.entries, BLOCK_HANDLER_ENTRIES, LIFETIME, q->time, q->key, q->key_len);
    refused.refusal = BLOCK_HANDLER_FULL;
    if (place >= BLOCK_HANDLER_ENTRIES)
        return refused;
    struct block_handler_entry *e = &lent.table.entries[place];
    if (!e->used)
        *e = started(q);
    lent.table.clock = q->time;
    struct block_handler_reply reply = on_entry(e, place, q);
    lent.table.held = counted(lent.table.entries);
    return reply;
}

/* ---- Calls by chance, most of them such as a lane would make. */

static const struct block_handler_state *state_of(const struct call *q)
{
    static const struct block_handler_state nothing;
    for (size_t i = 0; i < BLOCK_HANDLER_ENTRIES; i++) {
        const struct block_handler_entry *e = &whole.table.entries[i];
        if (e->used && e->key.len == q->key_len && memcmp(e->key.bytes, q->key, q->key_len) == 0)
            return &e->state;
    }
    return &nothing;
}

static struct block_handler_option option(uint32_t num, bool more, uint8_t exponent)
{
    struct block_handler_option written = block_handler_write(config.strict, num, more, exponent);
    if (chance(50) == 0)
        written.len = chance(4);
    return written;
}

/* The next block of the key's upload, or any. */
static void with_block1(struct call *q)
{
    const struct block_handler_state *state = state_of(q);
    bool more = chance(3) != 0;
    uint8_t exponent = state->assembled.len && state->assembled.exponent < 3 ? state->assembled.exponent : (uint8_t)chance(2);
    uint32_t size = 16u << exponent, num = state->assembled.len / size;
    q->payload_len = more ? size : chance(size + 1);
    if (chance(4) == 0) {
        num = chance(10) == 0 ? chance(chance(2) ? 4096 : 1048576) : chance(4);
        exponent = (uint8_t)chance(chance(10) == 0 ? 8 : 3);
        q->payload_len = chance(40);
    }
    q->given1 = true;
    q->block1 = option(num, more, exponent);
}

static void keyed(struct call *q, uint32_t n)
{
    q->key_len = 1 + n % 5 * 15 + n % 3;
    memset(q->key, (int)('a' + n), q->key_len);
}

static struct call any_call(uint64_t now)
{
    struct call q;
    memset(&q, 0, sizeof q);
    q.response = chance(3) == 0;
    q.time = chance(100) == 0 ? now - chance((uint32_t)now + 1) : now;
    keyed(&q, chance(chance(4) == 0 ? KEYS : 6));
    q.bare = chance(20) == 0 ? T - 20 + chance(12) : 10 + chance(40);
    q.payload_len = chance(30) == 0 ? chance(256) : chance(60);
    if (!q.response && chance(3) != 0)
        with_block1(&q);
    if (!q.response && chance(2) == 0) {
        q.given2 = true;
        q.block2 = option(chance(3) == 0 ? chance(6) : 0, chance(2), (uint8_t)chance(2));
    }
    q.own = chance(20) == 0;
    q.head_len = chance(10) == 0 ? chance(129) : chance(12);
    for (size_t i = 0; i < q.payload_len; i++)
        q.payload[i] = (uint8_t)chance(256);
    memset(q.head, (int)chance(256), q.head_len);
    return q;
}

/* How often each answer and each refusal came. */
static int kinds[9], refusals[11];

static void both_ways(bool strict)
{
    uint64_t now = 1;
    int reused = 0;
    start(strict);
    memset(kinds, 0, sizeof kinds);
    memset(refusals, 0, sizeof refusals);
    for (int i = 0; i < CALLS; i++) {
        struct call q = any_call(now += chance(200) == 0 ? chance(2 * LIFETIME) : chance(6));
        const struct block_handler_entry first = whole.table.entries[0];
        struct block_handler_reply reply = by_the_library(&q), other = by_the_caller(&q);
        /* The code of refusals 2 and 3 is the library's to say. */
        if (reply.refusal == BLOCK_HANDLER_CLOCK || reply.refusal == BLOCK_HANDLER_FULL)
            other.code = reply.code;
        CHECK(same_reply(reply, other));
        CHECK(same_world());
        kinds[reply.kind]++;
        refusals[reply.refusal]++;
        reused += first.used && whole.table.entries[0].used && first.key.bytes[0] != whole.table.entries[0].key.bytes[0];
    }
    for (int kind = 0; kind < 9; kind++)
        CHECK(kinds[kind] > 100);
    for (int refusal = 2; refusal < 11; refusal++) {
        bool never = strict ? refusal == BLOCK_HANDLER_JUMP : refusal >= BLOCK_HANDLER_NOT_NEXT;
        CHECK(never ? refusals[refusal] == 0 : refusals[refusal] > 100);
    }
    CHECK(refusals[BLOCK_HANDLER_OFF_LIMITS] == 0 && reused > 100);
}

/* ---- Wrong uses: refusal 1, and the entry and its piece stay as they were. */

static struct block_handler_entry entry;
static uint8_t piece[2 * U + 2 * V];

static bool left_alone(struct block_handler_reply reply, const struct block_handler_entry *was)
{
    static const struct block_handler_block none;
    for (size_t i = 0; i < sizeof piece; i++)
        if (piece[i] != 0xa5)
            return false;
    return reply.kind == BLOCK_HANDLER_REFUSED && reply.refusal == BLOCK_HANDLER_OFF_LIMITS && same_block(reply.block1, none)
        && same_block(reply.block2, none) && reply.part.to == 0 && reply.head.to == 0 && same_entry(&entry, was);
}

static bool request_refused(struct block_handler_entry e, size_t home, size_t away, size_t len)
{
    static const uint8_t block1[1] = {0x08}, payload[16];
    static const struct request_numbers numbers = {10, 20, true, false};
    entry = e;
    return left_alone(block_handler_lent_request(&entry, config, home, away, piece, len, numbers, block1, 1, block1, 0, payload, 16), &e);
}

static bool response_refused(struct block_handler_entry e, size_t len, size_t head_len)
{
    static const uint8_t head[129], payload[60];
    static const struct response_numbers numbers = {10, 20, false};
    entry = e;
    e.state.recorded = entry.state.recorded = (struct block_handler_block){.given = true};
    return left_alone(block_handler_lent_response(&entry, config, piece, len, numbers, head, head_len, payload, 60), &e);
}

static bool both_refused(struct block_handler_entry e)
{
    return request_refused(e, 0, 0, U) && response_refused(e, V, 8);
}

static void wrong_uses(void)
{
    const size_t far = (size_t)1 << 32;
    struct call q = {.key_len = 0};
    start(true);
    memset(piece, 0xa5, sizeof piece);
    keyed(&q, 3);
    const struct block_handler_entry good = started(&q);
    struct block_handler_entry e = good;
    e.used = false;
    CHECK(both_refused(e));
    e = good, e.touched = 11;
    CHECK(both_refused(e));
    e = good, e.state.assembled.len = U + 1;
    CHECK(both_refused(e));
    e = good, e.state.assembled.exponent = 1;
    CHECK(both_refused(e));
    e = good, e.state.cached = (struct block_handler_cached){true, 129, 0};
    CHECK(both_refused(e));
    e = good, e.state.cached = (struct block_handler_cached){false, 0, 1};
    CHECK(both_refused(e));
    CHECK(request_refused(good, 0, 0, U - 1) && request_refused(good, 0, 0, U + 1) && request_refused(good, 0, 0, 0) && request_refused(good, 0, 0, V));
    CHECK(response_refused(good, V - 1, 8) && response_refused(good, V + 1, 8) && response_refused(good, 0, 8) && response_refused(good, U, 8));
    CHECK(request_refused(good, far, 0, U) && request_refused(good, 0, far, U) && response_refused(good, V, 129));
    /* The same with nothing wrong is taken. */
    CHECK(!request_refused(good, far - 1, far - 1, U) && entry.state.assembled.len == 16 && entry.touched == 10 && piece[15] == 0 && piece[16] == 0xa5);
    memset(piece, 0xa5, sizeof piece);
    CHECK(!response_refused(good, V, 36) && entry.state.cached.held && entry.touched == 10 && piece[95] == 0 && piece[96] == 0xa5);
}

/* A row of another length: its expired entries are freed, and nothing else is touched. */
static void other_lengths(void)
{
    static const struct block_handler_entry free_entry;
    for (size_t len = 0; len <= 20; len++) {
        struct block_handler_entry row[21], old[21];
        for (uint32_t i = 0; i < 21; i++) {
            struct call q = {.key_len = 0};
            keyed(&q, i);
            row[i] = started(&q);
            row[i].touched = i % 2 ? 1000 : 1000 - LIFETIME;
            old[i] = row[i];
        }
        block_handler_find_and_free(row, len, LIFETIME, 1000, row[20].key.bytes, row[20].key.len);
        for (size_t i = 0; i < 21; i++)
            CHECK(same_entry(&row[i], i < len && i % 2 == 0 ? &free_entry : &old[i]));
    }
}

int main(void)
{
    both_ways(false);
    both_ways(true);
    wrong_uses();
    other_lengths();
    printf("lent.c: %d checks, %d faults\n", checks, faults);
    return faults == 0 ? 0 : 1;
}
