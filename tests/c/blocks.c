/* The static library as a C program uses it: a list pushed in blocks, a page fetched in blocks, every refusal, wrong lengths, the bytes held, the
 * options of both modes. */
#include "block_handler.h"

#include <stdio.h>
#include <string.h>

#define U 1024
#define V 512
#define LIST 1000
#define PAGE 300
#define SIZE 64

static int checks, faults;

#define CHECK(fact) check((fact), #fact, __LINE__)

static void check(bool fact, const char *text, int line)
{
    checks++;
    if (!fact) {
        faults++;
        printf("blocks.c:%d: %s\n", line, text);
    }
}

/* A handler, with memories between fences that no call may touch. */
struct handler {
    struct block_handler_config config;
    struct block_handler_table table;
    uint8_t fence1[64];
    uint8_t upload[16 * U];
    uint8_t fence2[64];
    uint8_t response[16 * V];
    uint8_t fence3[64];
};

static struct handler h;

static void start(bool strict)
{
    memset(&h, 0xa5, sizeof h);
    h.config = block_handler_default_config(strict, U, V);
    h.table = block_handler_fresh();
}

static bool fences_stand(void)
{
    static const uint8_t *fences[3] = {h.fence1, h.fence2, h.fence3};
    for (int i = 0; i < 3; i++)
        for (int j = 0; j < 64; j++)
            if (fences[i][j] != 0xa5)
                return false;
    return true;
}

/* The bytes held, counted by a walk over the entries. */
static uint64_t walked(void)
{
    uint64_t sum = 0;
    for (int i = 0; i < BLOCK_HANDLER_ENTRIES; i++) {
        const struct block_handler_entry *e = &h.table.entries[i];
        if (e->used)
            sum += e->state.assembled.len;
        if (e->used && e->state.cached.held)
            sum += (uint64_t)e->state.cached.head + e->state.cached.payload;
    }
    return sum;
}

/* What holds after every call on a table within its limits. */
static void check_after(void)
{
    CHECK(fences_stand());
    CHECK(block_handler_bytes_held(&h.table) == walked());
}

/* A request: the block options are absent where they are NULL. */
struct request {
    uint64_t time;
    const char *key;
    size_t bare;
    const struct block_handler_option *block1, *block2;
    const uint8_t *payload;
    size_t len;
};

static const uint8_t nothing[1];
static const struct block_handler_option none;

static struct block_handler_reply ask(struct request q)
{
    const struct block_handler_option *block1 = q.block1 ? q.block1 : &none, *block2 = q.block2 ? q.block2 : &none;
    struct block_handler_reply reply = block_handler_request(&h.table, h.config, h.upload, sizeof h.upload, h.response,
        sizeof h.response, q.time, (const uint8_t *)q.key, strlen(q.key), q.bare, q.block1 != NULL, block1->bytes, block1->len,
        q.block2 != NULL, block2->bytes, block2->len, q.payload ? q.payload : nothing, q.len);
    check_after();
    return reply;
}

static struct block_handler_reply answer(uint64_t time, const char *key, bool own, const char *head, const uint8_t *payload, size_t len)
{
    struct block_handler_reply reply = block_handler_response(&h.table, h.config, h.upload, sizeof h.upload, h.response,
        sizeof h.response, time, (const uint8_t *)key, strlen(key), 1000, own, (const uint8_t *)head, strlen(head), payload, len);
    check_after();
    return reply;
}

static bool block_is(struct block_handler_block block, uint32_t num, bool more, uint8_t exponent)
{
    return block.given && block.num == num && block.more == more && block.exponent == exponent;
}

static bool no_block(struct block_handler_block block)
{
    return !block.given && block.num == 0 && !block.more && block.exponent == 0;
}

static bool refused(struct block_handler_reply reply, uint8_t number, uint8_t code)
{
    return reply.kind == BLOCK_HANDLER_REFUSED && reply.refusal == number && reply.code == code && no_block(reply.block1)
        && no_block(reply.block2) && reply.part.to == 0 && reply.head.to == 0;
}

static bool answered(struct block_handler_reply reply, enum block_handler_kind kind, uint8_t code)
{
    return reply.kind == kind && reply.refusal == 0 && reply.code == code;
}

static void fill(uint8_t *bytes, size_t len)
{
    for (size_t i = 0; i < len; i++)
        bytes[i] = (uint8_t)(i * 7 + i / 251);
}

/* Two lanes push a list each, their blocks crossing, while a third sends what is refused. */
static void push_list(bool strict)
{
    static uint8_t list[2][LIST];
    static const char *lanes[2] = {"lane 1", "lane 2"};
    start(strict);
    fill(list[0], LIST);
    memset(list[1], 'x', LIST);
    for (uint32_t num = 0; num * SIZE < LIST; num++) {
        bool more = (num + 1) * SIZE < LIST;
        struct block_handler_option block1 = block_handler_write(strict, num, more, 2);
        struct block_handler_option far = block_handler_write(strict, 4000, true, 2);
        for (int lane = 0; lane < 2; lane++) {
            const uint8_t *payload = list[lane] + num * SIZE;
            size_t len = more ? SIZE : LIST - num * SIZE;
            struct block_handler_reply reply = ask((struct request){num, lanes[lane], 20, &block1, NULL, payload, len});
            CHECK(block_is(reply.block1, num, false, 2) && no_block(reply.block2));
            struct block_handler_bytes body = block_handler_body_bytes(reply, payload, len, h.upload, sizeof h.upload);
            if (more) {
                CHECK(answered(reply, BLOCK_HANDLER_CONTINUE, 2 * 32 + 31));
                CHECK(body.len == 0);
            } else {
                CHECK(answered(reply, BLOCK_HANDLER_HANDED, 0));
                CHECK(body.len == LIST && memcmp(body.at, list[lane], LIST) == 0);
                CHECK(body.at == h.upload + lane * U);
            }
        }
        struct block_handler_reply odd = ask((struct request){num, "lane 3", 20, &far, NULL, list[0], SIZE});
        CHECK(strict ? refused(odd, 9, 4 * 32 + 8) : refused(odd, 6, 5 * 32));
    }
    CHECK(h.table.entries[0].state.assembled.len == 0 && h.table.entries[0].used);
}

/* A shorter list is pushed over one that was cancelled: plain mode keeps the old tail, strict mode does not. */
static void push_again(bool strict)
{
    uint8_t old[64], new[32];
    struct block_handler_option first = block_handler_write(strict, 0, true, 0), block1;
    start(strict);
    memset(old, 'o', sizeof old);
    memset(new, 'n', sizeof new);
    for (uint32_t num = 0; num < 4; num++) {
        block1 = block_handler_write(strict, num, true, 0);
        CHECK(answered(ask((struct request){0, "lane", 20, &block1, NULL, old, 16}), BLOCK_HANDLER_CONTINUE, 95));
    }
    CHECK(answered(ask((struct request){0, "lane", 20, &first, NULL, new, 16}), BLOCK_HANDLER_CONTINUE, 95));
    block1 = block_handler_write(strict, 1, false, 0);
    struct block_handler_reply reply = ask((struct request){0, "lane", 20, &block1, NULL, new + 16, 16});
    struct block_handler_bytes body = block_handler_body_bytes(reply, new, 16, h.upload, sizeof h.upload);
    CHECK(body.len == (strict ? 32u : 64u) && memcmp(body.at, new, 32) == 0);
    CHECK(strict || memcmp(body.at + 32, old, 32) == 0);
}

static void fetch_page(void)
{
    static uint8_t page[PAGE], got[PAGE];
    start(true);
    fill(page, PAGE);

    struct block_handler_reply reply = ask((struct request){5, "screen", 20, NULL, NULL, page, 3});
    CHECK(answered(reply, BLOCK_HANDLER_PASS, 0));
    struct block_handler_bytes body = block_handler_body_bytes(reply, page, 3, h.upload, sizeof h.upload);
    CHECK(body.at == page && body.len == 3);

    /* T 1152 and a bare length of 1000 leave 140 bytes: chunks of 128. */
    reply = answer(6, "screen", false, "head", page, PAGE);
    CHECK(answered(reply, BLOCK_HANDLER_FIRST, 0) && block_is(reply.block2, 0, true, 3) && no_block(reply.block1));
    struct block_handler_bytes sent = block_handler_sent_bytes(reply, page, PAGE);
    CHECK(sent.at == page && sent.len == 128);

    memcpy(got, sent.at, sent.len);
    size_t len = sent.len;
    for (uint32_t num = 1; len < PAGE; num++) {
        struct block_handler_option block2 = block_handler_write(h.config.strict, num, false, 3);
        reply = ask((struct request){6 + num, "screen", 20, NULL, &block2, NULL, 0});
        CHECK(answered(reply, BLOCK_HANDLER_SERVED, 0) && no_block(reply.block1));
        CHECK(block_is(reply.block2, num, (num + 1) * 128 < PAGE, 3));
        struct block_handler_bytes head = block_handler_served_head_bytes(reply, h.response, sizeof h.response);
        struct block_handler_bytes chunk = block_handler_served_chunk_bytes(reply, h.response, sizeof h.response);
        CHECK(head.at == h.response && head.len == 4 && memcmp(head.at, "head", 4) == 0);
        CHECK(chunk.at == h.response + 4 + len && chunk.len > 0 && chunk.len <= PAGE - len);
        if (chunk.len == 0 || chunk.len > PAGE - len)
            return;
        memcpy(got + len, chunk.at, chunk.len);
        len += chunk.len;
    }
    CHECK(memcmp(got, page, PAGE) == 0);

    /* The cache is gone with the last chunk. */
    struct block_handler_option block2 = block_handler_write(h.config.strict, 1, false, 3);
    CHECK(answered(ask((struct request){20, "screen", 20, NULL, &block2, NULL, 0}), BLOCK_HANDLER_PASS, 0));

    /* The value recorded last asks for bytes 128 to 255; of 200 bytes they are the last. */
    reply = answer(21, "screen", false, "head", page, 200);
    sent = block_handler_sent_bytes(reply, page, 200);
    CHECK(answered(reply, BLOCK_HANDLER_WHOLE, 0) && block_is(reply.block2, 1, false, 3) && sent.at == page + 128 && sent.len == 72);
    reply = answer(22, "screen", true, "head", page, PAGE);
    sent = block_handler_sent_bytes(reply, page, PAGE);
    CHECK(answered(reply, BLOCK_HANDLER_PLAIN, 0) && sent.at == page && sent.len == PAGE);
}

static bool same_block(struct block_handler_block a, struct block_handler_block b)
{
    return a.given == b.given && a.more == b.more && a.exponent == b.exponent && a.num == b.num;
}

static bool same_entry(const struct block_handler_entry *a, const struct block_handler_entry *b)
{
    return memcmp(a->key.bytes, b->key.bytes, 64) == 0 && a->key.len == b->key.len && a->used == b->used && a->touched == b->touched
        && a->state.assembled.len == b->state.assembled.len && a->state.assembled.exponent == b->state.assembled.exponent
        && a->state.cached.held == b->state.cached.held && a->state.cached.head == b->state.cached.head
        && a->state.cached.payload == b->state.cached.payload && same_block(a->state.recorded, b->state.recorded);
}

/* Field by field, since padding has no meaning. */
static bool nothing_changed(const struct handler *before)
{
    for (int i = 0; i < BLOCK_HANDLER_ENTRIES; i++)
        if (!same_entry(&h.table.entries[i], &before->table.entries[i]))
            return false;
    return h.table.clock == before->table.clock && h.table.held == before->table.held && memcmp(h.upload, before->upload, sizeof h.upload) == 0
        && memcmp(h.response, before->response, sizeof h.response) == 0;
}

/* Refusals 4 to 10, which leave the memories as they were and touch the entry. */
static void refusals(bool strict)
{
    static struct handler before;
    static uint8_t bytes[2000];
    struct block_handler_option first = block_handler_write(strict, 0, true, 2), next = block_handler_write(strict, 1, true, 6);
    struct block_handler_option far = block_handler_write(strict, 4095, true, 6), reserved = block_handler_write(strict, 0, true, 7);
    start(strict);
    CHECK(answered(ask((struct request){1, "lane", 20, &first, NULL, bytes, 64}), BLOCK_HANDLER_CONTINUE, 95));
    before = h;
    CHECK(refused(ask((struct request){1, "lane", 1141, &first, NULL, bytes, 64}), 4, 160));
    CHECK(refused(ask((struct request){1, "lane", 1140, &first, NULL, bytes, 64}), 5, 160));
    if (strict) {
        CHECK(refused(ask((struct request){1, "lane", 20, &reserved, NULL, bytes, 2000}), 10, 128));
        CHECK(refused(ask((struct request){1, "lane", 20, &first, NULL, bytes, 63}), 10, 128));
        CHECK(refused(ask((struct request){1, "lane", 20, &far, NULL, bytes, 1024}), 9, 136));
        CHECK(refused(ask((struct request){1, "lane", 20, &next, NULL, bytes, 1024}), 9, 136));
    } else {
        CHECK(refused(ask((struct request){1, "lane", 20, &far, NULL, bytes, 1024}), 6, 160));
        CHECK(refused(ask((struct request){1, "lane", 20, &next, NULL, bytes, 1024}), 7, 160));
    }
    CHECK(nothing_changed(&before));

    CHECK(answered(ask((struct request){1, "lane", 1000, NULL, NULL, bytes, 140}), BLOCK_HANDLER_TOO_LARGE, 141));
    CHECK(refused(answer(2, "lane", false, "head", bytes, V), 7, 160));
    CHECK(answered(answer(2, "lane", false, "head", bytes, V - 4), BLOCK_HANDLER_FIRST, 0));
    CHECK(refused(ask((struct request){3, "lane", 20, NULL, &far, NULL, 0}), 8, 128));
    CHECK(h.table.entries[0].state.cached.held && h.table.entries[0].touched == 3 && h.table.clock == 3);
}

/* Refusals 2 and 3, which leave everything. */
static void clock_and_table(void)
{
    static struct handler before;
    char key[] = "lane a";
    start(true);
    for (int i = 0; i < BLOCK_HANDLER_ENTRIES; i++) {
        key[5] = (char)('a' + i);
        CHECK(answered(ask((struct request){10 + (uint64_t)i, key, 20, NULL, NULL, NULL, 0}), BLOCK_HANDLER_PASS, 0));
    }
    before = h;
    CHECK(refused(ask((struct request){24, "lane a", 20, NULL, NULL, NULL, 0}), 2, 160));
    CHECK(refused(ask((struct request){120009, "another", 20, NULL, NULL, NULL, 0}), 3, 160));
    CHECK(nothing_changed(&before));
    CHECK(answered(ask((struct request){120010, "another", 20, NULL, NULL, NULL, 0}), BLOCK_HANDLER_PASS, 0));
    CHECK(memcmp(h.table.entries[0].key.bytes, "another", 7) == 0 && h.table.entries[0].key.len == 7);
}

static struct block_handler_reply lengths(size_t upload, size_t response, size_t key, size_t bare, size_t payload)
{
    static const uint8_t bytes[65536];
    return block_handler_request(
        &h.table, h.config, h.upload, upload, h.response, response, 1, bytes, key, bare, false, bytes, 0, false, bytes, 0, bytes, payload);
}

/* Refusal 1: wrong lengths, settings and tables, which leave everything. */
static void off_limits(void)
{
    static struct handler before;
    static const uint8_t head[129];
    const size_t u = sizeof h.upload, v = sizeof h.response;
    start(false);
    before = h;
    CHECK(refused(lengths(u - 1, v, 4, 20, 0), 1, 160));
    CHECK(refused(lengths(u + 1, v, 4, 20, 0), 1, 160));
    CHECK(refused(lengths(0, v, 4, 20, 0), 1, 160));
    CHECK(refused(lengths(u, v - 1, 4, 20, 0), 1, 160));
    CHECK(refused(lengths(u, v + 1, 4, 20, 0), 1, 160));
    CHECK(refused(lengths(v, u, 4, 20, 0), 1, 160));
    CHECK(refused(lengths(u, v, 0, 20, 0), 1, 160));
    CHECK(refused(lengths(u, v, 65, 20, 0), 1, 160));
    CHECK(refused(lengths(u, v, 4, 65536, 0), 1, 160));
    CHECK(refused(lengths(u, v, 4, SIZE_MAX, 0), 1, 160));
    CHECK(refused(lengths(u, v, 4, 20, 65536), 1, 160));
    CHECK(refused(block_handler_response(&h.table, h.config, h.upload, u, h.response, v, 1, head, 4, 20, true, head, 129, head, 0), 1, 160));

    struct block_handler_config right = h.config;
    h.config.limit = 0;
    CHECK(refused(lengths(u, v, 4, 20, 0), 1, 160));
    h.config = right;
    h.config.lifetime = 4294967296;
    CHECK(refused(lengths(u, v, 4, 20, 0), 1, 160));
    h.config = right;
    h.config.upload = SIZE_MAX / 16 + U;
    CHECK(refused(lengths(u, v, 4, 20, 0), 1, 160));
    h.config = right;
    CHECK(nothing_changed(&before));

    h.table.entries[3].touched = 1;
    before = h;
    CHECK(refused(lengths(u, v, 4, 20, 0), 1, 160));
    CHECK(nothing_changed(&before));
    h.table.entries[3].touched = 0;
    CHECK(answered(lengths(u, v, 4, 20, 0), BLOCK_HANDLER_PASS, 0));
    CHECK(answered(lengths(u, v, 64, 20, 0), BLOCK_HANDLER_PASS, 0));
    CHECK(fences_stand());
}

/* A block of 64 bytes of this lane's list. */
static struct block_handler_reply push(uint64_t time, const char *lane, uint32_t num, bool more, const struct block_handler_option *block2)
{
    static const uint8_t bytes[SIZE];
    struct block_handler_option block1 = block_handler_write(h.config.strict, num, more, 2);
    return ask((struct request){time, lane, 20, &block1, block2, bytes, SIZE});
}

static bool holds(uint64_t bytes)
{
    return block_handler_bytes_held(&h.table) == bytes;
}

/* What is held, step by step: lists that are taken and handed on, a page that is cached, cached anew and fetched. */
static void bytes_held(bool strict)
{
    static uint8_t page[V];
    struct block_handler_option chunk0 = block_handler_write(strict, 0, false, 3), chunk1 = block_handler_write(strict, 1, false, 3);
    struct block_handler_option far = block_handler_write(strict, 9, false, 3);
    start(strict);
    CHECK(holds(0));
    CHECK(answered(push(1, "lane 1", 0, true, NULL), BLOCK_HANDLER_CONTINUE, 95) && holds(64));
    CHECK(answered(push(1, "lane 1", 1, true, NULL), BLOCK_HANDLER_CONTINUE, 95) && holds(128));
    CHECK(answered(push(1, "lane 2", 0, true, NULL), BLOCK_HANDLER_CONTINUE, 95) && holds(192));
    /* Block 0 again: strict mode starts afresh, plain mode writes it over itself. */
    CHECK(answered(push(1, "lane 1", 0, true, NULL), BLOCK_HANDLER_CONTINUE, 95) && holds(strict ? 128 : 192));
    CHECK(answered(push(1, "lane 1", 1, true, NULL), BLOCK_HANDLER_CONTINUE, 95) && holds(192));
    /* Handed on, and what stays is the other lane's. */
    CHECK(answered(push(1, "lane 1", 2, false, NULL), BLOCK_HANDLER_HANDED, 0) && holds(64));

    /* First, and First over the older response. What is sent as it is or refused keeps that one. */
    CHECK(answered(ask((struct request){2, "screen", 20, NULL, NULL, NULL, 0}), BLOCK_HANDLER_PASS, 0) && holds(64));
    CHECK(answered(answer(2, "screen", false, "head", page, PAGE), BLOCK_HANDLER_FIRST, 0) && holds(64 + 4 + PAGE));
    CHECK(answered(answer(2, "screen", false, "a head", page, 200), BLOCK_HANDLER_FIRST, 0) && holds(64 + 6 + 200));
    CHECK(answered(answer(2, "screen", true, "head", page, PAGE), BLOCK_HANDLER_PLAIN, 0) && holds(64 + 6 + 200));
    CHECK(refused(answer(2, "screen", false, "head", page, V), 7, 160) && holds(64 + 6 + 200));

    /* The last chunk drops the cache. One before it does not, nor does a response that is sent whole. */
    CHECK(answered(ask((struct request){3, "screen", 20, NULL, &chunk0, NULL, 0}), BLOCK_HANDLER_SERVED, 0) && holds(64 + 6 + 200));
    CHECK(answered(answer(3, "screen", false, "head", page, 100), BLOCK_HANDLER_WHOLE, 0) && holds(64 + 6 + 200));
    CHECK(answered(ask((struct request){3, "screen", 20, NULL, &chunk1, NULL, 0}), BLOCK_HANDLER_SERVED, 0) && holds(64));

    /* Refusal 8 in a request whose body was complete: the body is gone, the cache stays. */
    CHECK(answered(answer(4, "screen", false, "head", page, PAGE), BLOCK_HANDLER_FIRST, 0) && holds(64 + 4 + PAGE));
    CHECK(answered(push(4, "screen", 0, true, NULL), BLOCK_HANDLER_CONTINUE, 95) && holds(128 + 4 + PAGE));
    CHECK(refused(ask((struct request){4, "screen", 20, NULL, &far, NULL, 0}), 8, 128) && holds(128 + 4 + PAGE));
    CHECK(refused(push(4, "screen", 1, false, &far), 8, 128) && holds(64 + 4 + PAGE));
    /* So is one whose request is served a chunk. */
    CHECK(answered(push(5, "screen", 0, true, NULL), BLOCK_HANDLER_CONTINUE, 95) && holds(128 + 4 + PAGE));
    CHECK(answered(push(5, "screen", 1, false, &chunk1), BLOCK_HANDLER_SERVED, 0) && holds(64 + 4 + PAGE));
}

/* Expired entries count until a call frees them. */
static void bytes_expired(bool strict)
{
    static uint8_t page[PAGE];
    struct block_handler_option far = block_handler_write(strict, 4000, true, 2);
    start(strict);
    const uint64_t end = 5 + h.config.lifetime;
    push(5, "lane 1", 0, true, NULL);
    ask((struct request){5, "screen", 20, NULL, NULL, NULL, 0});
    answer(5, "screen", false, "head", page, PAGE);
    push(6, "lane 2", 0, true, NULL);
    push(6, "lane 2", 1, true, NULL);
    CHECK(holds(64 + 304 + 128));

    /* Refusals 1 and 2 free nothing. */
    CHECK(refused(ask((struct request){end, "lane 2", 65536, NULL, NULL, NULL, 0}), 1, 160) && holds(64 + 304 + 128));
    CHECK(refused(push(4, "lane 2", 2, true, NULL), 2, 160) && holds(64 + 304 + 128));
    /* The first two have expired by then, and a refused call of the third frees them. */
    struct block_handler_reply reply = ask((struct request){end, "lane 2", 20, &far, NULL, page, SIZE});
    CHECK((strict ? refused(reply, 9, 136) : refused(reply, 6, 160)) && holds(128));
    /* A key that expired itself begins anew. */
    CHECK(answered(push(2 * end, "lane 2", 0, true, NULL), BLOCK_HANDLER_CONTINUE, 95) && holds(64));
}

/* Both calls on the table as it stands get refusal 1, and every byte of the table and the memories stays. */
static bool both_refused(uint64_t time)
{
    static struct handler before;
    static const uint8_t bytes[SIZE];
    memcpy(&before, &h, sizeof h);
    struct block_handler_reply request = block_handler_request(&h.table, h.config, h.upload, sizeof h.upload, h.response, sizeof h.response,
        time, bytes, 4, 20, false, bytes, 0, false, bytes, 0, bytes, SIZE);
    struct block_handler_reply response = block_handler_response(&h.table, h.config, h.upload, sizeof h.upload, h.response,
        sizeof h.response, time, bytes, 4, 20, false, bytes, 4, bytes, SIZE);
    return refused(request, 1, 160) && refused(response, 1, 160) && memcmp(&before, &h, sizeof h) == 0;
}

/* A table with another figure, and one with other lengths. */
static void wrong_figure(void)
{
    static uint8_t page[PAGE];
    start(true);
    h.table.held = 1;
    CHECK(holds(1) && both_refused(1));

    start(true);
    push(1, "lane", 0, true, NULL);
    answer(1, "lane", false, "head", page, PAGE);
    const uint64_t right = 64 + 4 + PAGE, wrong[] = {0, 64, right - 1, right + 1, 2 * right, right + 4294967296, UINT64_MAX};
    CHECK(h.table.held == right);
    for (size_t i = 0; i < sizeof wrong / sizeof wrong[0]; i++) {
        h.table.held = wrong[i];
        CHECK(holds(wrong[i]) && both_refused(1));
        /* Also where its time has run out. */
        CHECK(both_refused(1 + h.config.lifetime) && holds(wrong[i]));
    }
    h.table.held = right;
    h.table.entries[0].state.assembled.len++;
    CHECK(both_refused(1));
    h.table.held++;
    CHECK(answered(ask((struct request){1, "lane", 20, NULL, NULL, NULL, 0}), BLOCK_HANDLER_PASS, 0) && holds(right + 1));
    h.table.entries[0].state.cached.payload = V - 4 + 1;
    h.table.held = walked();
    CHECK(both_refused(1));
    h.table.entries[0].state.cached.payload--;
    h.table.held--;
    CHECK(answered(ask((struct request){1, "lane", 20, NULL, NULL, NULL, 0}), BLOCK_HANDLER_PASS, 0) && holds(65 + V));
}

/* A reply that no call gave shows no bytes outside the lengths told. */
static void made_up_reply(void)
{
    struct block_handler_reply reply = {.kind = BLOCK_HANDLER_HANDED, .part = {10, 101}};
    struct block_handler_found found = block_handler_body(reply, 5, 100);
    CHECK(found.place == 0 && found.from == 0 && found.to == 0);
    found = block_handler_body(reply, 5, 101);
    CHECK(found.place == 2 && found.from == 10 && found.to == 101);
    reply.part.from = 102;
    CHECK(block_handler_body(reply, 5, 1000).place == 0);
    reply.kind = BLOCK_HANDLER_PASS;
    found = block_handler_body(reply, 5, 100);
    CHECK(found.place == 1 && found.from == 0 && found.to == 5);
    reply.kind = 99;
    CHECK(block_handler_body(reply, 5, 1000).place == 0 && block_handler_sent(reply, 5).place == 0);
    CHECK(block_handler_served_head(reply, 5).place == 0 && block_handler_served_chunk(reply, 5).place == 0);
}

/* What both modes read and write alike: two bytes. */
static void block_values(bool strict)
{
    static const uint8_t bytes[5] = {0, 0, 0, 0, 8};
    CHECK(block_is(block_handler_read(strict, bytes, 0), 0, false, 0));
    CHECK(block_is(block_handler_read(strict, bytes + 4, 1), 0, true, 0));
    CHECK(block_is(block_handler_read(strict, bytes + 3, 2), 0, true, 0));
    CHECK(no_block(block_handler_read(strict, bytes + 1, 4)) && no_block(block_handler_read(strict, bytes, 5)));
    for (unsigned n = 0; n < 65536; n++) {
        struct block_handler_option option = block_handler_write(strict, n / 16, n / 8 % 2, (uint8_t)(n % 8));
        CHECK(option.len == (n == 0 ? 0 : n < 256 ? 1 : 2));
        CHECK(block_is(block_handler_read(strict, option.bytes, option.len), n / 16, n / 8 % 2, (uint8_t)(n % 8)));
    }
}

static bool option_is(struct block_handler_option option, size_t len, const uint8_t *bytes)
{
    return option.len == len && memcmp(option.bytes, bytes, len) == 0;
}

/* Three bytes: strict mode reads and writes them, plain mode does neither. */
static void long_values(void)
{
    static const uint8_t zeros[3] = {0, 0, 8}, first[3] = {1, 0, 0}, last[3] = {255, 255, 0xfa}, four[4] = {1, 0, 0, 0};
    CHECK(block_is(block_handler_read(true, zeros, 3), 0, true, 0) && no_block(block_handler_read(false, zeros, 3)));
    CHECK(block_is(block_handler_read(true, first, 3), 4096, false, 0) && no_block(block_handler_read(false, first, 3)));
    CHECK(block_is(block_handler_read(true, last, 3), 1048575, true, 2) && no_block(block_handler_read(false, last, 3)));
    CHECK(no_block(block_handler_read(true, four, 4)) && no_block(block_handler_read(false, four, 4)));

    CHECK(option_is(block_handler_write(true, 4096, false, 0), 3, first) && block_handler_write(false, 4096, false, 0).len == 0);
    CHECK(option_is(block_handler_write(true, 1048575, true, 2), 3, last));
    CHECK(option_is(block_handler_write(false, 1048575, true, 2), 2, last + 1));
    CHECK(block_handler_write(true, 1048576, false, 0).len == 0 && block_handler_write(false, 1048576, false, 0).len == 0);
    for (uint32_t num = 4096; num < 1048576; num += 97) {
        struct block_handler_option option = block_handler_write(true, num, num % 2, (uint8_t)(num % 8));
        CHECK(option.len == 3 && block_is(block_handler_read(true, option.bytes, option.len), num, num % 2, (uint8_t)(num % 8)));
    }
}

/* Block 4096 of a list: strict mode refuses it where it is not the next one, plain mode takes it for a whole message. */
static void long_option(bool strict)
{
    static const uint8_t bytes[16];
    struct block_handler_option block1 = block_handler_write(true, 4096, false, 0);
    start(strict);
    struct block_handler_reply reply = ask((struct request){1, "lane", 20, &block1, NULL, bytes, sizeof bytes});
    CHECK(strict ? refused(reply, 9, 136) : answered(reply, BLOCK_HANDLER_PASS, 0));
}

/* The mode is that of the call: a Block2 of num 70000, recorded by a strict one, is too large for a plain one. */
static void other_mode(void)
{
    static const uint8_t page[40];
    struct block_handler_option block2 = block_handler_write(true, 70000, false, 0);
    start(true);
    CHECK(answered(ask((struct request){1, "screen", 20, NULL, &block2, NULL, 0}), BLOCK_HANDLER_PASS, 0));
    CHECK(refused(answer(1, "screen", false, "head", page, sizeof page), 8, 128));
    h.config.strict = false;
    CHECK(refused(answer(1, "screen", false, "head", page, sizeof page), 5, 160));
    CHECK(block_is(h.table.entries[0].state.recorded, 70000, false, 0));
}

int main(void)
{
    struct block_handler_config config = block_handler_default_config(true, U, V);
    CHECK(config.strict && config.limit == 1152 && config.lifetime == 120000 && config.upload == U && config.response == V);
    long_values();
    other_mode();
    made_up_reply();
    for (int strict = 0; strict < 2; strict++) {
        block_values(strict);
        long_option(strict);
        push_list(strict);
        push_again(strict);
        refusals(strict);
        bytes_held(strict);
        bytes_expired(strict);
    }
    fetch_page();
    clock_and_table();
    off_limits();
    wrong_figure();
    printf("blocks.c: %d checks, %d faults\n", checks, faults);
    return faults == 0 ? 0 : 1;
}
