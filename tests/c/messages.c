/* Messages as a C program reads and writes them: coap-lite's own two, boundaries, every refusal, random ones, and very many options; each compared
 * with a reader and a writer of this file's own. */
#include "block_handler_message.h"

#include <pthread.h>
#include <stdio.h>
#include <string.h>

#define MOST 70000 /* The longest message here, but for the one of many options. */
#define OPTIONS 65536
#define MANY (1 << 24)

static int checks, faults;

#define CHECK(fact) check((fact), #fact, __LINE__)

static void check(bool fact, const char *text, int line)
{
    checks++;
    if (!fact) {
        faults++;
        printf("messages.c:%d: %s\n", line, text);
    }
}

/* ---- A message as it is meant, and its bytes. */

struct meant {
    uint8_t type, code;
    uint16_t id;
    const uint8_t *token, *values, *payload;
    size_t token_len, options, values_len, payload_len;
    uint32_t numbers[OPTIONS], lengths[OPTIONS];
};

static uint8_t *extension(uint8_t *at, uint32_t n)
{
    if (n >= 269) {
        *at++ = (uint8_t)((n - 269) >> 8);
        *at++ = (uint8_t)(n - 269);
    } else if (n >= 13) {
        *at++ = (uint8_t)(n - 13);
    }
    return at;
}

static uint8_t nibble(uint32_t n)
{
    return n >= 269 ? 14 : n >= 13 ? 13 : (uint8_t)n;
}

static uint8_t *copied(uint8_t *at, const uint8_t *bytes, size_t len)
{
    memcpy(at, bytes, len);
    return at + len;
}

static size_t encode(uint8_t *out, const struct meant *m)
{
    uint8_t *at = out;
    const uint8_t *value = m->values;
    uint32_t before = 0;
    *at++ = (uint8_t)(1 << 6 | m->type << 4 | (int)m->token_len);
    *at++ = m->code;
    *at++ = (uint8_t)(m->id >> 8);
    *at++ = (uint8_t)m->id;
    at = copied(at, m->token, m->token_len);
    for (size_t i = 0; i < m->options; i++) {
        uint32_t delta = m->numbers[i] - before, len = m->lengths[i];
        *at++ = (uint8_t)(nibble(delta) << 4 | nibble(len));
        at = extension(extension(at, delta), len);
        at = copied(at, value, len);
        value += len;
        before = m->numbers[i];
    }
    if (m->payload_len > 0) {
        *at++ = 0xff;
        at = copied(at, m->payload, m->payload_len);
    }
    return (size_t)(at - out);
}

/* ---- A reader: bytes are taken one by one, and one that is missing spoils the message. */

struct reader {
    const uint8_t *bytes;
    size_t at, len;
    bool spoiled;
};

static uint32_t take(struct reader *r)
{
    if (r->at == r->len) {
        r->spoiled = true;
        return 0;
    }
    return r->bytes[r->at++];
}

static void skip(struct reader *r, size_t n)
{
    if (n > r->len - r->at)
        r->spoiled = true;
    else
        r->at += n;
}

static uint32_t take_extended(struct reader *r, uint32_t nibble)
{
    uint32_t high;
    switch (nibble) {
    case 13:
        return take(r) + 13;
    case 14:
        high = take(r);
        return (high << 8 | take(r)) + 269;
    case 15:
        r->spoiled = true;
    }
    return nibble;
}

/* What was read: the values stand at `from` in the message, and `bare` is where the options end. */
struct model {
    uint8_t first, code;
    uint16_t id;
    size_t options, options_from, bare, payload_from;
    uint32_t numbers[OPTIONS];
    size_t from[OPTIONS], to[OPTIONS];
};

static void take_option(struct reader *r, struct model *m)
{
    uint32_t first = take(r), before = m->options > 0 ? m->numbers[m->options - 1] : 0;
    uint32_t number = before + take_extended(r, first >> 4);
    uint32_t len = take_extended(r, first & 15);
    m->from[m->options] = r->at;
    skip(r, len);
    m->to[m->options] = r->at;
    m->numbers[m->options] = number;
    m->options++;
    if (number > 65535)
        r->spoiled = true;
}

static bool model_reads(struct model *m, const uint8_t *bytes, size_t len)
{
    struct reader r = {bytes, 0, len, false};
    m->first = (uint8_t)take(&r);
    m->code = (uint8_t)take(&r);
    m->id = (uint16_t)(take(&r) << 8);
    m->id |= (uint16_t)take(&r);
    m->options = 0;
    if (r.spoiled || m->first >> 6 != 1 || (m->first & 15) > 8 || (m->code == 0 && len > 4))
        return false;
    skip(&r, m->first & 15);
    m->options_from = r.at;
    while (!r.spoiled && r.at < len && bytes[r.at] != 0xff)
        take_option(&r, m);
    m->bare = r.at;
    skip(&r, r.at < len ? 1 : 0);
    m->payload_from = r.at;
    return !r.spoiled && (m->bare == len || m->payload_from < len);
}

/* ---- The library's reader beside this file's. */

static struct model model;

static bool part_is(struct block_handler_part part, size_t from, size_t to)
{
    return part.from == from && part.to == to;
}

static bool option_is(struct block_handler_option_at option, uint8_t kind, uint32_t number, size_t from, size_t to)
{
    return option.kind == kind && option.number == number && part_is(option.value, from, to);
}

static void same_options(const uint8_t *bytes, size_t len)
{
    size_t at = model.options_from, run = 0;
    uint16_t before = 0;
    for (size_t i = 0; i < model.options; i++) {
        uint16_t number = (uint16_t)model.numbers[i];
        struct block_handler_option_at option = block_handler_next_option(bytes, len, at, before);
        CHECK(option_is(option, BLOCK_HANDLER_OPTION, number, model.from[i], model.to[i]));
        run = i > 0 && number == before ? run + 1 : 0;
        if (model.options < 100) {
            option = block_handler_nth_option(bytes, len, model.options_from, number, run);
            CHECK(option_is(option, BLOCK_HANDLER_OPTION, number, model.from[i], model.to[i]));
            option = block_handler_nth_option(bytes, len, model.options_from, number, model.options);
            CHECK(option_is(option, BLOCK_HANDLER_NO_OPTION, 0, 0, 0));
        }
        at = model.to[i];
        before = number;
    }
    CHECK(option_is(block_handler_next_option(bytes, len, at, before), BLOCK_HANDLER_NO_OPTION, 0, 0, 0));
}

/* Whether it is a message. Both say the same, and show the same parts. */
static bool reads(const uint8_t *bytes, size_t len)
{
    struct block_handler_message read = block_handler_message_read(bytes, len);
    if (!model_reads(&model, bytes, len)) {
        CHECK(read.refusal == BLOCK_HANDLER_MALFORMED && read.message_type == 0 && read.code == 0 && read.message_id == 0 && read.bare == 0);
        CHECK(part_is(read.token, 0, 0) && part_is(read.options, 0, 0) && part_is(read.payload, 0, 0));
        return false;
    }
    CHECK(read.refusal == 0 && read.message_type == (model.first >> 4 & 3) && read.code == model.code && read.message_id == model.id);
    CHECK(part_is(read.token, 4, model.options_from) && part_is(read.options, model.options_from, model.bare));
    CHECK(part_is(read.payload, model.payload_from, len) && read.bare == model.bare);
    same_options(bytes, len);
    return true;
}

/* ---- The library's writer, into memory between fences that no call may touch. Between calls all of it is 0xa5. */

static struct {
    uint8_t fence1[64];
    uint8_t bytes[MOST];
    uint8_t fence2[64];
} out;

static uint8_t filled[sizeof out];

/* Whether every byte is as it was but for the output's first `len`, which are then restored. */
static bool untouched(size_t len)
{
    size_t left = sizeof out - sizeof out.fence1 - len;
    bool is = memcmp(out.fence1, filled, sizeof out.fence1) == 0 && memcmp(out.bytes + len, filled, left) == 0;
    memset(&out, 0xa5, is ? sizeof out.fence1 + len : sizeof out);
    return is;
}

static struct block_handler_written write_to(size_t room, const struct meant *m)
{
    return block_handler_message_write(out.bytes, room, m->type, m->code, m->id, m->token, m->token_len, m->numbers, m->options, m->lengths,
        m->options, m->values, m->values_len, m->payload, m->payload_len);
}

static void not_written(size_t room, const struct meant *m)
{
    struct block_handler_written written = write_to(room, m);
    CHECK(written.refusal == BLOCK_HANDLER_NOT_WRITTEN && written.len == 0);
    CHECK(untouched(0));
}

/* It is written to these bytes, where there is room for them. */
static void writes(const struct meant *m, const uint8_t *bytes, size_t len)
{
    size_t rooms[3] = {len, len + 1, sizeof out.bytes};
    for (int i = 0; i < 3; i++) {
        struct block_handler_written written = write_to(rooms[i], m);
        CHECK(written.refusal == 0 && written.len == len && memcmp(out.bytes, bytes, len) == 0);
        CHECK(untouched(len));
    }
    not_written(len - 1, m);
    not_written(0, m);
}

/* Written, and read back the same. */
static void round_trip(const struct meant *m)
{
    static uint8_t bytes[MOST];
    size_t len = encode(bytes, m), value = 0;
    writes(m, bytes, len);
    CHECK(reads(bytes, len));
    CHECK(model.first == (64 | m->type << 4 | (int)m->token_len) && model.code == m->code && model.id == m->id && model.options == m->options);
    CHECK(memcmp(bytes + 4, m->token, m->token_len) == 0);
    for (size_t i = 0; i < m->options && i < model.options; i++) {
        CHECK(model.numbers[i] == m->numbers[i] && model.to[i] - model.from[i] == m->lengths[i]);
        CHECK(memcmp(bytes + model.from[i], m->values + value, m->lengths[i]) == 0);
        value += m->lengths[i];
    }
    CHECK(len - model.payload_from == m->payload_len && memcmp(bytes + model.payload_from, m->payload, m->payload_len) == 0);
}

/* A message that was read, written again from its parts. */
static void writes_again(const uint8_t *bytes, size_t len)
{
    static struct meant m;
    static uint8_t values[MOST];
    struct block_handler_message read = block_handler_message_read(bytes, len);
    struct block_handler_bytes token = block_handler_token_bytes(read, bytes), payload = block_handler_payload_bytes(read, bytes);
    size_t at = read.options.from;
    uint16_t before = 0;
    m.options = m.values_len = 0;
    for (;;) {
        struct block_handler_option_at option = block_handler_next_option(bytes, len, at, before);
        struct block_handler_bytes value = block_handler_value_bytes(option, bytes);
        if (option.kind != BLOCK_HANDLER_OPTION)
            break;
        m.numbers[m.options] = option.number;
        m.lengths[m.options++] = (uint32_t)value.len;
        memcpy(values + m.values_len, value.at, value.len);
        m.values_len += value.len;
        at = option.value.to;
        before = option.number;
    }
    m.type = read.message_type, m.code = read.code, m.id = read.message_id;
    m.token = token.at, m.token_len = token.len, m.payload = payload.at, m.payload_len = payload.len, m.values = values;
    writes(&m, bytes, len);
}

/* ---- Tests. */

static uint8_t text[MOST];
static struct meant m;

/* A message without options, whose parts are parts of `text`. */
static void start(size_t token, size_t payload)
{
    m.type = BLOCK_HANDLER_NON, m.code = 2 << 5 | 5, m.id = 0x1234;
    m.token = m.values = m.payload = text;
    m.token_len = token, m.payload_len = payload;
    m.options = m.values_len = 0;
}

static void add(uint32_t number, uint32_t len)
{
    m.numbers[m.options] = number;
    m.lengths[m.options++] = len;
    m.values_len += len;
}

static size_t unhex(uint8_t *bytes, const char *hex)
{
    size_t len = 0;
    for (unsigned byte; sscanf(hex + 2 * len, "%2x", &byte) == 1; len++)
        bytes[len] = (uint8_t)byte;
    return len;
}

/* The two messages of coap-lite's documentation. */
static void documented(void)
{
    uint8_t bytes[32];
    size_t len = unhex(bytes, "44015d1f00003974396c6f63616c686f737483747631");
    struct block_handler_message read = block_handler_message_read(bytes, len);
    CHECK(len == 22 && reads(bytes, len) && read.message_type == BLOCK_HANDLER_CON && read.code == 1 && read.message_id == 0x5d1f);
    CHECK(block_handler_token_bytes(read, bytes).len == 4 && memcmp(block_handler_token_bytes(read, bytes).at, "\0\0\x39\x74", 4) == 0);
    CHECK(read.bare == 22 && block_handler_payload_bytes(read, bytes).len == 0);
    struct block_handler_option_at host = block_handler_nth_option(bytes, len, read.options.from, 3, 0);
    struct block_handler_option_at path = block_handler_nth_option(bytes, len, read.options.from, 11, 0);
    CHECK(block_handler_value_bytes(host, bytes).len == 9 && memcmp(block_handler_value_bytes(host, bytes).at, "localhost", 9) == 0);
    CHECK(block_handler_value_bytes(path, bytes).len == 3 && memcmp(block_handler_value_bytes(path, bytes).at, "tv1", 3) == 0);
    CHECK(block_handler_nth_option(bytes, len, read.options.from, 11, 1).kind == BLOCK_HANDLER_NO_OPTION);
    writes_again(bytes, len);

    len = unhex(bytes, "64455d1f00003974ff48656c6c6f20576f726c6421");
    read = block_handler_message_read(bytes, len);
    CHECK(len == 21 && reads(bytes, len) && read.message_type == BLOCK_HANDLER_ACK && read.code == (2 << 5 | 5) && read.message_id == 0x5d1f);
    struct block_handler_bytes payload = block_handler_payload_bytes(read, bytes);
    CHECK(read.bare == 8 && payload.at == bytes + 9 && payload.len == 12 && memcmp(payload.at, "Hello World!", 12) == 0);
    writes_again(bytes, len);
}

/* Where the encoding of a delta and of a length changes, and where it ends. */
static void boundaries(void)
{
    static const uint32_t sizes[] = {0, 1, 12, 13, 14, 267, 268, 269, 270, 524, 525, 1034, 65535};
    for (size_t i = 0; i < sizeof sizes / sizeof *sizes; i++)
        for (size_t j = 0; j < sizeof sizes / sizeof *sizes; j++) {
            start(j % 9, i % 3);
            add(sizes[i], sizes[j]);
            round_trip(&m);
            add(65535, 0);
            add(65535, 3);
            round_trip(&m);
        }
    start(0, 0);
    add(1, 65804);
    round_trip(&m);
    m.values_len = m.lengths[0] = 65805;
    not_written(sizeof out.bytes, &m);
    for (size_t token = 0; token < 9; token++) {
        start(token, token % 2);
        round_trip(&m);
    }
}

/* An option number above 65,535: in one delta, and as a sum. */
static void numbers_too_large(void)
{
    uint8_t bytes[16] = {0x40, 1, 0, 0, 0xe0, 0xfe, 0xf2};
    CHECK(reads(bytes, 7));
    bytes[7] = 0x00;
    CHECK(reads(bytes, 8));
    bytes[7] = 0x10;
    CHECK(!reads(bytes, 8));
    bytes[7] = 0xd0;
    CHECK(!reads(bytes, 9));
    bytes[7] = 0xe0;
    CHECK(!reads(bytes, 10));
    for (unsigned delta = 0xfef3; delta <= 0xffff; delta++) {
        bytes[5] = (uint8_t)(delta >> 8);
        bytes[6] = (uint8_t)delta;
        CHECK(!reads(bytes, 7));
    }
}

/* Every head: each first byte with codes and lengths around it. */
static void heads(void)
{
    uint8_t bytes[16] = {0};
    for (unsigned first = 0; first < 256; first++)
        for (unsigned code = 0; code < 3; code++)
            for (size_t len = 0; len <= sizeof bytes; len++) {
                bytes[0] = (uint8_t)first;
                bytes[1] = (uint8_t)code;
                bool taken = reads(bytes, len);
                CHECK(!taken || (first >> 6 == 1 && (first & 15) <= 8 && len >= 4 + (first & 15)));
                CHECK(!taken || code > 0 || len == 4);
            }
    CHECK(!reads((const uint8_t *)"\x40\x01\0\0\xff", 5) && reads((const uint8_t *)"\x40\x01\0\0\xff\xff", 6));
    CHECK(!reads((const uint8_t *)"\x40\0\0\0\xff\xff", 6) && reads((const uint8_t *)"\x40\0\0\0", 4));
}

/* A message cut at every byte, and with every byte changed in each bit. */
static void cut(void)
{
    static uint8_t bytes[2000];
    start(5, 6);
    add(1, 0), add(12, 12), add(25, 13), add(25, 14), add(293, 268), add(562, 269), add(562, 3), add(65535, 300);
    size_t len = encode(bytes, &m);
    CHECK(reads(bytes, len));
    for (size_t n = 0; n < len; n++)
        if (reads(bytes, n))
            writes_again(bytes, n);
    for (size_t i = 0; i < len; i++)
        for (int bit = 0; bit < 8; bit++) {
            bytes[i] ^= (uint8_t)(1 << bit);
            reads(bytes, len);
            bytes[i] ^= (uint8_t)(1 << bit);
        }
}

static void write_refusals(void)
{
    start(8, 1);
    add(3, 4), add(3, 4), add(7, 4);
    round_trip(&m);
    m.type = 4, not_written(sizeof out.bytes, &m);
    m.type = 255, not_written(sizeof out.bytes, &m);
    m.type = 3, m.token_len = 9, not_written(sizeof out.bytes, &m);
    m.token_len = 1000, not_written(sizeof out.bytes, &m);
    m.token_len = 0, round_trip(&m);
    m.numbers[1] = 2, not_written(sizeof out.bytes, &m);
    m.numbers[1] = 8, not_written(sizeof out.bytes, &m);
    m.numbers[1] = 7, round_trip(&m);
    m.numbers[2] = 65536, not_written(sizeof out.bytes, &m);
    m.numbers[2] = UINT32_MAX, not_written(sizeof out.bytes, &m);
    m.numbers[2] = 65535, round_trip(&m);
    m.values_len = 11, not_written(sizeof out.bytes, &m);
    m.values_len = 13, not_written(sizeof out.bytes, &m);
    m.values_len = 12, m.lengths[0] = UINT32_MAX, not_written(sizeof out.bytes, &m);
    m.lengths[1] = 5, m.lengths[2] = 8, not_written(sizeof out.bytes, &m); /* The sum is 12 modulo 2^32. */
    m.lengths[0] = 0, m.lengths[1] = 4, round_trip(&m);
    m.options = 2, not_written(sizeof out.bytes, &m);
    m.code = 0, not_written(sizeof out.bytes, &m);
    m.options = 0, m.values_len = 0, not_written(sizeof out.bytes, &m);
    m.payload_len = 0, round_trip(&m);
    m.token_len = 1, not_written(sizeof out.bytes, &m);
    m.code = 255, round_trip(&m);
}

/* As many lengths as numbers. */
static void counts_that_differ(void)
{
    start(0, 0);
    add(1, 0), add(2, 0);
    for (size_t numbers = 0; numbers <= 2; numbers++)
        for (size_t lengths = 0; lengths <= 2; lengths++) {
            struct block_handler_written written = block_handler_message_write(
                out.bytes, 16, 0, 1, 0, text, 0, m.numbers, numbers, m.lengths, lengths, text, 0, text, 0);
            CHECK(written.refusal == (numbers == lengths ? 0 : BLOCK_HANDLER_NOT_WRITTEN));
            CHECK(written.len == (numbers == lengths ? 4 + numbers : 0));
            CHECK(untouched(numbers == lengths ? 4 + numbers : 0));
        }
}

/* SplitMix64. */
static uint64_t random_number(void)
{
    static uint64_t state = 7252;
    uint64_t z = state += 0x9e3779b97f4a7c15;
    z = (z ^ (z >> 30)) * 0xbf58476d1ce4e5b9;
    z = (z ^ (z >> 27)) * 0x94d049bb133111eb;
    return z ^ (z >> 31);
}

static uint32_t below(uint32_t n)
{
    return (uint32_t)(random_number() % n);
}

/* Mostly small, often near where an encoding changes. */
static uint32_t some_size(uint32_t most)
{
    static const uint32_t ends[] = {0, 12, 13, 268, 269, 65535};
    uint32_t size = below(3) == 0 ? ends[below(6)] + below(3) - 1 : below(4) == 0 ? below(most + 1) : below(20);
    return size <= most ? size : most;
}

static void random_messages(void)
{
    for (int n = 0; n < 5000; n++) {
        start(below(9), below(3) == 0 ? 0 : below(50));
        m.type = (uint8_t)below(4), m.code = (uint8_t)(1 + below(255)), m.id = (uint16_t)below(65536);
        m.token += below(100), m.values += below(100), m.payload += below(100);
        uint32_t number = 0;
        for (uint32_t left = below(8); left > 0; left--) {
            number += some_size(65535 - number);
            add(number, some_size(600));
        }
        round_trip(&m);
    }
}

/* Random bytes, most after a good head, and messages with a few bytes changed. */
static void random_bytes(void)
{
    static uint8_t bytes[MOST];
    int taken = 0;
    for (int n = 0; n < 50000; n++) {
        size_t len = below(40);
        if (n % 2 == 0) {
            start(below(9), below(4));
            for (uint32_t left = below(5), number = 0; left > 0; left--)
                add(number += some_size(300), some_size(30));
            len = encode(bytes, &m);
            for (uint32_t changes = 1 + below(3); changes > 0; changes--)
                bytes[below((uint32_t)len)] = (uint8_t)(below(2) == 0 ? 255 : below(256));
        } else {
            for (size_t i = 0; i < len; i++)
                bytes[i] = (uint8_t)(below(3) == 0 ? below(256) : below(6));
            bytes[0] = below(8) == 0 ? bytes[0] : (uint8_t)(0x40 | below(4) << 4 | below(9));
        }
        if (reads(bytes, len)) {
            taken++;
            writes_again(bytes, len);
        }
    }
    CHECK(taken > 10000 && taken < 40000);
}

/* Indices and numbers that no message gave. */
static void anywhere(void)
{
    uint8_t bytes[32];
    size_t len = unhex(bytes, "44015d1f00003974396c6f63616c686f737483747631");
    static const size_t far[] = {22, 23, 1000, SIZE_MAX - 1, SIZE_MAX};
    for (size_t i = 0; i < 5; i++) {
        CHECK(option_is(block_handler_next_option(bytes, len, far[i], 65535), BLOCK_HANDLER_NO_OPTION, 0, 0, 0));
        CHECK(option_is(block_handler_nth_option(bytes, len, far[i], 0, 0), BLOCK_HANDLER_NO_OPTION, 0, 0, 0));
    }
    CHECK(option_is(block_handler_next_option(bytes, len, 8, 65532), BLOCK_HANDLER_OPTION, 65535, 9, 18));
    CHECK(option_is(block_handler_next_option(bytes, len, 8, 65533), BLOCK_HANDLER_BAD_OPTION, 0, 0, 0));
    CHECK(option_is(block_handler_next_option(bytes, 17, 8, 0), BLOCK_HANDLER_BAD_OPTION, 0, 0, 0));
    CHECK(option_is(block_handler_nth_option(bytes, 17, 8, 3, 0), BLOCK_HANDLER_NO_OPTION, 0, 0, 0));
}

static void option_lengths(void)
{
    static const struct { uint16_t number, least, most; } rows[] = {
        {1, 0, 8}, {3, 1, 255}, {4, 1, 8}, {5, 0, 0}, {6, 0, 3}, {7, 0, 2}, {8, 0, 255}, {11, 0, 255}, {12, 0, 2}, {14, 0, 4},
        {15, 0, 255}, {17, 0, 2}, {20, 0, 255}, {23, 0, 3}, {27, 0, 3}, {28, 0, 4}, {35, 1, 1034}, {39, 1, 255}, {60, 0, 4}};
    size_t row = 0;
    for (uint32_t number = 0; number < 65536; number++) {
        bool known = row < sizeof rows / sizeof *rows && rows[row].number == number;
        for (size_t len = 0; len < (known ? 1100 : 3); len++) {
            bool within = known && rows[row].least <= len && len <= rows[row].most;
            uint8_t meant = !known ? BLOCK_HANDLER_LENGTH_UNKNOWN : within ? BLOCK_HANDLER_LENGTH_ALLOWED : BLOCK_HANDLER_LENGTH_NOT_ALLOWED;
            CHECK(block_handler_option_length((uint16_t)number, len) == meant);
        }
        CHECK(block_handler_option_length((uint16_t)number, SIZE_MAX) == (known ? BLOCK_HANDLER_LENGTH_NOT_ALLOWED : 0));
        row += known;
    }
}

static uint8_t many[MANY];

/* Options of one byte each, to the end: as many as bytes. */
static void *many_options(void *len_of)
{
    size_t len = *(size_t *)len_of;
    struct block_handler_message read = block_handler_message_read(many, len);
    CHECK(read.refusal == 0 && read.bare == len && part_is(read.options, 4, len) && part_is(read.payload, len, len));
    CHECK(option_is(block_handler_nth_option(many, len, 4, 0, len - 5), BLOCK_HANDLER_OPTION, 0, len, len));
    CHECK(option_is(block_handler_nth_option(many, len, 4, 0, len - 4), BLOCK_HANDLER_NO_OPTION, 0, 0, 0));
    many[len - 1] = 0xff;
    CHECK(block_handler_message_read(many, len).refusal == BLOCK_HANDLER_MALFORMED);
    many[len - 1] = 0;
    return NULL;
}

/* The same written, to a message of 65,535 bytes. */
static void *many_written(void *unused)
{
    static const uint32_t zeros[65531];
    struct block_handler_written written = block_handler_message_write(
        out.bytes, 65535, 0, 1, 0, text, 0, zeros, 65531, zeros, 65531, text, 0, text, 0);
    CHECK(written.refusal == 0 && written.len == 65535 && memcmp(out.bytes, many, 65535) == 0);
    CHECK(untouched(65535));
    return unused;
}

/* On a stack of 64 KiB, which holds not even two bytes for each. */
static void small_stack(void *run(void *), size_t len)
{
    pthread_attr_t small;
    pthread_t thread;
    many[0] = 0x40, many[1] = 1;
    CHECK(pthread_attr_init(&small) == 0 && pthread_attr_setstacksize(&small, 65536) == 0);
    bool started = pthread_create(&thread, &small, run, &len) == 0;
    CHECK(started && pthread_join(thread, NULL) == 0);
}

/* An upload's block goes from the message to the block handler. */
static void to_the_handler(void)
{
    static uint8_t upload[16 * 64], response[16 * 64];
    struct block_handler_config config = block_handler_default_config(true, 64, 64);
    struct block_handler_table table = block_handler_fresh();
    struct block_handler_option block1 = block_handler_write(config.strict, 0, false, 0);
    uint8_t bytes[64];
    start(2, 9);
    m.values = block1.bytes, m.payload = (const uint8_t *)"milk 1.19";
    add(27, (uint32_t)block1.len);
    size_t len = encode(bytes, &m);
    struct block_handler_message read = block_handler_message_read(bytes, len);
    struct block_handler_option_at option = block_handler_nth_option(bytes, len, read.options.from, 27, 0);
    struct block_handler_bytes payload = block_handler_payload_bytes(read, bytes), value = block_handler_value_bytes(option, bytes);
    struct block_handler_reply reply = block_handler_request(&table, config, upload, sizeof upload, response, sizeof response, 0, bytes, 1,
        read.bare, option.kind == BLOCK_HANDLER_OPTION, value.at, value.len, false, bytes, 0, payload.at, payload.len);
    struct block_handler_bytes body = block_handler_body_bytes(reply, payload.at, payload.len, upload, sizeof upload);
    CHECK(reply.kind == BLOCK_HANDLER_HANDED && body.len == 9 && memcmp(body.at, "milk 1.19", 9) == 0);
}

int main(void)
{
    memset(&out, 0xa5, sizeof out);
    memset(filled, 0xa5, sizeof filled);
    for (size_t i = 0; i < sizeof text; i++)
        text[i] = (uint8_t)(i * 7 + i / 251);
    documented();
    boundaries();
    numbers_too_large();
    heads();
    cut();
    write_refusals();
    counts_that_differ();
    anywhere();
    option_lengths();
    random_messages();
    random_bytes();
    to_the_handler();
    small_stack(many_options, 65535);
    small_stack(many_options, sizeof many);
    small_stack(many_written, 65535);
    printf("messages.c: %d checks, %d faults\n", checks, faults);
    return faults == 0 ? 0 : 1;
}
