/* CoAP messages (RFC 7252) for C, read where they stand and written into a lent buffer: the functions of libmessage_c.a, for x86-64 Linux.
 *
 * Every function takes any values and any bytes: what is no message is refused. What C itself asks stays with the caller:
 * - each pointer, also one that is not read, is not NULL and is good for its length, also where the call is refused. For no options or an
 *   empty token or payload, pass a pointer to any such thing and a length of 0;
 * - what is written to overlaps nothing else that is lent to the call;
 * - what is lent does not change while the call lasts.
 * Nothing is allocated, and no pointer is kept.
 *
 * As in block_handler.h, a slice crosses as pointer then length and a struct by value, so no wrapper is needed. The two archives can be
 * linked into one program, and this one needs nothing of the other. */
#ifndef BLOCK_HANDLER_MESSAGE_H
#define BLOCK_HANDLER_MESSAGE_H

#include "block_handler.h"

#ifdef __cplusplus
extern "C" {
#endif

/* Why a message is not read or not written. */
enum block_handler_message_refusal {
    BLOCK_HANDLER_MALFORMED = 11,  /* Not a message, or one with an option number above 65535. No part of it is shown. */
    BLOCK_HANDLER_NOT_WRITTEN = 21 /* No such message has an encoding, what is given describes none, or the output is too small. The output is as it
                                      was. */
};

enum block_handler_message_type {
    BLOCK_HANDLER_CON = 0,
    BLOCK_HANDLER_NON = 1,
    BLOCK_HANDLER_ACK = 2,
    BLOCK_HANDLER_RST = 3
};

/* A message that was read, by what its head says and where its parts stand in it; or a refusal, and then all else is 0. Each part lies
 * within the message: from <= to <= its length. */
struct block_handler_message {
    uint8_t refusal;      /* BLOCK_HANDLER_MALFORMED, or 0. */
    uint8_t message_type; /* An enum block_handler_message_type. */
    uint8_t code;         /* class * 32 + detail. */
    uint16_t message_id;
    size_t bare;          /* The length of the message with its payload taken out: what block_handler_request and block_handler_response ask. */
    struct block_handler_part token;
    struct block_handler_part options; /* All of them, without the payload marker. */
    struct block_handler_part payload;
};

/* What stands where an option may begin. */
enum block_handler_option_kind {
    BLOCK_HANDLER_NO_OPTION = 0, /* The options end there. Of block_handler_nth_option: there is no such option. */
    BLOCK_HANDLER_OPTION = 1,
    BLOCK_HANDLER_BAD_OPTION = 2 /* Malformed: never where the options of a message that was read are followed from the first. */
};

/* An option and where its value stands in the message: from <= to <= its length. Without an option, both are 0. */
struct block_handler_option_at {
    uint8_t kind; /* An enum block_handler_option_kind. */
    uint16_t number;
    struct block_handler_part value;
};

/* How many bytes were written, at the start of the output; or a refusal, and then none. */
struct block_handler_written {
    uint8_t refusal; /* BLOCK_HANDLER_NOT_WRITTEN, or 0. */
    size_t len;
};

/* Whether the value of an option may have a length. */
enum block_handler_length {
    BLOCK_HANDLER_LENGTH_UNKNOWN = 0, /* RFC 7252, 7641 and 7959 register no such option. */
    BLOCK_HANDLER_LENGTH_ALLOWED = 1,
    BLOCK_HANDLER_LENGTH_NOT_ALLOWED = 2
};

BLOCK_HANDLER_ASSERT(sizeof(struct block_handler_part) == 16);
BLOCK_HANDLER_ASSERT(offsetof(struct block_handler_part, to) == 8);
BLOCK_HANDLER_ASSERT(sizeof(struct block_handler_message) == 64);
BLOCK_HANDLER_ASSERT(offsetof(struct block_handler_message, message_type) == 1);
BLOCK_HANDLER_ASSERT(offsetof(struct block_handler_message, code) == 2);
BLOCK_HANDLER_ASSERT(offsetof(struct block_handler_message, message_id) == 4);
BLOCK_HANDLER_ASSERT(offsetof(struct block_handler_message, bare) == 8);
BLOCK_HANDLER_ASSERT(offsetof(struct block_handler_message, token) == 16);
BLOCK_HANDLER_ASSERT(offsetof(struct block_handler_message, options) == 32);
BLOCK_HANDLER_ASSERT(offsetof(struct block_handler_message, payload) == 48);
BLOCK_HANDLER_ASSERT(sizeof(struct block_handler_option_at) == 24);
BLOCK_HANDLER_ASSERT(offsetof(struct block_handler_option_at, number) == 2);
BLOCK_HANDLER_ASSERT(offsetof(struct block_handler_option_at, value) == 8);
BLOCK_HANDLER_ASSERT(sizeof(struct block_handler_written) == 16);
BLOCK_HANDLER_ASSERT(offsetof(struct block_handler_written, len) == 8);

/* Reads a whole message. */
struct block_handler_message block_handler_message_read(const uint8_t *message, size_t message_len);

/* The option that begins at an index of the message, after one of the number `before`. A message's first begins at options.from, after 0;
 * the next one at value.to, after this one's number. */
struct block_handler_option_at block_handler_next_option(const uint8_t *message, size_t message_len, size_t at, uint16_t before);

/* The n-th option of a number, the first being 0, of a message that was read and whose options.from is `options`. */
struct block_handler_option_at block_handler_nth_option(
    const uint8_t *message, size_t message_len, size_t options, uint16_t number, size_t n);

/* Writes a message to the start of `out`. Option i has the number numbers[i], which is not below the one before it, and the next lengths[i]
 * bytes of `values`. There are as many lengths as numbers, and they add up to values_len. An empty payload has no marker. */
struct block_handler_written block_handler_message_write(
    uint8_t *out, size_t out_len, uint8_t message_type, uint8_t code, uint16_t message_id,
    const uint8_t *token, size_t token_len, const uint32_t *numbers, size_t numbers_len,
    const uint32_t *lengths, size_t lengths_len, const uint8_t *values, size_t values_len,
    const uint8_t *payload, size_t payload_len);

/* Whether the value of an option may have `len` bytes: an enum block_handler_length. Neither reading nor writing asks this. */
uint8_t block_handler_option_length(uint16_t number, size_t len);

/* ---- The same as bytes: a pointer into the message that was read, and a length. Never a copy. */

static inline struct block_handler_bytes block_handler_part_bytes(struct block_handler_part part, const uint8_t *message)
{
    struct block_handler_bytes bytes;
    bytes.at = message + part.from;
    bytes.len = part.to - part.from;
    return bytes;
}

static inline struct block_handler_bytes block_handler_token_bytes(struct block_handler_message read, const uint8_t *message)
{
    return block_handler_part_bytes(read.token, message);
}

static inline struct block_handler_bytes block_handler_payload_bytes(struct block_handler_message read, const uint8_t *message)
{
    return block_handler_part_bytes(read.payload, message);
}

/* The value of an option; no bytes where it is none. */
static inline struct block_handler_bytes block_handler_value_bytes(struct block_handler_option_at option, const uint8_t *message)
{
    return block_handler_part_bytes(option.value, message);
}

#ifdef __cplusplus
}
#endif

#endif
