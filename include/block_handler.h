/* The block handler (RFC 7959) for C: the functions of libhandler_c.a, for x86-64 Linux.
 *
 * Every function takes any values: what is off the limits gets refusal 1. What C itself asks stays with the caller:
 * - each pointer, also one that is not read, is not NULL and is good for its length, also where the call is refused. For an absent option or
 *   an empty payload, pass a pointer to any byte and a length of 0;
 * - what is lent to one call does not overlap, except that bytes which are only read may;
 * - a bool holds 0 or 1, in every struct. A table that comes from outside (a file, say) is to be checked for that first;
 * - two calls at once share no table and no memory.
 * The caller owns the table and both memories and lends them to each call. Nothing is allocated, and no pointer is kept.
 *
 * A slice crosses as two arguments, pointer then length, wherever it stands in the list, and a struct as C passes it by value:
 * so the functions are declared here as they are compiled, and need no wrapper. */
#ifndef BLOCK_HANDLER_H
#define BLOCK_HANDLER_H

#include <assert.h>
#include <stdbool.h>
#include <stddef.h>
#include <stdint.h>

#ifdef __cplusplus
extern "C" {
#define BLOCK_HANDLER_ASSERT(fact) static_assert(fact, #fact)
#else
#define BLOCK_HANDLER_ASSERT(fact) _Static_assert(fact, #fact)
#endif

/* The table's entries: at most so many keys are live at a time. Each owns one piece of either memory. */
#define BLOCK_HANDLER_ENTRIES 16

/* How the handler is set up. Another `upload` or `response` needs a fresh table: the pieces of the memories lie elsewhere then. Another mode needs none, and each
 * call goes by its own: a Block2 option that a strict call recorded, with a num above 65535, is refusal 5 in a plain response call. */
struct block_handler_config {
    bool strict;       /* false: plain mode, as the Rust answers. true: only the next block is taken, no larger than the one before, and all but the last are full; block 0 starts afresh. See below. */
    size_t limit;      /* T, the most bytes of a message: 1 to 65535. */
    uint64_t lifetime; /* Milliseconds that a key lives after its last call: 1 to 4294967295. */
    size_t upload;     /* U, the length of one piece of the upload memory: 16 to 16777216. The memory is 16 * U long. */
    size_t response;   /* V, the length of one piece of the response memory: 16 to 65536. The memory is 16 * V long. */
};

/* Which mode: a lane should be strict. In plain mode
 * - a list that is cancelled and sent again shorter keeps the old list's tail behind it;
 * - THE LAST BLOCK SENT TWICE IS A CORRUPT LIST: once a list of n blocks was handed on, its last block again is answered HANDED, and the body is zero bytes in place of
 *   the first n - 1 blocks and then that block. (Past 16384 bytes it is refusal 6.)
 * In strict mode the first hands on the new list alone, and the second gets refusal 9, or, for a list of one block, the same list again.
 *
 * What comes twice: a client whose acknowledgement is lost sends the same message again, under the same message ID. RFC 7252 (section 4.5) has the stack answer such a copy with
 * the reply that it stored, and make no call. No function here sees a message ID, so a copy that gets through is a new call. In strict mode a middle block then gets refusal 9 (4.08), at
 * which a client gives up or starts again; the last of two or more gets it too, though its list was handed on. In plain mode a middle block is written over itself, and the last one is the corrupt
 * list above. In either mode a late copy of a block of one list can be taken into the next list of the key.
 *
 * Long lists: strict mode reads Block options of up to three bytes, as RFC 7959 has them, so a list has up to 1048576 blocks, if U has room. Plain mode reads up to two bytes, and a Block1 option of
 * three counts as absent: block 4096 and every later one is taken for a whole message, and PASS gives it to the application as the list. In plain mode, take zero bytes off the option's
 * front before the call; if three bytes remain, send 4.13 and make no call. An option of more than three bytes counts as absent in either mode. RFC 7959 has none: send 4.02 and make no call.
 *
 * Smaller blocks on the way: where a message has room for 16 bytes or more, but not for its block's size, block 0 is taken and a smaller size comes back. RFC 7959 has the client go on at that
 * size from where the block ended, with its num counted anew: after one block of 1024 bytes, num 2 of 512. Strict mode takes that, as often as the size falls; a larger block gets refusal 9, but
 * for block 0, which starts afresh at any size. */

/* A key's bytes and their number. Bytes past the length are never compared. */
struct block_handler_key {
    uint8_t bytes[64];
    uint8_t len;
};

/* What is assembled of an upload: its length, and the exponent of the last block taken. */
struct block_handler_assembled {
    uint32_t len;
    uint8_t exponent;
};

/* The cached response: whether there is one, and the lengths of its head and payload in the response piece. */
struct block_handler_cached {
    bool held;
    uint8_t head;
    uint32_t payload;
};

/* A block value, or none: then all of it is 0. Its size is 16 << exponent. */
struct block_handler_block {
    bool given;
    bool more;
    uint8_t exponent;
    uint32_t num;
};

/* One key's state. */
struct block_handler_state {
    struct block_handler_assembled assembled;
    struct block_handler_cached cached;
    struct block_handler_block recorded; /* The Block2 value that a request of the key recorded last. */
};

/* One entry: free (all zeros), or in use for its key, last touched at this time. */
struct block_handler_entry {
    struct block_handler_key key;
    bool used;
    uint64_t touched;
    struct block_handler_state state;
};

/* The table: the time of the last call that changed it, the bytes that it holds, and the entries. Start from block_handler_fresh(). */
struct block_handler_table {
    uint64_t clock;
    uint64_t held; /* Over the entries in use: the assembled length, and the lengths of head and payload of a cached response. The calls keep it equal to
                      that sum, and a table with another figure is off the limits (refusal 1). Whoever changes an entry by hand sets it, too. */
    struct block_handler_entry entries[BLOCK_HANDLER_ENTRIES];
};

/* The bytes from `from` on, up to `to` and without it. */
struct block_handler_part {
    size_t from;
    size_t to;
};

/* What a call answers. */
enum block_handler_kind {
    BLOCK_HANDLER_REFUSED = 0,   /* Send `code`. `refusal` says why: an enum block_handler_refusal. */
    BLOCK_HANDLER_CONTINUE = 1,  /* Send 2.31 with block1. */
    BLOCK_HANDLER_TOO_LARGE = 2, /* Send 4.13 with block1. */
    BLOCK_HANDLER_HANDED = 3,    /* To the application, with the whole body; its response gets block1. */
    BLOCK_HANDLER_PASS = 4,      /* To the application, with the message's own payload. */
    BLOCK_HANDLER_SERVED = 5,    /* Send the cached head and chunk, with block2, and block1 if it is given. The head is that of the cached
                                    response: put in the message id and token of this one, and let a Block1 option that it has stand in
                                    place of block1. Where block1 is given, an upload was completed by this request, and is lost. */
    BLOCK_HANDLER_PLAIN = 6,     /* Send the response as it is. */
    BLOCK_HANDLER_WHOLE = 7,     /* Send the response with block2 and its chunk: its last. */
    BLOCK_HANDLER_FIRST = 8      /* Send the response with block2 and its chunk: the whole response is cached. */
};

/* Why a call is refused, and what it leaves. 1 to 3 leave everything as it was. The others leave only the touch: expired entries
 * freed, the clock recorded, the key's entry there and touched. */
enum block_handler_refusal {
    BLOCK_HANDLER_OFF_LIMITS = 1,    /* A number, a length, the table or a memory is off the limits. */
    BLOCK_HANDLER_CLOCK = 2,         /* The time is before the table's clock: that of an earlier call which was not refused by 1, 2 or 3. */
    BLOCK_HANDLER_FULL = 3,          /* The key is not live, and sixteen others are. */
    BLOCK_HANDLER_NO_ROOM = 4,       /* The message leaves no room for a block: bare + 12 > limit. */
    BLOCK_HANDLER_NO_BLOCK = 5,      /* No block value can be made: bare + 12 is just the limit; or there is no Block option and room for 4096 bytes or more; or the num would pass 65535 (in strict mode 1048575). */
    BLOCK_HANDLER_JUMP = 6,          /* The block ends more than 16,384 bytes past what is assembled (plain mode). */
    BLOCK_HANDLER_PIECE = 7,         /* The piece is too small for the body or the response. */
    BLOCK_HANDLER_PAST_THE_END = 8,  /* The chunk asked for is past the end. A request's Block2 is recorded, and a body completed in it is gone. */
    BLOCK_HANDLER_NOT_NEXT = 9,      /* Not the next block: it starts elsewhere than where the assembled bytes end, or is larger than the last one taken (strict mode). */
    BLOCK_HANDLER_BAD_FORM = 10      /* A block of a wrong form (strict mode). */
};

/* An answer in numbers. */
struct block_handler_reply {
    uint8_t kind;    /* An enum block_handler_kind. */
    uint8_t refusal; /* An enum block_handler_refusal for a refusal, else 0. */
    uint8_t code;    /* The response code in one byte, class * 32 + detail, of an answer that has one; else 0. */
    struct block_handler_block block1;
    struct block_handler_block block2;
    struct block_handler_part part; /* Handed: of the upload memory. Served: of the response memory. Whole, First: of the payload. */
    struct block_handler_part head; /* Served: of the response memory. */
};

/* Where bytes stand that an answer shows: all of the message's payload (place 1), or from..to of what the function's last argument is the
 * length of (place 2). Place 0: no bytes, since the answer has none or names a part that is not there. from <= to <= the length of what it is a part of.
 * The bytes of a Handed body are good until the next block_handler_request on these memories, those of Served until the next
 * block_handler_response, and all others as long as the payload. */
struct block_handler_found {
    uint8_t place;
    size_t from;
    size_t to;
};

/* An option's bytes: the first len of them. */
struct block_handler_option {
    size_t len;
    uint8_t bytes[3];
};

BLOCK_HANDLER_ASSERT(sizeof(bool) == 1 && sizeof(size_t) == 8);
BLOCK_HANDLER_ASSERT(sizeof(struct block_handler_config) == 40);
BLOCK_HANDLER_ASSERT(offsetof(struct block_handler_config, limit) == 8);
BLOCK_HANDLER_ASSERT(offsetof(struct block_handler_config, lifetime) == 16);
BLOCK_HANDLER_ASSERT(offsetof(struct block_handler_config, upload) == 24);
BLOCK_HANDLER_ASSERT(offsetof(struct block_handler_config, response) == 32);
BLOCK_HANDLER_ASSERT(sizeof(struct block_handler_key) == 65);
BLOCK_HANDLER_ASSERT(sizeof(struct block_handler_assembled) == 8);
BLOCK_HANDLER_ASSERT(sizeof(struct block_handler_cached) == 8);
BLOCK_HANDLER_ASSERT(offsetof(struct block_handler_cached, payload) == 4);
BLOCK_HANDLER_ASSERT(sizeof(struct block_handler_block) == 8);
BLOCK_HANDLER_ASSERT(offsetof(struct block_handler_block, num) == 4);
BLOCK_HANDLER_ASSERT(sizeof(struct block_handler_state) == 24);
BLOCK_HANDLER_ASSERT(sizeof(struct block_handler_entry) == 104);
BLOCK_HANDLER_ASSERT(offsetof(struct block_handler_entry, used) == 65);
BLOCK_HANDLER_ASSERT(offsetof(struct block_handler_entry, touched) == 72);
BLOCK_HANDLER_ASSERT(offsetof(struct block_handler_entry, state) == 80);
BLOCK_HANDLER_ASSERT(sizeof(struct block_handler_table) == 1680);
BLOCK_HANDLER_ASSERT(offsetof(struct block_handler_table, held) == 8);
BLOCK_HANDLER_ASSERT(offsetof(struct block_handler_table, entries) == 16);
BLOCK_HANDLER_ASSERT(sizeof(struct block_handler_reply) == 56);
BLOCK_HANDLER_ASSERT(offsetof(struct block_handler_reply, block1) == 4);
BLOCK_HANDLER_ASSERT(offsetof(struct block_handler_reply, block2) == 12);
BLOCK_HANDLER_ASSERT(offsetof(struct block_handler_reply, part) == 24);
BLOCK_HANDLER_ASSERT(offsetof(struct block_handler_reply, head) == 40);
BLOCK_HANDLER_ASSERT(sizeof(struct block_handler_found) == 24);
BLOCK_HANDLER_ASSERT(offsetof(struct block_handler_found, from) == 8);
BLOCK_HANDLER_ASSERT(sizeof(struct block_handler_option) == 16);
BLOCK_HANDLER_ASSERT(offsetof(struct block_handler_option, bytes) == 8);

/* The Rust's defaults (T 1152, two minutes), for pieces of these sizes. */
struct block_handler_config block_handler_default_config(bool strict, size_t upload, size_t response);

/* An empty table with clock 0. It holds no bytes. */
struct block_handler_table block_handler_fresh(void);

/* The bytes that a table holds: over its entries in use, the assembled length, and the lengths of head and payload of a cached response: within the limits at
 * most 16 * (U + V). An expired entry counts until a call frees it. The figure is read and not counted, in the same short time for every table: a screen may ask every second.
 * Nothing is refused here: of a table that is off the limits it is the figure that stands there. As with any two calls, not while another call has the table. */
uint64_t block_handler_bytes_held(const struct block_handler_table *table);

/* The block value of an option's bytes, read as a call of this mode reads them: in strict mode up to three bytes, in plain mode up to two, with or without zeros
 * at the front. A longer option cannot be read, which counts as none. */
struct block_handler_block block_handler_read(bool strict, const uint8_t *option, size_t option_len);

/* The option's bytes for a block value, in the shortest form. In strict mode they are at most three, and num is taken modulo 1048576; in plain mode they are at most two, and
 * num is taken modulo 4096. The exponent is taken modulo 8. A reply of strict mode is written whole; in plain mode a reply's num can pass 4095. */
struct block_handler_option block_handler_write(bool strict, uint32_t num, bool more, uint8_t exponent);

/* A request, before the application sees it, at this time in milliseconds, which never goes back, under this key (1 to 64 bytes): requests
 * that share a key share an upload and a cached response, so put the sender, the method and the path in it. `bare` is the length of
 * the message encoded without its payload. given1 and given2 say whether it has a Block1 and a Block2 option; their bytes count
 * only then. Changes the table and the key's piece of the upload memory; reads nothing of the response memory but its length. */
struct block_handler_reply block_handler_request(
    struct block_handler_table *table, struct block_handler_config config,
    uint8_t *upload, size_t upload_len, const uint8_t *response, size_t response_len,
    uint64_t time, const uint8_t *key, size_t key_len, size_t bare,
    bool given1, const uint8_t *block1, size_t block1_len,
    bool given2, const uint8_t *block2, size_t block2_len,
    const uint8_t *payload, size_t payload_len);

/* A response, before it is sent, under the key of its request; `bare` is the length of the response encoded without its payload. `own` says
 * that it has a Block2 option of its own, and then it is PLAIN whatever its length: the caller cuts such a page itself. `head` is its encoded header and options, at most 128 bytes. Changes the table and the key's piece of the response memory; reads nothing of the upload memory but its length. */
struct block_handler_reply block_handler_response(
    struct block_handler_table *table, struct block_handler_config config,
    const uint8_t *upload, size_t upload_len, uint8_t *response, size_t response_len,
    uint64_t time, const uint8_t *key, size_t key_len, size_t bare, bool own,
    const uint8_t *head, size_t head_len, const uint8_t *payload, size_t payload_len);

/* The body that the application sees, of the request's payload (place 1) or of the upload memory (place 2). */
struct block_handler_found block_handler_body(struct block_handler_reply reply, size_t payload_len, size_t upload_len);

/* The head and the chunk of a Served answer, of the response memory. */
struct block_handler_found block_handler_served_head(struct block_handler_reply reply, size_t response_len);
struct block_handler_found block_handler_served_chunk(struct block_handler_reply reply, size_t response_len);

/* What a response sends of its own payload: all of it (place 1), or its chunk (place 2). Both count from the payload's start. */
struct block_handler_found block_handler_sent(struct block_handler_reply reply, size_t payload_len);

/* ---- The same as bytes: a pointer into what was lent, and a length. Never a copy. */

struct block_handler_bytes {
    const uint8_t *at;
    size_t len;
};

static inline struct block_handler_bytes block_handler_bytes_at(
    struct block_handler_found found, const uint8_t *payload, const uint8_t *memory)
{
    struct block_handler_bytes bytes;
    const uint8_t *of = found.place == 2 ? memory : payload;
    bytes.at = found.place == 0 ? of : of + found.from;
    bytes.len = found.place == 0 ? 0 : found.to - found.from;
    return bytes;
}

static inline struct block_handler_bytes block_handler_body_bytes(
    struct block_handler_reply reply, const uint8_t *payload, size_t payload_len, const uint8_t *upload, size_t upload_len)
{
    return block_handler_bytes_at(block_handler_body(reply, payload_len, upload_len), payload, upload);
}

static inline struct block_handler_bytes block_handler_served_head_bytes(
    struct block_handler_reply reply, const uint8_t *response, size_t response_len)
{
    return block_handler_bytes_at(block_handler_served_head(reply, response_len), response, response);
}

static inline struct block_handler_bytes block_handler_served_chunk_bytes(
    struct block_handler_reply reply, const uint8_t *response, size_t response_len)
{
    return block_handler_bytes_at(block_handler_served_chunk(reply, response_len), response, response);
}

static inline struct block_handler_bytes block_handler_sent_bytes(
    struct block_handler_reply reply, const uint8_t *payload, size_t payload_len)
{
    return block_handler_bytes_at(block_handler_sent(reply, payload_len), payload, payload);
}

#ifdef __cplusplus
}
#endif

#endif
