#include "block_handler.h"
#include <stdio.h>

static uint8_t upload[16 * 1024], response[16 * 1024];

int main(void)
{
    struct block_handler_config config = block_handler_default_config(true, 1024, 1024); /* strict mode, pieces of 1 KiB */
    struct block_handler_table table = block_handler_fresh();
    const uint8_t key[6] = "lane 7", list[9] = "milk 1.19", block1[1] = {0x00}; /* block 0 of 16 bytes, the last */

    struct block_handler_reply reply = block_handler_request(&table, config, upload, sizeof upload, response, sizeof response,
        0, key, sizeof key, 20, true, block1, sizeof block1, false, block1, 0, list, sizeof list);

    struct block_handler_bytes body = block_handler_body_bytes(reply, list, sizeof list, upload, sizeof upload);
    printf("%.*s\n", (int)body.len, (const char *)body.at);
    return reply.kind == BLOCK_HANDLER_HANDED ? 0 : 1;
}
