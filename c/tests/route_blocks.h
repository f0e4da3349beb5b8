/* What the tests of netlink_packet_route_write.h share. */
#ifndef ROUTE_BLOCKS_H
#define ROUTE_BLOCKS_H

#include "netlink_packet_route_write.h"

#include <stdio.h>
#include <string.h>

static int passed, failed;

static void expect(const char *what, bool holds)
{
    if (holds) {
        passed++;
    } else {
        failed++;
        fprintf(stderr, "failed: %s\n", what);
    }
}

static uint8_t buffer[256];

/* Begins to write into the buffer. */
static inline struct nlp_writer begin(void)
{
    memset(buffer, 0xee, sizeof buffer);
    return nlp_writer_begin(buffer, sizeof buffer);
}

/* A block that begins here, with the shapes of a policy. */
static inline struct nlp_route_block block_of(const struct nlp_writer *writer, uint16_t type, uint16_t policy)
{
    struct nlp_route_block block = nlp_route_attrs(writer, type);
    block.view.policy = policy;
    return block;
}

static inline bool is_error(const struct nlp_route_error *error, uint32_t reason, uint16_t kind, uint16_t policy, size_t offset,
                     size_t expected, size_t received)
{
    return error->reason == reason && error->kind == kind && error->policy == policy && error->offset == offset
        && error->expected == expected && error->received == received;
}

#endif
