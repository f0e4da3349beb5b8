/* Reads files of messages of route netlink. Prints the type of each message and, if a table has it and accepts the payload,
 * one line per attribute: its kind, the name, the size and the policy of its shape, and the size of its value. Those of
 * nests follow with two more spaces. */
#include "netlink_packet_route.h"

#include <stdio.h>

static uint8_t bytes[1 << 20];

/* Prints the attributes of a view. Returns whether the walk ends well. */
static bool print_items(const uint8_t *payload, size_t len, const struct nlp_view *view, int depth)
{
    struct nlp_view_walk walk = { 0 };
    struct nlp_item item;
    uint32_t result;
    while ((result = nlp_view_next(payload, len, view, &walk, &item)) == NLP_OK) {
        const struct nlp_shape *shape = &item.shape;
        printf("%*s%u %s %u %u %zu\n", 2 * depth, "", (unsigned)item.kind, nlp_shape_name(shape->shape), (unsigned)shape->size,
               (unsigned)shape->policy, item.value.size);
        if (!print_items(payload, len, &item.nest, depth + 1))
            return false;
    }
    return result == NLP_END;
}

static bool print_messages(size_t len)
{
    struct nlp_messages walk;
    const struct nlp_message *message;
    struct nlp_view view;
    struct nlp_route_error error;
    nlp_messages_begin(&walk, bytes, len);
    while ((message = nlp_messages_next(&walk)) != NULL) {
        printf("type %u\n", (unsigned)message->header.message_type);
        if (nlp_message_view(bytes, message, &view, &error) == NLP_OK
            && !print_items(bytes + message->payload.offset, message->payload.size, &view, 1))
            return false;
    }
    return walk.result == NLP_END;
}

int main(int count, char **words)
{
    for (int i = 1; i < count; i++) {
        FILE *file = fopen(words[i], "rb");
        const size_t len = file == NULL ? 0 : fread(bytes, 1, sizeof bytes, file);
        if (len == 0 || len == sizeof bytes || fclose(file) != 0 || !print_messages(len))
            return 1;
    }
    return 0;
}
