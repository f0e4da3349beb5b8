// Calls the library from C++, beside the kernel's header: writes frames with one attribute, and reads them.
#include <linux/netlink.h>
#include <netlink_packet_route.h>

#include <cstdio>
#include <vector>

// Writes an address by its table, and walks its attributes.
static bool is_address()
{
    std::vector<uint8_t> buffer(32);
    nlp_writer writer = nlp_writer_begin(buffer.data(), buffer.size());
    const nlp_frame_mark frame = nlp_route_request(&writer, NLP_RTM_NEWADDR, 0);
    nlp_route_block address = nlp_route_attrs(&writer, NLP_RTM_NEWADDR);
    nlp_route_put_u32(&writer, &address, NLP_IFA_FLAGS, 128);
    nlp_writer_frame_end(&writer, frame);
    const uint8_t *payload = buffer.data() + 16;
    nlp_view view = {};
    nlp_view_walk walk = {};
    nlp_item item = {};
    nlp_route_error error = {};
    return writer.failed == NLP_OK && nlp_route_view(NLP_RTM_NEWADDR, payload, 16, &view, &error) == NLP_OK
        && nlp_view_next(payload, 16, &view, &walk, &item) == NLP_OK && item.kind == NLP_IFA_FLAGS
        && item.shape.shape == NLP_SHAPE_U32 && nlp_view_next(payload, 16, &view, &walk, &item) == NLP_END;
}

int main()
{
    std::vector<uint8_t> buffer(32);
    const nlp_header header = { 0, NLMSG_MIN_TYPE + 2, NLM_F_REQUEST, 7, 0 };
    nlp_writer writer = nlp_writer_begin(buffer.data(), buffer.size());
    const nlp_frame_mark frame = nlp_writer_frame(&writer, &header, nullptr, 0);
    nlp_writer_put_u32(&writer, 4, 1400);
    nlp_writer_frame_end(&writer, frame);
    nlp_message message = {};
    nlp_part block = {};
    nlp_attr table[5];
    uint32_t value = 0;
    size_t next = 0;
    if (writer.failed != NLP_OK || nlp_message_read_opt(buffer.data(), writer.at, &next, &message, nullptr) != NLP_OK
        || nlp_message_attrs(&message, 0, &block) != NLP_OK
        || nlp_attrs_table_opt(buffer.data() + block.offset, block.size, table, 5, nullptr) != NLP_OK
        || nlp_get_u32(buffer.data() + block.offset, block.size, &table[4], &value) != NLP_OK || !is_address())
        return 1;
    std::printf("%u: %u\n", table[4].kind & NLP_KIND_MASK, value);
    return 0;
}
