/* Adds an address to a link: route_add_address NAME ADDRESS/LENGTH. Prints the reason if the kernel refuses. */
#include <arpa/inet.h>
#include <linux/if_addr.h>
#include <net/if.h>
#include <netlink_packet_route.h>
#include <netlink_packet_socket.h>
#include <stdio.h>

/* Writes the request: the address twice, since it is not that of a peer. */
static void write_request(struct nlp_writer *writer, const char *link, const char *address, unsigned prefix)
{
    const bool is_four = strchr(address, ':') == NULL;
    uint8_t bytes[16] = { 0 };
    const struct nlp_frame_mark frame = nlp_route_request(writer, NLP_RTM_NEWADDR, NLM_F_CREATE | NLM_F_EXCL);
    if (inet_pton(is_four ? AF_INET : AF_INET6, address, bytes) != 1)
        writer->failed = NLP_WRONG_SHAPE;
    nlp_route_set(writer, frame, NLP_IFA_FAMILY, is_four ? AF_INET : AF_INET6);
    nlp_route_set(writer, frame, NLP_IFA_PREFIXLEN, prefix);
    nlp_route_set(writer, frame, NLP_IFA_INDEX, if_nametoindex(link));
    struct nlp_route_block attributes = nlp_route_attrs(writer, NLP_RTM_NEWADDR);
    nlp_route_put_ip(writer, &attributes, NLP_IFA_LOCAL, bytes, is_four ? 4 : 16);
    nlp_route_put_ip(writer, &attributes, NLP_IFA_ADDRESS, bytes, is_four ? 4 : 16);
    nlp_writer_frame_end(writer, frame);
}

int main(int count, char **words)
{
    char *slash = count == 3 ? strchr(words[2], '/') : NULL;
    uint8_t request[128];
    struct nlp_socket socket;
    struct nlp_answer answer;
    struct nlp_writer writer = nlp_writer_begin(request, sizeof request);
    if (slash == NULL || nlp_socket_open(&socket, NETLINK_ROUTE) != 0)
        return 2;
    *slash = 0;
    write_request(&writer, words[1], words[2], (unsigned)atoi(slash + 1));
    nlp_socket_request(&socket, &writer, NULL, NULL, &answer);
    if (answer.what != NLP_ANSWER_DONE)
        fprintf(stderr, "%s\n", nlp_answer_text(&answer));
    nlp_socket_close(&socket);
    return answer.what != NLP_ANSWER_DONE;
}
