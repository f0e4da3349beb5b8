/* Tests netlink_packet_socket.h with the kernel of this machine, which it only asks. */
#define _DEFAULT_SOURCE
#include "netlink_packet_socket.h"

#include <fcntl.h>
#include <linux/if_link.h>
#include <linux/rtnetlink.h>
#include <net/if.h>
#include <stdio.h>

static int passed, failed;

static void expect(const char *what, bool holds)
{
    if (holds) {
        passed++;
    } else {
        failed++;
        fprintf(stderr, "failed: %s\n", what);
    }
}

static uint8_t requests[128];

/* A request for the link with this index, or for all, with the mask of statistics that no kernel knows. */
static struct nlp_writer asked(uint16_t flags, int index, bool is_wrong)
{
    const struct nlp_header header = { 0, RTM_GETLINK, flags, 0, 0 };
    struct ifinfomsg fixed;
    memset(&fixed, 0, sizeof fixed);
    fixed.ifi_index = index;
    struct nlp_writer writer = nlp_writer_begin(requests, sizeof requests);
    const struct nlp_frame_mark frame = nlp_writer_frame(&writer, &header, &fixed, sizeof fixed);
    if (is_wrong)
        nlp_writer_put_u8(&writer, IFLA_EXT_MASK, 1);
    nlp_writer_frame_end(&writer, frame);
    return writer;
}

/* Counts links, and stops at the number that `context` points to. */
static size_t links;

static int count(const uint8_t *bytes, const struct nlp_message *message, void *context)
{
    const size_t *stop = (const size_t *)context;
    (void)bytes;
    links += message->header.message_type == RTM_NEWLINK;
    return stop != NULL && links == *stop ? 7 : 0;
}

/* The links that the system names. */
static size_t named(void)
{
    struct if_nameindex *all = if_nameindex();
    size_t found = 0;
    while (all != NULL && all[found].if_index != 0)
        found++;
    if_freenameindex(all);
    return found;
}

/* Dumps the links, again if they changed meanwhile. */
static uint32_t dumped(struct nlp_socket *s, const size_t *stop, struct nlp_answer *answer)
{
    const struct nlp_writer writer = asked(NLM_F_DUMP, 0, false);
    for (int i = 0; i < 5; i++) {
        links = 0;
        if (nlp_socket_request(s, &writer, count, (void *)stop, answer) != NLP_ANSWER_INTERRUPTED)
            break;
    }
    return answer->what;
}

int main(void)
{
    const size_t one = 1;
    struct nlp_socket s, unknown;
    struct nlp_answer answer;
    struct nlp_writer writer;
    uint8_t bytes[8];
    size_t size = 0;

    expect("a protocol that does not exist", nlp_socket_open(&unknown, 4711) != 0 && unknown.fd < 0);
    nlp_socket_close(&unknown);
    expect("a socket", nlp_socket_open(&s, NETLINK_ROUTE) == 0 && s.port != 0 && s.lacks < 8);
    expect("it is closed on exec", (fcntl(nlp_socket_fd(&s), F_GETFD) & FD_CLOEXEC) != 0);
    expect("a queue", nlp_socket_set_buffer(&s, 1 << 20) == 0);
    nlp_socket_set_limit(&s, 2000);
    for (int i = 0; i < 5 && (dumped(&s, NULL, &answer) != NLP_ANSWER_DONE || links != named()); i++)
        continue;
    expect("the links", answer.what == NLP_ANSWER_DONE && links == named());
    expect("a dump that is stopped", dumped(&s, &one, &answer) == NLP_ANSWER_STOPPED && answer.code == 7 && links == 1);
    expect("a dump after it", dumped(&s, NULL, &answer) == NLP_ANSWER_DONE && links > 0);
    writer = asked(0, 0x7fffffff, false);
    expect("a link that does not exist", nlp_socket_request(&s, &writer, count, NULL, &answer) == NLP_ANSWER_REJECTED && answer.code == ENODEV);
    expect("its text", strcmp(nlp_answer_text(&answer), answer.text[0] != 0 ? answer.text : strerror(ENODEV)) == 0);
    writer = asked(0, 1, false);
    links = 0;
    expect("the first link", nlp_socket_request(&s, &writer, count, NULL, &answer) == NLP_ANSWER_DONE && links == 1);
    writer = asked(NLM_F_DUMP, 0, true);
    const bool is_told = nlp_socket_request(&s, &writer, count, NULL, &answer) == NLP_ANSWER_REJECTED && answer.offset == 32 && answer.kind == IFLA_EXT_MASK;
    expect("the attribute concerned", s.lacks != 0 || is_told);
    expect("a group", nlp_socket_join(&s, RTNLGRP_LINK) == 0 && nlp_socket_leave(&s, RTNLGRP_LINK) == 0);
    expect("a group that does not exist", nlp_socket_join(&s, 100000) != 0);
    nlp_socket_set_limit(&s, 20);
    expect("no datagram within the limit", nlp_socket_receive(&s, bytes, sizeof bytes, &size) == EAGAIN);
    nlp_socket_close(&s);
    expect("a socket that is closed", nlp_socket_join(&s, RTNLGRP_LINK) == EBADF);
    printf("%d passed, %d failed\n", passed, failed);
    return failed != 0;
}
