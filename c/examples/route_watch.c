/* Prints the links and addresses that change, until Ctrl-C. */
#include <linux/rtnetlink.h>
#include <netlink_packet_route.h>
#include <netlink_packet_socket.h>
#include <signal.h>
#include <stdio.h>

static volatile sig_atomic_t stopped;

static void stop(int number)
{
    (void)number;
    stopped = 1;
}

static void print_event(const uint8_t *bytes, const struct nlp_message *message)
{
    static char text[16384];
    struct nlp_route_error error;
    size_t size = 0;
    const uint32_t result = nlp_route_show(message->header.message_type, bytes + message->payload.offset,
                                           message->payload.size, (uint8_t *)text, sizeof text, &size, &error);
    printf("%.*s\n", result == NLP_OK ? (int)size : 0, text);
    fflush(stdout);
}

int main(void)
{
    static const uint32_t groups[3] = { RTNLGRP_LINK, RTNLGRP_IPV4_IFADDR, RTNLGRP_IPV6_IFADDR };
    static uint8_t bytes[65536];
    struct nlp_socket socket;
    struct nlp_messages walk;
    const struct nlp_message *message;
    size_t size = 0;
    signal(SIGINT, stop);
    int error = nlp_socket_open(&socket, NETLINK_ROUTE);
    nlp_socket_set_limit(&socket, 500); /* after which it looks whether it was stopped */
    for (size_t i = 0; error == 0 && i < 3; i++)
        error = nlp_socket_join(&socket, groups[i]);
    while (!stopped && (error == 0 || error == EAGAIN || error == ENOBUFS)) {
        if (error == ENOBUFS)
            printf("events were lost\n");
        error = nlp_socket_receive(&socket, bytes, sizeof bytes, &size);
        nlp_messages_begin(&walk, bytes, error == 0 ? size : 0);
        while ((message = nlp_messages_next(&walk)) != NULL)
            print_event(bytes, message);
    }
    nlp_socket_close(&socket);
    return !stopped;
}
