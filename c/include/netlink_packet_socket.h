/* SPDX-License-Identifier: MIT
 *
 * netlink_packet_socket.h: a netlink socket, and a request with its whole answer, over netlink_packet.h.
 *
 * All functions here are plain C over the calls of the system, compiled into your program. Nothing is proved of
 * them; c/test tests them. Every step that decides about the bytes of a message is a proved call of
 * netlink_packet.h: which frames belong to an answer, what they mean, and what ends it.
 *
 *     struct nlp_socket socket;
 *     struct nlp_answer answer;
 *     if (nlp_socket_open(&socket, NETLINK_ROUTE) != 0)
 *         return 1;
 *     ..                                                      write requests, see nlp_writer_begin
 *     nlp_socket_request(&socket, &writer, on_message, NULL, &answer);
 *     nlp_socket_close(&socket);
 *
 * A socket is for one thread at a time, and for requests or for events: a request drops the events that wait.
 */
#ifndef NETLINK_PACKET_SOCKET_H
#define NETLINK_PACKET_SOCKET_H

#include "netlink_packet.h"

#include <errno.h>
#include <fcntl.h>
#include <linux/netlink.h>
#include <poll.h>
#include <stdlib.h>
#include <sys/socket.h>
#include <sys/times.h>
#include <unistd.h>

#ifdef __cplusplus
extern "C" {
#endif

/* ---- a socket ---------------------------------------------------------------------------------- */

/* What a kernel lacks, in `lacks` of a socket: texts and offsets of errors (Linux 4.12), errors without the
 * payload of the request (4.3), and strict checks of requests (4.20). */
enum { NLP_LACKS_EXT_ACK = 1, NLP_LACKS_CAP_ACK = 2, NLP_LACKS_STRICT_CHK = 4 };

struct nlp_socket {
    int fd;
    uint32_t port;     /* which the kernel gave to the socket */
    uint32_t sequence; /* the sequence number of the last request */
    uint32_t lacks;    /* NLP_LACKS_EXT_ACK and so on */
    unsigned limit;    /* how many milliseconds a call may wait; 0 for any number */
    bool is_busy;      /* a request is going on */
    uint8_t *bytes;    /* the buffer of nlp_socket_request; nlp_socket_close frees it */
    size_t capacity;
};

/* Opens a socket of a protocol, such as NETLINK_ROUTE, and binds it to a port that the kernel gives. It is closed
 * on exec, and waits without a limit. Switches on the text and the offset of errors, errors that do not repeat the
 * payload of the request, and strict checks: the kernel then applies the filters of a dump, and rejects a dump that
 * has not the whole fixed header, such as the struct rtgenmsg that many programs send for links. `lacks` says which
 * of these the kernel does not have. Returns 0, or an errno, and then the socket is not open. */
NLP_NONNULL(1)
static inline NLP_RESULT int nlp_socket_open(struct nlp_socket *s, int protocol)
{
    static const int options[3] = { 11, 10, 12 }; /* NETLINK_EXT_ACK, NETLINK_CAP_ACK, NETLINK_GET_STRICT_CHK */
    const int level = 270, on = 1;                /* SOL_NETLINK */
    struct sockaddr_nl own;
    socklen_t size = sizeof own;

    memset(s, 0, sizeof *s);
    memset(&own, 0, sizeof own);
    own.nl_family = AF_NETLINK;
    s->fd = socket(AF_NETLINK, SOCK_RAW | SOCK_CLOEXEC, protocol);
    if (s->fd < 0)
        return errno;
    if (bind(s->fd, (struct sockaddr *)&own, sizeof own) < 0
        || getsockname(s->fd, (struct sockaddr *)&own, &size) < 0) {
        const int error = errno;
        close(s->fd);
        s->fd = -1;
        return error;
    }
    s->port = own.nl_pid;
    for (unsigned i = 0; i < 3; i++)
        if (setsockopt(s->fd, level, options[i], &on, sizeof on) < 0)
            s->lacks |= 1u << i;
    return 0;
}

/* Closes the socket and frees its buffer. */
NLP_NONNULL(1)
static inline void nlp_socket_close(struct nlp_socket *s)
{
    if (s->fd >= 0)
        close(s->fd);
    free(s->bytes);
    s->fd = -1;
    s->bytes = NULL;
    s->capacity = 0;
}

/* The descriptor, for poll and the like. If it can be read, nlp_socket_receive may still wait, because the datagram
 * is of another sender: set O_NONBLOCK, or a limit. */
NLP_NONNULL(1)
static inline int nlp_socket_fd(const struct nlp_socket *s)
{
    return s->fd;
}

/* Joins a multicast group by its number, such as RTNLGRP_LINK. Returns 0 or an errno. Use another socket for
 * requests: they drop the events that wait, and an event that a request causes itself counts as its answer. */
NLP_NONNULL(1)
static inline NLP_RESULT int nlp_socket_join(struct nlp_socket *s, uint32_t group)
{
    return setsockopt(s->fd, 270, NETLINK_ADD_MEMBERSHIP, &group, sizeof group) < 0 ? errno : 0;
}

/* Leaves a multicast group. Returns 0 or an errno. */
NLP_NONNULL(1)
static inline NLP_RESULT int nlp_socket_leave(struct nlp_socket *s, uint32_t group)
{
    return setsockopt(s->fd, 270, NETLINK_DROP_MEMBERSHIP, &group, sizeof group) < 0 ? errno : 0;
}

/* Sets how many bytes of datagrams may wait in the socket. A larger queue loses fewer events; with less than 65536
 * bytes, a dump may end as NLP_ANSWER_OVERRUN. Without CAP_NET_ADMIN, the system takes at most net.core.rmem_max, and
 * does not say so. Returns 0 or an errno. */
NLP_NONNULL(1)
static inline NLP_RESULT int nlp_socket_set_buffer(struct nlp_socket *s, int size)
{
    const int force = 33; /* SO_RCVBUFFORCE */

    if (setsockopt(s->fd, SOL_SOCKET, force, &size, sizeof size) == 0)
        return 0;
    return setsockopt(s->fd, SOL_SOCKET, SO_RCVBUF, &size, sizeof size) < 0 ? errno : 0;
}

/* Sets how long nlp_socket_receive waits for a datagram of the kernel, and nlp_socket_request for the next frame of
 * an answer, in milliseconds; 0 for any time. Other datagrams and signals do not prolong it. */
NLP_NONNULL(1)
static inline void nlp_socket_set_limit(struct nlp_socket *s, unsigned milliseconds)
{
    s->limit = milliseconds;
}

/* ---- receive ----------------------------------------------------------------------------------- */

/* Milliseconds since some time in the past, by the clock that nobody sets. It ticks every 10. */
static inline long nlp_socket_now(void)
{
    struct tms unused;

    return (long)times(&unused) * 1000 / sysconf(_SC_CLK_TCK);
}

/* Whether the limit has passed since `begun`. */
static inline bool nlp_socket_is_late(const struct nlp_socket *s, long begun)
{
    return s->limit != 0 && nlp_socket_now() - begun >= (long)s->limit;
}

/* Waits until the socket can be read, a signal comes, or the limit has passed since `begun`. Returns 0 or an errno:
 * EAGAIN if it has passed, or if the socket does not block. */
static inline int nlp_socket_wait(const struct nlp_socket *s, long begun)
{
    struct pollfd one;
    const long passed = nlp_socket_now() - begun;
    int found;

    if ((fcntl(s->fd, F_GETFL) & O_NONBLOCK) != 0 || (s->limit != 0 && passed >= (long)s->limit))
        return EAGAIN;
    one.fd = s->fd;
    one.events = POLLIN;
    one.revents = 0;
    found = poll(&one, 1, s->limit == 0 ? -1 : (int)((long)s->limit - passed));
    return found >= 0 || errno == EINTR ? 0 : errno;
}

/* Calls recvmsg, which does not wait. Returns 0, with the port of the sender and the size of the datagram, or an
 * errno: EAGAIN if there is none. */
static inline int nlp_socket_read(const struct nlp_socket *s, uint8_t *bytes, size_t capacity, int flags,
                                  uint32_t *sender, size_t *size)
{
    struct sockaddr_nl from;
    struct iovec part;
    struct msghdr head;
    ssize_t read;

    memset(&from, 0, sizeof from);
    memset(&head, 0, sizeof head);
    part.iov_base = bytes;
    part.iov_len = capacity;
    head.msg_name = &from;
    head.msg_namelen = sizeof from;
    head.msg_iov = &part;
    head.msg_iovlen = 1;
    read = recvmsg(s->fd, &head, flags | MSG_TRUNC | MSG_DONTWAIT);
    if (read < 0)
        return errno == EINTR || errno == EWOULDBLOCK ? EAGAIN : errno;
    *sender = from.nl_pid;
    *size = (size_t)read;
    return 0;
}

/* Receives one datagram of the kernel, within the limit since `begun`. */
static inline int nlp_socket_receive_since(const struct nlp_socket *s, uint8_t *bytes, size_t capacity, size_t *size,
                                           long begun)
{
    uint32_t sender = 0;

    for (*size = 0;;) {
        int error = nlp_socket_read(s, NULL, 0, MSG_PEEK, &sender, size);
        if (error == 0 && sender == 0 && *size > capacity)
            return EMSGSIZE;
        if (error == 0)
            error = nlp_socket_read(s, bytes, sender == 0 ? capacity : 0, 0, &sender, size);
        if (error == 0 && sender == 0)
            return 0;
        *size = 0;
        if (error == EAGAIN)
            error = nlp_socket_wait(s, begun);
        else if (error == 0 && nlp_socket_is_late(s, begun))
            error = EAGAIN;
        if (error != 0)
            return error;
    }
}

/* Receives one datagram of the kernel; those of other senders are skipped. Returns 0, and `*size` is its size; else
 * an errno, and `*size` is 0, except at EMSGSIZE. EMSGSIZE: it has `*size` bytes, more than `capacity`, and can still be
 * received. ENOBUFS: the queue was full, and events are lost, so what is known must be dumped again. EAGAIN: no
 * datagram came within the limit, or, if the socket does not block, none is there. */
NLP_NONNULL(1, 4)
static inline NLP_RESULT int nlp_socket_receive(const struct nlp_socket *s, uint8_t *bytes, size_t capacity,
                                                size_t *size)
{
    return nlp_socket_receive_since(s, bytes, capacity, size, nlp_socket_now());
}

/* ---- request ----------------------------------------------------------------------------------- */

/* How the answers to requests end. The socket can be used again after each. */
enum {
    NLP_ANSWER_DONE = 0,        /* they are complete                                                       */
    NLP_ANSWER_REJECTED = 1,    /* the kernel rejected a request, or a dump failed: code, text, kind       */
    NLP_ANSWER_INTERRUPTED = 2, /* what a dump lists changed meanwhile: request it again                   */
    NLP_ANSWER_STOPPED = 3,     /* the function stopped it: code                                           */
    NLP_ANSWER_OVERRUN = 4,     /* datagrams were lost                                                     */
    NLP_ANSWER_TIMED_OUT = 5,   /* nothing of it came within the limit of the socket                       */
    NLP_ANSWER_MALFORMED = 6,   /* a frame is damaged: fault                                               */
    NLP_ANSWER_FAILED = 7,      /* a call of the system failed, or another request is going on (EBUSY)     */
    NLP_ANSWER_UNWRITTEN = 8    /* the writer failed, or has no whole requests: nothing is sent; code: NLP_* */
};

/* How the answers to requests ended. */
struct nlp_answer {
    uint32_t what;          /* NLP_ANSWER_DONE to NLP_ANSWER_UNWRITTEN */
    int code;               /* an errno; of NLP_ANSWER_STOPPED, what the function returned; else 0 */
    size_t request;         /* where the request concerned starts in the buffer of the writer */
    char text[128];         /* the kernel's text, as much as fits, and a zero; it may warn of what was done too */
    uint32_t offset;        /* where the attribute concerned starts in that request; 0 if the kernel names none */
    uint16_t kind;          /* its kind, without flag bits; or the kind that the request lacks, in the nest there */
    bool is_missing;        /* whether the request lacks an attribute of this kind */
    struct nlp_fault fault; /* the numbers of the error */
};

/* A function that gets each message of an answer: it returns 0 to go on. The message is in `bytes`, which are valid
 * until it returns; its frame starts 16 bytes before its payload. */
typedef int nlp_on_message(const uint8_t *bytes, const struct nlp_message *message, void *context);

/* Passes over what waits in the queue: the rest of an earlier answer, because the kernel begins no other dump before
 * its end, and sends nothing after an overrun until the queue was empty. */
static inline void nlp_socket_drain(const struct nlp_socket *s)
{
    uint32_t sender;
    size_t size;
    int error = 0;

    for (unsigned i = 0; i < 1u << 20 && (error == 0 || error == ENOBUFS); i++)
        error = nlp_socket_read(s, NULL, 0, 0, &sender, &size);
}

/* Receives a datagram into the buffer of the socket, which grows if it must. Returns 0 or an errno. */
static inline int nlp_answer_receive(struct nlp_socket *s, size_t *size, long begun)
{
    for (*size = 32768;;) {
        int error = EMSGSIZE;
        if (s->bytes != NULL)
            error = nlp_socket_receive_since(s, s->bytes, s->capacity, size, begun);
        if (error != EMSGSIZE)
            return error;
        uint8_t *more = (uint8_t *)realloc(s->bytes, *size);
        if (more == NULL)
            return ENOMEM;
        s->bytes = more;
        s->capacity = *size;
    }
}

/* Keeps what the kernel says about a request in the attributes of an extended acknowledgement. */
static inline void nlp_answer_told(const uint8_t *bytes, const struct nlp_reply *reply, const uint8_t *request,
                                   size_t size, struct nlp_answer *answer)
{
    const uint8_t *attributes = bytes + reply->attributes.offset;
    const size_t len = reply->attributes.size;
    struct nlp_part text = { 0, 0 };
    struct nlp_attr attr;
    uint32_t kind = 0;
    size_t at;

    nlp_ext_ack_text(attributes, len, &text);
    if (text.size >= sizeof answer->text)
        text.size = sizeof answer->text - 1;
    memcpy(answer->text, attributes + text.offset, text.size);
    answer->text[text.size] = 0;
    nlp_ext_ack_offset(attributes, len, &answer->offset);
    at = answer->offset;
    if (at != 0 && at < size && nlp_attrs_next_opt(request, size, &at, &attr, NULL) == NLP_OK)
        answer->kind = (uint16_t)(attr.kind & NLP_KIND_MASK);
    answer->is_missing = nlp_ext_ack_missing_type(attributes, len, &kind) == NLP_OK;
    if (answer->is_missing) {
        answer->kind = (uint16_t)kind;
        nlp_ext_ack_missing_nest(attributes, len, &answer->offset);
    }
}

/* Takes one part of an answer. */
static inline void nlp_answer_take(const uint8_t *bytes, const struct nlp_reply *reply, nlp_on_message *on_message,
                                   void *context, struct nlp_answer *answer)
{
    struct nlp_message message;

    if (reply->what == NLP_OVERRUN) {
        answer->what = NLP_ANSWER_OVERRUN;
    } else if (reply->code != 0) {
        answer->what = NLP_ANSWER_REJECTED;
        answer->code = reply->code < 0 && reply->code > -4096 ? -reply->code : EPROTO;
    } else if (reply->what == NLP_MESSAGE && on_message != NULL) {
        nlp_reply_message(bytes, reply, &message);
        answer->code = on_message(bytes, &message, context);
        answer->what = answer->code != 0 ? NLP_ANSWER_STOPPED : NLP_ANSWER_DONE;
    }
}

/* Reads what a datagram has of an answer. The messages after a failure, or after the function has stopped the answer,
 * are passed over. Returns whether it has a frame of the answer. */
static inline bool nlp_answer_read(const uint8_t *bytes, size_t size, struct nlp_replies *replies,
                                   nlp_on_message *on_message, void *context, const uint8_t *request,
                                   size_t request_size, struct nlp_answer *answer)
{
    struct nlp_reply reply;
    struct nlp_fault fault;
    uint32_t result;
    size_t at = 0;
    bool is_part = false;

    while ((result = nlp_replies_next(bytes, size, &at, replies, &reply, &fault)) == NLP_OK) {
        is_part = is_part || reply.what != NLP_OTHER;
        if (answer->what != NLP_ANSWER_DONE || reply.what == NLP_OTHER)
            continue;
        if (reply.attributes.size != 0)
            nlp_answer_told(bytes, &reply, request, request_size, answer);
        nlp_answer_take(bytes, &reply, on_message, context, answer);
    }
    if (result != NLP_END) {
        answer->what = NLP_ANSWER_MALFORMED;
        answer->code = 0;
        answer->fault = fault;
    }
    return is_part;
}

/* Reads the answer to a request to its end. Returns 0 or an errno. */
static inline int nlp_answer_whole(struct nlp_socket *s, struct nlp_replies *replies, nlp_on_message *on_message,
                                   void *context, const uint8_t *request, size_t size, struct nlp_answer *answer)
{
    long begun = nlp_socket_now();

    while (!replies->ended && answer->what < NLP_ANSWER_OVERRUN) {
        size_t read = 0;
        const int error = nlp_answer_receive(s, &read, begun);
        if (error != 0)
            return error;
        if (nlp_answer_read(s->bytes, read, replies, on_message, context, request, size, answer))
            begun = nlp_socket_now();
        else if (nlp_socket_is_late(s, begun))
            return EAGAIN;
    }
    return 0;
}

/* Sends a request. Returns 0 or an errno. */
static inline int nlp_socket_send(const struct nlp_socket *s, const uint8_t *request, size_t size)
{
    ssize_t sent;

    do
        sent = send(s->fd, request, size, 0);
    while (sent < 0 && errno == EINTR);
    return sent < 0 ? errno : 0;
}

/* Sends one request, and reads its answer to the end. */
static inline void nlp_socket_request_one(struct nlp_socket *s, uint8_t *request, size_t size,
                                          nlp_on_message *on_message, void *context, struct nlp_answer *answer)
{
    struct nlp_header header;
    struct nlp_replies replies;

    if (nlp_frame_header(request, size, &header, &answer->fault) != NLP_OK) {
        answer->what = NLP_ANSWER_UNWRITTEN;
        return;
    }
    const bool is_dump = (header.flags & NLM_F_DUMP) == NLM_F_DUMP;
    header.flags |= (uint16_t)(is_dump ? NLM_F_REQUEST : NLM_F_REQUEST | NLM_F_ACK);
    if (++s->sequence == 0)
        s->sequence = 1;
    header.sequence_number = s->sequence;
    header.port_number = s->port;
    memcpy(request, &header, sizeof header);
    nlp_replies_begin(&header, is_dump, &replies);
    nlp_socket_drain(s);
    int error = nlp_socket_send(s, request, size);
    if (error == 0)
        error = nlp_answer_whole(s, &replies, on_message, context, request, size, answer);
    if (error != 0) {
        answer->what = error == ENOBUFS  ? NLP_ANSWER_OVERRUN
                       : error == EAGAIN ? NLP_ANSWER_TIMED_OUT
                                         : NLP_ANSWER_FAILED;
        answer->code = error;
    } else if (replies.interrupted && answer->what == NLP_ANSWER_DONE) {
        answer->what = NLP_ANSWER_INTERRUPTED;
    }
}

/* Returns NLP_OK if what a writer has written is whole frames, one after another; else why not. */
static inline uint32_t nlp_socket_checked(const struct nlp_writer *writer, struct nlp_answer *answer)
{
    struct nlp_part frame;
    uint32_t result = writer->failed;
    size_t at = 0;

    while (result == NLP_OK)
        result = nlp_frames_next(writer->buffer, writer->at, &at, &frame, &answer->fault);
    return result == NLP_END ? (uint32_t)NLP_OK : result;
}

/* Sends the requests that a writer has written, one after the answer to another, and reads each answer to its end.
 * Gives each message of the answers to the function, if that is not NULL; if it returns another number than 0, the
 * rest of that answer is read and not given to it. Stops at the first answer that is not done: `answer->request` says
 * which, and what was requested before is done. Returns `answer->what`.
 *
 * Sets in the header of each request the sequence number, the port and the flag NLM_F_REQUEST, and NLM_F_ACK unless
 * it is a dump. A request is a dump if its flags have both bits of NLM_F_DUMP; these are also those of
 * NLM_F_REPLACE | NLM_F_EXCL, which contradict each other. Allocates the buffer of the socket: 32 KB, or the size of
 * the largest datagram. For protocols that answer with the numbers of the request, as NETLINK_ROUTE and
 * NETLINK_GENERIC do; NETLINK_AUDIT and NETLINK_FIB_LOOKUP do not. */
NLP_NONNULL(1, 2, 5)
static inline uint32_t nlp_socket_request(struct nlp_socket *s, const struct nlp_writer *writer,
                                          nlp_on_message *on_message, void *context, struct nlp_answer *answer)
{
    struct nlp_part frame;
    size_t at = 0;

    memset(answer, 0, sizeof *answer);
    answer->code = (int)nlp_socket_checked(writer, answer);
    if (answer->code != NLP_OK)
        return answer->what = NLP_ANSWER_UNWRITTEN;
    if (s->is_busy) {
        answer->code = EBUSY;
        return answer->what = NLP_ANSWER_FAILED;
    }
    s->is_busy = true;
    while (answer->what == NLP_ANSWER_DONE && at < writer->at) {
        answer->request = at;
        if (nlp_frames_next(writer->buffer, writer->at, &at, &frame, &answer->fault) == NLP_OK)
            nlp_socket_request_one(s, writer->buffer + frame.offset, frame.size, on_message, context, answer);
    }
    s->is_busy = false;
    return answer->what;
}

/* Returns a text that says how the answers ended: that of the kernel or of the errno, or another. It is valid until
 * `*answer` changes, or strerror is called. */
NLP_NONNULL(1)
static inline const char *nlp_answer_text(const struct nlp_answer *answer)
{
    switch (answer->what) {
    case NLP_ANSWER_DONE:
        return "done";
    case NLP_ANSWER_INTERRUPTED:
        return "something changed during the dump: request it again";
    case NLP_ANSWER_STOPPED:
        return "stopped";
    case NLP_ANSWER_OVERRUN:
        return "messages were lost: request it again";
    case NLP_ANSWER_TIMED_OUT:
        return "no answer in time";
    case NLP_ANSWER_MALFORMED:
        return "a frame is malformed";
    case NLP_ANSWER_UNWRITTEN:
        return "the requests are not written";
    default:
        return answer->text[0] != 0 ? answer->text : strerror(answer->code);
    }
}

#ifdef __cplusplus
}
#endif

#endif
