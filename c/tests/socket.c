/* Tests netlink_packet_socket.h without a kernel: functions that return datagrams, senders and errnos, and that
 * keep what they were passed, replace the calls of the system. */
#define _DEFAULT_SOURCE
#include "netlink_packet_socket.h"

#include <stdio.h>

ssize_t __wrap_recvmsg(int fd, struct msghdr *head, int flags);
ssize_t __wrap_send(int fd, const void *bytes, size_t size, int flags);
clock_t __wrap_times(struct tms *out);
int __wrap_poll(struct pollfd *all, nfds_t count, int limit);
int __wrap_fcntl(int fd, int command, ...);
int __wrap_socket(int domain, int type, int protocol);
int __wrap_bind(int fd, const struct sockaddr *address, socklen_t size);
int __wrap_getsockname(int fd, struct sockaddr *address, socklen_t *size);
int __wrap_setsockopt(int fd, int level, int name, const void *value, socklen_t size);
int __wrap_close(int fd);

/* What is received next: a datagram of a sender, or an errno. It is there after this many requests were sent: after one
 * if the number is 0, and from the start if it is -1. */
struct step {
    const uint8_t *bytes;
    size_t size;
    uint32_t sender;
    int error;
    int after;
};

static const struct step *steps;
static size_t left, received;
static uint8_t sent[512];
static size_t sends, sent_size;
static int send_errors[4];
static long now; /* in milliseconds; each look at the clock takes 10 */
static int waited, poll_error, descriptor_flags;

static bool is_there(void)
{
    return left != 0 && (long)sends >= (steps->after == 0 ? 1 : steps->after);
}

static ssize_t fails(int error)
{
    errno = error;
    return -1;
}

/* Returns the next step. A call never waits. */
ssize_t __wrap_recvmsg(int fd, struct msghdr *head, int flags)
{
    struct sockaddr_nl *from = head->msg_name;
    if (fd != 3 || head->msg_namelen != sizeof *from || head->msg_iovlen != 1 || head->msg_control != NULL)
        return fails(EFAULT);
    if ((flags & (MSG_DONTWAIT | MSG_TRUNC)) != (MSG_DONTWAIT | MSG_TRUNC))
        return fails(EFAULT);
    if (!is_there())
        return fails(EAGAIN);
    if (steps->error != 0) {
        left--;
        return fails(steps++->error);
    }
    const size_t size = steps->size, room = head->msg_iov->iov_len, copied = size < room ? size : room;
    from->nl_pid = steps->sender;
    if (copied != 0)
        memcpy(head->msg_iov->iov_base, steps->bytes, copied);
    if ((flags & MSG_PEEK) == 0) {
        steps++;
        left--;
        received++;
    }
    return (ssize_t)size;
}

/* Waits for the next step; if there is none, until the limit. */
int __wrap_poll(struct pollfd *all, nfds_t count, int limit)
{
    waited = limit;
    if (poll_error != 0 || count != 1 || all->fd != 3 || all->events != POLLIN) {
        const int error = poll_error;
        poll_error = 0;
        return (int)fails(error);
    }
    if (is_there())
        return 1;
    if (limit < 0) {
        fprintf(stderr, "failed: it waits without end\n");
        exit(1);
    }
    now += limit;
    return 0;
}

/* Keeps the last request. */
ssize_t __wrap_send(int fd, const void *bytes, size_t size, int flags)
{
    if (send_errors[sends] != 0 || fd != 3 || flags != 0)
        return fails(send_errors[sends++]);
    sends++;
    memcpy(sent, bytes, size);
    sent_size = size;
    return (ssize_t)size;
}

clock_t __wrap_times(struct tms *out)
{
    (void)out;
    now += 10;
    return now / 1000 * sysconf(_SC_CLK_TCK) + now % 1000 * sysconf(_SC_CLK_TCK) / 1000;
}

int __wrap_fcntl(int fd, int command, ...)
{
    return fd == 3 && command == F_GETFL ? descriptor_flags : -1;
}

/* The calls that fail: each has a number, and an option its own. */
enum { NO_CALL = 0, SOCKET = -1, BIND = -2, NAME = -3, PROTOCOL = 9, DESCRIPTOR = 5, LEVEL = 270 };
static int failing;
static size_t options_set, closed;

/* The options that were set. */
static struct option {
    int level, name;
    uint8_t value[16];
    socklen_t size;
} options[8];

static int outcome(int call)
{
    errno = EACCES;
    return failing == call ? -1 : 0;
}

int __wrap_socket(int domain, int type, int protocol)
{
    const bool is_right = domain == 16 && type == (SOCK_RAW | SOCK_CLOEXEC) && protocol == PROTOCOL;
    return outcome(SOCKET) < 0 || !is_right ? -1 : DESCRIPTOR;
}

int __wrap_bind(int fd, const struct sockaddr *address, socklen_t size)
{
    static const struct sockaddr_nl wanted = { 16, 0, 0, 0 };
    return fd == DESCRIPTOR && size == sizeof wanted && memcmp(address, &wanted, size) == 0 ? outcome(BIND) : -1;
}

int __wrap_getsockname(int fd, struct sockaddr *address, socklen_t *size)
{
    const struct sockaddr_nl own = { 16, 0, 77, 0 };
    if (fd != DESCRIPTOR || *size != sizeof own || outcome(NAME) < 0)
        return -1;
    memcpy(address, &own, sizeof own);
    return 0;
}

int __wrap_setsockopt(int fd, int level, int name, const void *value, socklen_t size)
{
    struct option *option = &options[options_set++ % 8];
    if (fd != DESCRIPTOR || size > sizeof option->value)
        return -1;
    option->level = level;
    option->name = name;
    option->size = size;
    memcpy(option->value, value, size);
    return outcome(name);
}

int __wrap_close(int fd)
{
    closed += fd == DESCRIPTOR;
    return 0;
}

static int passed, failed;

static void expect(const char *what, bool holds)
{
    if (holds) {
        passed++;
    } else {
        failed++;
        fprintf(stderr, "failed: %s\n", what);
    }
}

enum { GET_LINK = 18, NEW_LINK = 16, DONE = 3, ERROR = 2, OVERRUN = 4, MULTI = 2, TORN = 0x10, CAPPED = 0x100, TLVS = 0x200 };

/* Bytes of frames, one after another. */
static uint8_t made[50000];
static size_t made_size;

/* Adds a frame with the port 77 and these bytes. Returns its size with padding. */
static size_t frame(uint16_t type, uint16_t flags, uint32_t sequence, const void *payload, size_t size)
{
    const struct nlp_header header = { (uint32_t)(16 + size), type, flags, sequence, 77 };
    const size_t start = made_size;
    memcpy(made + made_size, &header, sizeof header);
    memset(made + made_size + 16, 0, (size + 3) / 4 * 4);
    if (size != 0)
        memcpy(made + made_size + 16, payload, size);
    made_size += 16 + (size + 3) / 4 * 4;
    return made_size - start;
}

/* Adds an error message of a request with this code, and with attributes if there are any. */
static size_t error_frame(int32_t code, uint32_t sequence, const uint8_t *attributes, size_t size)
{
    const struct nlp_header request = { 40, GET_LINK, 5, sequence, 77 };
    uint8_t body[400];
    memcpy(body, &code, 4);
    memcpy(body + 4, &request, 16);
    if (size != 0)
        memcpy(body + 20, attributes, size);
    return frame(ERROR, size != 0 ? CAPPED | TLVS : CAPPED, sequence, body, 20 + size);
}

/* The messages that a function got: how many, the size of all payloads, and when it stops. */
struct seen {
    size_t count, size, stop;
};

static int see(const uint8_t *bytes, const struct nlp_message *message, void *context)
{
    struct seen *seen = context;
    seen->count += message->header.message_type == NEW_LINK && bytes[message->payload.offset] == 7;
    seen->size += message->payload.size;
    return seen->count == seen->stop ? 5 : 0;
}

static struct nlp_answer answer;
static struct seen seen;
static struct nlp_socket s;

/* A function that begins a request in a request. */
static int nest(const uint8_t *bytes, const struct nlp_message *message, void *context)
{
    struct nlp_answer *inner = context;
    struct nlp_writer none = nlp_writer_begin(NULL, 0);
    (void)bytes;
    (void)message;
    nlp_socket_request(&s, &none, NULL, NULL, inner);
    return 0;
}

/* A request with a fixed header of 16 bytes and the attribute (4, 01020304), written `count` times. */
static uint8_t requests[256];

static struct nlp_writer written(uint16_t flags, size_t count)
{
    static const uint8_t fixed[16];
    const struct nlp_header header = { 0, GET_LINK, flags, 0, 0 };
    struct nlp_writer writer = nlp_writer_begin(requests, sizeof requests);
    for (; count > 0; count--) {
        const struct nlp_frame_mark mark = nlp_writer_frame(&writer, &header, fixed, sizeof fixed);
        nlp_writer_put_u32(&writer, 4 | NLP_KIND_NESTED, 0x04030201);
        nlp_writer_frame_end(&writer, mark);
    }
    return writer;
}


/* Makes `requests` and runs them over these steps. */
static uint32_t run(uint16_t flags, size_t requested, const struct step *all, size_t count)
{
    const struct nlp_writer writer = written(flags, requested);
    s.sequence = 0;
    s.port = 77;
    s.limit = 300;
    steps = all;
    left = count;
    received = sends = 0;
    seen.count = seen.size = 0;
    return nlp_socket_request(&s, &writer, see, &seen, &answer);
}

static const uint8_t link_bytes[20] = { 7 };
static const uint8_t zero[4];

/* Whole answers: in one datagram, in tiny ones, with messages of others between them, and with a large message. */
static void whole(void)
{
    static uint8_t large[40000] = { 7 };
    made_size = 0;
    const size_t one = frame(NEW_LINK, MULTI, 1, link_bytes, 20);
    frame(NEW_LINK, MULTI, 1, link_bytes, 20);
    const size_t end = frame(DONE, MULTI, 1, zero, 4);
    const struct step at_once[1] = { { made, made_size, 0, 0, 0 } };
    expect("a dump in one datagram", run(0x300, 1, at_once, 1) == NLP_ANSWER_DONE && seen.count == 2 && seen.size == 40 && answer.code == 0);
    expect("the request of a dump", sends == 1 && sent_size == 40 && nlp_u16(sent + 6) == 0x301 && nlp_u32(sent + 8) == 1 && nlp_u32(sent + 12) == 77);
    const struct step tiny[5] = { { made, one, 0, 0, 0 }, { NULL, 0, 0, EINTR, 0 }, { NULL, 0, 0, 0, 0 }, { made + one, one, 0, 0, 0 }, { made + 2 * one, end, 0, 0, 0 } };
    expect("a dump in tiny datagrams", run(0x300, 1, tiny, 5) == NLP_ANSWER_DONE && seen.count == 2 && received == 4);
    const struct step foreign[3] = { { made + 2 * one, end, 4321, 0, 0 }, { made, one, 9, 0, 0 }, { made, made_size, 0, 0, 0 } };
    expect("datagrams of other senders", run(0x300, 1, foreign, 3) == NLP_ANSWER_DONE && seen.count == 2 && received == 3);
    made_size = 0;
    frame(NEW_LINK, MULTI, 2, link_bytes, 20);
    frame(NEW_LINK, 0, 0, link_bytes, 20);
    const size_t others = made_size;
    frame(NEW_LINK, MULTI, 1, large, sizeof large);
    frame(DONE, MULTI, 1, zero, 4);
    const struct step mixed[2] = { { made, others, 0, 0, 0 }, { made + others, made_size - others, 0, 0, 0 } };
    expect("frames with other numbers, and a large one", run(0x300, 1, mixed, 2) == NLP_ANSWER_DONE && seen.count == 1 && seen.size == 40000);
    expect("the buffer has grown", s.capacity == made_size - others);
}

/* Answers that are not whole. */
static void broken(void)
{
    made_size = 0;
    const size_t one = frame(NEW_LINK, MULTI, 1, link_bytes, 20);
    const size_t torn = frame(DONE, MULTI | TORN, 1, zero, 4);
    const struct step at_once[1] = { { made, one + torn, 0, 0, 0 } };
    expect("a torn dump", run(0x300, 1, at_once, 1) == NLP_ANSWER_INTERRUPTED && seen.count == 1);
    const struct step lost[2] = { { made, one, 0, 0, 0 }, { NULL, 0, 0, ENOBUFS, 0 } };
    expect("an overrun of the socket", run(0x300, 1, lost, 2) == NLP_ANSWER_OVERRUN && answer.code == ENOBUFS && seen.count == 1);
    expect("no answer", run(0x300, 1, lost, 0) == NLP_ANSWER_TIMED_OUT && answer.code == EAGAIN && sends == 1);
    expect("no end of an answer", run(0x300, 1, lost, 1) == NLP_ANSWER_TIMED_OUT && seen.count == 1);
    const struct step cut[1] = { { made, one + torn - 1, 0, 0, 0 } };
    expect("a frame that is cut", run(0x300, 1, cut, 1) == NLP_ANSWER_MALFORMED && answer.fault.cause == NLP_FRAME_CUT && seen.count == 1);
    const struct step refused[1] = { { NULL, 0, 0, EPERM, 0 } };
    expect("a call of the system that fails", run(0x300, 1, refused, 1) == NLP_ANSWER_FAILED && answer.code == EPERM);
    made_size = 0;
    frame(DONE, MULTI, 1, zero, 2);
    const struct step body[1] = { { made, made_size, 0, 0, 0 } };
    expect("a done message that is too short", run(0x300, 1, body, 1) == NLP_ANSWER_MALFORMED && answer.fault.cause == NLP_DONE_SHORT);
    made_size = 0;
    frame(OVERRUN, MULTI, 1, NULL, 0);
    const struct step overrun[1] = { { made, made_size, 0, 0, 0 } };
    expect("an overrun message", run(0x300, 1, overrun, 1) == NLP_ANSWER_OVERRUN && answer.code == 0);
}

/* Answers that say why. */
static void rejected(void)
{
    /* NLMSGERR_ATTR_MSG "no" and NLMSGERR_ATTR_OFFS 32; NLMSGERR_ATTR_MISS_TYPE 3. */
    static const uint8_t where[16] = { 7, 0, 1, 0, 'n', 'o', 0, 0, 8, 0, 2, 0, 32, 0, 0, 0 };
    static const uint8_t missing[8] = { 8, 0, 5, 0, 3, 0, 0, 0 };
    static const uint8_t in_nest[16] = { 8, 0, 5, 0, 3, 0, 0, 0, 8, 0, 6, 0, 36, 0, 0, 0 };
    static const uint8_t outside[8] = { 8, 0, 2, 0, 40, 0, 0, 0 };
    const int32_t memory = -ENOMEM;
    uint8_t text[204] = { 204, 0, 1, 0 };
    made_size = 0;
    error_frame(-EINVAL, 1, where, sizeof where);
    const struct step told[1] = { { made, made_size, 0, 0, 0 } };
    expect("a rejection", run(0, 1, told, 1) == NLP_ANSWER_REJECTED && answer.code == EINVAL && strcmp(answer.text, "no") == 0);
    expect("the attribute concerned", answer.offset == 32 && answer.kind == 4 && !answer.is_missing && answer.request == 0);
    expect("a request with NLM_F_ACK", nlp_u16(sent + 6) == 5);
    made_size = 0;
    error_frame(-EINVAL, 1, missing, sizeof missing);
    const struct step lacks[1] = { { made, made_size, 0, 0, 0 } };
    expect("an attribute that is missing", run(0, 1, lacks, 1) == NLP_ANSWER_REJECTED && answer.is_missing && answer.kind == 3 && answer.text[0] == 0 && answer.offset == 0);
    made_size = 0;
    error_frame(-EINVAL, 1, in_nest, sizeof in_nest);
    const struct step inside[1] = { { made, made_size, 0, 0, 0 } };
    expect("one that a nest lacks", run(0, 1, inside, 1) == NLP_ANSWER_REJECTED && answer.is_missing && answer.kind == 3 && answer.offset == 36);
    made_size = 0;
    error_frame(0, 1, where, 8);
    const struct step warned[1] = { { made, made_size, 0, 0, 0 } };
    expect("a warning", run(0, 1, warned, 1) == NLP_ANSWER_DONE && strcmp(answer.text, "no") == 0);
    made_size = 0;
    error_frame(-EINVAL, 1, outside, sizeof outside);
    const struct step far_off[1] = { { made, made_size, 0, 0, 0 } };
    expect("an offset outside of the request", run(0, 1, far_off, 1) == NLP_ANSWER_REJECTED && answer.offset == 40 && answer.kind == 0);
    memset(text + 4, 'x', 200);
    made_size = 0;
    error_frame(-EPERM, 1, text, sizeof text);
    const struct step at_length[1] = { { made, made_size, 0, 0, 0 } };
    expect("a long text", run(0, 1, at_length, 1) == NLP_ANSWER_REJECTED && answer.code == EPERM && strlen(answer.text) == 127);
    made_size = 0;
    frame(NEW_LINK, MULTI, 1, link_bytes, 20);
    frame(DONE, MULTI, 1, &memory, 4);
    const struct step later[1] = { { made, made_size, 0, 0, 0 } };
    expect("a dump that fails later", run(0x300, 1, later, 1) == NLP_ANSWER_REJECTED && answer.code == ENOMEM && seen.count == 1);
    for (int i = 0; i < 3; i++) {
        static const int32_t codes[3] = { 5, -4096, -4095 };
        made_size = 0;
        error_frame(codes[i], 1, NULL, 0);
        const struct step strange[1] = { { made, made_size, 0, 0, 0 } };
        expect("a code that may be no errno", run(0, 1, strange, 1) == NLP_ANSWER_REJECTED && answer.code == (i < 2 ? EPROTO : 4095));
    }
}

/* Several requests, a function that stops, and what is not sent. */
static void several(void)
{
    const int32_t memory = -ENOMEM;
    made_size = 0;
    const size_t first = error_frame(0, 1, NULL, 0), second = error_frame(-EEXIST, 2, NULL, 0);
    const struct step both[2] = { { made, first, 0, 0, 1 }, { made + first, second, 0, 0, 2 } };
    expect("the second of three is rejected", run(0x600, 3, both, 2) == NLP_ANSWER_REJECTED && answer.code == EEXIST && answer.request == 40 && sends == 2);
    expect("its number", nlp_u32(sent + 8) == 2 && nlp_u16(sent + 6) == 0x605);
    made_size = 0;
    const size_t one = frame(NEW_LINK, MULTI, 1, link_bytes, 20);
    frame(NEW_LINK, MULTI, 1, link_bytes, 20);
    frame(DONE, MULTI, 1, &memory, 4);
    const struct step rest[2] = { { made, one, 0, 0, 0 }, { made + one, made_size - one, 0, 0, 0 } };
    seen.stop = 1;
    expect("a function that stops", run(0x300, 1, rest, 2) == NLP_ANSWER_STOPPED && answer.code == 5 && seen.count == 1 && left == 0);
    const struct step broken_rest[2] = { { made, one, 0, 0, 0 }, { made + one, one - 1, 0, 0, 0 } };
    expect("a frame that is cut after that", run(0x300, 1, broken_rest, 2) == NLP_ANSWER_MALFORMED && answer.code == 0);
    seen.stop = 0;
    struct nlp_writer writer = written(0x300, 1);
    s.sequence = UINT32_MAX;
    steps = both;
    left = 0;
    expect("no function, and the number after the last one", nlp_socket_request(&s, &writer, NULL, NULL, &answer) == NLP_ANSWER_TIMED_OUT && s.sequence == 1);
    sends = 0;
    writer.failed = NLP_NO_ROOM;
    expect("a writer that failed", nlp_socket_request(&s, &writer, NULL, NULL, &answer) == NLP_ANSWER_UNWRITTEN && answer.code == NLP_NO_ROOM && sends == 0);
    writer = written(0x300, 2);
    requests[40] = 41;
    expect("a frame that is not ended", nlp_socket_request(&s, &writer, NULL, NULL, &answer) == NLP_ANSWER_UNWRITTEN && answer.code == NLP_FRAME_CUT && sends == 0);
    writer = written(0x300, 1);
    struct nlp_answer inner;
    s.sequence = 0;
    steps = rest;
    left = 2;
    sends = 0;
    expect("a request around another", nlp_socket_request(&s, &writer, nest, &inner, &answer) == NLP_ANSWER_REJECTED && sends == 1);
    expect("a request in a request", inner.what == NLP_ANSWER_FAILED && inner.code == EBUSY);
    made_size = 0;
    const size_t old = frame(NEW_LINK, MULTI, 9, link_bytes, 20);
    frame(DONE, MULTI, 1, zero, 4);
    const struct step stale[5] = { { made, old, 0, 0, -1 }, { NULL, 0, 0, ENOBUFS, -1 }, { NULL, 0, 0, ENOBUFS, -1 },
        { made, old, 0, 0, -1 }, { made + old, made_size - old, 0, 0, 0 } };
    expect("the rest of an earlier answer", run(0x300, 1, stale, 5) == NLP_ANSWER_DONE && received == 3 && !s.is_busy);
    send_errors[0] = EINTR;
    send_errors[1] = EPERM;
    expect("a request that is not sent", run(0x300, 1, both, 0) == NLP_ANSWER_FAILED && answer.code == EPERM && sends == 2);
    send_errors[0] = send_errors[1] = 0;
    writer = nlp_writer_begin(requests, sizeof requests);
    expect("no request", nlp_socket_request(&s, &writer, NULL, NULL, &answer) == NLP_ANSWER_DONE && sends == 2);
}

/* One datagram at a time. */
static void receives(void)
{
    static const uint8_t datagram[20] = { 1, 2, 3 };
    static struct step flood[1000], events[1000];
    uint8_t bytes[20];
    size_t size = 9;
    const struct step two[3] = { { datagram, 20, 0, 0, -1 }, { datagram, 3, 0, 0, -1 }, { NULL, 0, 0, ENOBUFS, -1 } };
    steps = two;
    left = 3;
    sends = 0;
    memset(bytes, 9, sizeof bytes);
    expect("a datagram that is too long", nlp_socket_receive(&s, bytes, 19, &size) == EMSGSIZE && size == 20 && bytes[0] == 9);
    expect("it is not lost", nlp_socket_receive(&s, bytes, 20, &size) == 0 && size == 20 && bytes[2] == 3);
    expect("the next one", nlp_socket_receive(&s, bytes, 20, &size) == 0 && size == 3);
    expect("an overrun", nlp_socket_receive(&s, bytes, 20, &size) == ENOBUFS && size == 0);
    expect("no more", nlp_socket_receive(&s, bytes, 20, &size) == EAGAIN && size == 0 && waited == 290);
    poll_error = EINTR;
    expect("a signal", nlp_socket_receive(&s, bytes, 20, &size) == EAGAIN && waited < 290);
    poll_error = ENOMEM;
    expect("no poll", nlp_socket_receive(&s, bytes, 20, &size) == ENOMEM);
    waited = 0;
    descriptor_flags = O_NONBLOCK;
    s.limit = 0;
    expect("a socket that does not block", nlp_socket_receive(&s, bytes, 20, &size) == EAGAIN && waited == 0);
    descriptor_flags = 0;
    const struct step longer[2] = { { datagram, 20, 5, 0, -1 }, { datagram, 3, 0, 0, -1 } };
    steps = longer;
    left = 2;
    expect("a long datagram of another sender", nlp_socket_receive(&s, bytes, 5, &size) == 0 && size == 3);
    for (size_t i = 0; i < 1000; i++)
        flood[i] = (struct step){ datagram, 20, 5, 0, 0 };
    made_size = 0;
    frame(NEW_LINK, 0, 0, link_bytes, 20);
    for (size_t i = 0; i < 1000; i++)
        events[i] = (struct step){ made, made_size, 0, 0, 0 };
    expect("events, and no answer", run(0, 1, events, 1000) == NLP_ANSWER_TIMED_OUT && left == 970 && seen.count == 0);
    steps = flood;
    left = 1000;
    expect("a flood of another sender", nlp_socket_receive(&s, bytes, 20, &size) == EAGAIN && left == 970);
}

/* Whether the option that was set as number `at` has this level and name, and this value of 4 bytes. */
static bool is_set(size_t at, int level, int name, uint32_t value)
{
    return options_set > at && options[at].level == level && options[at].name == name && options[at].size == 4
        && nlp_u32(options[at].value) == value;
}

/* Opens a socket while a call fails. Returns its result. */
static int opened(struct nlp_socket *socket, int call)
{
    memset(socket, 9, sizeof *socket);
    failing = call;
    options_set = closed = 0;
    const int result = nlp_socket_open(socket, PROTOCOL);
    failing = NO_CALL;
    return result;
}

static void opening(void)
{
    static const int names[3] = { 11, 10, 12 };
    struct nlp_socket one;
    expect("a socket", opened(&one, NO_CALL) == 0 && nlp_socket_fd(&one) == DESCRIPTOR && one.port == 77 && one.lacks == 0 && one.sequence == 0);
    expect("no buffer and no limit yet", one.bytes == NULL && one.capacity == 0 && one.limit == 0);
    bool holds = options_set == 3;
    for (size_t i = 0; i < 3; i++)
        holds = holds && is_set(i, LEVEL, names[i], 1);
    expect("its options", holds);
    nlp_socket_close(&one);
    expect("a socket that is closed", closed == 1 && one.fd == -1);
    nlp_socket_close(&one);
    expect("a socket is closed once", closed == 1);
    for (size_t i = 0; i < 3; i++)
        expect("what the kernel lacks", opened(&one, names[i]) == 0 && one.lacks == 1u << i);
    expect("the names of what it lacks", NLP_LACKS_EXT_ACK == 1 && NLP_LACKS_CAP_ACK == 2 && NLP_LACKS_STRICT_CHK == 4);
    expect("no socket", opened(&one, SOCKET) == EACCES && one.fd == -1 && closed == 0);
    expect("no port", opened(&one, BIND) == EACCES && one.fd == -1 && closed == 1);
    expect("no name", opened(&one, NAME) == EACCES && one.fd == -1 && closed == 1);
}

static void setting(void)
{
    struct nlp_socket one;
    expect("a socket again", opened(&one, NO_CALL) == 0);
    options_set = 0;
    expect("a group", nlp_socket_join(&one, 70000) == 0 && is_set(0, LEVEL, 1, 70000));
    expect("a group that is left", nlp_socket_leave(&one, 3) == 0 && is_set(1, LEVEL, 2, 3));
    expect("a queue", nlp_socket_set_buffer(&one, 4096) == 0 && options_set == 3 && is_set(2, SOL_SOCKET, 33, 4096));
    nlp_socket_set_limit(&one, 2500);
    expect("a limit", one.limit == 2500 && options_set == 3);
    failing = 33;
    expect("a queue within the limit of the system", nlp_socket_set_buffer(&one, 8192) == 0 && is_set(4, SOL_SOCKET, SO_RCVBUF, 8192));
    failing = 1;
    expect("no group", nlp_socket_join(&one, 1) == EACCES);
    failing = 2;
    expect("no group to leave", nlp_socket_leave(&one, 1) == EACCES);
    failing = NO_CALL;
    one.fd = -1;
    expect("no queue", nlp_socket_set_buffer(&one, 1) == EACCES);
}

/* What is said of each end. */
static void texts(void)
{
    static const char *const words[9] = { "done", "", "something changed during the dump: request it again", "stopped",
        "messages were lost: request it again", "no answer in time", "a frame is malformed", "", "the requests are not written" };
    struct nlp_answer end;
    memset(&end, 0, sizeof end);
    for (end.what = 0; end.what < 9; end.what++)
        expect("the text of an end", end.what == NLP_ANSWER_REJECTED || end.what == NLP_ANSWER_FAILED || strcmp(nlp_answer_text(&end), words[end.what]) == 0);
    end.what = NLP_ANSWER_REJECTED;
    end.code = EPERM;
    expect("the text of an errno", strcmp(nlp_answer_text(&end), strerror(EPERM)) == 0);
    memcpy(end.text, "n", 2);
    expect("the text of the kernel", strcmp(nlp_answer_text(&end), "n") == 0);
}

/* The types of the functions. */
int (*const opens)(struct nlp_socket *, int) = nlp_socket_open;
void (*const closes)(struct nlp_socket *) = nlp_socket_close;
int (*const descriptors)(const struct nlp_socket *) = nlp_socket_fd;
int (*const groups[2])(struct nlp_socket *, uint32_t) = { nlp_socket_join, nlp_socket_leave };
int (*const queues)(struct nlp_socket *, int) = nlp_socket_set_buffer;
void (*const limits)(struct nlp_socket *, unsigned) = nlp_socket_set_limit;
int (*const receiving)(const struct nlp_socket *, uint8_t *, size_t, size_t *) = nlp_socket_receive;
uint32_t (*const requesting)(struct nlp_socket *, const struct nlp_writer *, nlp_on_message *, void *, struct nlp_answer *) = nlp_socket_request;
const char *(*const saying)(const struct nlp_answer *) = nlp_answer_text;

int main(void)
{
    s.fd = 3;
    whole();
    broken();
    rejected();
    several();
    receives();
    opening();
    setting();
    texts();
    nlp_socket_close(&s);
    expect("the buffer is freed", s.bytes == NULL && s.capacity == 0);
    printf("%d passed, %d failed\n", passed, failed);
    return failed != 0;
}
