/* A library to preload into `ip`, for replay.py. It takes the place of the kernel: the answer to a request for a dump of
   type $KIND is the frames of the file $FRAMES, and those of links are in $LINKS. Other requests reach the kernel. */
#define _GNU_SOURCE
#include <dlfcn.h>
#include <linux/netlink.h>
#include <linux/rtnetlink.h>
#include <stdio.h>
#include <stdlib.h>
#include <string.h>
#include <sys/socket.h>

static _Alignas(4) unsigned char answer[1 << 20];
static size_t size;
static int answered = -1; /* the socket whose next answer this is */

/* Appends the frames of a file, as an answer to the request; of links, only one with this index, unless it is 0. */
static void append(const char *path, const struct nlmsghdr *request, unsigned port, int index) {
    FILE *file = fopen(path, "rb");
    size_t end = file ? size + fread(answer + size, 1, sizeof answer / 2, file) : size;
    if (file)
        fclose(file);
    for (size_t at = size; at < end;) {
        struct nlmsghdr *frame = (struct nlmsghdr *)(answer + at);
        size_t length = NLMSG_ALIGN(frame->nlmsg_len);
        at += length;
        if (index && ((struct ifinfomsg *)NLMSG_DATA(frame))->ifi_index != index)
            continue;
        frame->nlmsg_seq = request->nlmsg_seq;
        frame->nlmsg_pid = port;
        frame->nlmsg_flags = index ? 0 : NLM_F_MULTI;
        memmove(answer + size, frame, length);
        size += length;
    }
}

/* Returns whether this library answers the request. */
static int answers(int fd, const struct nlmsghdr *request) {
    struct sockaddr_nl own;
    socklen_t length = sizeof own;
    int is_dump = (request->nlmsg_flags & NLM_F_DUMP) == NLM_F_DUMP;
    int is_kind = is_dump && request->nlmsg_type == atoi(getenv("KIND"));
    if (!is_kind && request->nlmsg_type != RTM_GETLINK)
        return 0;
    getsockname(fd, (struct sockaddr *)&own, &length);
    size = 0;
    append(getenv(is_kind ? "FRAMES" : "LINKS"), request, own.nl_pid,
           is_dump ? 0 : ((struct ifinfomsg *)NLMSG_DATA(request))->ifi_index);
    if (!is_dump && !size)
        return 0;
    if (is_dump) {
        struct nlmsghdr done = {NLMSG_LENGTH(4), NLMSG_DONE, NLM_F_MULTI, request->nlmsg_seq, own.nl_pid};
        memcpy(answer + size, &done, sizeof done);
        memset(answer + size + sizeof done, 0, 4);
        size += done.nlmsg_len;
    }
    answered = fd;
    return 1;
}

ssize_t send(int fd, const void *data, size_t length, int flags) {
    ssize_t (*next)(int, const void *, size_t, int) = dlsym(RTLD_NEXT, "send");
    return answers(fd, data) ? (ssize_t)length : next(fd, data, length, flags);
}

ssize_t sendmsg(int fd, const struct msghdr *message, int flags) {
    ssize_t (*next)(int, const struct msghdr *, int) = dlsym(RTLD_NEXT, "sendmsg");
    size_t length = 0;
    for (size_t at = 0; at < message->msg_iovlen; at++)
        length += message->msg_iov[at].iov_len;
    return answers(fd, message->msg_iov[0].iov_base) ? (ssize_t)length : next(fd, message, flags);
}

ssize_t recvmsg(int fd, struct msghdr *message, int flags) {
    ssize_t (*next)(int, struct msghdr *, int) = dlsym(RTLD_NEXT, "recvmsg");
    if (fd != answered)
        return next(fd, message, flags);
    struct sockaddr_nl kernel = {.nl_family = AF_NETLINK};
    size_t room = message->msg_iov[0].iov_len;
    memcpy(message->msg_name, &kernel, sizeof kernel);
    message->msg_flags = 0;
    if (message->msg_iov[0].iov_base)
        memcpy(message->msg_iov[0].iov_base, answer, size < room ? size : room);
    if (!(flags & MSG_PEEK))
        answered = -1;
    return size;
}
