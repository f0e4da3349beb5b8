/* Takes the place of the socket of a program: recv and recvmsg return the datagrams in the files that FEED names,
 * separated by colons, each once; a datagram that recvmsg peeks at stays. The names ENOBUFS and EIO make them fail
 * with that errno. Nothing is there before a request was sent. Ends the program with status 99 if it receives again after the last one. */
#define _DEFAULT_SOURCE
#include <errno.h>
#include <stdbool.h>
#include <stdio.h>
#include <stdlib.h>
#include <string.h>
#include <sys/socket.h>
#include <unistd.h>

int socket(int domain, int type, int protocol)
{
    (void)domain;
    (void)type;
    (void)protocol;
    return dup(0);
}

int bind(int fd, const struct sockaddr *address, socklen_t size)
{
    (void)fd;
    (void)address;
    (void)size;
    return 0;
}

/* The port stays 0, so that an answer to any port is one. */
int getsockname(int fd, struct sockaddr *address, socklen_t *size)
{
    (void)fd;
    (void)address;
    (void)size;
    return 0;
}

int setsockopt(int fd, int level, int name, const void *value, socklen_t size)
{
    (void)fd;
    (void)level;
    (void)name;
    (void)value;
    (void)size;
    return 0;
}

static bool is_asked;

ssize_t send(int fd, const void *bytes, size_t size, int flags)
{
    (void)fd;
    (void)bytes;
    (void)flags;
    is_asked = true;
    return (ssize_t)size;
}

/* The datagram that comes next, if it was read from its file. */
static char datagram[1 << 16];
static ssize_t waiting = -1;

/* Reads the next datagram, unless one waits. Returns whether there is one; else errno says why not. */
static bool is_there(void)
{
    static char *names;
    if (waiting >= 0)
        return true;
    const char *name = names == NULL ? strtok_r(getenv("FEED"), ":", &names) : strtok_r(NULL, ":", &names);
    if (name == NULL) {
        fprintf(stderr, "it receives again\n");
        _exit(99);
    }
    if (strcmp(name, "ENOBUFS") == 0 || strcmp(name, "EIO") == 0) {
        errno = name[1] == 'N' ? ENOBUFS : EIO;
        return false;
    }
    FILE *file = fopen(name, "rb");
    if (file == NULL)
        _exit(98);
    waiting = (ssize_t)fread(datagram, 1, sizeof datagram, file);
    fclose(file);
    return true;
}

/* Copies the datagram. Returns its size. */
static ssize_t taken(void *bytes, size_t size, int flags)
{
    if (!is_there())
        return -1;
    const size_t copied = (size_t)waiting < size ? (size_t)waiting : size;
    if (copied != 0)
        memcpy(bytes, datagram, copied);
    const ssize_t result = (flags & MSG_TRUNC) != 0 ? waiting : (ssize_t)copied;
    if ((flags & MSG_PEEK) == 0)
        waiting = -1;
    return result;
}

ssize_t recv(int fd, void *bytes, size_t size, int flags)
{
    (void)fd;
    return taken(bytes, size, flags);
}

/* The sender has the port 0, which is that of the kernel. */
ssize_t recvmsg(int fd, struct msghdr *head, int flags)
{
    (void)fd;
    if (!is_asked) {
        errno = EAGAIN;
        return -1;
    }
    memset(head->msg_name, 0, head->msg_namelen);
    return taken(head->msg_iov->iov_base, head->msg_iov->iov_len, flags);
}
