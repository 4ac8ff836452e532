/* Starts a program whose standard input gives the bytes that stand on this program's own, a piece at each read, and
 * whose next read then fails ("fails") or finds the end ("ends").
 * That input is a connection whose other end is closed before the program starts. Where a byte lies unread at the other
 * end when it is closed, the connection counts as broken: once all that was sent is read, a read fails, and a later one
 * finds the end. A read goes no further than a piece that brings an open file along, so each piece brings one.
 * Usage: failing_read fails|ends PIECE PROGRAM [ARGUMENT..] <TEXT */
#define _DEFAULT_SOURCE
#include <errno.h>
#include <stdio.h>
#include <stdlib.h>
#include <string.h>
#include <sys/socket.h>
#include <unistd.h>

enum { MOST = 128 * 1024 };

/* what is to be read: n bytes, so many in a piece, and whether the read after them fails */
typedef struct {
    char bytes[MOST];
    size_t n, piece;
    int fails;
} input;

static void stop(const char *what)
{
    fprintf(stderr, "failing_read: %s: %s\n", what, strerror(errno));
    exit(1);
}

/* how many bytes the piece at this place has: the last one may be shorter */
static size_t piece_at(const input *in, size_t at)
{
    return in->n - at < in->piece ? in->n - at : in->piece;
}

static void send_piece(int to, char *bytes, size_t n)
{
    union {
        struct cmsghdr header;
        char room[CMSG_SPACE(sizeof(int))];
    } file = {0};
    struct iovec part = {bytes, n};
    struct msghdr message = {.msg_iov = &part, .msg_iovlen = 1, .msg_control = &file, .msg_controllen = sizeof file};
    const int along = STDIN_FILENO;

    file.header.cmsg_level = SOL_SOCKET;
    file.header.cmsg_type = SCM_RIGHTS;
    file.header.cmsg_len = CMSG_LEN(sizeof along);
    memcpy(CMSG_DATA(&file.header), &along, sizeof along);
    if (sendmsg(to, &message, MSG_DONTWAIT) != (ssize_t)n) stop("a piece cannot be sent");
}

/* the end of a new connection that the input is read from */
static int connection(input *in)
{
    int ends[2];

    if (socketpair(AF_UNIX, SOCK_STREAM, 0, ends) != 0) stop("no connection can be had");
    for (size_t at = 0; at < in->n; at += in->piece) send_piece(ends[1], in->bytes + at, piece_at(in, at));
    if (in->fails && write(ends[0], "", 1) != 1) stop("the other end takes no byte");
    if (close(ends[1]) != 0) stop("the other end cannot be closed");
    return ends[0];
}

/* Whether reads of such a connection go as they must on this machine. Without this, a failure that comes too early, or
 * all pieces at one read, would pass unseen. */
static int rehearse(input *in)
{
    static char got[MOST];
    int from = connection(in);
    ssize_t last;

    for (size_t at = 0; at < in->n; at += in->piece)
        if (read(from, got, MOST) != (ssize_t)piece_at(in, at) || memcmp(got, in->bytes + at, piece_at(in, at)) != 0)
            return 0;
    last = read(from, got, MOST);
    close(from);
    return last == (in->fails ? -1 : 0);
}

int main(int argc, char **argv)
{
    static input in;

    if (argc < 4 || atoi(argv[2]) < 1) return 2;
    in.fails = strcmp(argv[1], "fails") == 0;
    if (!in.fails && strcmp(argv[1], "ends") != 0) return 2;
    in.piece = (size_t)atoi(argv[2]);
    in.n = fread(in.bytes, 1, MOST, stdin);
    if (in.n == MOST) return 2;
    if (!rehearse(&in)) {
        fprintf(stderr, "failing_read: reads do not go as they must on this machine\n");
        return 1;
    }
    if (dup2(connection(&in), STDIN_FILENO) < 0) stop("no standard input");
    execv(argv[3], argv + 3);
    stop(argv[3]);
}
