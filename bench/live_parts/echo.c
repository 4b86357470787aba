/* echo: what the loopback lets a server with a thread a connection do.
 *
 * It reads request lines of memcached's text protocol, and answers canned replies of the size that real ones have: a
 * fixed VALUE block for a line that begins with "g", STORED for any other line once its block has been skipped. All
 * replies to what one read brought go out in one write. It keeps nothing, looks nothing up and takes no lock.
 *
 * usage: echo PORT KEY_LENGTH SIZE      it listens on 127.0.0.1 alone, and runs until a signal ends it
 */
#define _GNU_SOURCE
#include <arpa/inet.h>
#include <errno.h>
#include <netinet/tcp.h>
#include <pthread.h>
#include <signal.h>
#include <stdbool.h>
#include <stdio.h>
#include <stdlib.h>
#include <string.h>
#include <sys/socket.h>
#include <sys/uio.h>
#include <unistd.h>

enum { MOST_REPLIES = 128, PIECE = 256 * 1024 };

static char stored[] = "STORED\r\n", *value;
static size_t value_length;

struct due { struct iovec replies[MOST_REPLIES]; int count; };

static bool write_due(int fd, struct due *due)
{
    struct iovec *at = due->replies;
    int left = due->count;
    due->count = 0;
    while (left > 0) {
        ssize_t written = writev(fd, at, left);
        if (written < 0 && errno != EINTR)
            return false;
        for (written = written < 0 ? 0 : written; left > 0 && (size_t)written >= at->iov_len; at++, left--)
            written -= (ssize_t)at->iov_len;
        if (left > 0) {
            at->iov_base = (char *)at->iov_base + written;
            at->iov_len -= (size_t)written;
        }
    }
    return true;
}

static bool reply(int fd, struct due *due, char *text, size_t length)
{
    due->replies[due->count++] = (struct iovec){text, length};
    return due->count < MOST_REPLIES || write_due(fd, due);
}

/* The length of a storage line's block with its line end: the fifth field. */
static size_t block_length(const char *line, const char *end)
{
    for (int field = 0; line < end && field < 4; line++)
        field += *line == ' ';
    return strtoul(line, NULL, 10) + 2;
}

struct input { char *bytes; size_t at, have, skip; };

/* Answers the whole requests that stand there. */
static bool answer(int fd, struct input *in, struct due *due)
{
    while (in->at < in->have) {
        if (in->skip) {
            size_t step = in->have - in->at < in->skip ? in->have - in->at : in->skip;
            in->at += step;
            in->skip -= step;
            if (!in->skip && !reply(fd, due, stored, sizeof stored - 1))
                return false;
            continue;
        }
        char *line = in->bytes + in->at, *end = memchr(line, '\n', in->have - in->at);
        if (!end)
            break;
        in->at += (size_t)(end - line) + 1;
        if (line[0] != 'g')
            in->skip = block_length(line, end);
        else if (!reply(fd, due, value, value_length))
            return false;
    }
    return true;
}

static void *serve(void *given)
{
    int fd = (int)(long)given;
    struct input in = {.bytes = malloc(PIECE)};
    struct due due = {.count = 0};
    while (in.bytes && in.have < PIECE) {
        ssize_t got = recv(fd, in.bytes + in.have, PIECE - in.have, 0);
        if (got < 0 && errno == EINTR)
            continue;
        if (got <= 0)
            break;
        in.have += (size_t)got;
        if (!answer(fd, &in, &due) || !write_due(fd, &due))
            break;
        memmove(in.bytes, in.bytes + in.at, in.have - in.at);
        in.have -= in.at;
        in.at = 0;
    }
    free(in.bytes);
    close(fd);
    return NULL;
}

static void make_value(int key_length, int size)
{
    value = calloc(1, (size_t)(key_length + size) + 64);
    if (!value)
        exit(1);
    char *to = value + sprintf(value, "VALUE ");
    memset(to, 'k', (size_t)key_length);
    to += key_length;
    to += sprintf(to, " 0 %d\r\n", size);
    memset(to, 'x', (size_t)size);
    to += size;
    to += sprintf(to, "\r\nEND\r\n");
    value_length = (size_t)(to - value);
}

int main(int argc, char **argv)
{
    if (argc != 4) {
        fputs("usage: echo PORT KEY_LENGTH SIZE\n", stderr);
        return 2;
    }
    make_value(atoi(argv[2]), atoi(argv[3]));
    signal(SIGPIPE, SIG_IGN);
    int listener = socket(AF_INET, SOCK_STREAM, 0), one = 1;
    struct sockaddr_in address = {.sin_family = AF_INET, .sin_port = htons((uint16_t)atoi(argv[1]))};
    address.sin_addr.s_addr = htonl(INADDR_LOOPBACK);
    setsockopt(listener, SOL_SOCKET, SO_REUSEADDR, &one, sizeof one);
    if (bind(listener, (struct sockaddr *)&address, sizeof address) || listen(listener, 128)) {
        perror("echo");
        return 1;
    }
    for (;;) {
        int fd = accept(listener, NULL, NULL);
        pthread_t thread;
        if (fd < 0)
            continue;
        setsockopt(fd, IPPROTO_TCP, TCP_NODELAY, &one, sizeof one);
        if (pthread_create(&thread, NULL, serve, (void *)(long)fd))
            close(fd);
        else
            pthread_detach(thread);
    }
}
