/* load: a closed-loop load generator for servers that speak memcached's text protocol or redis' RESP.
 *
 * Each connection keeps --depth requests outstanding; a reply makes room for the next one. Connection i dials the port
 * i modulo the count of ports. Every value names its key and the write that made it, and its filler follows from these:
 * so each reply is checked whole. A wrong, missing, surplus or late one is an error. One line of JSON is printed.
 *
 * --pids names processes whose processor time is read at both ends of the counted time: all of it, and the part that
 * the system took for them, which is known to a hundredth of a second. --fill sets every key once, in
 * order, over one connection. --canned takes the block of bytes x that echo answers for each value.
 *
 * Keys are drawn evenly, or with --zipf E so that the k-th most frequent one comes as often as 1 / k^E says, with E
 * below 1; the frequent ones are scattered among the others.
 */
#define _GNU_SOURCE
#include <arpa/inet.h>
#include <errno.h>
#include <getopt.h>
#include <math.h>
#include <netinet/tcp.h>
#include <pthread.h>
#include <signal.h>
#include <stdarg.h>
#include <stdbool.h>
#include <stdint.h>
#include <stdio.h>
#include <stdlib.h>
#include <string.h>
#include <sys/epoll.h>
#include <sys/socket.h>
#include <time.h>
#include <unistd.h>

enum { MAX_CONNECTIONS = 1024, MAX_PORTS = 64, MAX_PIDS = 64, MAX_DEPTH = 1024, FILL_DEPTH = 32 };
enum { KEY_DIGITS = 9, MAX_PREFIX = 64, HEAD = 27, FILLER = 4096, PIECE = 1 << 18, REQUEST = 400 };

static int ports[MAX_PORTS], port_count, pids[MAX_PIDS], pid_count;
static int connections = 1, depth = 1, keys = 10000, size = 100, wait_for;
static bool resp, canned, fill;
static double seconds, warm_up, set_part = 0.1, patience = 20, zipf;
static uint64_t limit, seed = 1;
static const char *prefix = "key";
static char *filler, *block;

static _Noreturn void stop(const char *format, ...)
{
    va_list rest;
    va_start(rest, format);
    fputs("load: ", stderr);
    vfprintf(stderr, format, rest);
    fputc('\n', stderr);
    exit(2);
}

static void *room(size_t bytes)
{
    void *at = calloc(1, bytes);
    if (!at)
        stop("out of memory");
    return at;
}

static uint64_t clock_ns(clockid_t clock)
{
    struct timespec t;
    if (clock_gettime(clock, &t))
        return 0;
    return (uint64_t)t.tv_sec * 1000000000u + (uint64_t)t.tv_nsec;
}

static uint64_t now_ns(void) { return clock_ns(CLOCK_MONOTONIC); }

/* The processor time that the system took for this process. */
static uint64_t system_ns(int pid)
{
    char name[32], text[512];
    unsigned long long ticks = 0;
    snprintf(name, sizeof name, "/proc/%d/stat", pid);
    FILE *file = fopen(name, "r");
    if (!file)
        return 0;
    text[fread(text, 1, sizeof text - 1, file)] = 0;
    fclose(file);
    const char *at = strrchr(text, ')');        /* then 12 fields, and this one */
    if (!at || sscanf(at + 1, " %*s %*s %*s %*s %*s %*s %*s %*s %*s %*s %*s %*s %llu", &ticks) != 1)
        return 0;
    return ticks * (1000000000u / (uint64_t)sysconf(_SC_CLK_TCK));
}

struct used { uint64_t all, system; };

/* The processor time of the watched processes, with that of their threads that have ended. */
static struct used watched(void)
{
    struct used sum = {0};
    for (int i = 0; i < pid_count; i++) {
        clockid_t clock;
        if (clock_getcpuclockid(pids[i], &clock) == 0)
            sum.all += clock_ns(clock);
        sum.system += system_ns(pids[i]);
    }
    return sum;
}

static struct used watched_since(struct used before)
{
    struct used now = watched();
    return (struct used){now.all - before.all, now.system - before.system};
}

/* ---- random numbers, keys and values ---- */

static uint64_t mixed(uint64_t x)
{
    x += 0x9e3779b97f4a7c15u;
    x = (x ^ (x >> 30)) * 0xbf58476d1ce4e5b9u;
    x = (x ^ (x >> 27)) * 0x94d049bb133111ebu;
    return x ^ (x >> 31);
}

static uint64_t draw(uint64_t *state)
{
    *state ^= *state << 13;
    *state ^= *state >> 7;
    *state ^= *state << 17;
    return *state;
}

/* In [0, 1). */
static double draw_part(uint64_t *state) { return (double)(draw(state) >> 11) / 9007199254740992.0; }

/* What turns an even draw into a rank: the sum of 1 / k^zipf over all keys, and what Gray's method derives from it
 * ("Quickly generating billion-record synthetic databases", 1994). */
static struct { double sum, first_two, stretch, power; } ranks;

static void make_ranks(void)
{
    for (int k = keys; k > 0; k--)
        ranks.sum += pow(k, -zipf);
    ranks.first_two = 1 + pow(.5, zipf);
    ranks.stretch = (1 - pow(2. / keys, 1 - zipf)) / (1 - ranks.first_two / ranks.sum);
    ranks.power = 1 / (1 - zipf);
}

/* From 0, the most frequent one. */
static uint64_t draw_rank(uint64_t *state)
{
    double drawn = draw_part(state), place = drawn * ranks.sum;
    if (place < 1)
        return 0;
    if (place < ranks.first_two)
        return 1;
    return (uint64_t)(keys * pow(ranks.stretch * (drawn - 1) + 1, ranks.power));
}

/* Each rank has a key of its own, since the factor is a prime above any number of keys. */
static int draw_key(uint64_t *state)
{
    uint64_t drawn = zipf > 0 ? draw_rank(state) * 2654435761u : draw(state);
    return (int)(drawn % (uint64_t)keys);
}

static int key_length(void) { return (int)strlen(prefix) + KEY_DIGITS; }

static int put_key(char *to, int key) { return sprintf(to, "%s%09d", prefix, key); }

static const char *filler_of(int key, uint64_t write)
{
    return filler + mixed(write ^ (uint64_t)key << 40) % FILLER;
}

/* "kkkkkkkkk:wwwwwwwwwwwwwwww:" and filler; shorter values are cut. */
static void put_value(char *to, int key, uint64_t write)
{
    char head[HEAD + 13];
    snprintf(head, sizeof head, "%09d:%016llx:", key, (unsigned long long)write);
    if (size <= HEAD) {
        memcpy(to, head, (size_t)size);
        return;
    }
    memcpy(to, head, HEAD);
    memcpy(to + HEAD, filler_of(key, write), (size_t)(size - HEAD));
}

static int hex_digit(char c) { return c >= '0' && c <= '9' ? c - '0' : c >= 'a' && c <= 'f' ? c - 'a' + 10 : 0; }

/* The value is one that some write of this key made, and whole. */
static bool value_is_whole(const char *value, size_t length, int key)
{
    char head[HEAD + 13];
    if (length != (size_t)size)
        return false;
    if (size <= HEAD) {
        snprintf(head, sizeof head, "%09d:", key);
        return memcmp(value, head, (size_t)(size < KEY_DIGITS + 1 ? size : KEY_DIGITS + 1)) == 0;
    }
    uint64_t write = 0;
    for (int i = KEY_DIGITS + 1; i < HEAD - 1; i++)
        write = write << 4 | (uint64_t)hex_digit(value[i]);
    snprintf(head, sizeof head, "%09d:%016llx:", key, (unsigned long long)write);
    return memcmp(value, head, HEAD) == 0 && memcmp(value + HEAD, filler_of(key, write), (size_t)(size - HEAD)) == 0;
}

/* ---- a histogram of nanoseconds: 64 steps for each power of two ---- */

enum { STEP_BITS = 6, STEPS = 1 << STEP_BITS, BUCKETS = (64 - STEP_BITS + 1) << STEP_BITS };

struct histogram { uint64_t count, longest, buckets[BUCKETS]; };

static void add_time(struct histogram *h, uint64_t ns)
{
    int power = ns < STEPS ? 0 : 63 - __builtin_clzll(ns) - STEP_BITS + 1;
    h->buckets[power ? ((uint64_t)power << STEP_BITS) + ((ns >> (power - 1)) & (STEPS - 1)) : ns]++;
    h->count++;
    h->longest = ns > h->longest ? ns : h->longest;
}

static void add_histogram(struct histogram *to, const struct histogram *from)
{
    for (int i = 0; i < BUCKETS; i++)
        to->buckets[i] += from->buckets[i];
    to->count += from->count;
    to->longest = from->longest > to->longest ? from->longest : to->longest;
}

/* This quantile in microseconds: the least value of its bucket. */
static double quantile(const struct histogram *h, double part)
{
    uint64_t want = (uint64_t)ceil(part * (double)h->count), got = 0;
    for (uint64_t i = 0; i < BUCKETS; i++) {
        got += h->buckets[i];
        if (got >= want && h->buckets[i]) {
            uint64_t power = i >> STEP_BITS, step = i & (STEPS - 1);
            return (double)(power ? (STEPS + step) << (power - 1) : step) / 1000.0;
        }
    }
    return 0;
}

/* ---- connections ---- */

enum kind { GET, SET };
enum phase { FIRST_LINE, WAITED_LINE };

struct request { uint64_t begun; enum kind kind; enum phase phase; int key; };

struct connection {
    int fd;
    bool dead, armed;
    char *in, *out;
    size_t in_at, in_have, in_room, out_at, out_have;
    struct request *ring;
    unsigned first, next, ring_size;
};

struct worker {
    pthread_t thread;
    struct connection *connections;
    int count;
    uint64_t id, random, writes, left;
    uint64_t gets, sets, errors;
    struct histogram times;
    char first_error[160];
};

static uint64_t counted_from, counted_to;       /* written before the threads start */

static bool is_counted(uint64_t t) { return t >= counted_from && t < counted_to; }

static void fault(struct worker *w, const char *what, const char *bytes, size_t length)
{
    if (!w->errors++) {
        int at = snprintf(w->first_error, sizeof w->first_error, "%s: ", what);
        for (size_t i = 0; i < length && i < 60; i++) {
            bool plain = bytes[i] >= ' ' && bytes[i] < 127 && bytes[i] != '"' && bytes[i] != '\\';
            w->first_error[at++] = plain ? bytes[i] : '.';
        }
        w->first_error[at] = 0;
    }
}

static int dial(int port)
{
    struct sockaddr_in address = {.sin_family = AF_INET, .sin_port = htons((uint16_t)port)};
    struct timeval longest = {(time_t)patience, 0};
    int fd = socket(AF_INET, SOCK_STREAM, 0), one = 1;
    address.sin_addr.s_addr = htonl(INADDR_LOOPBACK);
    if (fd < 0 || connect(fd, (struct sockaddr *)&address, sizeof address))
        stop("no connection to port %d: %s", port, strerror(errno));
    setsockopt(fd, IPPROTO_TCP, TCP_NODELAY, &one, sizeof one);
    setsockopt(fd, SOL_SOCKET, SO_RCVTIMEO, &longest, sizeof longest);
    return fd;
}

static void open_connection(struct connection *c, int port, unsigned ring_size)
{
    c->fd = dial(port);
    c->ring_size = ring_size;
    c->ring = room(ring_size * sizeof *c->ring);
    c->out = room(ring_size * ((size_t)size + REQUEST));
    c->in_room = PIECE;
    while (c->in_room < 4 * ((size_t)size + REQUEST))
        c->in_room *= 2;
    c->in = room(c->in_room);
}

static void close_connection(struct connection *c)
{
    if (!c->dead)
        close(c->fd);
    free(c->ring);
    free(c->in);
    free(c->out);
}

/* Each open request counts as an error. */
static void give_up(struct worker *w, struct connection *c, const char *why)
{
    if (c->dead)
        return;
    c->dead = true;
    unsigned lost = c->next == c->first ? 1 : c->next - c->first;
    for (unsigned i = 0; i < lost; i++)
        fault(w, why, c->in + c->in_at, c->in_have - c->in_at);
    close(c->fd);
}

/* ---- requests ---- */

static void push_get(struct connection *c, int key)
{
    char *to = c->out + c->out_have;
    to += resp ? sprintf(to, "*2\r\n$3\r\nGET\r\n$%d\r\n", key_length()) : sprintf(to, "get ");
    to += put_key(to, key);
    to += sprintf(to, "\r\n");
    c->out_have = (size_t)(to - c->out);
}

static void push_set(struct worker *w, struct connection *c, int key)
{
    char *to = c->out + c->out_have, digits[16];
    to += resp ? sprintf(to, "*3\r\n$3\r\nSET\r\n$%d\r\n", key_length()) : sprintf(to, "set ");
    to += put_key(to, key);
    to += resp ? sprintf(to, "\r\n$%d\r\n", size) : sprintf(to, " 0 0 %d\r\n", size);
    put_value(to, key, (w->id + 1) << 40 | ++w->writes);
    to += size;
    to += sprintf(to, "\r\n");
    if (resp && wait_for) {
        int length = sprintf(digits, "%d", wait_for);
        to += sprintf(to, "*3\r\n$4\r\nWAIT\r\n$%d\r\n%s\r\n$5\r\n20000\r\n", length, digits);
    }
    c->out_have = (size_t)(to - c->out);
}

static void push(struct worker *w, struct connection *c, enum kind kind, int key, uint64_t t)
{
    c->ring[c->next++ % c->ring_size] = (struct request){t, kind, FIRST_LINE, key};
    if (kind == SET)
        push_set(w, c, key);
    else
        push_get(c, key);
}

static bool is_open(const struct connection *c) { return !c->dead && c->first != c->next; }

static bool has_place(const struct connection *c) { return c->next - c->first < c->ring_size && !c->out_at; }

static void push_more(struct worker *w, struct connection *c, uint64_t t)
{
    if (c->out_have)
        return;                         /* what is still to be sent goes first */
    while (has_place(c) && t < counted_to && w->left) {
        w->left--;
        enum kind kind = draw_part(&w->random) < set_part ? SET : GET;
        push(w, c, kind, draw_key(&w->random), t);
    }
}

static bool send_out(struct connection *c)
{
    while (c->out_at < c->out_have) {
        ssize_t sent = send(c->fd, c->out + c->out_at, c->out_have - c->out_at, MSG_DONTWAIT | MSG_NOSIGNAL);
        if (sent < 0 && errno == EINTR)
            continue;
        if (sent < 0)
            return errno == EAGAIN || errno == EWOULDBLOCK;
        c->out_at += (size_t)sent;
    }
    c->out_at = c->out_have = 0;
    return true;
}

/* ---- replies ---- */

enum eaten { EATEN, NOT_YET, LOST };

static bool is(const char *line, size_t length, const char *text)
{
    return length == strlen(text) && memcmp(line, text, length) == 0;
}

static void finish(struct worker *w, struct connection *c, struct request *r, uint64_t t)
{
    if (is_counted(t)) {
        *(r->kind == SET ? &w->sets : &w->gets) += 1;
        add_time(&w->times, t - r->begun);
    }
    c->first++;
}

/* A block of this length and its line end, after a line of `line` bytes. */
static enum eaten eat_block(struct worker *w, struct connection *c, size_t line, size_t length, const char *end,
                            int key)
{
    const char *value = c->in + c->in_at + line;
    size_t tail = strlen(end);
    if (length > 64u << 20)
        return LOST;
    if (c->in_have - c->in_at < line + length + tail)
        return NOT_YET;
    bool whole = value_is_whole(value, length, key);
    if (canned)                         /* the same work, for another block */
        whole = length == (size_t)size && memcmp(value, block, length) == 0;
    if (!whole)
        fault(w, "wrong value", value, length);
    if (memcmp(value + length, end, tail))
        return LOST;
    c->in_at += line + length + tail;
    return EATEN;
}

static enum eaten eat_memcached(struct worker *w, struct connection *c, struct request *r, size_t line)
{
    const char *at = c->in + c->in_at;
    char head[MAX_PREFIX + 40];
    if (r->kind == SET && is(at, line, "STORED\r\n")) {
        c->in_at += line;
        return EATEN;
    }
    if (r->kind == SET || line < 8 || memcmp(at, "VALUE ", 6)) {
        fault(w, r->kind == SET ? "set" : "get", at, line);
        c->in_at += line;
        return EATEN;
    }
    int length = sprintf(head, "VALUE ");
    length += put_key(head + length, r->key);
    length += sprintf(head + length, " 0 ");
    bool named = line > (size_t)length + 2 && memcmp(at, head, canned ? 6 : (size_t)length) == 0;
    if (!named)
        fault(w, "wrong key or flags", at, line);
    const char *last = at + line - 2;
    while (last > at && last[-1] != ' ')
        last--;
    return eat_block(w, c, line, strtoul(last, NULL, 10), "\r\nEND\r\n", r->key);
}

static enum eaten eat_resp(struct worker *w, struct connection *c, struct request *r, size_t line)
{
    const char *at = c->in + c->in_at;
    if (r->kind == GET && at[0] == '$' && at[1] != '-')
        return eat_block(w, c, line, strtoul(at + 1, NULL, 10), "\r\n", r->key);
    bool right = r->phase == FIRST_LINE ? is(at, line, "+OK\r\n") : at[0] == ':' && atoi(at + 1) >= wait_for;
    if (r->kind == GET || !right)
        fault(w, r->kind == GET ? "GET" : r->phase == FIRST_LINE ? "SET" : "WAIT", at, line);
    c->in_at += line;
    if (r->kind == SET && wait_for && r->phase == FIRST_LINE) {
        r->phase = WAITED_LINE;
        return NOT_YET;
    }
    return EATEN;
}

/* Takes the whole replies that stand there. False: the framing is lost. */
static bool eat(struct worker *w, struct connection *c, uint64_t t)
{
    while (c->first != c->next) {
        struct request *r = &c->ring[c->first % c->ring_size];
        const char *at = c->in + c->in_at, *end = memchr(at, '\n', c->in_have - c->in_at);
        if (!end)
            return true;
        size_t line = (size_t)(end - at) + 1, before = c->in_at;
        enum eaten eaten = (resp ? eat_resp : eat_memcached)(w, c, r, line);
        if (eaten == LOST)
            return false;
        if (eaten == EATEN)
            finish(w, c, r, t);
        else if (c->in_at == before)
            return true;
    }
    return true;
}

/* ---- the loop of a thread ---- */

static void make_room(struct connection *c)
{
    if (c->in_at == c->in_have)
        c->in_at = c->in_have = 0;
    else if (c->in_room - c->in_have < c->in_room / 4) {
        memmove(c->in, c->in + c->in_at, c->in_have - c->in_at);
        c->in_have -= c->in_at;
        c->in_at = 0;
    }
}

/* Reads once and takes the replies. What is wrong with the connection, if it is done for. */
static const char *take(struct worker *w, struct connection *c, int flags, uint64_t *t)
{
    make_room(c);
    if (c->in_have == c->in_room)
        return "reply too long";
    ssize_t got = recv(c->fd, c->in + c->in_have, c->in_room - c->in_have, flags);
    if (got < 0 && errno == EINTR)
        return NULL;
    if (got < 0 && (errno == EAGAIN || errno == EWOULDBLOCK))
        return flags & MSG_DONTWAIT ? NULL : "no reply in time";
    if (got <= 0)
        return "closed";
    c->in_have += (size_t)got;
    *t = now_ns();
    if (!eat(w, c, *t))
        return "framing lost";
    return c->first == c->next && c->in_at != c->in_have ? "more than was asked" : NULL;
}

/* Takes what has come, and sends the next requests. */
static void turn(struct worker *w, struct connection *c, int flags)
{
    uint64_t t = now_ns();
    const char *wrong = take(w, c, flags, &t);
    if (!wrong) {
        push_more(w, c, t);
        wrong = send_out(c) ? NULL : "send";
    }
    if (wrong)
        give_up(w, c, wrong);
}

/* Asks for room to send exactly while something waits to be sent. */
static void arm(int poll, struct connection *c, int index)
{
    bool want = c->out_have > c->out_at;
    struct epoll_event event = {.events = EPOLLIN | (want ? EPOLLOUT : 0), .data.u32 = (uint32_t)index};
    if (!c->dead && want != c->armed) {
        epoll_ctl(poll, EPOLL_CTL_MOD, c->fd, &event);
        c->armed = want;
    }
}

static bool has_open(const struct worker *w)
{
    for (int i = 0; i < w->count; i++)
        if (is_open(&w->connections[i]))
            return true;
    return false;
}

static void begin(struct worker *w, int poll)
{
    uint64_t t = now_ns();
    for (int i = 0; i < w->count; i++) {
        struct connection *c = &w->connections[i];
        struct epoll_event event = {.events = EPOLLIN, .data.u32 = (uint32_t)i};
        epoll_ctl(poll, EPOLL_CTL_ADD, c->fd, &event);
        push_more(w, c, t);
        if (!send_out(c))
            give_up(w, c, "send");
        arm(poll, c, i);
    }
}

static void serve_event(struct worker *w, int poll, const struct epoll_event *event)
{
    struct connection *c = &w->connections[event->data.u32];
    if (c->dead)
        return;
    if (event->events & EPOLLOUT && !send_out(c))
        give_up(w, c, "send");
    if (!c->dead && event->events & (EPOLLIN | EPOLLHUP | EPOLLERR))
        turn(w, c, MSG_DONTWAIT);
    arm(poll, c, (int)event->data.u32);
}

static void *run(void *given)
{
    struct worker *w = given;
    int poll = epoll_create1(0);
    begin(w, poll);
    while (has_open(w)) {
        struct epoll_event events[64];
        if (w->count == 1 && !w->connections[0].out_have) {      /* alone: a blocking read */
            turn(w, &w->connections[0], 0);
            arm(poll, &w->connections[0], 0);
            continue;
        }
        int count = epoll_wait(poll, events, 64, (int)(patience * 1000));
        if (count == 0)
            for (int i = 0; i < w->count; i++)
                if (is_open(&w->connections[i]))
                    give_up(w, &w->connections[i], "no reply in time");
        for (int i = 0; i < count; i++)
            serve_event(w, poll, &events[i]);
    }
    close(poll);
    return NULL;
}

/* Sets every key once, over one connection. */
static void fill_keys(struct worker *w)
{
    struct connection c = {0};
    open_connection(&c, ports[0], FILL_DEPTH);
    for (int key = 0; !c.dead && (key < keys || c.first != c.next);) {
        uint64_t t = now_ns();
        while (key < keys && has_place(&c))
            push(w, &c, SET, key++, t);
        const char *wrong = send_out(&c) ? take(w, &c, c.out_have ? MSG_DONTWAIT : 0, &t) : "send";
        if (wrong)
            give_up(w, &c, wrong);
    }
    close_connection(&c);
}

static void sleep_until(uint64_t t)
{
    struct timespec at = {(time_t)(t / 1000000000u), (long)(t % 1000000000u)};
    while (clock_nanosleep(CLOCK_MONOTONIC, TIMER_ABSTIME, &at, NULL) == EINTR)
        ;
}

/* ---- the command ---- */

static const char *const USAGE =
    "load --ports P[,P...] (--seconds S | --count N | --fill) [--connections 1] [--depth 1] [--keys 10000]\n"
    "     [--size 100] [--sets 0.1] [--warm-up S] [--prefix key] [--seed 1] [--pids P[,P...]] [--patience 20]\n"
    "     [--zipf E] [--canned] [--resp [--wait-for N]]";

static int numbers(char *text, int *to, int most)
{
    int count = 0;
    for (char *at = strtok(text, ","); at && count < most; at = strtok(NULL, ","))
        to[count++] = atoi(at);
    return count;
}

static void read_words(int argc, char **argv)
{
    static const struct option options[] = {
        {"ports", 1, 0, 'p'}, {"connections", 1, 0, 'c'}, {"depth", 1, 0, 'd'}, {"seconds", 1, 0, 's'},
        {"count", 1, 0, 'n'}, {"warm-up", 1, 0, 'w'}, {"keys", 1, 0, 'k'}, {"size", 1, 0, 'v'},
        {"sets", 1, 0, 'r'}, {"resp", 0, 0, 'R'}, {"wait-for", 1, 0, 'W'}, {"prefix", 1, 0, 'x'},
        {"seed", 1, 0, 'S'}, {"patience", 1, 0, 'T'}, {"pids", 1, 0, 'P'}, {"canned", 0, 0, 'C'},
        {"fill", 0, 0, 'f'}, {"zipf", 1, 0, 'z'}, {0, 0, 0, 0}};
    for (int o; (o = getopt_long(argc, argv, "", options, NULL)) != -1;) {
        switch (o) {
        case 'p': port_count = numbers(optarg, ports, MAX_PORTS); break;
        case 'P': pid_count = numbers(optarg, pids, MAX_PIDS); break;
        case 'c': connections = atoi(optarg); break;
        case 'd': depth = atoi(optarg); break;
        case 's': seconds = atof(optarg); break;
        case 'n': limit = strtoull(optarg, NULL, 10); break;
        case 'w': warm_up = atof(optarg); break;
        case 'k': keys = atoi(optarg); break;
        case 'v': size = atoi(optarg); break;
        case 'r': set_part = atof(optarg); break;
        case 'R': resp = true; break;
        case 'W': wait_for = atoi(optarg); break;
        case 'x': prefix = optarg; break;
        case 'S': seed = strtoull(optarg, NULL, 10); break;
        case 'T': patience = atof(optarg); break;
        case 'C': canned = true; break;
        case 'f': fill = true; break;
        case 'z': zipf = atof(optarg); break;
        default: stop("usage: %s", USAGE);
        }
    }
    bool counts = port_count && connections >= 1 && connections <= MAX_CONNECTIONS && depth >= 1 && depth <= MAX_DEPTH;
    bool items = keys >= 1 && keys <= 999999999 && size >= 1 && size <= 1 << 20 && strlen(prefix) <= MAX_PREFIX;
    if (!counts || !items || patience < 1 || zipf < 0 || zipf >= 1 || !(fill || limit || seconds > 0))
        stop("usage: %s", USAGE);
}

static void make_filler(void)
{
    uint64_t state = 88172645463325252u;
    filler = room((size_t)FILLER + (size_t)size);
    block = room((size_t)size);
    memset(block, 'x', (size_t)size);
    for (int i = 0; i < FILLER + size; i++)
        filler[i] = "abcdefghijklmnopqrstuvwxyzABCDEFGHIJKLMNOPQRSTUVWXYZ0123456789+-"[draw(&state) % 64];
}

static void report(const struct worker *workers, int count, double took, struct used used)
{
    struct worker *sum = room(sizeof *sum);
    for (int i = 0; i < count; i++) {
        sum->gets += workers[i].gets;
        sum->sets += workers[i].sets;
        if (!sum->errors)
            strcpy(sum->first_error, workers[i].first_error);
        sum->errors += workers[i].errors;
        add_histogram(&sum->times, &workers[i].times);
    }
    const struct histogram *times = &sum->times;
    printf("{\"seconds\": %.6f, \"gets\": %llu, \"sets\": %llu, ", took, (unsigned long long)sum->gets,
           (unsigned long long)sum->sets);
    printf("\"p50\": %.2f, \"p99\": %.2f, \"p999\": %.2f, \"longest\": %.2f, ", quantile(times, .5),
           quantile(times, .99), quantile(times, .999), (double)times->longest / 1000.0);
    printf("\"processor\": %.6f, \"system\": %.6f, \"errors\": %llu, \"first_error\": \"%s\"}\n",
           (double)used.all / 1e9, (double)used.system / 1e9, (unsigned long long)sum->errors, sum->first_error);
    exit(sum->errors ? 1 : 0);
}

int main(int argc, char **argv)
{
    read_words(argc, argv);
    signal(SIGPIPE, SIG_IGN);
    make_filler();
    if (zipf > 0)
        make_ranks();
    int threads = fill || connections == 1 ? 1 : 2, next = 0;
    struct worker *workers = room((size_t)threads * sizeof *workers);
    struct connection *all = room((size_t)connections * sizeof *all);
    for (int i = 0; i < threads; i++) {
        struct worker *w = &workers[i];
        w->id = mixed(seed) % 0x7ffffe + (uint64_t)i;
        w->random = mixed(seed * 1000 + (uint64_t)i) | 1;
        w->count = connections / threads + (i < connections % threads);
        w->connections = all + next;
        w->left = limit ? limit / (uint64_t)threads + ((uint64_t)i < limit % (uint64_t)threads) : UINT64_MAX;
        next += w->count;
    }
    if (!fill)
        for (int i = 0; i < connections; i++)
            open_connection(&all[i], ports[i % port_count], (unsigned)depth);
    counted_from = now_ns() + (uint64_t)(fill || limit ? 0 : warm_up * 1e9);
    counted_to = fill || limit ? UINT64_MAX : counted_from + (uint64_t)(seconds * 1e9);
    struct used used = watched();
    if (fill) {
        fill_keys(&workers[0]);
    } else {
        for (int i = 0; i < threads; i++)
            if (pthread_create(&workers[i].thread, NULL, run, &workers[i]))
                stop("no thread");
        if (!limit) {
            sleep_until(counted_from);
            used = watched();
            sleep_until(counted_to);
            used = watched_since(used);
        }
        for (int i = 0; i < threads; i++)
            pthread_join(workers[i].thread, NULL);
    }
    uint64_t ended = now_ns();
    if (fill || limit)
        used = watched_since(used);
    report(workers, threads, (double)((ended < counted_to ? ended : counted_to) - counted_from) / 1e9, used);
}
