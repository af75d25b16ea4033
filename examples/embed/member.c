/* A member of a cluster in one loop of select: it answers exchanges that others begin, and begins its own.
 * usage: member PORT CLUSTER SEEDS SECONDS. It prints what it holds at the end. scripts/embed builds and runs it. */
#include <arpa/inet.h>
#include <fcntl.h>
#include <stdio.h>
#include <stdlib.h>
#include <string.h>
#include <sys/random.h>
#include <sys/select.h>
#include <sys/socket.h>
#include <time.h>
#include <unistd.h>

#include "cg.h"

enum { LINKS = 64, INTERVAL = 100 };

/* A connection: what came and is not handled yet, and the frame that is being sent. */
struct link {
    int fd, began, frames;
    uint8_t *in;
    size_t held, room, sent;
    cg_bytes out;
};

static cg_node node;
static cg_bytes text;
static struct link links[LINKS];

static uint64_t now(void) {
    struct timespec at;
    clock_gettime(CLOCK_MONOTONIC, &at);
    return (uint64_t)at.tv_sec * 1000 + (uint64_t)at.tv_nsec / 1000000;
}

/* Ends the program if a call that has to pass was refused. */
static void pass(uint32_t fault, const char *what) {
    if (fault) {
        fprintf(stderr, "member: %s: fault %u\n", what, fault);
        exit(1);
    }
}

static void closed(struct link *it) {
    close(it->fd);
    free(it->in);
    cg_bytes_free(&it->out);
    memset(it, 0, sizeof *it);
}

static struct link *opened(int fd, int began) {
    for (struct link *it = links; it < links + LINKS; it++)
        if (!it->room) {
            it->fd = fd, it->began = began, it->room = 1 << 16;
            if (!(it->in = malloc(it->room)))
                exit(1);
            fcntl(fd, F_SETFL, O_NONBLOCK);
            return it;
        }
    close(fd);
    return NULL;
}

/* Sends what is left. An exchange that was begun here ends with its second frame. */
static void sends(struct link *it) {
    ssize_t size = send(it->fd, it->out.start + it->sent, it->out.length - it->sent, MSG_NOSIGNAL);
    it->sent += size > 0 ? (size_t)size : 0;
    if (it->sent == it->out.length && ++it->frames == 2 && it->began)
        closed(it);
}

/* Handles the frame that came, once it is whole. One with no answer ends the exchange. */
static void handles(struct link *it) {
    size_t length = 0, taken = 0;
    uint32_t fault = cg_frame_length(it->in, it->held, &length);
    if (fault == CG_TRUNCATED || (!fault && it->held < length))
        return;
    if (!fault)
        fault = cg_handle(&node, now(), it->in, it->held, &taken, &text, &it->out);
    if (fault || !it->out.length) {
        closed(it);
        return;
    }
    it->held -= taken, it->sent = 0;
    memmove(it->in, it->in + taken, it->held);
    sends(it);
}

static void receives(struct link *it) {
    if (it->held == it->room && !(it->in = realloc(it->in, it->room *= 2)))
        exit(1);
    ssize_t size = recv(it->fd, it->in + it->held, it->room - it->held, 0);
    if (size <= 0) {
        closed(it);
        return;
    }
    it->held += (size_t)size;
    handles(it);
}

/* Begins a round: sends the SYN to each peer of the line `round 127.0.0.1:7101 ..`. */
static void begins(void) {
    cg_bytes peers = {0}, syn = {0};
    uint64_t words[4] = {0};
    (void)!getrandom(words, sizeof words, 0);
    pass(cg_tick(&node, now(), words[0], words[1], words[2], words[3], &peers, &syn), "tick");
    char *line = strndup((const char *)peers.start, peers.length);
    if (!line)
        exit(1);
    const char *at = line + strlen("round");
    unsigned a, b, c, d, port;
    for (int read = 0; sscanf(at, " %u.%u.%u.%u:%u%n", &a, &b, &c, &d, &port, &read) == 5; at += read) {
        struct sockaddr_in peer = {.sin_family = AF_INET, .sin_port = htons((uint16_t)port)};
        peer.sin_addr.s_addr = htonl(a << 24 | b << 16 | c << 8 | d);
        struct link *it = opened(socket(AF_INET, SOCK_STREAM, 0), 1);
        if (!it)
            break;
        connect(it->fd, (struct sockaddr *)&peer, sizeof peer);
        pass(cg_opening(&node, &it->out), "opening");
    }
    free(line);
    cg_bytes_free(&peers);
    cg_bytes_free(&syn);
}

/* Waits at most so long, and does what can be done at each connection. */
static void turns(int listener, uint64_t most) {
    fd_set in, out;
    FD_ZERO(&in);
    FD_ZERO(&out);
    FD_SET(listener, &in);
    int top = listener;
    for (struct link *it = links; it < links + LINKS; it++)
        if (it->room) {
            FD_SET(it->fd, it->sent < it->out.length ? &out : &in);
            top = it->fd > top ? it->fd : top;
        }
    struct timeval wait = {0, (suseconds_t)most * 1000};
    if (select(top + 1, &in, &out, NULL, &wait) <= 0)
        return;
    for (struct link *it = links; it < links + LINKS; it++)
        if (it->room && FD_ISSET(it->fd, &out))
            sends(it);
        else if (it->room && FD_ISSET(it->fd, &in))
            receives(it);
    if (FD_ISSET(listener, &in))
        opened(accept(listener, NULL, NULL), 0);
}

int main(int count, char **words) {
    if (count != 5)
        return 2;
    char endpoint[32];
    uint32_t version = 0;
    cg_judgement judgement;
    cg_defaults(&judgement);
    snprintf(endpoint, sizeof endpoint, "127.0.0.1:%s", words[1]);
    pass(cg_start(&node, (uint8_t *)endpoint, strlen(endpoint), (uint32_t)time(NULL), (uint8_t *)words[2], strlen(words[2]),
                  (uint8_t *)words[3], strlen(words[3]), &judgement), "start");
    pass(cg_set(&node, 3, (const uint8_t *)"from C", strlen("from C"), &version), "set");
    struct sockaddr_in own = {.sin_family = AF_INET, .sin_port = htons((uint16_t)atoi(words[1]))};
    own.sin_addr.s_addr = htonl(INADDR_LOOPBACK);
    int listener = socket(AF_INET, SOCK_STREAM, 0), yes = 1;
    setsockopt(listener, SOL_SOCKET, SO_REUSEADDR, &yes, sizeof yes);
    if (bind(listener, (struct sockaddr *)&own, sizeof own) || listen(listener, LINKS))
        return 1;
    uint64_t next = now(), end = next + (uint64_t)atoi(words[4]) * 1000;
    while (now() < end) {
        if (now() >= next)
            begins(), next += INTERVAL;
        turns(listener, INTERVAL / 4);
    }
    pass(cg_gossipinfo(&node, &text), "gossipinfo");
    fwrite(text.start, 1, text.length, stdout);
    for (struct link *it = links; it < links + LINKS; it++)
        if (it->room)
            closed(it);
    close(listener);
    cg_bytes_free(&text);
    cg_free(&node);
    return 0;
}
