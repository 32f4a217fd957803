/* One side of a call on its socket. */
#define _GNU_SOURCE
#include "pump_end.h"
#include <errno.h>
#include <sys/epoll.h>
#include <sys/socket.h>

enum { KEEPS_PORT = 50, MOST_ERRORS = 4 };
static const struct sockaddr_in NOBODY;

struct end end_new(const struct pump_side *side) {
    return (struct end){
        .socket = side->socket,
        .peer = {.sin_family = AF_INET, .sin_addr.s_addr = side->host, .sin_port = side->port},
        .is_strict = side->is_strict,
        .is_any = side->is_any,
        .is_connected = side->is_connected,
    };
}

/* ---- what comes */

static bool is_same(const struct sockaddr_in *one, const struct sockaddr_in *other) {
    return one->sin_addr.s_addr == other->sin_addr.s_addr && one->sin_port == other->sin_port;
}

bool end_is_sender(const struct end *end, const struct sockaddr_in *sender) {
    return is_same(sender, &end->sender);
}

/* The count of what another sender than before isn't heard for; NULL if it is heard. */
static uint32_t *refusal(struct end *end, const struct sockaddr_in *sender, uint32_t tick) {
    bool is_host = sender->sin_addr.s_addr == end->peer.sin_addr.s_addr;
    if ((!end->is_any && !is_host) || (end->is_strict && !is_same(sender, &end->peer)))
        return &end->counts.stranger;
    if (end->was_heard && tick - end->heard < KEEPS_PORT)
        return sender->sin_addr.s_addr == end->sender.sin_addr.s_addr ? &end->counts.other_port : &end->counts.stranger;
    return NULL;
}

bool end_hears(struct end *end, const struct sockaddr_in *sender, uint32_t tick) {
    uint32_t *count = end_is_sender(end, sender) ? NULL : refusal(end, sender, tick);
    if (count)
        ++*count;
    else
        end->sender = *sender;
    return !count;
}

/* After two packets in a row of another address than the peer's, packets go there (symmetric RTP). */
static void follow(struct end *end, const struct sockaddr_in *sender) {
    if (is_same(sender, &end->peer)) {
        end->candidate = NOBODY;
    } else if (!is_same(sender, &end->candidate)) {
        end->candidate = *sender;
    } else {
        end->peer = *sender;
        end->candidate = NOBODY;
        end->counts.moved++;
    }
}

void end_took(struct end *end, const struct sockaddr_in *sender, uint32_t tick) {
    end->heard = tick;
    end->was_heard = true;
    if (end->is_any)
        follow(end, sender);
}

ssize_t end_receive(struct end *end, uint8_t datagram[MOST_DATAGRAM], struct sockaddr_in *sender) {
    socklen_t size = sizeof *sender;
    *sender = end->peer; /* a strict peer alone is heard at its socket */
    if (end->is_strict)
        return recv(end->socket, datagram, MOST_DATAGRAM, 0);
    return recvfrom(end->socket, datagram, MOST_DATAGRAM, 0, (struct sockaddr *)sender, &size);
}

/* Counts some ICMP answers in the queue of a socket that isn't connected. */
static void count_errors(struct end *end) {
    struct msghdr nothing = {0};
    for (int k = 0; k < MOST_ERRORS && recvmsg(end->socket, &nothing, MSG_ERRQUEUE) >= 0; k++)
        end->counts.unreachable++;
}

ssize_t end_read(struct end *end, uint32_t events, uint8_t datagram[MOST_DATAGRAM], struct sockaddr_in *sender) {
    if (events & EPOLLERR && !end->is_strict)
        count_errors(end);
    ssize_t count = end_receive(end, datagram, sender);
    if (count < 0) /* an ICMP answer; without a connection it is in the queue too */
        end->counts.unreachable += end->is_strict && errno != EAGAIN;
    return count;
}

/* ---- what goes out */

void end_send(struct end *end, const uint8_t *octets, size_t count) {
    const struct sockaddr *peer = end->is_connected ? NULL : (const struct sockaddr *)&end->peer;
    for (int k = 0; k < 2; k++) { /* at first, an ICMP answer to an earlier packet may fail */
        if (sendto(end->socket, octets, count, 0, peer, peer ? sizeof end->peer : 0) >= 0)
            return;
        end->counts.unreachable += end->is_strict && errno == ECONNREFUSED;
    }
    end->counts.unsent++;
    end->counts.failure = errno;
}
