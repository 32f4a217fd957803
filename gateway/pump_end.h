/* One side of a call on its socket, as python/trau/gateway/network.py has it: whom it hears, and where its packets go. */
#ifndef TRAU_PUMP_END_H
#define TRAU_PUMP_END_H
#include "pump.h"
#include <netinet/in.h>
#include <sys/types.h>

enum { MOST_DATAGRAM = 9000 };

struct end {
    int socket;
    struct sockaddr_in peer, sender, candidate; /* nobody: all zero */
    bool is_strict, is_any, is_connected, was_heard;
    bool is_old; /* what came up to now is of time that was given up */
    uint32_t heard;
    struct pump_counts counts;
};

struct end end_new(const struct pump_side *);
/* The next datagram, and who sent it; below 0 (errno) if there is none. */
ssize_t end_receive(struct end *, uint8_t datagram[MOST_DATAGRAM], struct sockaddr_in *sender);
/* The same of a socket for which epoll has these events; what failed is counted. */
ssize_t end_read(struct end *, uint32_t events, uint8_t datagram[MOST_DATAGRAM], struct sockaddr_in *sender);
bool end_is_sender(const struct end *, const struct sockaddr_in *); /* that is heard */
bool end_hears(struct end *, const struct sockaddr_in *sender, uint32_t tick); /* else it counts why not */
void end_took(struct end *, const struct sockaddr_in *sender, uint32_t tick);  /* the call took a packet of the sender */
void end_send(struct end *, const uint8_t *octets, size_t count);
#endif
