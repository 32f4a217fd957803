/* What the loop is made of: pump.c turns its calls, pump_rings.c has its rings, its records and its memory. */
#ifndef TRAU_PUMP_PARTS_H
#define TRAU_PUMP_PARTS_H
#include "pump_end.h"
#include <pthread.h>
#include <stdatomic.h>

/* One thread writes it and one reads it. Counters go on modulo 2^32, of which its size is a divisor. */
struct ring { uint32_t size, read; atomic_uint written; };

struct slot {
    struct trau_call call;
    struct end ends[PUMP_SIDES];
    bool is_begun, is_open, is_recorded, dtx; /* is_begun: the call's handle has a call */
    int16_t level;
    uint32_t phase, place; /* its place in the list of its phase */
    uint32_t held_up;
    struct slot *partner;
    struct pump_block *block; /* that is being filled */
};

struct phase { struct slot **slots; uint32_t count; int poll; };

struct pump {
    struct slot *slots;
    struct phase phases[PUMP_PHASES];
    struct pump_clock *clock;
    uint32_t slot_count, every, staged, answered;
    struct ring commands, events, returned;
    struct pump_command *command; /* to the loop */
    struct pump_report *report;   /* by commands */
    struct pump_event *event;     /* from the loop. As large as all blocks and commands together, so there is always room */
    struct pump_block *blocks;
    uint8_t *octets;   /* of all blocks */
    uint32_t *emptied; /* numbers of blocks that return */
    bool has_overflowed;
    uint8_t datagram[MOST_DATAGRAM];
    pthread_t thread;
    int wakes;
    uint32_t until;
    atomic_bool is_to_stop, has_ended;
    atomic_uint period;
};

int64_t loop_now(void); /* nanoseconds, with those in which the machine was suspended */

/* The place that is read next, if there is one; what is there is the reader's. */
bool ring_has_more(struct ring *);
uint32_t ring_read(struct ring *);

void loop_tell(struct pump *, uint32_t kind, uint32_t number, uint32_t period);
void loop_keep(struct pump *, struct slot *, const struct trau_record *, uint32_t period);
void loop_hand_over(struct pump *, struct slot *, uint32_t period); /* its block, if it has one */
#endif
