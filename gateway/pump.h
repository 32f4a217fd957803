/* The gateway's loop (pump.c), as Python drives it (python/trau/gateway/pump.py).
 *
 * Python opens sockets, decides on lines and writes the recording. The loop reads, turns calls and sends, on a thread of its own. It
 * decides nothing about a packet but whether its sender is the peer: a call is behind trau_call.h. Two threads meet here alone, in three
 * rings: commands go to the loop, events come back in their order (answers to commands, and blocks of records), and emptied blocks return.
 * Neither thread ever waits for the other.
 */
#ifndef TRAU_PUMP_H
#define TRAU_PUMP_H
#include "trau_call.h"

enum { PUMP_PHASES = 4, PUMP_SIDES = 2, PUMP_LINES = 4 };
enum pump_verb { PUMP_NOTHING, PUMP_OPEN, PUMP_SET, PUMP_BRIDGE, PUMP_PART, PUMP_REPORT, PUMP_CLOSE };
enum pump_kind { PUMP_NO_EVENT, PUMP_ANSWER, PUMP_BLOCK, PUMP_GAVE_UP, PUMP_OVERFLOW };

/* What a slot's call is to do from the next period on. */
struct pump_command {
    uint32_t verb, slot, other, phase; /* the phase of both calls of a bridge, or of `slot` after one */
    int16_t level;
    uint8_t dtx;
};

/* One side of a call that is to be opened; host and port of the peer in the network's order. */
struct pump_side {
    int32_t socket;
    uint32_t host;
    uint16_t port;
    uint8_t is_strict, is_any, is_connected;
};

/* What a side's socket brought and took, and where its packets go. */
struct pump_counts {
    uint32_t stranger, other_port, given_up, unreachable, unsent, moved;
    int32_t failure; /* why the last packet was unsent (errno) */
    uint32_t host;
    uint16_t port;
};

/* The counts of a call. */
struct pump_report {
    struct trau_reports core[PUMP_SIDES];
    struct pump_counts ends[PUMP_SIDES];
    uint32_t held_up;
};

/* The `number`-th command was executed at the start of `period`; or a block is to be written; or so many periods were given up. */
struct pump_event { uint32_t kind, number, period; };

/* Periods of a call in a row, line by line: room for `every` periods of Up, then of Pcm, Down, Out. */
struct pump_block { uint32_t slot, periods; uint8_t *octets; };

/* The clock up to now, and how far behind and how late (nanoseconds) it was at most since it was asked last. */
struct pump_state { uint32_t period, late, given_up, load, behind, has_ended; int64_t latest; };

/* Of a report, a command, a side, an event, a block, a state and settings: Python compares them with its own. */
extern const uint32_t pump_sizes[7];

struct pump;
struct pump *pump_new(uint32_t slots, uint32_t every, uint32_t blocks, uint32_t commands);
void pump_free(struct pump *);

/* Commands. A batch that is published at once is executed at the start of one period. false: there is no room. */
bool pump_stage(struct pump *, const struct pump_command *);
void pump_publish(struct pump *);
bool pump_take_event(struct pump *, struct pump_event *);
void pump_report_of(const struct pump *, uint32_t number, struct pump_report *); /* until the next event is taken */
const struct pump_block *pump_block_of(const struct pump *, uint32_t number);
void pump_return_block(struct pump *, uint32_t number);

/* A slot that isn't open: begins its call (the result is trau_call_begin's), ends it if it has begun. */
uint32_t pump_prepare(struct pump *, uint32_t slot, const struct trau_call_settings *, const struct pump_side sides[PUMP_SIDES],
                      bool is_recorded);
void pump_dismiss(struct pump *, uint32_t slot);
int pump_watch(struct pump *, uint32_t slot, uint32_t side, uint32_t phase); /* 0, or errno */

/* The loop on its own thread, up to the period `until` or pump_stop. It writes to `wakes` when commands are answered, in each fifth period, and
 * at its end. */
int pump_start(struct pump *, uint32_t until, int wakes);
uint32_t pump_stop(struct pump *); /* the period at which it ended, of which nothing is processed */
void pump_state(struct pump *, struct pump_state *);

/* A turn of the clock: the calls of a phase process a period, some periods late, after others were given up. */
struct pump_turn { uint32_t period, phase, behind, given_up; };

/* What the thread does in a turn; without it a test does this, on its own clock. */
bool pump_execute(struct pump *, uint32_t period); /* whether there were commands */
void pump_process(struct pump *, const struct pump_turn *);
void pump_give_up(struct pump *, const struct pump_turn *);
void pump_arrived(struct pump *, uint32_t slot, uint32_t side, const uint8_t *octets, size_t count, uint32_t host, uint16_t port,
                  const struct pump_turn *);

/* The clock alone, as the thread has it. */
struct pump_clock;
struct pump_clock *pump_clock_new(int64_t now);
int64_t pump_clock_due(const struct pump_clock *);
struct pump_turn pump_clock_turn(struct pump_clock *, int64_t begun, int64_t woken); /* when its wait began, and ended */
uint32_t pump_clock_given_up(const struct pump_clock *);
void pump_clock_state(struct pump_clock *, struct pump_state *); /* all but the period, and whether it has ended */
#endif
