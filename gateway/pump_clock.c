/* The gateway's clock: turns of four phases a period, how late they are, and what is given up. One thread turns it; others may ask for its
 * state. */
#include "pump.h"
#include <stdatomic.h>
#include <stdlib.h>

enum { TURNS_A_SECOND = 200 };
static const int64_t PERIOD_NS = 20000000, MOST_LATE = 1000000000;

struct pump_clock {
    int64_t start, number, due, slept, begun, slept_before; /* the last two: when the last second began, what it had slept then */
    /* What others may ask for. */
    atomic_uint late, given_up, load, behind;
    _Atomic int64_t latest;
};

struct pump_clock *pump_clock_new(int64_t now) {
    struct pump_clock *clock = calloc(1, sizeof *clock);
    if (clock)
        clock->start = clock->due = clock->begun = now;
    return clock;
}

int64_t pump_clock_due(const struct pump_clock *clock) {
    return clock->due;
}

/* The share of the last second, in per cent, in which it didn't wait. */
static void reckon_load(struct pump_clock *clock, int64_t woken) {
    int64_t passed = woken - clock->begun, slept = clock->slept - clock->slept_before;
    atomic_store_explicit(&clock->load, (unsigned)(100 - 100 * slept / (passed ? passed : 1)), memory_order_relaxed);
    clock->begun = woken;
    clock->slept_before = clock->slept;
}

/* Late turns follow one another until they are in time again; time beyond a second is given up. */
struct pump_turn pump_clock_turn(struct pump_clock *clock, int64_t begun, int64_t woken) {
    int64_t late = woken > clock->due ? woken - clock->due : 0, given = late > MOST_LATE ? late / PERIOD_NS : 0, number = clock->number++;
    uint32_t behind = (uint32_t)(late / PERIOD_NS - given);
    clock->slept += woken - begun;
    if (number && number % TURNS_A_SECOND == 0)
        reckon_load(clock, woken);
    clock->start += given * PERIOD_NS;
    clock->due = clock->start + clock->number * (PERIOD_NS / PUMP_PHASES);
    atomic_fetch_add_explicit(&clock->given_up, (unsigned)given, memory_order_relaxed);
    atomic_fetch_add_explicit(&clock->late, late > PERIOD_NS, memory_order_relaxed);
    if (late > atomic_load_explicit(&clock->latest, memory_order_relaxed))
        atomic_store_explicit(&clock->latest, late, memory_order_relaxed);
    if (behind > atomic_load_explicit(&clock->behind, memory_order_relaxed))
        atomic_store_explicit(&clock->behind, behind, memory_order_relaxed);
    return (struct pump_turn){(uint32_t)(number / PUMP_PHASES), (uint32_t)(number % PUMP_PHASES), behind, (uint32_t)given};
}

uint32_t pump_clock_given_up(const struct pump_clock *clock) {
    return atomic_load_explicit(&clock->given_up, memory_order_relaxed);
}

void pump_clock_state(struct pump_clock *clock, struct pump_state *state) {
    state->late = atomic_load_explicit(&clock->late, memory_order_relaxed);
    state->given_up = pump_clock_given_up(clock);
    state->load = atomic_load_explicit(&clock->load, memory_order_relaxed);
    state->behind = atomic_exchange_explicit(&clock->behind, 0, memory_order_relaxed);
    state->latest = atomic_exchange_explicit(&clock->latest, 0, memory_order_relaxed);
}
