/* The rings between the loop and Python, the records of calls in blocks, and the memory of all. */
#include "pump_parts.h"
#include <stdlib.h>
#include <string.h>
#include <sys/epoll.h>
#include <unistd.h>

static const uint32_t SIZES[PUMP_LINES] = {40, 160, 40, 160}; /* octets of a period of Up, Pcm, Down and Out */

/* ---- rings */

bool ring_has_more(struct ring *ring) {
    return ring->read != atomic_load_explicit(&ring->written, memory_order_acquire);
}

uint32_t ring_read(struct ring *ring) {
    return ring->read++ % ring->size;
}

/* The place that is written next; what is there is the other thread's after `publish`. */
static uint32_t write_place(const struct ring *ring) {
    return atomic_load_explicit(&ring->written, memory_order_relaxed) % ring->size;
}

static void publish(struct ring *ring, uint32_t count) {
    atomic_fetch_add_explicit(&ring->written, count, memory_order_release);
}

void loop_tell(struct pump *pump, uint32_t kind, uint32_t number, uint32_t period) {
    pump->event[write_place(&pump->events)] = (struct pump_event){kind, number, period};
    publish(&pump->events, 1);
}

bool pump_take_event(struct pump *pump, struct pump_event *event) {
    if (!ring_has_more(&pump->events))
        return false;
    *event = pump->event[ring_read(&pump->events)];
    pump->answered += event->kind == PUMP_ANSWER;
    return true;
}

void pump_report_of(const struct pump *pump, uint32_t number, struct pump_report *report) {
    *report = pump->report[number % pump->commands.size];
}

const struct pump_block *pump_block_of(const struct pump *pump, uint32_t number) {
    return &pump->blocks[number];
}

void pump_return_block(struct pump *pump, uint32_t number) {
    pump->emptied[write_place(&pump->returned)] = number;
    publish(&pump->returned, 1);
}

bool pump_stage(struct pump *pump, const struct pump_command *command) {
    if (pump->staged - pump->answered >= pump->commands.size)
        return false;
    pump->command[pump->staged++ % pump->commands.size] = *command;
    return true;
}

void pump_publish(struct pump *pump) {
    atomic_store_explicit(&pump->commands.written, pump->staged, memory_order_release);
}

/* ---- records */

void loop_hand_over(struct pump *pump, struct slot *slot, uint32_t period) {
    if (slot->block)
        loop_tell(pump, PUMP_BLOCK, (uint32_t)(slot->block - pump->blocks), period);
    slot->block = NULL;
}

/* Gives a slot an empty block. If nobody returns blocks, the disk is too slow, and the lines of all calls end here: a line has no gap. */
static bool has_block(struct pump *pump, struct slot *slot, uint32_t period) {
    if (slot->block)
        return true;
    if (!ring_has_more(&pump->returned)) {
        pump->has_overflowed = true;
        loop_tell(pump, PUMP_OVERFLOW, 0, period);
        return false;
    }
    slot->block = &pump->blocks[pump->emptied[ring_read(&pump->returned)]];
    slot->block->slot = (uint32_t)(slot - pump->slots);
    slot->block->periods = 0;
    return true;
}

void loop_keep(struct pump *pump, struct slot *slot, const struct trau_record *record, uint32_t period) {
    const uint8_t *lines[PUMP_LINES] = {record->up, record->pcm, record->down, record->out};
    if (!slot->is_recorded || pump->has_overflowed || !has_block(pump, slot, period))
        return;
    uint8_t *at = slot->block->octets;
    for (int k = 0; k < PUMP_LINES; at += SIZES[k] * pump->every, k++)
        memcpy(at + SIZES[k] * slot->block->periods, lines[k], SIZES[k]);
    /* Each slot has its own period of `every`, so that the blocks of many calls don't come at once. */
    if (++slot->block->periods == pump->every || (period + slot->block->slot) % pump->every == 0)
        loop_hand_over(pump, slot, period);
}

/* ---- memory */

static uint32_t power_of_two(uint32_t least) {
    uint32_t size = 1;
    while (size < least)
        size *= 2;
    return size;
}

static bool has_phases(struct pump *pump) {
    bool is_whole = true;
    for (uint32_t phase = 0; phase < PUMP_PHASES; phase++) {
        pump->phases[phase].slots = calloc(pump->slot_count, sizeof *pump->phases[phase].slots);
        pump->phases[phase].poll = epoll_create1(EPOLL_CLOEXEC);
        is_whole = is_whole && pump->phases[phase].slots && pump->phases[phase].poll >= 0;
    }
    return is_whole;
}

static bool has_rings(struct pump *pump, uint32_t blocks, uint32_t commands) {
    pump->commands.size = power_of_two(commands);
    pump->returned.size = power_of_two(blocks);
    /* Each place of both, and time that is given up, at most once a second. */
    pump->events.size = 2 * power_of_two(pump->commands.size + pump->returned.size);
    pump->command = calloc(pump->commands.size, sizeof *pump->command);
    pump->report = calloc(pump->commands.size, sizeof *pump->report);
    pump->event = calloc(pump->events.size, sizeof *pump->event);
    pump->emptied = calloc(pump->returned.size, sizeof *pump->emptied);
    return pump->command && pump->report && pump->event && pump->emptied;
}

static bool has_blocks(struct pump *pump, uint32_t blocks) {
    size_t size = sizeof(struct trau_record) * pump->every;
    pump->blocks = calloc(blocks, sizeof *pump->blocks);
    pump->octets = malloc(blocks * size);
    if (!pump->blocks || !pump->octets)
        return false;
    for (uint32_t k = 0; k < blocks; k++) {
        pump->blocks[k].octets = pump->octets + k * size;
        pump_return_block(pump, k);
    }
    return true;
}

void pump_free(struct pump *pump) {
    for (uint32_t phase = 0; phase < PUMP_PHASES; phase++) {
        close(pump->phases[phase].poll);
        free(pump->phases[phase].slots);
    }
    void *parts[] = {pump->slots, pump->command, pump->report, pump->event, pump->blocks, pump->octets, pump->emptied, pump->clock, pump};
    for (size_t k = 0; k < sizeof parts / sizeof *parts; k++)
        free(parts[k]);
}

struct pump *pump_new(uint32_t slots, uint32_t every, uint32_t blocks, uint32_t commands) {
    struct pump *pump = calloc(1, sizeof *pump);
    if (!pump)
        return NULL;
    pump->slot_count = slots;
    pump->every = every;
    pump->slots = calloc(slots, sizeof *pump->slots);
    pump->clock = pump_clock_new(loop_now());
    bool is_whole = has_phases(pump) && has_rings(pump, blocks, commands) && has_blocks(pump, blocks);
    if (is_whole && pump->slots && pump->clock)
        return pump;
    pump_free(pump);
    return NULL;
}
