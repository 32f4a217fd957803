/* The gateway's loop: what a turn of the clock does with the calls of a phase, what commands do, and the thread. docs/GATEWAY.md has the rules. */
#define _GNU_SOURCE
#include "pump_parts.h"
#include <errno.h>
#include <signal.h>
#include <stdlib.h>
#include <string.h>
#include <sys/epoll.h>
#include <sys/syscall.h>
#include <time.h>
#include <unistd.h>

enum { READY = 512, MOST_PACKETS = 4, MOST_OCTETS = 1500, FEWEST_SOCKETS = 25, MOST_OLD = 2000, WAKING = 5 };
static const int64_t SECOND = 1000000000, MOST_DROPPING = 100000000, DROPPING_AT_A_TICK = 1000000, SLICE = 100000;

const uint32_t pump_sizes[7] = {sizeof(struct pump_report), sizeof(struct pump_command), sizeof(struct pump_side),
                                sizeof(struct pump_event),  sizeof(struct pump_block),   sizeof(struct pump_state),
                                sizeof(struct trau_call_settings)};

int64_t loop_now(void) {
    struct timespec t;
    clock_gettime(CLOCK_BOOTTIME, &t);
    return t.tv_sec * SECOND + t.tv_nsec;
}

/* ---- what comes. An end's number is its slot's and its side's */

static struct slot *slot_of(struct pump *pump, uint32_t number) {
    return &pump->slots[number / PUMP_SIDES];
}

static struct end *end_of(struct pump *pump, uint32_t number) {
    return &slot_of(pump, number)->ends[number % PUMP_SIDES];
}

/* The pump's datagram arrived at an end. */
static void arrived(struct pump *pump, uint32_t number, size_t count, const struct sockaddr_in *sender, uint32_t tick, uint32_t behind) {
    struct end *end = end_of(pump, number);
    if (!end_hears(end, sender, tick))
        return;
    struct trau_call *call = &slot_of(pump, number)->call;
    if (trau_call_packet(call, number % PUMP_SIDES, pump->datagram, count, tick, behind) == TRAU_CALL_TAKEN)
        end_took(end, sender, tick);
}

void pump_arrived(struct pump *pump, uint32_t slot, uint32_t side, const uint8_t *octets, size_t count, uint32_t host, uint16_t port,
                  const struct pump_turn *turn) {
    struct sockaddr_in sender = {.sin_family = AF_INET, .sin_addr.s_addr = host, .sin_port = port};
    count = count < MOST_DATAGRAM ? count : MOST_DATAGRAM;
    memcpy(pump->datagram, octets, count);
    arrived(pump, PUMP_SIDES * slot + side, count, &sender, turn->period, turn->behind);
}

/* Takes a datagram at an end where something is ready; the result is its octets. */
static ssize_t read_one(struct pump *pump, const struct epoll_event *ready, const struct pump_turn *turn) {
    struct sockaddr_in sender;
    ssize_t count = end_read(end_of(pump, ready->data.u32), ready->events, pump->datagram, &sender);
    if (count < 0)
        return 0;
    arrived(pump, ready->data.u32, (size_t)count, &sender, turn->period, turn->behind);
    return count;
}

/* Takes what has come for the calls of a phase: one packet a socket in turn, so that a flood starves nobody. */
static void read_phase(struct pump *pump, const struct pump_turn *turn) {
    struct epoll_event ready[READY];
    const struct phase *phase = &pump->phases[turn->phase];
    uint32_t sockets = PUMP_SIDES * phase->count;
    int64_t many = sockets > FEWEST_SOCKETS ? sockets : FEWEST_SOCKETS, packets = MOST_PACKETS * many, octets = MOST_OCTETS * many;
    for (bool is_any = true; is_any && packets > 0 && octets > 0;) {
        int count = epoll_wait(phase->poll, ready, READY, 0);
        is_any = false;
        for (int k = 0; k < count; k++) {
            if (!slot_of(pump, ready[k].data.u32)->is_open || end_of(pump, ready[k].data.u32)->is_old)
                continue;
            octets -= read_one(pump, &ready[k], turn);
            packets--;
            is_any = true;
        }
    }
}

/* Takes all that an end has, of time that was given up. The call refuses what is old, and it isn't missing as well. */
static void drop(struct pump *pump, uint32_t number, uint32_t tick) {
    struct end *end = end_of(pump, number);
    struct sockaddr_in sender;
    end->is_old = false;
    for (int k = 0; k < MOST_OLD; k++) {
        ssize_t count = end_receive(end, pump->datagram, &sender);
        if (count < 0 && errno == EAGAIN)
            return;
        if (count < 0)
            continue;
        if (end_is_sender(end, &sender))
            arrived(pump, number, (size_t)count, &sender, tick, 1); /* late, so that it says nothing of the path */
        else
            end->counts.given_up++;
    }
}

/* Drops what is old in a phase, as long as there is time for it. */
static void drop_old(struct pump *pump, uint32_t phase, int64_t until, uint32_t tick) {
    for (uint32_t k = 0; k < PUMP_SIDES * pump->phases[phase].count; k++) {
        uint32_t slot = (uint32_t)(pump->phases[phase].slots[k / PUMP_SIDES] - pump->slots);
        uint32_t number = PUMP_SIDES * slot + k % PUMP_SIDES;
        if (end_of(pump, number)->is_old && loop_now() < until)
            drop(pump, number, tick);
    }
}

static void give_up(struct slot *slot, uint32_t periods, uint32_t period) {
    trau_call_give_up(&slot->call, periods, period);
    slot->held_up += periods;
    slot->ends[TRAU_CALL_GSM].is_old = slot->ends[TRAU_CALL_PCM].is_old = true;
}

void pump_give_up(struct pump *pump, const struct pump_turn *turn) {
    int64_t until = loop_now() + MOST_DROPPING;
    for (uint32_t phase = 0; phase < PUMP_PHASES; phase++) {
        for (uint32_t k = 0; k < pump->phases[phase].count; k++)
            give_up(pump->phases[phase].slots[k], turn->given_up, turn->period);
        drop_old(pump, phase, until, turn->period);
    }
}

/* ---- what goes out */

static void speak(struct pump *pump, struct slot *slot, bool to_gsm, const struct trau_record *record, const struct trau_datagrams *datagrams,
                  uint32_t tick) {
    end_send(&slot->ends[TRAU_CALL_PCM], datagrams->pcm, sizeof datagrams->pcm);
    if (to_gsm)
        end_send(&slot->ends[TRAU_CALL_GSM], datagrams->gsm, sizeof datagrams->gsm);
    loop_keep(pump, slot, record, tick);
}

static void turn_one(struct pump *pump, struct slot *slot, uint32_t tick) {
    struct trau_record record;
    struct trau_datagrams datagrams;
    bool to_gsm = trau_call_turn(&slot->call, tick, slot->level, slot->dtx, &record, &datagrams);
    speak(pump, slot, to_gsm, &record, &datagrams, tick);
}

static void turn_pair(struct pump *pump, struct slot *one, struct slot *other, uint32_t tick) {
    struct trau_record records[2];
    struct trau_datagrams datagrams[2];
    trau_call_turn_pair(&one->call, &other->call, tick, records, datagrams);
    speak(pump, one, true, &records[0], &datagrams[0], tick);
    speak(pump, other, true, &records[1], &datagrams[1], tick);
}

void pump_process(struct pump *pump, const struct pump_turn *turn) {
    const struct phase *phase = &pump->phases[turn->phase];
    read_phase(pump, turn);
    drop_old(pump, turn->phase, loop_now() + DROPPING_AT_A_TICK, turn->period);
    for (uint32_t k = 0; k < phase->count; k++) {
        struct slot *slot = phase->slots[k];
        slot->held_up += turn->behind > 0;
        if (!slot->partner)
            turn_one(pump, slot, turn->period);
        else if (slot < slot->partner) /* both of a bridge are in one phase */
            turn_pair(pump, slot, slot->partner, turn->period);
    }
}

/* ---- commands */

static void enter(struct pump *pump, struct slot *slot, uint32_t phase) {
    struct phase *list = &pump->phases[phase];
    slot->phase = phase;
    slot->place = list->count;
    list->slots[list->count++] = slot;
}

static void leave(struct pump *pump, struct slot *slot) {
    struct phase *list = &pump->phases[slot->phase];
    list->slots[slot->place] = list->slots[--list->count];
    list->slots[slot->place]->place = slot->place;
}

static int watch(struct pump *pump, int how, struct slot *slot, uint32_t side, uint32_t phase) {
    struct epoll_event event = {.events = EPOLLIN, .data.u32 = PUMP_SIDES * (uint32_t)(slot - pump->slots) + side};
    return epoll_ctl(pump->phases[phase].poll, how, slot->ends[side].socket, &event) < 0 ? errno : 0;
}

int pump_watch(struct pump *pump, uint32_t slot, uint32_t side, uint32_t phase) {
    return watch(pump, EPOLL_CTL_ADD, &pump->slots[slot], side, phase);
}

static void move(struct pump *pump, struct slot *slot, uint32_t phase) {
    for (uint32_t side = 0; side < PUMP_SIDES; side++) {
        watch(pump, EPOLL_CTL_DEL, slot, side, slot->phase);
        watch(pump, EPOLL_CTL_ADD, slot, side, phase);
    }
    leave(pump, slot);
    enter(pump, slot, phase);
}

static void bridge(struct pump *pump, struct slot *one, struct slot *other, uint32_t phase) {
    one->partner = other;
    other->partner = one;
    move(pump, one, phase);
    move(pump, other, phase);
}

static void part(struct pump *pump, struct slot *slot, uint32_t phase) {
    slot->partner->partner = NULL;
    slot->partner = NULL;
    move(pump, slot, phase);
}

static void report_on(const struct slot *slot, struct pump_report *report) {
    report->held_up = slot->held_up;
    for (uint32_t side = 0; side < PUMP_SIDES; side++) {
        const struct end *end = &slot->ends[side];
        trau_call_reports((struct trau_call *)&slot->call, side, &report->core[side]);
        report->ends[side] = end->counts;
        report->ends[side].host = end->peer.sin_addr.s_addr;
        report->ends[side].port = end->peer.sin_port;
    }
}

static void close_slot(struct pump *pump, struct slot *slot, uint32_t period) {
    for (uint32_t side = 0; side < PUMP_SIDES; side++)
        watch(pump, EPOLL_CTL_DEL, slot, side, slot->phase);
    loop_hand_over(pump, slot, period);
    leave(pump, slot);
    slot->is_open = false;
}

static void execute(struct pump *pump, const struct pump_command *command, struct pump_report *report, uint32_t period) {
    struct slot *slot = &pump->slots[command->slot];
    switch (command->verb) {
    case PUMP_OPEN:
        slot->is_open = true;
        enter(pump, slot, command->phase); /* fallthrough */
    case PUMP_SET:
        slot->level = command->level;
        slot->dtx = command->dtx;
        break;
    case PUMP_BRIDGE:
        bridge(pump, slot, &pump->slots[command->other], command->phase);
        break;
    case PUMP_PART:
        part(pump, slot, command->phase);
        break;
    case PUMP_CLOSE:
        close_slot(pump, slot, period); /* fallthrough */
    case PUMP_REPORT:
        report_on(slot, report);
    }
}

bool pump_execute(struct pump *pump, uint32_t period) {
    bool is_any = ring_has_more(&pump->commands);
    while (ring_has_more(&pump->commands)) {
        uint32_t number = pump->commands.read, at = ring_read(&pump->commands);
        execute(pump, &pump->command[at], &pump->report[at], period);
        loop_tell(pump, PUMP_ANSWER, number, period);
    }
    return is_any;
}

/* ---- slots, while they aren't open */

uint32_t pump_prepare(struct pump *pump, uint32_t number, const struct trau_call_settings *settings, const struct pump_side sides[PUMP_SIDES],
                      bool is_recorded) {
    struct slot *slot = &pump->slots[number];
    *slot = (struct slot){.is_recorded = is_recorded};
    for (uint32_t side = 0; side < PUMP_SIDES; side++)
        slot->ends[side] = end_new(&sides[side]);
    uint32_t begun = trau_call_begin(&slot->call, settings);
    slot->is_begun = begun == TRAU_CALL_BEGUN;
    return begun;
}

void pump_dismiss(struct pump *pump, uint32_t number) {
    struct slot *slot = &pump->slots[number];
    if (slot->is_begun)
        trau_call_end(&slot->call);
    slot->is_begun = false;
}

static struct pump_turn next_turn(struct pump_clock *clock) {
    int64_t begun = loop_now(), due = pump_clock_due(clock);
    struct timespec until = {due / SECOND, due % SECOND};
    if (begun >= due)
        return pump_clock_turn(clock, begun, begun);
    while (clock_nanosleep(CLOCK_BOOTTIME, TIMER_ABSTIME, &until, NULL) == EINTR)
        ;
    return pump_clock_turn(clock, begun, loop_now());
}

/* ---- the thread */

static void wake(const struct pump *pump) {
    if (write(pump->wakes, "", 1) < 0)
        return; /* the pipe is full: nobody reads it just now */
}

static bool is_last(struct pump *pump, const struct pump_turn *turn) {
    uint32_t passed = turn->period + pump_clock_given_up(pump->clock);
    return turn->phase == 0 && (passed >= pump->until || atomic_load_explicit(&pump->is_to_stop, memory_order_relaxed));
}

static void take_turn(struct pump *pump, const struct pump_turn *turn) {
    if (turn->given_up) {
        pump_give_up(pump, turn);
        loop_tell(pump, PUMP_GAVE_UP, turn->given_up, turn->period);
    }
    if (turn->phase == 0) { /* the period first, so that who has an answer knows that its period has begun */
        atomic_store_explicit(&pump->period, turn->period, memory_order_release);
        if (pump_execute(pump, turn->period) || (turn->period + 1) % WAKING == 0)
            wake(pump);
    }
    pump_process(pump, turn);
}

/* The kernel's attributes of a thread (sched_setattr(2)), which libc doesn't have. */
struct attributes { uint32_t size, policy; uint64_t flags; int32_t nice; uint32_t priority; uint64_t runtime, deadline, period; };

/* A thread that asks for short slices has the processor as soon as it wakes (Linux 6.12; before, it changes nothing). */
static void take_short_slices(void) {
    struct attributes mine = {0};
    if (syscall(SYS_sched_getattr, 0, &mine, sizeof mine, 0) == 0 && mine.policy == SCHED_OTHER) {
        mine.runtime = SLICE;
        syscall(SYS_sched_setattr, 0, &mine, 0);
    }
}

static void *run(void *given) {
    struct pump *pump = given;
    take_short_slices();
    struct pump_turn turn = next_turn(pump->clock);
    for (; !is_last(pump, &turn); turn = next_turn(pump->clock))
        take_turn(pump, &turn);
    atomic_store_explicit(&pump->period, turn.period, memory_order_relaxed);
    atomic_store_explicit(&pump->has_ended, true, memory_order_release);
    wake(pump);
    return NULL;
}

int pump_start(struct pump *pump, uint32_t until, int wakes) {
    sigset_t all, before;
    pump->until = until;
    pump->wakes = wakes;
    free(pump->clock);
    if (!(pump->clock = pump_clock_new(loop_now())))
        return ENOMEM;
    sigfillset(&all);
    pthread_sigmask(SIG_SETMASK, &all, &before); /* Python takes signals */
    int failure = pthread_create(&pump->thread, NULL, run, pump);
    pthread_sigmask(SIG_SETMASK, &before, NULL);
    return failure;
}

uint32_t pump_stop(struct pump *pump) {
    atomic_store_explicit(&pump->is_to_stop, true, memory_order_relaxed);
    pthread_join(pump->thread, NULL);
    return atomic_load_explicit(&pump->period, memory_order_relaxed);
}

void pump_state(struct pump *pump, struct pump_state *state) {
    state->has_ended = atomic_load_explicit(&pump->has_ended, memory_order_acquire);
    state->period = atomic_load_explicit(&pump->period, memory_order_acquire);
    pump_clock_state(pump->clock, state);
}
