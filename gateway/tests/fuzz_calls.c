/* fuzz_calls: two calls of libtrau_call and their bridge, driven by octets as libFuzzer makes them: packets that keep to RTP, any octets, turns,
 * time that is given up. gateway/tests/long_fuzz.py builds it, and begins with real captures.
 *
 * Each record is to be what libtrau_fr makes of its Up and Pcm. Each call has a shadow, to which the datagrams aren't passed that were refused for
 * what they are: it is to have the same records and datagrams. */
#include <stdio.h>
#include <stdlib.h>
#include <string.h>

#include "trau_call.h"
#include "trau_fr.h"

enum { CALLS = 2, MOST_STEPS = 600, HEADER = 12 };
enum verb { ANY_OCTETS, NEXT_PACKET, TURN, TURN_PAIR, GIVE_UP, VERBS };

/* The input, of which octets are taken from the front; what lies beyond its end is 0. */
struct script { const uint8_t *at; size_t left; };

static uint32_t taken(struct script *script, int octets) {
    uint32_t number = 0;
    for (; octets; octets--, script->left -= script->left > 0)
        number = number << 8 | (script->left ? *script->at++ : 0);
    return number;
}

/* A sender of RTP: what its next packet has, if it is one after the other. */
struct sender { uint16_t number; uint32_t stamp, source; };

/* A call, its shadow, and its two sides in libtrau_fr. */
struct fuzzed {
    struct trau_call call, shadow;
    struct trau_call_settings settings;
    struct trau_fr_receiver receiver;
    struct trau_fr_sender coder;
    struct sender senders[2];
    uint32_t refused[2][TRAU_CALL_REASONS];
};

static void expect(bool holds, const char *what) {
    if (holds)
        return;
    fprintf(stderr, "fuzz_calls: %s\n", what);
    abort();
}

static void begin(struct fuzzed *fuzzed, struct script *script) {
    struct trau_call_settings *settings = &fuzzed->settings;
    uint32_t begun;
    *settings = (struct trau_call_settings){.number = taken(script, 2), .law = taken(script, 1) & 1, .depth = taken(script, 1) % 32,
                                            .prime = taken(script, 1) & 1, .gsm = 3, .pcm = 8};
    for (int k = 0; k < 20; k++)
        settings->random[k] = (uint8_t)(11 * k);
    begun = trau_call_begin(&fuzzed->call, settings) | trau_call_begin(&fuzzed->shadow, settings);
    expect(begun == TRAU_CALL_BEGUN, "a call doesn't begin");
    fuzzed->receiver = trau_fr_receiver_home((uint16_t)settings->number);
    fuzzed->coder = trau_fr_sender_home();
    for (int side = 0; side < 2; side++)
        fuzzed->senders[side] = (struct sender){.source = 7 + side};
}

/* Passes octets to a call, of their own size on the heap, so that a sanitizer sees what is read beyond them. */
static void pass(struct fuzzed *fuzzed, uint32_t side, const uint8_t *octets, size_t count, uint32_t tick, uint32_t behind) {
    uint8_t *own = malloc(count + !count);
    struct trau_reports before, after;
    uint32_t reason;
    expect(own != NULL, "out of memory");
    memcpy(own, octets, count);
    trau_call_reports(&fuzzed->call, side, &before);
    reason = trau_call_packet(&fuzzed->call, side, own, count, tick, behind);
    trau_call_reports(&fuzzed->call, side, &after);
    expect(reason < TRAU_CALL_DOUBLED, "a reason that no datagram has");
    for (uint32_t each = TRAU_CALL_NOT_RTP; each < TRAU_CALL_DOUBLED; each++)
        expect(after.counts[each] - before.counts[each] == (each == reason), "a datagram that isn't counted once");
    if (reason < TRAU_CALL_NOT_RTP || reason > TRAU_CALL_TOO_LONG)
        expect(trau_call_packet(&fuzzed->shadow, side, own, count, tick, behind) == reason, "another reason without what was refused");
    free(own);
}

static void any_octets(struct fuzzed *fuzzed, struct script *script, uint32_t tick) {
    uint32_t side = taken(script, 1) & 1, behind = taken(script, 1) % 4, count = taken(script, 2);
    count = count < script->left ? count : (uint32_t)script->left;
    pass(fuzzed, side, script->at, count, tick, behind);
    script->at += count;
    script->left -= count;
}

static void put(uint8_t *at, uint32_t number, int octets) {
    while (octets--)
        *at++ = (uint8_t)(number >> 8 * octets);
}

/* A packet after the sender's last one: by how much its number and time stamp are off, from which source, how long, and what it carries. */
static void next_packet(struct fuzzed *fuzzed, struct script *script, uint32_t tick) {
    static uint8_t octets[HEADER + 52 * 160];
    uint32_t side = taken(script, 1) & 1, source = taken(script, 1), many = taken(script, 1), filler = taken(script, 1);
    int8_t number = (int8_t)taken(script, 1), periods = (int8_t)taken(script, 1), units = source & 1 ? (int8_t)taken(script, 1) : 0;
    size_t unit = side ? 160 : 33, count = side && source & 2 ? many * 5 : unit * (many % 52);
    struct sender *sender = &fuzzed->senders[side];
    put(octets, 0x80, 1);
    put(octets + 1, (filler & 128) | (side ? fuzzed->settings.pcm : fuzzed->settings.gsm), 1);
    put(octets + 2, sender->number += (uint16_t)(1 + number), 2);
    put(octets + 4, sender->stamp + 160 * (uint32_t)periods + (uint32_t)units, 4);
    put(octets + 8, sender->source + (source >> 4), 4);
    memset(octets + HEADER, (int)filler, count);
    for (size_t at = 0; !side && at < count; at += unit)
        octets[HEADER + at] = (uint8_t)(0xd0 | (filler & 15)); /* the signature of a frame */
    sender->stamp += 160 * (uint32_t)(1 + periods);
    pass(fuzzed, side, octets, HEADER + count, tick, source >> 2 & 3);
}

/* What a turn writes, of its own size on the heap. */
struct turned { struct trau_record *records; struct trau_datagrams *datagrams; };

static struct turned turned_new(void) {
    struct turned made = {malloc(CALLS * sizeof *made.records), malloc(CALLS * sizeof *made.datagrams)};
    expect(made.records && made.datagrams, "out of memory");
    memset(made.datagrams, 0, CALLS * sizeof *made.datagrams);
    return made;
}

static void turned_free(struct turned turned) {
    free(turned.records);
    free(turned.datagrams);
}

static void compress(const struct fuzzed *fuzzed, const int16_t samples[160], uint8_t octets[160]) {
    (fuzzed->settings.law ? trau_mulaw_compress : trau_alaw_compress)(samples, octets);
}

static void expect_lines(const struct trau_record *record, const uint8_t down[40], const uint8_t out[160]) {
    expect(!memcmp(record->out, out, 160), "Out isn't what Up decodes to");
    expect(!memcmp(record->down, down, 40), "Down isn't what Pcm encodes to");
}

/* The call's record, outside of a bridge, is what libtrau_fr makes of its Up and Pcm. */
static void expect_replay(struct fuzzed *fuzzed, const struct trau_record *record, int16_t level, bool dtx) {
    uint32_t kind = TRAU_FR_LOST, spoken = TRAU_FR_IDLE;
    bool taf = false;
    uint8_t frame[33], out[160], down[40];
    int16_t samples[160];
    expect(trau_fr_read_uplink(record->up, &kind, &taf, frame), "Up has no frame");
    bool is_heard = trau_fr_receive(&fuzzed->receiver, frame, kind, taf, samples);
    compress(fuzzed, samples, out);
    if (is_heard) {
        (fuzzed->settings.law ? trau_mulaw_expand : trau_alaw_expand)(record->pcm, samples);
        spoken = trau_fr_send(&fuzzed->coder, samples, level, dtx, frame) ? TRAU_FR_SPEECH : TRAU_FR_DESCRIPTOR;
    } else {
        fuzzed->coder = trau_fr_sender_home();
    }
    trau_fr_write_downlink(frame, spoken, down);
    expect_lines(record, down, out);
}

/* The same of a bridge, in which each call carries what the other one hands over. */
static void expect_bridge(struct fuzzed *both, const struct trau_record records[2]) {
    static const int16_t silence[160];
    uint8_t handed[CALLS][33], out[160], down[40];
    for (int k = 0; k < CALLS; k++) {
        uint32_t kind = TRAU_FR_LOST;
        bool taf = false;
        expect(trau_fr_read_uplink(records[k].up, &kind, &taf, handed[k]), "Up has no frame");
        trau_fr_hand(&both[k].receiver, handed[k], kind, taf, handed[k]);
        both[k].coder = trau_fr_sender_home();
    }
    for (int k = 0; k < CALLS; k++) {
        compress(&both[k], silence, out);
        trau_fr_write_downlink(handed[1 - k], TRAU_FR_SPEECH, down);
        expect_lines(&records[k], down, out);
    }
}

static void expect_same(struct turned one, struct turned other, int calls) {
    expect(!memcmp(one.records, other.records, calls * sizeof *one.records), "other lines without what was refused");
    expect(!memcmp(one.datagrams, other.datagrams, calls * sizeof *one.datagrams), "other datagrams without what was refused");
}

static void turn(struct fuzzed *fuzzed, struct script *script, uint32_t tick) {
    struct turned made = turned_new(), shadow = turned_new();
    int16_t level = (int16_t)taken(script, 2);
    bool dtx = taken(script, 1) & 1;
    bool is_sent = trau_call_turn(&fuzzed->call, tick, level, dtx, made.records, made.datagrams);
    expect(is_sent == trau_call_turn(&fuzzed->shadow, tick, level, dtx, shadow.records, shadow.datagrams), "sent without what was refused");
    expect_same(made, shadow, 1);
    expect_replay(fuzzed, made.records, level, dtx);
    turned_free(made);
    turned_free(shadow);
}

static void turn_pair(struct fuzzed *both, uint32_t tick) {
    struct turned made = turned_new(), shadow = turned_new();
    trau_call_turn_pair(&both[0].call, &both[1].call, tick, made.records, made.datagrams);
    trau_call_turn_pair(&both[0].shadow, &both[1].shadow, tick, shadow.records, shadow.datagrams);
    expect_same(made, shadow, CALLS);
    expect_bridge(both, made.records);
    turned_free(made);
    turned_free(shadow);
}

static void turn_both(struct fuzzed *both, struct script *script, bool is_bridged, uint32_t tick) {
    if (is_bridged) {
        turn_pair(both, tick);
    } else {
        turn(&both[0], script, tick);
        turn(&both[1], script, tick);
    }
}

static void give_up(struct fuzzed *both, uint32_t periods, uint32_t tick) {
    for (int k = 0; k < CALLS; k++) {
        trau_call_give_up(&both[k].call, periods, tick);
        trau_call_give_up(&both[k].shadow, periods, tick);
    }
}

int LLVMFuzzerTestOneInput(const uint8_t *octets, size_t count) {
    struct script script = {octets, count};
    struct fuzzed both[CALLS];
    memset(both, 0, sizeof both);
    begin(&both[0], &script);
    begin(&both[1], &script);
    uint32_t tick = taken(&script, 4);
    for (int step = 0; script.left && step < MOST_STEPS; step++) {
        uint32_t said = taken(&script, 1), verb = said % VERBS;
        if (verb == ANY_OCTETS)
            any_octets(&both[said >> 7], &script, tick);
        else if (verb == NEXT_PACKET)
            next_packet(&both[said >> 7], &script, tick);
        else if (verb == GIVE_UP)
            give_up(both, taken(&script, 1) << (said >> 5), tick);
        else
            turn_both(both, &script, verb == TURN_PAIR, tick++);
    }
    for (int k = 0; k < CALLS; k++) {
        trau_call_end(&both[k].call);
        trau_call_end(&both[k].shadow);
    }
    return 0;
}
