/* test_trau_call: calls over random networks. What they record and send is compared with libtrau_fr, which plays the recorded lines again. The
 * linker is to pass __wrap_malloc in malloc's place (-Wl,--wrap=malloc). */
#include <stdio.h>
#include <stdlib.h>
#include <string.h>

#include "trau_call.h"
#include "trau_fr.h"

enum { TICKS = 1500, MOST_PACKET = 12 + 51 * 160 };

static int failed;
static bool is_memory_out;

void *__real_malloc(size_t size);
void *__wrap_malloc(size_t size)
{
    return is_memory_out ? NULL : __real_malloc(size);
}

static void expect(bool holds, const char *name)
{
    printf("%s %s\n", holds ? "ok" : "FAILED", name);
    failed += !holds;
}

static uint32_t drawn(uint32_t below)
{
    static uint64_t state = 1;

    state = state * 6364136223846793005u + 1442695040888963407u;
    return (uint32_t)(state >> 33) % below;
}

static struct trau_call_settings settings_of(uint32_t number, uint32_t law)
{
    struct trau_call_settings settings = {.number = number, .law = law, .depth = 2, .prime = number % 2 == 0, .gsm = 3, .pcm = law ? 0 : 8};

    for (int k = 0; k < 20; k++)
        settings.random[k] = (uint8_t)drawn(256);
    return settings;
}

/* A packet of RTP (RFC 3550, section 5.1). */
struct packet {
    uint8_t octets[MOST_PACKET];
    size_t count;
};

static struct packet packet_of(uint8_t type, uint16_t number, uint32_t stamp, uint32_t source, size_t size)
{
    struct packet made = {.octets = {0x80, type, (uint8_t)(number >> 8), (uint8_t)number}, .count = 12 + size};

    for (int k = 0; k < 4; k++) {
        made.octets[4 + k] = (uint8_t)(stamp >> (24 - 8 * k));
        made.octets[8 + k] = (uint8_t)(source >> (24 - 8 * k));
    }
    return made;
}

static uint32_t number_at(const uint8_t *octets, int count)
{
    uint32_t number = 0;

    for (int k = 0; k < count; k++)
        number = number << 8 | octets[k];
    return number;
}

/* A call of the library, and its two sides in libtrau_fr, to which its records are played. */
struct tried {
    struct trau_call call;
    struct trau_call_settings settings;
    struct trau_fr_receiver receiver;
    struct trau_fr_sender sender, talker; /* talker: the sender of what comes from the base station */
    uint32_t to_station, to_exchange;     /* packets that were sent */
    uint32_t given_up;                    /* periods */
    bool replays, carries;
};

static struct tried tried_call(uint32_t number, uint32_t law)
{
    struct tried tried = {.settings = settings_of(number, law), .replays = true, .carries = true};

    tried.receiver = trau_fr_receiver_home((uint16_t)number);
    tried.sender = tried.talker = trau_fr_sender_home();
    expect(trau_call_begin(&tried.call, &tried.settings) == TRAU_CALL_BEGUN, "a call begins");
    return tried;
}

static void compress(uint32_t law, const int16_t samples[160], uint8_t octets[160])
{
    (law ? trau_mulaw_compress : trau_alaw_compress)(samples, octets);
}

/* The frame that the period's record is to have on Down, and its octets on Out. */
static void replay(struct tried *tried, const struct trau_record *record, int16_t level, bool dtx)
{
    uint32_t kind = TRAU_FR_LOST, spoken = TRAU_FR_IDLE;
    bool taf = false, is_read;
    uint8_t frame[33], out[160], down[40];
    int16_t samples[160];

    is_read = trau_fr_read_uplink(record->up, &kind, &taf, frame);
    if (trau_fr_receive(&tried->receiver, frame, kind, taf, samples)) {
        compress(tried->settings.law, samples, out);
        (tried->settings.law ? trau_mulaw_expand : trau_alaw_expand)(record->pcm, samples);
        spoken = trau_fr_send(&tried->sender, samples, level, dtx, frame) ? TRAU_FR_SPEECH : TRAU_FR_DESCRIPTOR;
    } else {
        compress(tried->settings.law, samples, out);
        tried->sender = trau_fr_sender_home();
    }
    trau_fr_write_downlink(frame, spoken, down);
    tried->replays &= is_read && !memcmp(out, record->out, 160) && !memcmp(down, record->down, 40);
}

/* What the period sends: the octets of Out, the frame of Down, and headers that go on. Time that was given up is time of the stamps. */
static void carry(struct tried *tried, uint32_t tick, const struct trau_record *record, const struct trau_datagrams *sent, bool is_sent)
{
    const uint8_t *random = tried->settings.random;
    uint32_t kind = TRAU_FR_LOST;
    uint8_t frame[33];

    tried->carries &= sent->pcm[0] == 0x80 && (sent->pcm[1] & 127) == tried->settings.pcm && !memcmp(sent->pcm + 12, record->out, 160)
        && number_at(sent->pcm + 2, 2) == (uint16_t)(number_at(random + 10, 2) + tried->to_exchange)
        && number_at(sent->pcm + 4, 4) == number_at(random + 12, 4) + 160 * (tick + tried->given_up) && !memcmp(sent->pcm + 8, random + 16, 4);
    tried->to_exchange++;
    tried->carries &= trau_fr_read_downlink(record->down, &kind, frame) && is_sent >= (kind == TRAU_FR_SPEECH) && is_sent <= (kind != TRAU_FR_IDLE);
    if (is_sent) {
        tried->carries &= (sent->gsm[1] & 127) == tried->settings.gsm && !memcmp(sent->gsm + 12, frame, 33)
            && number_at(sent->gsm + 2, 2) == (uint16_t)(number_at(random, 2) + tried->to_station)
            && number_at(sent->gsm + 4, 4) == number_at(random + 2, 4) + 160 * (tick + tried->given_up) && !memcmp(sent->gsm + 8, random + 6, 4);
        tried->to_station++;
    }
}

/* What a period may bring from the base station and from the exchange: packets in time, early, late, twice or not at all, and rubbish. */
static void bring(struct tried *tried, uint32_t tick)
{
    uint32_t slip = drawn(8) ? 0 : drawn(7) - 3, at = tick + 100 + slip;
    struct packet gsm = packet_of(tried->settings.gsm, (uint16_t)at, 160 * at, 7, 33);
    struct packet pcm = packet_of(tried->settings.pcm, (uint16_t)at, 160 * at, 9, 160);
    int16_t samples[160];

    for (int k = 0; k < 160; k++) {
        samples[k] = (int16_t)((drawn(2) ? 1 : -1) * (int)drawn(tick / 100 % 2 ? 8000 : 60));
        pcm.octets[12 + k] = (uint8_t)drawn(256);
    }
    trau_fr_send(&tried->talker, samples, 256, true, gsm.octets + 12);
    if (!drawn(50))
        gsm.octets[drawn(45)] ^= (uint8_t)(1 << drawn(8));
    for (uint32_t times = drawn(10) ? 1 : drawn(3); times; times--) {
        trau_call_packet(&tried->call, TRAU_CALL_GSM, gsm.octets, gsm.count, tick, 0);
        trau_call_packet(&tried->call, TRAU_CALL_PCM, pcm.octets, pcm.count, tick, drawn(20) ? 0 : 1);
    }
    if (!drawn(5)) {
        for (int k = 0; k < 45; k++)
            gsm.octets[k] = (uint8_t)drawn(256);
        trau_call_packet(&tried->call, drawn(3), gsm.octets, drawn(46), tick, 0);
    }
}

static void carries_a_call(uint32_t law)
{
    struct tried tried = tried_call(law ? 65535 : 2, law);
    struct trau_reports before, after;
    uint32_t tick = 0xffffff00u;

    for (int period = 0; period < TICKS; period++, tick++) {
        struct trau_record record;
        struct trau_datagrams datagrams;
        int16_t level = period / 200 % 2 ? 256 : 3000;
        bool dtx = period / 300 % 2 == 0, is_sent;

        if (period % 400 == 399) {
            trau_call_give_up(&tried.call, 5, tick);
            tried.given_up += 5;
        }
        bring(&tried, tick);
        is_sent = trau_call_turn(&tried.call, tick, level, dtx, &record, &datagrams);
        replay(&tried, &record, level, dtx);
        carry(&tried, tick, &record, &datagrams, is_sent);
    }
    expect(tried.replays, law ? "a call of mu-law replays" : "a call of A-law replays");
    expect(tried.carries, law ? "a call of mu-law sends what it records" : "a call of A-law sends what it records");
    trau_call_reports(&tried.call, TRAU_CALL_GSM, &before);
    trau_call_reports(&tried.call, TRAU_CALL_GSM, &after);
    expect(!memcmp(&before, &after, offsetof(struct trau_reports, is_known)) && after.is_known && after.was_heard, "reports change nothing");
    expect(after.periods[TRAU_CALL_SPEECH] > TICKS / 4 && after.periods[TRAU_CALL_DESCRIPTOR] > 50 && after.periods[TRAU_CALL_NO_GSM] > 50
            && after.periods[TRAU_CALL_NO_PCM] > 50 && after.counts[TRAU_CALL_DOUBLED] > 20 && after.source == 7, "much has come");
    trau_call_end(&tried.call);
}

/* The base stations of two calls hear each other: what goes out is what the partner's receive side hands over. */
static void bridged(struct tried *one, struct tried *other, uint32_t tick)
{
    struct tried *both[2] = {one, other};
    struct trau_record records[2];
    struct trau_datagrams datagrams[2];
    uint8_t handed[2][33], out[160], down[40];

    trau_call_turn_pair(&one->call, &other->call, tick, records, datagrams);
    for (int k = 0; k < 2; k++) {
        uint32_t kind = TRAU_FR_LOST;
        bool taf = false;

        both[k]->replays &= trau_fr_read_uplink(records[k].up, &kind, &taf, handed[k]);
        trau_fr_hand(&both[k]->receiver, handed[k], kind, taf, handed[k]);
        both[k]->sender = trau_fr_sender_home();
    }
    for (int k = 0; k < 2; k++) {
        const int16_t silence[160] = {0};

        compress(both[k]->settings.law, silence, out);
        trau_fr_write_downlink(handed[1 - k], TRAU_FR_SPEECH, down);
        both[k]->replays &= !memcmp(out, records[k].out, 160) && !memcmp(down, records[k].down, 40);
        carry(both[k], tick, &records[k], &datagrams[k], true);
    }
}

static void bridges(void)
{
    struct tried one = tried_call(3, TRAU_CALL_ALAW), other = tried_call(4, TRAU_CALL_MULAW);

    for (uint32_t tick = 0; tick < TICKS; tick++) {
        bring(&one, tick);
        bring(&other, tick);
        if (tick % 150 > 60) {
            bridged(&one, &other, tick);
        } else {
            struct tried *both[2] = {&one, &other};

            for (int k = 0; k < 2; k++) {
                struct trau_record record;
                struct trau_datagrams datagrams;
                bool is_sent = trau_call_turn(&both[k]->call, tick, 256, true, &record, &datagrams);

                replay(both[k], &record, 256, true);
                carry(both[k], tick, &record, &datagrams, is_sent);
            }
        }
    }
    expect(one.replays && other.replays, "both calls of bridges replay");
    expect(one.carries && other.carries, "both calls of bridges send what they record");
    trau_call_end(&one.call);
    trau_call_end(&other.call);
}

/* A datagram to the base station's side of a call, and the reason that is wanted. */
static void judged(struct trau_call *call, struct packet packet, enum trau_call_reason wanted, const char *name)
{
    expect(trau_call_packet(call, TRAU_CALL_GSM, packet.octets, packet.count, 0, 0) == (uint32_t)wanted, name);
}

static void reasons(void)
{
    struct tried tried = tried_call(1, TRAU_CALL_ALAW);
    struct packet other_version = packet_of(3, 1, 0, 7, 33);
    struct trau_reports reports;

    other_version.octets[0] = 0x40;
    judged(&tried.call, other_version, TRAU_CALL_NOT_RTP, "a packet of version 1");
    judged(&tried.call, (struct packet){.octets = {0}, .count = 0}, TRAU_CALL_NOT_RTP, "no octets");
    judged(&tried.call, packet_of(72, 1, 0, 7, 33), TRAU_CALL_RTCP, "a type of RTCP");
    judged(&tried.call, packet_of(8, 1, 0, 7, 33), TRAU_CALL_OTHER_TYPE, "A-law from the base station");
    judged(&tried.call, packet_of(3, 1, 0, 7, 0), TRAU_CALL_EMPTY, "no payload");
    judged(&tried.call, packet_of(3, 1, 0, 7, 34), TRAU_CALL_ODD_SIZE, "34 octets");
    judged(&tried.call, packet_of(3, 1, 0, 7, 51 * 33), TRAU_CALL_TOO_LONG, "51 frames");
    judged(&tried.call, packet_of(3, 1, 160, 7, 33), TRAU_CALL_TAKEN, "a frame");
    judged(&tried.call, packet_of(3, 1, 160, 7, 33), TRAU_CALL_TAKEN, "the frame again");
    judged(&tried.call, packet_of(3, 1, 160, 8, 33), TRAU_CALL_PROBATION, "another source");
    judged(&tried.call, packet_of(3, 2, 800000, 7, 33), TRAU_CALL_FAR, "a time stamp far away");
    trau_call_reports(&tried.call, TRAU_CALL_GSM, &reports);
    expect(reports.counts[TRAU_CALL_NOT_RTP] == 2 && reports.counts[TRAU_CALL_DOUBLED] == 1 && reports.counts[TRAU_CALL_TAKEN] == 0,
           "counts by reasons");
    for (int reason = TRAU_CALL_RTCP; reason <= TRAU_CALL_FAR; reason++)
        expect(reports.counts[reason] == (reason != TRAU_CALL_GIVEN_UP), "one of each other reason");
    trau_call_reports(&tried.call, TRAU_CALL_PCM, &reports);
    expect(!reports.is_known && !reports.was_heard && !reports.counts[TRAU_CALL_NOT_RTP], "nothing from the exchange");
    trau_call_end(&tried.call);
}

static void beginnings(void)
{
    static const uint8_t control[] = {64, 72, 95, 128, 255};
    struct trau_call call;
    struct trau_call_settings settings = settings_of(1, TRAU_CALL_ALAW);

    for (size_t k = 0; k < sizeof control; k++) {
        settings.gsm = control[k];
        expect(trau_call_begin(&call, &settings) == TRAU_CALL_NO_MEDIA_TYPE, "a type that isn't media, of the base station");
        settings.gsm = 3;
        settings.pcm = control[k];
        expect(trau_call_begin(&call, &settings) == TRAU_CALL_NO_MEDIA_TYPE, "a type that isn't media, of the exchange");
        settings.pcm = 127;
    }
    is_memory_out = true;
    expect(trau_call_begin(&call, &settings) == TRAU_CALL_NO_MEMORY, "out of memory");
    is_memory_out = false;
    expect(trau_call_begin(&call, &settings) == TRAU_CALL_BEGUN, "a dynamic type");
    trau_call_end(&call);
}

int main(void)
{
    beginnings();
    reasons();
    carries_a_call(TRAU_CALL_ALAW);
    carries_a_call(TRAU_CALL_MULAW);
    bridges();
    return failed != 0;
}
