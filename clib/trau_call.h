/* libtrau_call: a live call of two RTP sessions, with the base station (GSM full rate, RFC 3551) and with the exchange (A-law or mu-law): what
 * packets are heard, jitter buffers, both coders, and what is sent. What it sends and records is what `trau run` makes of the recorded lines.
 *
 * Units
 *   A period is 20 ms. A tick is a period's number by the host's clock, modulo 2 to the 32nd; it goes on by one each period.
 *   A record is a period of the call's four lines (struct trau_record). `trau run` writes the frame on Down in the period after: its line
 *   begins with 320 ones, and lacks the frame of the last record.
 *
 * What the host must ensure
 *   - A struct trau_call goes to these functions alone: to trau_call_begin when it has no call, and to the others when it has one. It has one
 *     from a trau_call_begin that returned TRAU_CALL_BEGUN until trau_call_end. The pointer in it isn't to be read, and a copy of the struct
 *     isn't another call. A call goes to one function at a time. It may go to another thread, if a lock, a thread's start or join, or an atomic
 *     of sequential consistency orders what both do.
 *   - Each call has one turn a period: trau_call_turn_pair with its partner exactly in the periods of a bridge, else trau_call_turn. A bridge
 *     has at least one period, and there is at least one between two of them.
 *   - What the host passes on came from where it trusts to hear the peer, by address and port. RTP has no other protection: whoever gets a
 *     packet in first is heard, and a source that is still for the depth and three ticks more may be replaced by any other. A pause with DTX
 *     is so long that this happens in it.
 *   - Datagrams are passed whole; of one that is cut the rest is missing.
 *   - Each tick has one turn, in its order. After time that was given up, trau_call_give_up is told it before the next turn, with the tick of
 *     that turn.
 *   - If records are to be replayed, the call's number is 1 to 4096, and the recording's orders open the call, with this number and its law,
 *     in the period of its first turn. The level (0 to 32,767) and the dtx of a turn are those of the last `level` and `dtx` order for the call.
 *     There is a `dtx` order with the `open`, since `trau run` begins a call with `dtx C uplink`.
 *   - Records are kept whole and in their order, from the first period on. If one is lost, the recording ends there.
 *   - Each pointer is not null and points to a whole, aligned object of the declared size, and `octets` to `count` octets, not null even if
 *     count is 0. An object that a function writes overlaps no other argument. What a function only writes need not be initialised.
 *   - malloc and free are of one allocator, aligned to 16. No function is called from a signal handler, or in a forked child of a process with
 *     threads.
 *   The functions don't test this. If it holds, they always return, whatever numbers and octets they are passed.
 *
 * Memory and threads
 *   trau_call_begin allocates some 104 kB, once, and trau_call_end frees them. It takes some 112 kB of the stack, the others up to 14 kB
 *   (measured on x86-64). No other function allocates, and none waits or keeps anything outside the call. Different threads may have
 *   different calls at once.
 *
 * Example: clib/examples/call.c.
 */
#ifndef TRAU_CALL_H
#define TRAU_CALL_H

#include <stdbool.h>
#include <stddef.h>
#include <stdint.h>

#ifdef __cplusplus
extern "C" {
#endif

/* A side; any other number than the first is the exchange. */
enum trau_call_side { TRAU_CALL_GSM, TRAU_CALL_PCM };

/* The law of the octets from and to the exchange (G.711); any other number than the first is mu-law. */
enum trau_call_law { TRAU_CALL_ALAW, TRAU_CALL_MULAW };

/* What trau_call_begin returns: the call has begun; out of memory; a payload type is above 127, or one of 64 to 95, which on a port of both
 * RTP and RTCP seem to be RTCP. Unless it has begun, there is no call to end. */
enum trau_call_begun { TRAU_CALL_BEGUN, TRAU_CALL_NO_MEMORY, TRAU_CALL_NO_MEDIA_TYPE };

/* What became of a datagram: it is taken; it is no RTP packet; it seems to be RTCP; it is of another payload type; it has no payload, or one
 * that isn't whole frames, or of more than a second; its source isn't heard (yet); it is of time that was given up; its time stamp is far
 * away. The last two are of periods of packets that were taken: they came twice, or too late. They are counts alone. */
enum trau_call_reason {
    TRAU_CALL_TAKEN,
    TRAU_CALL_NOT_RTP,
    TRAU_CALL_RTCP,
    TRAU_CALL_OTHER_TYPE,
    TRAU_CALL_EMPTY,
    TRAU_CALL_ODD_SIZE,
    TRAU_CALL_TOO_LONG,
    TRAU_CALL_PROBATION,
    TRAU_CALL_GIVEN_UP,
    TRAU_CALL_FAR,
    TRAU_CALL_DOUBLED,
    TRAU_CALL_LATE,
    TRAU_CALL_REASONS
};

/* The counts of a side, modulo 2 to the 32nd: by the reasons (the one of TRAU_CALL_TAKEN is 0), then other sources that were heard, jumps of
 * the time stamps, packets of frames that don't begin where a period does, periods left out and put in as the delay changed, and the packets
 * that came from sources before the one that is heard, and those of them that are missing. */
enum trau_call_count {
    TRAU_CALL_NEW_SOURCE = TRAU_CALL_REASONS,
    TRAU_CALL_JUMPS,
    TRAU_CALL_OFF_THE_GRID,
    TRAU_CALL_SLIPS_ON,
    TRAU_CALL_SLIPS_BACK,
    TRAU_CALL_PACKETS,
    TRAU_CALL_MISSING,
    TRAU_CALL_COUNTS
};

/* The periods of a call by what they brought: speech, a silence descriptor, a frame that can't be used, octets that are no frame, no frame;
 * and those in which nothing came from the exchange. One of octets that are no frame counts as one without a frame too. */
enum trau_call_periods {
    TRAU_CALL_SPEECH,
    TRAU_CALL_DESCRIPTOR,
    TRAU_CALL_INVALID,
    TRAU_CALL_NOT_GSM,
    TRAU_CALL_NO_GSM,
    TRAU_CALL_NO_PCM,
    TRAU_CALL_PERIODS
};

/* A call. */
struct trau_call {
    void *state;
};

/* What a call begins with. */
struct trau_call_settings {
    uint32_t number;    /* modulo 2 to the 16th; `trau run` is to be given it */
    uint32_t law;       /* an enum trau_call_law */
    uint32_t depth;     /* the ticks that the first packet of a side waits in its jitter buffer, at most 25; a greater number means 25 */
    uint8_t prime;      /* not 0: a first period without a usable frame has one of silence, so that the call isn't quiet from the start */
    uint8_t gsm, pcm;   /* the payload types of a frame and of octets by the law, of what comes and of what is sent: 3; 8 or 0; or dynamic ones */
    uint8_t random[20]; /* for each outgoing stream, the base station's first, ten of: first number, time stamp, source (RFC 3550, section 5.1) */
};

/* A period of the four lines: a TRAU frame (GSM 08.60) as it was heard, the octets that were heard, the TRAU frame and the octets that go out. */
struct trau_record {
    uint8_t up[40], pcm[160], down[40], out[160];
};

/* The RTP packets of a period: to the base station, and to the exchange. */
struct trau_datagrams {
    uint8_t gsm[45], pcm[172];
};

/* What came from a side, and what went there. */
struct trau_reports {
    uint32_t counts[TRAU_CALL_COUNTS];
    uint32_t periods[TRAU_CALL_PERIODS];       /* of the call, on both sides */
    uint32_t source, first, highest, received; /* the source that is heard, its first and its highest extended number, its packets (RFC 3550, A.3) */
    uint32_t jitter;                           /* 16 times its interarrival jitter (A.8), in units of the time stamp; arrivals are in whole ticks */
    uint32_t heard;                            /* the tick of its last packet that was taken */
    uint32_t stamp, from, packets, octets;     /* of what goes out: the time stamp of tick 0, the source, packets, octets of payloads */
    uint8_t is_known, was_heard;               /* 1 if a source is heard, and so the fields above are its; else 0. Both are the same */
};

/* The sizes that the library was built with. */
#ifdef __cplusplus
#define TRAU_CALL_SIZE(type, octets) static_assert(sizeof(struct type) == (octets), #type)
#else
#define TRAU_CALL_SIZE(type, octets) _Static_assert(sizeof(struct type) == (octets), #type)
#endif
TRAU_CALL_SIZE(trau_call, sizeof(void *));
TRAU_CALL_SIZE(trau_call_settings, 36);
TRAU_CALL_SIZE(trau_record, 400);
TRAU_CALL_SIZE(trau_datagrams, 217);
TRAU_CALL_SIZE(trau_reports, 144);

/* Begins a call: an enum trau_call_begun. */
uint32_t trau_call_begin(struct trau_call *call, const struct trau_call_settings *settings);

/* Ends a call. */
void trau_call_end(struct trau_call *call);

/* Takes a datagram from a side, which is read at a tick; the tick is late by `behind` periods. The result is an enum trau_call_reason. The
 * first source is heard at once. After it, what another one sends changes nothing but counts and who is on probation, unless it brings two
 * packets in a row while the one that is heard is still: nothing of it was taken for the depth and three ticks, and all that came is played. */
uint32_t trau_call_packet(struct trau_call *call, uint32_t side, const uint8_t *octets, size_t count, uint32_t tick, uint32_t behind);

/* A period outside of bridges: plays what came for it, and writes its record and its datagrams. True if the one to the base station is to be
 * sent: it is speech, or a silence descriptor at a pause's beginning and then each 24th. The one to the exchange always is. A frame whose peak
 * is below the level is a pause, if dtx is true (trau_fr_send of trau_fr.h). */
bool trau_call_turn(struct trau_call *call, uint32_t tick, int16_t level, bool dtx, struct trau_record *record, struct trau_datagrams *datagrams);

/* A period of the bridge of two calls, in which each base station gets the other one's frames. records[0] and datagrams[0] are of `one`. All
 * datagrams are to be sent. */
void trau_call_turn_pair(struct trau_call *one, struct trau_call *other, uint32_t tick, struct trau_record records[2],
                         struct trau_datagrams datagrams[2]);

/* The host's clock has given up periods: they have no turn. */
void trau_call_give_up(struct trau_call *call, uint32_t periods, uint32_t tick);

/* Writes what came from a side, and what went there. The call stays as it is. */
void trau_call_reports(struct trau_call *call, uint32_t side, struct trau_reports *reports);

#ifdef __cplusplus
}
#endif
#endif
