/* libtrau_fr: the GSM full rate codec (GSM 06.10) in integer arithmetic, its packings, A-law and mu-law (G.711), and the two sides
 * of a call: what is heard of lost frames and in pauses (modelled on GSM 06.11 and 06.12), and what is sent in pauses (06.31).
 *
 * Units
 *   A period is 20 ms of speech: 160 samples at 8000 a second, or 160 octets of A-law or mu-law.
 *   A sample is 13 bits left-justified in 16: -32768 to 32760 in steps of 8. The encoder ignores the three lowest bits, and the
 *   decoder sets them to zero. So the 16-bit samples of any sound file can be encoded as they are. Mu-law expands to steps of 4.
 *   A frame is the 76 parameters of a period, 260 bits of them (13 kbit/s), or the 33 octets that carry them (RTP, files .gsm).
 *
 * What the caller must ensure
 *   - A state (struct trau_fr_encoder, _decoder, _receiver, _sender) comes from its `_home` function; all zeros aren't a state. Only
 *     the functions below write in it. There is nothing to free.
 *   - Each field of a struct trau_fr_params that a function reads is within its width. A frame that a function has written is.
 *   - A bool that a function only writes is initialised. Frames, arrays and integers that it only writes need not be.
 *   - Each pointer is not null and points to a whole, aligned object of the declared size. An object that a function writes
 *     overlaps no other argument.
 *   The functions don't test this. If it holds, they always return, whatever the samples, octets, kinds and fields are.
 *
 * Copies of a state
 *   A state may be copied, by assignment or memcpy, and continued from the copy. Some states have octets between their fields, which
 *   may be anything, so memcmp doesn't compare them; it compares a struct trau_fr_params. The sizes stay within libtrau_fr.so.1. A
 *   state that was written to a file is for the same TRAU_FR_VERSION and the same kind of machine, and the file must be whole.
 *
 * Threads
 *   No function allocates, waits, or keeps anything outside the objects that it is passed. Different threads may use different
 *   objects at once; one object is for one thread at a time.
 *
 * A receiving host
 *   Each period is one call of trau_fr_receive, also one in which nothing came: it gives 160 samples in any case. What the period
 *   brought is a kind:
 *
 *     TRAU_FR_SPEECH      A good frame. It is decoded.
 *     TRAU_FR_DESCRIPTOR  A silence descriptor. From now on there is comfort noise, made of it.
 *     TRAU_FR_LOST        Nothing, or nothing that can be used: the last good frame again, then muted more in each period, and from
 *                         the 17th on silence; after a descriptor, more of the noise. So are all other numbers, and a frame of the
 *                         first two kinds whose octets don't begin with 1101. The octets aren't heard: any 33 will do.
 *     TRAU_FR_IDLE        The idle frame of a TRAU line: there is no call. The octets aren't heard.
 *
 *   - RTP and .gsm files don't mark descriptors: trau_fr_kind finds them by their code word. It says TRAU_FR_LOST if 2 to 15 of its
 *     bits are wrong, as on the radio. A frame of speech can be so by chance, which is rare.
 *   - taf counts only where the kind is TRAU_FR_LOST and there is noise: true says that a descriptor was due in this period. From
 *     the period of the second such one on the noise falls, and is silence from its 17th period on. A TRAU line has the bit (C15).
 *     RTP hasn't: say it in each 24th period after the last descriptor, or never, and then the noise goes on for ever. Say false
 *     where an invalid descriptor came: trau_fr_kind said TRAU_FR_LOST of octets that begin with 1101.
 *   - The call is quiet until its first good frame or descriptor, and from an idle frame on until the next one. The function returns
 *     false then and writes zeros, the idle octet of both laws; the decoder is in its reset state. If what you send is to be what
 *     `trau run` writes to Down, take a new trau_fr_sender_home() in each quiet period, and send an idle frame.
 *   - Don't say idle for silence on a network: it resets the decoder.
 *   - In a bridge, call trau_fr_hand in place of trau_fr_receive: it gives the frame that goes on to the partner, not decoded. It goes
 *     on as TRAU_FR_SPEECH whatever it is, comfort noise and silence too; ask trau_fr_kind nothing. If what you send is to be what
 *     `trau run` writes, take a new trau_fr_sender_home() in each period of a bridge as well, on both sides. A bridge that ends before
 *     its first period resets both as well: copy the decoder of a trau_fr_receiver_home.
 *
 *   A host for RTP, behind a jitter buffer that gives 33 octets or null:
 *
 *     struct call {
 *         struct trau_fr_receiver receiver;    // = trau_fr_receiver_home(number)
 *         unsigned since_descriptor;           // = 0
 *     };
 *
 *     // The 160 A-law octets of the next period; frame is null if none came.
 *     static void tick(struct call *call, const uint8_t *frame, uint8_t line[160])
 *     {
 *         static const uint8_t none[TRAU_FR_OCTETS];
 *         uint32_t kind = frame ? trau_fr_kind(frame) : TRAU_FR_LOST;
 *         bool came = frame && frame[0] >> 4 == 13;
 *         bool taf;
 *         int16_t samples[TRAU_FR_SAMPLES];
 *
 *         call->since_descriptor = kind == TRAU_FR_DESCRIPTOR ? 0 : call->since_descriptor + 1;
 *         taf = !came && call->since_descriptor % 24 == 0;
 *         trau_fr_receive(&call->receiver, frame ? frame : none, kind, taf, samples);
 *         trau_alaw_compress(samples, line);
 *     }
 *
 * A sending host
 *   Each period is one call of trau_fr_send. It returns true for speech, which is sent, and false for a silence descriptor, which on
 *   the radio and on RTP is sent at a pause's beginning and then in each 24th period; a TRAU line takes each. A peer that knows no
 *   descriptors, as libgsm, plays them as a buzz: for it, dtx is false.
 *
 *   A host for RTP:
 *
 *     struct talk {
 *         struct trau_fr_sender sender;    // = trau_fr_sender_home()
 *         unsigned pause;                  // = 0; its periods so far
 *     };
 *
 *     // The frame of the next period, and whether it is sent.
 *     static bool next(struct talk *talk, const int16_t samples[160], uint8_t octets[33])
 *     {
 *         bool speech = trau_fr_send(&talk->sender, samples, TRAU_FR_LEVEL, true, octets);
 *
 *         talk->pause = speech ? 0 : talk->pause + 1;
 *         return speech || talk->pause % 24 == 1;
 *     }
 *
 * Example: encode raw samples on standard input to a .gsm file on standard output (cc example.c -ltrau_fr).
 *
 *     #include <stdio.h>
 *     #include <trau_fr.h>
 *
 *     int main(void)
 *     {
 *         struct trau_fr_encoder encoder = trau_fr_encoder_home();
 *         int16_t samples[TRAU_FR_SAMPLES];
 *         uint8_t octets[TRAU_FR_OCTETS];
 *
 *         while (fread(samples, sizeof samples, 1, stdin) == 1) {
 *             trau_fr_encode_octets(&encoder, samples, octets);
 *             fwrite(octets, sizeof octets, 1, stdout);
 *         }
 *         return 0;
 *     }
 */
#ifndef TRAU_FR_H
#define TRAU_FR_H

#include <stdbool.h>
#include <stdint.h>

#ifdef __cplusplus
extern "C" {
#endif

/* The version of this header and of the library that it came with. */
#define TRAU_FR_VERSION "1.2.0"

/* Samples of a period; octets of a frame (RTP, files .gsm), of two frames (WAV49), and of a frame on a TRAU line. */
#define TRAU_FR_SAMPLES 160
#define TRAU_FR_OCTETS 33
#define TRAU_FR_PAIR_OCTETS 65
#define TRAU_FR_LINE_OCTETS 40

/* What a period brings, or a frame is. */
#define TRAU_FR_SPEECH 0
#define TRAU_FR_DESCRIPTOR 1
#define TRAU_FR_LOST 2
#define TRAU_FR_IDLE 3

/* The level that a call of `trau` has at first. */
#define TRAU_FR_LEVEL 256

/* The parameters of a frame, 76 octets, one for each parameter (GSM 06.10, table 1.1). Index j is the block of 40 samples. */
struct trau_fr_params {
    uint8_t larc[8];    /* LARc 1 to 8, the log area ratios, of 6, 6, 5, 5, 4, 4, 3 and 3 bits: below 64, 64, 32, 32, 16, 16, 8, 8 */
    uint8_t nc[4];      /* Nc, the lag, 7 bits: 0 to 127; an encoder gives 40 to 120 */
    uint8_t bc[4];      /* bc, the gain, 2 bits: 0 to 3 */
    uint8_t mc[4];      /* Mc, the grid position, 2 bits: 0 to 3 */
    uint8_t xmaxc[4];   /* xmaxc, the block maximum, 6 bits: 0 to 63 */
    uint8_t xmc[4][13]; /* xMc, the pulses, 3 bits each: 0 to 7 */
};

/* The state of an encoder, 284 octets: that of its preprocessing, of its short-term and of its long-term filter. */
struct trau_fr_encoder {
    struct {
        int16_t z1;
        int32_t l_z2;
        int16_t mp;
    } preprocessing;
    int16_t ratios[8];
    int16_t sections[8];
    int16_t residuals[120];
};

/* The state of a decoder, 276 octets: the last lag, the state of its long-term and of its short-term filter, and the last sample. */
struct trau_fr_decoder {
    uint8_t lag;
    int16_t residuals[120];
    int16_t ratios[8];
    int16_t sections[8];
    int16_t msr;
};

/* The state of a receive side, 434 octets. */
struct trau_fr_receiver {
    struct {
        uint8_t tag;                      /* the library writes 0: the call is quiet; 1: after a good frame; 2: comfort noise */
        uint8_t periods;                  /* since the good frame, or since the noise began to fall */
        uint8_t step;                     /* of the noise on its way to the last descriptor */
        uint8_t missed;                   /* descriptors that were due since then */
        uint16_t source;                  /* of random numbers */
        struct trau_fr_params good;       /* the good frame, or the noise where its way began */
        struct trau_fr_params descriptor; /* the last one */
    } heard;
    struct trau_fr_decoder decoder;
};

/* The state of a transmit side, 436 octets. */
struct trau_fr_sender {
    struct trau_fr_encoder encoder;
    struct {
        uint8_t run;     /* frames without speech in a row */
        uint8_t elapsed; /* since the last new descriptor */
        bool hangs;      /* whether this pause has a hangover */
        struct trau_fr_params descriptor;
        struct {
            int16_t ratios[8];
            int16_t maxima[4];
        } last[3]; /* before coding, of the last three frames, the newest first */
    } sent;
};

/* The sizes that the library was built with. */
#ifdef __cplusplus
#define TRAU_FR_SIZE(type, octets) static_assert(sizeof(struct type) == (octets), #type)
#else
#define TRAU_FR_SIZE(type, octets) _Static_assert(sizeof(struct type) == (octets), #type)
#endif
TRAU_FR_SIZE(trau_fr_params, 76);
TRAU_FR_SIZE(trau_fr_encoder, 284);
TRAU_FR_SIZE(trau_fr_decoder, 276);
TRAU_FR_SIZE(trau_fr_receiver, 434);
TRAU_FR_SIZE(trau_fr_sender, 436);

/* The state before the first period (GSM 06.10, section 4.2 and 4.3: all zero, and the last lag 40). */
struct trau_fr_encoder trau_fr_encoder_home(void);
struct trau_fr_decoder trau_fr_decoder_home(void);

/* Encodes the 160 samples of the next period into its frame. */
void trau_fr_encode(struct trau_fr_encoder *encoder, const int16_t samples[160], struct trau_fr_params *frame);

/* The same into the 33 octets of the frame. */
void trau_fr_encode_octets(struct trau_fr_encoder *encoder, const int16_t samples[160], uint8_t octets[33]);

/* Decodes the next frame into its 160 samples. */
void trau_fr_decode(struct trau_fr_decoder *decoder, const struct trau_fr_params *frame, int16_t samples[160]);

/* The same from the 33 octets of the frame. False if they don't begin with 1101; decoder and samples are unchanged then. */
bool trau_fr_decode_octets(struct trau_fr_decoder *decoder, const uint8_t octets[33], int16_t samples[160]);

/* The 33 octets of RTP (RFC 3551, section 4.5.8.1) and of libgsm's files: the four bits 1101, and then the fields, each with its
 * most significant bit first. */
void trau_fr_pack(const struct trau_fr_params *frame, uint8_t octets[33]);

/* The frame of 33 octets. False if they don't begin with 1101; the frame is unchanged then. */
bool trau_fr_unpack(const uint8_t octets[33], struct trau_fr_params *frame);

/* The 65 octets of WAV49 (format 49 of RIFF WAVE): the bits of two frames, least significant bits first. Any 65 octets are two
 * frames. */
void trau_fr_pack_pair(const struct trau_fr_params *first, const struct trau_fr_params *second, uint8_t octets[65]);
void trau_fr_unpack_pair(const uint8_t octets[65], struct trau_fr_params *first, struct trau_fr_params *second);

/* The kind of a frame by the 95 bits of its code word (GSM 06.12), within the limits of GSM 06.31, section 6.1: TRAU_FR_DESCRIPTOR
 * if at most one is wrong, TRAU_FR_SPEECH if 16 or more are, else TRAU_FR_LOST, also if the octets don't begin with 1101. */
uint32_t trau_fr_kind(const uint8_t frame[33]);

/* The receive side before the first period: quiet. The seed starts its random numbers; `trau` takes the call's number. */
struct trau_fr_receiver trau_fr_receiver_home(uint16_t seed);

/* The next period, by its kind, and its 160 samples (see "A receiving host"). False if the call is quiet in it; the samples are
 * zeros then. */
bool trau_fr_receive(struct trau_fr_receiver *receiver, const uint8_t frame[33], uint32_t kind, bool taf, int16_t samples[160]);

/* The next period in a bridge, in place of trau_fr_receive: the 33 octets that go on to the partner, which are the good frame as it
 * came, the one that takes the place of a lost frame, or comfort noise. The decoder is set to its reset state. False if the call is
 * quiet in it; the octets are the frame of silence then. */
bool trau_fr_hand(struct trau_fr_receiver *receiver, const uint8_t frame[33], uint32_t kind, bool taf, uint8_t handed[33]);

/* The transmit side before the first period. */
struct trau_fr_sender trau_fr_sender_home(void);

/* The next period, and the 33 octets that are sent for it: true for speech, false for a silence descriptor. A frame is speech if its
 * peak, the greatest magnitude of its samples after preprocessing, isn't below the level (at 0 or less each one is), or if dtx is
 * false. All others are a pause. Its first four frames are sent as they are, with true; or if one of the 23 frames before the pause
 * made a new descriptor, the last descriptor again, with false. From the fifth frame on each makes a new one, with false. */
bool trau_fr_send(struct trau_fr_sender *sender, const int16_t samples[160], int16_t level, bool dtx, uint8_t frame[33]);

/* The 40 octets on the uplink of a TRAU line (GSM 08.60) for what a period brought, in which `trau run` hears what trau_fr_receive
 * hears: alignment field 0, DTXd 0, spare and time bits 1. TRAU_FR_LOST, an unknown kind, and a frame of the first two kinds
 * that doesn't begin with 1101, is an unusable frame; its data bits are those of the frame, or zeros if it doesn't begin so.
 * TRAU_FR_IDLE is an idle frame, with data bits of ones. */
void trau_fr_write_uplink(const uint8_t frame[33], uint32_t kind, bool taf, uint8_t octets[40]);

/* What 40 octets of an uplink bring, for trau_fr_receive. An invalid descriptor, and any pattern of C1 to C5 but speech and idle, is
 * TRAU_FR_LOST with taf false. The frame has the 260 data bits, whatever the kind. False if the sync bits are wrong; nothing is
 * written then. */
bool trau_fr_read_uplink(const uint8_t octets[40], uint32_t *kind, bool *taf, uint8_t frame[33]);

/* The 40 octets on the downlink for a frame of trau_fr_send: TRAU_FR_SPEECH has SP 1, TRAU_FR_DESCRIPTOR has SP 0. Any other kind,
 * and octets that don't begin with 1101, give an idle frame. */
void trau_fr_write_downlink(const uint8_t frame[33], uint32_t kind, uint8_t octets[40]);

/* The frame of 40 octets of a downlink, and its kind, by SP; TRAU_FR_LOST for any pattern of C1 to C5 but speech and idle. False if
 * the sync bits are wrong; nothing is written then. */
bool trau_fr_read_downlink(const uint8_t octets[40], uint32_t *kind, uint8_t frame[33]);

/* The 160 samples of A-law or mu-law octets (G.711): for each octet the value of its interval. */
void trau_alaw_expand(const uint8_t octets[160], int16_t samples[160]);
void trau_mulaw_expand(const uint8_t octets[160], int16_t samples[160]);

/* The octets of 160 samples of 16 bits. */
void trau_alaw_compress(const int16_t samples[160], uint8_t octets[160]);
void trau_mulaw_compress(const int16_t samples[160], uint8_t octets[160]);

#ifdef __cplusplus
}
#endif
#endif
