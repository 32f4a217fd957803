/* test_trau_fr VECTORS DATA: the library beside recorded answers of libgsm; VECTORS is checks/vectors. */
#include <stdio.h>
#include <stdlib.h>
#include <string.h>

#include "trau_fr.h"

/* Frames of the recorded line. */
#define FRAMES 254

static int failed;

static void expect(int holds, const char *name)
{
    printf("%s %s\n", holds ? "ok" : "FAILED", name);
    failed += !holds;
}

static void load(const char *folder, const char *name, void *to, size_t size)
{
    char path[4096];
    FILE *file;

    snprintf(path, sizeof path, "%s/%s", folder, name);
    file = fopen(path, "rb");
    if (!file || fread(to, 1, size, file) != size) {
        fprintf(stderr, "%s: not read\n", path);
        exit(2);
    }
    fclose(file);
}

static uint8_t line[FRAMES][160], gsm[FRAMES][33], wav49[FRAMES / 2][65];
static int16_t decoded[FRAMES][160];

static void home_states(void)
{
    struct trau_fr_encoder encoder = trau_fr_encoder_home(), zero_encoder = {0};
    struct trau_fr_decoder decoder = trau_fr_decoder_home(), zero_decoder = {0};

    /* Field by field, since what stands between fields is anything. */
    expect(encoder.preprocessing.z1 == 0 && encoder.preprocessing.l_z2 == 0 && encoder.preprocessing.mp == 0, "preprocessing at home");
    expect(!memcmp(encoder.ratios, zero_encoder.ratios, sizeof encoder.ratios)
            && !memcmp(encoder.sections, zero_encoder.sections, sizeof encoder.sections)
            && !memcmp(encoder.residuals, zero_encoder.residuals, sizeof encoder.residuals), "encoder at home");
    expect(decoder.lag == 40 && decoder.msr == 0, "last lag and last sample at home");
    expect(!memcmp(decoder.ratios, zero_decoder.ratios, sizeof decoder.ratios)
            && !memcmp(decoder.sections, zero_decoder.sections, sizeof decoder.sections)
            && !memcmp(decoder.residuals, zero_decoder.residuals, sizeof decoder.residuals), "decoder at home");
}

static void encoded(void)
{
    struct trau_fr_encoder encoder = trau_fr_encoder_home();
    struct trau_fr_params frames[FRAMES] = {0};
    uint8_t octets[65];
    int16_t samples[160];
    int same = 1, same_pairs = 1;

    for (int k = 0; k < FRAMES; k++) {
        trau_alaw_expand(line[k], samples);
        trau_fr_encode(&encoder, samples, &frames[k]);
        trau_fr_pack(&frames[k], octets);
        same &= !memcmp(octets, gsm[k], 33);
    }
    for (int k = 0; k < FRAMES / 2; k++) {
        trau_fr_pack_pair(&frames[2 * k], &frames[2 * k + 1], octets);
        same_pairs &= !memcmp(octets, wav49[k], 65);
    }
    expect(same, "frames of 33 octets are libgsm's");
    expect(same_pairs, "pairs of 65 octets are libgsm's");
}

static void decoded_frames(void)
{
    struct trau_fr_decoder by_octets = trau_fr_decoder_home(), by_frame = by_octets;
    struct trau_fr_params frames[FRAMES] = {0}, pair[2] = {0};
    int16_t samples[160];
    int taken = 1, same_octets = 1, same_frame = 1, same_pair = 1;

    for (int k = 0; k < FRAMES; k++) {
        taken &= trau_fr_decode_octets(&by_octets, gsm[k], samples);
        same_octets &= !memcmp(samples, decoded[k], sizeof samples);
        taken &= trau_fr_unpack(gsm[k], &frames[k]);
        trau_fr_decode(&by_frame, &frames[k], samples);
        same_frame &= !memcmp(samples, decoded[k], sizeof samples);
    }
    for (int k = 0; k < FRAMES / 2; k++) {
        trau_fr_unpack_pair(wav49[k], &pair[0], &pair[1]);
        same_pair &= !memcmp(pair, &frames[2 * k], sizeof pair);
    }
    expect(taken, "frames are taken");
    expect(same_octets, "samples of octets are libgsm's");
    expect(same_frame, "samples of frames are libgsm's");
    expect(same_pair, "pairs unpack to the same frames");
}

/* A frame whose fields differ, and its octets: 1101, and then the fields as GSM 06.10, table 1.1, has them: the LARs, and for each
 * block Nc, bc, Mc, xmaxc and the pulses, most significant bits first. */
static const struct trau_fr_params fields = {
    .larc = {37, 22, 19, 9, 11, 6, 5, 2},
    .nc = {40, 77, 101, 120},
    .bc = {1, 3, 0, 2},
    .mc = {2, 0, 3, 1},
    .xmaxc = {45, 19, 60, 34},
    .xmc = {
        {1, 4, 7, 2, 5, 0, 3, 6, 2, 5, 0, 3, 6},
        {3, 6, 1, 4, 7, 2, 5, 0, 4, 7, 2, 5, 0},
        {5, 0, 3, 6, 1, 4, 7, 2, 6, 1, 4, 7, 2},
        {7, 2, 5, 0, 3, 6, 1, 4, 0, 3, 6, 1, 4},
    },
};
static const uint8_t packed[33] = {
    0xD9, 0x56, 0x9A, 0x6D, 0xAA, 0x50, 0xD6, 0x99, 0xD5, 0x0F, 0x2A, 0x1E, 0x9B, 0x89, 0xBC, 0x67, 0x54,
    0x4E, 0xA8, 0xCA, 0x7E, 0x50, 0xF1, 0x9D, 0x63, 0x3A, 0xF1, 0x31, 0x75, 0x43, 0xC6, 0x07, 0x8C,
};

static int same_fields(const struct trau_fr_params *a, const struct trau_fr_params *b)
{
    return !memcmp(a->larc, b->larc, sizeof a->larc) && !memcmp(a->nc, b->nc, sizeof a->nc) && !memcmp(a->bc, b->bc, sizeof a->bc)
        && !memcmp(a->mc, b->mc, sizeof a->mc) && !memcmp(a->xmaxc, b->xmaxc, sizeof a->xmaxc) && !memcmp(a->xmc, b->xmc, sizeof a->xmc);
}

/* The order of the struct's fields is that of the library. */
static void fields_in_order(void)
{
    struct trau_fr_decoder by_fields = trau_fr_decoder_home(), by_octets = by_fields;
    struct trau_fr_params frame = {0};
    int16_t samples[160], wanted[160];
    uint8_t octets[33];
    int same = trau_fr_unpack(packed, &frame) && same_fields(&frame, &fields);

    expect(same, "each field of a frame is unpacked to its place");
    /* Else the library might read values that are too wide for their fields. */
    if (!same)
        return;
    trau_fr_pack(&fields, octets);
    expect(!memcmp(octets, packed, 33), "each field is packed from its place");
    for (int k = 0; k < 2; k++) {
        trau_fr_decode(&by_fields, &fields, samples);
        trau_fr_decode_octets(&by_octets, packed, wanted);
        same &= !memcmp(samples, wanted, sizeof samples);
    }
    expect(same, "each field is decoded from its place");
}

/* Frames that are only written, over octets of ones and over zeros. */
static void overwritten(void)
{
    struct trau_fr_encoder over_ones = trau_fr_encoder_home(), over_zeros = over_ones;
    struct trau_fr_params ones[2], zeros[2], before[2];
    int16_t samples[160];
    int same_encoded = 1, same_unpacked = 1, same_pair = 1, kept = 1;

    memset(before, 0xFF, sizeof before);
    for (int k = 0; k < FRAMES; k++) {
        trau_alaw_expand(line[k], samples);
        memset(ones, 0xFF, sizeof ones);
        memset(zeros, 0, sizeof zeros);
        trau_fr_encode(&over_ones, samples, &ones[0]);
        trau_fr_encode(&over_zeros, samples, &zeros[0]);
        same_encoded &= !memcmp(&ones[0], &zeros[0], sizeof ones[0]);
        memset(ones, 0xFF, sizeof ones);
        memset(zeros, 0, sizeof zeros);
        same_unpacked &= trau_fr_unpack(gsm[k], &ones[0]) && trau_fr_unpack(gsm[k], &zeros[0]);
        same_unpacked &= !memcmp(&ones[0], &zeros[0], sizeof ones[0]);
        memset(ones, 0xFF, sizeof ones);
        memset(zeros, 0, sizeof zeros);
        trau_fr_unpack_pair(wav49[k / 2], &ones[0], &ones[1]);
        trau_fr_unpack_pair(wav49[k / 2], &zeros[0], &zeros[1]);
        same_pair &= !memcmp(ones, zeros, sizeof ones);
        memset(ones, 0xFF, sizeof ones);
        kept &= !trau_fr_unpack((const uint8_t[33]){0}, &ones[0]) && !memcmp(ones, before, sizeof ones);
    }
    expect(same_encoded, "a frame is encoded over anything");
    expect(same_unpacked, "a frame is unpacked over anything");
    expect(same_pair, "a pair is unpacked over anything");
    expect(kept, "refused octets leave a frame of ones as it is");
}

static void refused(void)
{
    struct trau_fr_decoder decoder = trau_fr_decoder_home(), before;
    struct trau_fr_params frame = {0}, kept;
    int16_t samples[160], left[160];
    uint8_t octets[33];
    int right = 1;

    trau_fr_decode_octets(&decoder, gsm[100], samples);
    trau_fr_unpack(gsm[100], &frame);
    memcpy(octets, gsm[101], sizeof octets);
    for (int first = 0; first < 16; first++) {
        if (first == 13)
            continue;
        octets[0] = (uint8_t)(first << 4 | (octets[0] & 15));
        memcpy(&before, &decoder, sizeof before);
        memcpy(&kept, &frame, sizeof kept);
        memcpy(left, samples, sizeof left);
        right &= !trau_fr_decode_octets(&decoder, octets, samples) && !trau_fr_unpack(octets, &frame);
        right &= !memcmp(&before, &decoder, sizeof before) && !memcmp(&kept, &frame, sizeof kept);
        right &= !memcmp(left, samples, sizeof left);
    }
    expect(right, "fifteen other beginnings are refused, and change nothing");
}

static void compressed(const char *vectors)
{
    static uint8_t recorded[65536];
    int16_t samples[160];
    uint8_t octets[160];
    int same = 1;

    load(vectors, "alaw_compress.bin", recorded, sizeof recorded);
    for (int at = 0; at + 160 <= 65536; at += 160) {
        for (int i = 0; i < 160; i++)
            samples[i] = (int16_t)(at + i - 32768);
        trau_alaw_compress(samples, octets);
        same &= !memcmp(octets, recorded + at, 160);
    }
    expect(same, "A-law of all samples");
    load(vectors, "mulaw_compress.bin", recorded, 32768);
    same = 1;
    for (int at = 0; at + 160 <= 32768; at += 160) {
        for (int i = 0; i < 160; i++)
            samples[i] = (int16_t)(at + i);
        trau_mulaw_compress(samples, octets);
        same &= !memcmp(octets, recorded + at, 160);
        trau_mulaw_expand(octets, samples);
        trau_mulaw_compress(samples, octets);
        same &= !memcmp(octets, recorded + at, 160);
    }
    expect(same, "mu-law of the samples from 0 on, and of what it expands to");
}

/* The frame of silence of GSM 06.11, octet for octet. */
static const uint8_t silence[33] = {
    0xDA, 0xA7, 0xAA, 0xA5, 0x1A, 0x50, 0x20, 0x38, 0xE4, 0x6D, 0xB9, 0x1B, 0x50, 0x20, 0x38, 0xE4, 0x6D,
    0xB9, 0x1B, 0x50, 0x20, 0x38, 0xE4, 0x6D, 0xB9, 0x1B, 0x50, 0x20, 0x38, 0xE4, 0x6D, 0xB9, 0x1B,
};
static const uint8_t none[33];

static int all_zero(const int16_t samples[160])
{
    static const int16_t zeros[160];

    return !memcmp(samples, zeros, sizeof zeros);
}

static void quiet_calls(void)
{
    struct trau_fr_receiver receiver = trau_fr_receiver_home(7);
    struct trau_fr_decoder decoder;
    int16_t samples[160], wanted[160];
    uint8_t handed[33];
    int right = 1;

    right &= !trau_fr_receive(&receiver, none, TRAU_FR_LOST, true, samples) && all_zero(samples);
    right &= !trau_fr_receive(&receiver, gsm[50], 4, false, samples) && all_zero(samples);
    right &= !trau_fr_receive(&receiver, none, TRAU_FR_SPEECH, false, samples) && all_zero(samples);
    right &= !trau_fr_hand(&receiver, none, TRAU_FR_LOST, false, handed) && !memcmp(handed, silence, 33);
    expect(right, "a call is quiet before its first good frame");
    for (int again = 0; again < 2; again++) {
        decoder = trau_fr_decoder_home();
        for (int k = 50; k < 53; k++) {
            right &= trau_fr_receive(&receiver, gsm[k], TRAU_FR_SPEECH, false, samples);
            trau_fr_decode_octets(&decoder, gsm[k], wanted);
            right &= !memcmp(samples, wanted, sizeof samples);
        }
        right &= !trau_fr_receive(&receiver, gsm[53], TRAU_FR_IDLE, false, samples) && all_zero(samples);
    }
    expect(right, "good frames are decoded, from the reset state after an idle frame");
}

static void lost_frames(void)
{
    struct trau_fr_receiver receiver = trau_fr_receiver_home(7);
    struct trau_fr_params good = {0}, frame = {0};
    uint8_t handed[33];
    int right = trau_fr_hand(&receiver, gsm[100], TRAU_FR_SPEECH, false, handed) && !memcmp(handed, gsm[100], 33);

    trau_fr_unpack(gsm[100], &good);
    for (int n = 1; n < 20; n++) {
        right &= trau_fr_hand(&receiver, none, TRAU_FR_LOST, true, handed) && trau_fr_unpack(handed, &frame);
        for (int j = 0; j < 4 && n < 17; j++) {
            int fallen = good.xmaxc[j] - 4 * (n - 1);
            right &= frame.xmaxc[j] == (fallen < 0 ? 0 : fallen) && frame.nc[j] == good.nc[j];
        }
        right &= n > 1 || !memcmp(handed, gsm[100], 33);
        right &= n < 17 || !memcmp(handed, silence, 33);
    }
    expect(right, "a lost frame is the last good one, then muted, then silence");
}

static void sent_frames(void)
{
    struct trau_fr_sender sender = trau_fr_sender_home();
    struct trau_fr_encoder encoder = trau_fr_encoder_home();
    int16_t samples[160];
    uint8_t octets[33], wanted[33];
    int right = 1;

    for (int k = 0; k < 100; k++) {
        int dtx = k >= 50;

        trau_alaw_expand(line[k], samples);
        trau_fr_encode_octets(&encoder, samples, wanted);
        right &= !memcmp(wanted, gsm[k], 33);
        if (trau_fr_send(&sender, samples, 32767, dtx, octets))
            right &= k < 54 && !memcmp(octets, wanted, 33);
        else
            right &= k >= 54 && trau_fr_kind(octets) == TRAU_FR_DESCRIPTOR;
    }
    expect(right, "without DTX frames are sent as they are, and a pause has descriptors after four of them");
}

/* Periods of one kind, whose frames are handed over. */
static void hear(struct trau_fr_receiver *receiver, const uint8_t frame[33], uint32_t kind, bool taf, int periods)
{
    uint8_t handed[33];

    for (; periods > 0; periods--)
        trau_fr_hand(receiver, frame, kind, taf, handed);
}

static int same_frame(const struct trau_fr_params *frame, const uint8_t octets[33])
{
    struct trau_fr_params wanted = {0};

    return trau_fr_unpack(octets, &wanted) && same_fields(frame, &wanted);
}

static uint16_t after_draws(uint16_t source, int draws)
{
    for (; draws > 0; draws--)
        source = (uint16_t)(25173u * source + 13849u);
    return source;
}

static int same_decoder(const struct trau_fr_decoder *a, const struct trau_fr_decoder *b)
{
    return a->lag == b->lag && a->msr == b->msr && !memcmp(a->residuals, b->residuals, sizeof a->residuals)
        && !memcmp(a->ratios, b->ratios, sizeof a->ratios) && !memcmp(a->sections, b->sections, sizeof a->sections);
}

/* Encoder and decoder have the same ratios after the same frame, and sections of their own; z1 is of the last sample (GSM 06.10, section
 * 4.2.1). */
static void codec_fields(void)
{
    struct trau_fr_encoder encoder = trau_fr_encoder_home();
    struct trau_fr_decoder decoder = trau_fr_decoder_home();
    struct trau_fr_params frame = {0};
    int16_t samples[160];
    int right;

    trau_alaw_expand(line[50], samples);
    trau_fr_encode(&encoder, samples, &frame);
    right = encoder.preprocessing.z1 == (samples[159] >> 3) * 4;
    trau_fr_decode(&decoder, &frame, samples);
    right &= !memcmp(encoder.ratios, decoder.ratios, sizeof encoder.ratios);
    expect(right, "an encoder's and a decoder's fields after a frame");
}

/* What a receive side keeps is in the fields that the header names. */
static void receiver_fields(void)
{
    struct trau_fr_receiver receiver = trau_fr_receiver_home(7);
    struct trau_fr_decoder decoder = trau_fr_decoder_home();
    struct trau_fr_params first = {0}, second = {0};
    int16_t samples[160];
    int right = receiver.heard.tag == 0 && receiver.heard.source == 7;

    trau_fr_receive(&receiver, gsm[100], TRAU_FR_SPEECH, false, samples);
    trau_fr_decode_octets(&decoder, gsm[100], samples);
    right &= receiver.heard.tag == 1 && receiver.heard.periods == 0 && same_frame(&receiver.heard.good, gsm[100]);
    right &= same_decoder(&receiver.decoder, &decoder);
    hear(&receiver, none, TRAU_FR_LOST, false, 1);
    right &= receiver.heard.periods == 1 && receiver.heard.source == 7;
    hear(&receiver, none, TRAU_FR_LOST, false, 1);
    right &= receiver.heard.periods == 2 && receiver.heard.source == after_draws(7, 4);
    hear(&receiver, none, TRAU_FR_LOST, false, 30);
    right &= receiver.heard.tag == 1 && receiver.heard.periods == 17 && receiver.heard.source == after_draws(7, 60);
    expect(right, "a receiver's fields after a good frame and in its place");

    hear(&receiver, gsm[60], TRAU_FR_DESCRIPTOR, false, 1);
    right = receiver.heard.tag == 2 && receiver.heard.step == 8 && receiver.heard.missed == 0 && receiver.heard.periods == 0;
    right &= same_frame(&receiver.heard.good, gsm[60]) && same_frame(&receiver.heard.descriptor, gsm[60]);
    hear(&receiver, none, TRAU_FR_LOST, true, 1);
    right &= receiver.heard.step == 8 && receiver.heard.missed == 1 && receiver.heard.periods == 0;
    hear(&receiver, gsm[61], TRAU_FR_DESCRIPTOR, false, 1);
    right &= receiver.heard.step == 1 && receiver.heard.missed == 0;
    right &= same_frame(&receiver.heard.good, gsm[60]) && same_frame(&receiver.heard.descriptor, gsm[61]);
    hear(&receiver, none, TRAU_FR_LOST, false, 2);
    right &= receiver.heard.step == 3;
    hear(&receiver, gsm[62], TRAU_FR_DESCRIPTOR, false, 1);
    trau_fr_unpack(gsm[60], &first);
    trau_fr_unpack(gsm[61], &second);
    for (int i = 0; i < 8; i++)
        right &= receiver.heard.good.larc[i] == (5 * first.larc[i] + 3 * second.larc[i]) / 8;
    for (int j = 0; j < 4; j++)
        right &= receiver.heard.good.xmaxc[j] == (5 * first.xmaxc[j] + 3 * second.xmaxc[j]) / 8;
    hear(&receiver, none, TRAU_FR_LOST, true, 2);
    right &= receiver.heard.step == 3 && receiver.heard.missed == 2 && receiver.heard.periods == 1;
    hear(&receiver, none, TRAU_FR_LOST, false, 30);
    right &= receiver.heard.tag == 2 && receiver.heard.step == 8 && receiver.heard.missed == 2 && receiver.heard.periods == 17;
    hear(&receiver, none, TRAU_FR_IDLE, false, 1);
    expect(right && receiver.heard.tag == 0, "a receiver's fields in noise and after an idle frame");
}

static int same_encoder(const struct trau_fr_encoder *a, const struct trau_fr_encoder *b)
{
    return a->preprocessing.z1 == b->preprocessing.z1 && a->preprocessing.l_z2 == b->preprocessing.l_z2
        && a->preprocessing.mp == b->preprocessing.mp && !memcmp(a->ratios, b->ratios, sizeof a->ratios)
        && !memcmp(a->sections, b->sections, sizeof a->sections) && !memcmp(a->residuals, b->residuals, sizeof a->residuals);
}

/* The code of a block maximum (GSM 06.10, section 4.2.15). */
static int coded_maximum(int maximum)
{
    int exponent = 0;

    for (int high = maximum >> 9; high > 0 && exponent < 6; high >>= 1)
        exponent++;
    return (maximum >> (exponent + 5)) + 8 * exponent;
}

/* So is what a transmit side keeps. */
static void sender_fields(void)
{
    struct trau_fr_sender sender = trau_fr_sender_home();
    struct trau_fr_encoder encoder = trau_fr_encoder_home();
    struct trau_fr_params frames[3] = {0};
    int16_t samples[160], ratios[8];
    uint8_t octets[33];
    int right = sender.sent.run == 0 && sender.sent.elapsed == 24 && !sender.sent.hangs;

    for (int k = 0; k < 3; k++) {
        trau_alaw_expand(line[50 + k], samples);
        trau_fr_encode(&encoder, samples, &frames[k]);
        trau_fr_send(&sender, samples, TRAU_FR_LEVEL, false, octets);
        if (k == 0)
            memcpy(ratios, sender.sent.last[0].ratios, sizeof ratios);
    }
    right &= same_encoder(&sender.encoder, &encoder) && sender.sent.run == 0 && sender.sent.elapsed == 24;
    right &= !memcmp(sender.sent.last[2].ratios, ratios, sizeof ratios);
    for (int k = 0; k < 3; k++)
        for (int j = 0; j < 4; j++)
            right &= coded_maximum(sender.sent.last[2 - k].maxima[j]) == frames[k].xmaxc[j];
    expect(right, "a sender's fields after speech");

    right = 1;
    for (int run = 1; run < 7; run++) {
        trau_alaw_expand(line[52 + run], samples);
        right &= trau_fr_send(&sender, samples, 32767, true, octets) == (run < 5) && sender.sent.hangs;
        right &= sender.sent.run == (run < 5 ? run : 5) && sender.sent.elapsed == (run < 5 ? 24 : 0);
        right &= run < 5 || same_frame(&sender.sent.descriptor, octets);
    }
    trau_fr_send(&sender, samples, 32767, false, octets);
    right &= sender.sent.run == 0 && sender.sent.elapsed == 1;
    right &= !trau_fr_send(&sender, samples, 32767, true, octets) && same_frame(&sender.sent.descriptor, octets);
    expect(right && sender.sent.run == 1 && sender.sent.elapsed == 2 && !sender.sent.hangs, "a sender's fields in two pauses");
}

static void line_frames(void)
{
    static const uint8_t start[4] = {0, 0, 0x88, 0x00};
    uint8_t octets[40], again[33];
    uint32_t kind = 9;
    bool taf = false;
    int right = 1;

    for (uint32_t each = TRAU_FR_SPEECH; each <= TRAU_FR_IDLE; each++) {
        trau_fr_write_uplink(gsm[100], each, each % 2, octets);
        right &= each != TRAU_FR_SPEECH || !memcmp(octets, start, sizeof start);
        right &= trau_fr_read_uplink(octets, &kind, &taf, again) && kind == each && taf == (each % 2 == 1);
        right &= each == TRAU_FR_IDLE || !memcmp(again, gsm[100], 33);
        trau_fr_write_downlink(gsm[100], each, octets);
        right &= trau_fr_read_downlink(octets, &kind, again) && kind == (each < TRAU_FR_LOST ? each : TRAU_FR_IDLE);
        right &= each >= TRAU_FR_LOST || !memcmp(again, gsm[100], 33);
    }
    octets[38] ^= 0x80;
    right &= !trau_fr_read_uplink(octets, &kind, &taf, again) && !trau_fr_read_downlink(octets, &kind, again);
    expect(right, "frames of a line are read as they were written, and refused without their sync bits");
}

int main(int argc, char **argv)
{
    if (argc != 3) {
        fprintf(stderr, "usage: test_trau_fr VECTORS DATA\n");
        return 2;
    }
    load(argv[1], "harsh.pcm", line, sizeof line);
    load(argv[2], "harsh.gsm", gsm, sizeof gsm);
    load(argv[2], "harsh.wav49", wav49, sizeof wav49);
    load(argv[2], "harsh.samples", decoded, sizeof decoded);
    home_states();
    encoded();
    decoded_frames();
    fields_in_order();
    overwritten();
    refused();
    compressed(argv[1]);
    quiet_calls();
    lost_frames();
    sent_frames();
    codec_fields();
    receiver_fields();
    sender_fields();
    line_frames();
    return failed != 0;
}
