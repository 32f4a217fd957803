/* libgsm's interface over libtrau_fr, in integer arithmetic. Built as libgsm.so.1, it runs programs of libgsm unchanged.
 *
 * Encoder, decoder, packings and their tests are the library's. Here are memory, options, and the two halves of WAV49. One thread at
 * a time may use a handle, as in libgsm. All is as in libgsm but for two things: if a handle both encodes and decodes, the two have
 * separate states, and a sample that the scaling of an encoder brings to 32768 is 32767.
 *
 * The options are those of the usual builds of libgsm: GSM_OPT_VERBOSE is stored and returned without effect. GSM_OPT_FAST and
 * GSM_OPT_LTP_CUT, which make the encoder inexact, aren't available. checks/clib.sh compiles this file also behind the real gsm.h, so
 * names, types and numbers are written as there.
 */
#include <stdio.h>
#include <stdlib.h>
#include <string.h>

#include "trau_fr.h"

#define PUBLIC __attribute__((visibility("default")))

#define GSM_OPT_VERBOSE 1
#define GSM_OPT_FAST 2
#define GSM_OPT_LTP_CUT 3
#define GSM_OPT_WAV49 4
#define GSM_OPT_FRAME_INDEX 5
#define GSM_OPT_FRAME_CHAIN 6

/* Octets of the first half of a pair. The octet after them is shared with the second half. */
#define SHARED 32

/* In a pair a frame is the first (index 1) or the second (index 0); chain has the four bits of the shared octet that the second
 * half needs. A program may set both to any octet. Then an index above 1 writes the first half and reads the second, and the high four
 * bits of a chain go into the octet after the shared one where it is read. */
typedef struct gsm_state {
    struct trau_fr_encoder encoder;
    struct trau_fr_decoder decoder;
    struct trau_fr_params frame;
    unsigned char wav49;
    unsigned char frame_index;
    unsigned char frame_chain;
    signed char verbose;
} *gsm;
typedef short gsm_signal;
typedef unsigned char gsm_byte;

/* Values of gsm_explode and gsm_implode: 8 ratios, and 17 values of each block. */
#define VALUES (8 + 4 * 17)

PUBLIC gsm gsm_create(void)
{
    gsm state = calloc(1, sizeof *state);

    if (state) {
        state->encoder = trau_fr_encoder_home();
        state->decoder = trau_fr_decoder_home();
    }
    return state;
}

PUBLIC void gsm_destroy(gsm state)
{
    free(state);
}

/* Sets an option if value isn't null. Returns its earlier value, or -1 if this build doesn't have the option. */
PUBLIC int gsm_option(gsm state, int option, int *value)
{
    int was = -1;

    switch (option) {
    case GSM_OPT_VERBOSE:
        was = state->verbose;
        if (value)
            state->verbose = (signed char)*value;
        break;
    case GSM_OPT_WAV49:
        was = state->wav49;
        if (value)
            state->wav49 = !!*value;
        break;
    case GSM_OPT_FRAME_INDEX:
        was = state->frame_index;
        if (value)
            state->frame_index = (unsigned char)*value;
        break;
    case GSM_OPT_FRAME_CHAIN:
        was = state->frame_chain;
        if (value)
            state->frame_chain = (unsigned char)*value;
        break;
    }
    return was;
}

/* The first half of a pair has 32 octets, and one more of which only the low four bits count. The second has 33 octets; the low
 * four bits of its first are those bits of the first half. */
static void write_half(gsm state, gsm_byte *octets)
{
    static const struct trau_fr_params none;
    gsm_byte pair[TRAU_FR_PAIR_OCTETS];

    if (state->frame_index) {
        trau_fr_pack_pair(&state->frame, &none, pair);
        memcpy(octets, pair, SHARED + 1);
        state->frame_chain = pair[SHARED];
    } else {
        trau_fr_pack_pair(&none, &state->frame, pair);
        memcpy(octets, pair + SHARED, SHARED + 1);
        octets[0] |= state->frame_chain & 0x0F;
    }
}

/* The first half is read from 33 octets, the second from the 32 that follow. */
static void read_half(gsm state, const gsm_byte *octets)
{
    struct trau_fr_params other = {0};
    gsm_byte pair[TRAU_FR_PAIR_OCTETS] = {0};

    if (state->frame_index == 1) {
        memcpy(pair, octets, SHARED + 1);
        trau_fr_unpack_pair(pair, &state->frame, &other);
        state->frame_chain = pair[SHARED] >> 4;
    } else {
        pair[SHARED] = (gsm_byte)(state->frame_chain << 4);
        memcpy(pair + SHARED + 1, octets, SHARED);
        pair[SHARED + 1] |= state->frame_chain >> 4;
        trau_fr_unpack_pair(pair, &other, &state->frame);
    }
}

static void write_frame(gsm state, gsm_byte *octets)
{
    if (state->wav49)
        write_half(state, octets);
    else
        trau_fr_pack(&state->frame, octets);
}

/* 0, or -1 if the octets don't begin with the four bits 1101. */
static int read_frame(gsm state, const gsm_byte *octets)
{
    if (!state->wav49)
        return trau_fr_unpack(octets, &state->frame) ? 0 : -1;
    read_half(state, octets);
    return 0;
}

/* Encoding and decoding switch to the other half; with gsm_explode and gsm_implode the caller does so by GSM_OPT_FRAME_INDEX. */
static void next_half(gsm state)
{
    if (state->wav49)
        state->frame_index = !state->frame_index;
}

PUBLIC void gsm_encode(gsm state, gsm_signal *samples, gsm_byte *octets)
{
    trau_fr_encode(&state->encoder, samples, &state->frame);
    next_half(state);
    write_frame(state, octets);
}

PUBLIC int gsm_decode(gsm state, gsm_byte *octets, gsm_signal *samples)
{
    next_half(state);
    if (read_frame(state, octets))
        return -1;
    trau_fr_decode(&state->decoder, &state->frame, samples);
    return 0;
}

/* The parameters as one list: LARc, and for each block Nc, bc, Mc, xmaxc and xMc. */
static void values_of(const struct trau_fr_params *frame, gsm_signal *values)
{
    for (int i = 0; i < 8; i++)
        *values++ = frame->larc[i];
    for (int j = 0; j < 4; j++) {
        *values++ = frame->nc[j];
        *values++ = frame->bc[j];
        *values++ = frame->mc[j];
        *values++ = frame->xmaxc[j];
        for (int i = 0; i < 13; i++)
            *values++ = frame->xmc[j][i];
    }
}

PUBLIC int gsm_explode(gsm state, gsm_byte *octets, gsm_signal *values)
{
    if (read_frame(state, octets))
        return -1;
    values_of(&state->frame, values);
    return 0;
}

/* The parameters of such a list: of each value as many low bits as its field has. */
PUBLIC void gsm_implode(gsm state, gsm_signal *values, gsm_byte *octets)
{
    static const int ratios[8] = {0x3F, 0x3F, 0x1F, 0x1F, 0x0F, 0x0F, 0x07, 0x07};
    struct trau_fr_params *frame = &state->frame;

    for (int i = 0; i < 8; i++)
        frame->larc[i] = (uint8_t)(*values++ & ratios[i]);
    for (int j = 0; j < 4; j++) {
        frame->nc[j] = *values++ & 0x7F;
        frame->bc[j] = *values++ & 0x03;
        frame->mc[j] = *values++ & 0x03;
        frame->xmaxc[j] = *values++ & 0x3F;
        for (int i = 0; i < 13; i++)
            frame->xmc[j][i] = *values++ & 0x07;
    }
    write_frame(state, octets);
}

/* Prints a frame of 33 octets; the options have no influence. */
PUBLIC int gsm_print(FILE *file, gsm state, gsm_byte *octets)
{
    struct trau_fr_params frame = {0};
    gsm_signal values[VALUES];
    const gsm_signal *next = values + 8;

    (void)state;
    if (!trau_fr_unpack(octets, &frame))
        return -1;
    values_of(&frame, values);
    fprintf(file, "LARc:\t");
    for (int i = 0; i < 8; i++)
        fprintf(file, "%2.2d%s", values[i], i < 7 ? "  " : "\n");
    for (int j = 1; j <= 4; j++, next += 17) {
        fprintf(file, "#%d: \tNc %4.4d    bc %d    Mc %d    xmaxc %d\n\t", j, next[0], next[1], next[2], next[3]);
        for (int i = 4; i < 17; i++)
            fprintf(file, "%.2d%s", next[i], i < 16 ? " " : "\n");
    }
    return 0;
}
