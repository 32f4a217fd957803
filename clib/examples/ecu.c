/* An error concealment unit for Osmocom (libosmocodec, osmocom/codec/ecu.h): what trau_fr_hand makes of lost full rate frames.
 *
 * Of the frames that come in, silence descriptors are found by their code word. So in a pause it gives comfort noise, and where frames of
 * speech are lost the last one, muted. Each frame, in or out, is a period: pass frame_in each frame that came, and call frame_out for each
 * that is missing. With bfi set frame_in does nothing, as that of libosmocodec's own unit. */
#include "ecu.h"

#include <errno.h>
#include <talloc.h>

#include <trau_fr.h>

/* struct osmo_ecu_state ends with its unit's data, at a multiple of 4 octets. */
static struct trau_fr_receiver *receiver_of(struct osmo_ecu_state *state)
{
    return (struct trau_fr_receiver *)(void *)state->data;
}

static struct osmo_ecu_state *created(void *ctx, enum osmo_ecu_codec codec)
{
    struct osmo_ecu_state *state = talloc_zero_size(ctx, sizeof *state + sizeof(struct trau_fr_receiver));

    if (state) {
        state->codec = codec;
        *receiver_of(state) = trau_fr_receiver_home(1);
    }
    return state;
}

static void destroyed(struct osmo_ecu_state *state)
{
    talloc_free(state);
}

static int frame_in(struct osmo_ecu_state *state, bool bfi, const uint8_t *frame, unsigned int octets)
{
    uint8_t handed[TRAU_FR_OCTETS];

    if (bfi)
        return 0;
    if (octets != TRAU_FR_OCTETS)
        return -EINVAL;
    trau_fr_hand(receiver_of(state), frame, trau_fr_kind(frame), false, handed);
    return 0;
}

/* The octets that were written: a frame of silence before the first good one. */
static int frame_out(struct osmo_ecu_state *state, uint8_t *frame)
{
    static const uint8_t none[TRAU_FR_OCTETS];

    trau_fr_hand(receiver_of(state), none, TRAU_FR_LOST, false, frame);
    return TRAU_FR_OCTETS;
}

static const struct osmo_ecu_ops operations = {
    .init = created,
    .destroy = destroyed,
    .frame_in = frame_in,
    .frame_out = frame_out,
};

int trau_ecu_register(enum osmo_ecu_codec codec)
{
    return osmo_ecu_register(&operations, codec);
}
