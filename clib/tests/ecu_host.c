/* A host of the error concealment unit (clib/examples/ecu.c): two states of it, and what they give for what standard input says.
 *
 * An operation there has 36 octets: the state, 0 or 1; 0 for frame_out, 1 for frame_in, 2 for frame_in with bfi; how many octets frame_in is
 * told of; and 33 octets. A line for each says what the function returned, and after frame_out the frame, which was filled with 0x55. The lines
 * before say what came of registering and making, the last one what is left of memory. */
#include <stdio.h>
#include <string.h>

#include <talloc.h>

#include <trau_fr.h>

#include "ecu.h"

/* A codec of which libosmocodec has no unit, and another one. */
#define CODEC OSMO_ECU_CODEC_AMR
#define OTHER OSMO_ECU_CODEC_EFR

static void print_out(struct osmo_ecu_state *state)
{
    uint8_t frame[TRAU_FR_OCTETS];

    memset(frame, 0x55, sizeof frame);
    printf("%d ", osmo_ecu_frame_out(state, frame));
    for (size_t k = 0; k < sizeof frame; k++)
        printf("%02x", frame[k]);
    printf("\n");
}

int main(void)
{
    void *context = talloc_named_const(NULL, 1, "calls");
    struct osmo_ecu_state *states[2];
    uint8_t operation[3 + TRAU_FR_OCTETS];

    printf("register %d", trau_ecu_register(CODEC));
    printf(" again %d", trau_ecu_register(CODEC));
    printf(" FR %d\n", trau_ecu_register(OSMO_ECU_CODEC_FR));
    printf("other %s\n", osmo_ecu_init(context, OTHER) ? "made" : "none");
    for (int k = 0; k < 2; k++) {
        states[k] = osmo_ecu_init(context, CODEC);
        if (!states[k] || states[k]->codec != CODEC || talloc_get_size(states[k]) < sizeof *states[k] + sizeof(struct trau_fr_receiver)) {
            printf("state %d isn't one of this codec with room for a receiver\n", k);
            return 1;
        }
    }
    printf("blocks %zu\n", talloc_total_blocks(context));
    while (fread(operation, sizeof operation, 1, stdin) == 1) {
        struct osmo_ecu_state *state = states[operation[0] & 1];

        if (operation[1] == 0)
            print_out(state);
        else
            printf("%d\n", osmo_ecu_frame_in(state, operation[1] == 2, operation + 3, operation[2]));
    }
    for (int k = 0; k < 2; k++)
        osmo_ecu_destroy(states[k]);
    printf("blocks %zu\n", talloc_total_blocks(context));
    talloc_free(context);
    return 0;
}
