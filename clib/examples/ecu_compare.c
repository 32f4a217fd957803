/* ecu_compare FRAMES.gsm LOST: both error concealment units, libosmocodec's own and ecu.c, over the same lost frames.
 *
 * LOST has a digit a frame: 1 where it is lost. For each lost frame a line says its number, how many are lost in a row up to it, and of what each
 * unit gives: the sum of the four block maxima, and whether the log area ratios (R) and the grid positions (G) are those of the last frame that came.
 * Then, by the frames lost in a row, the mean of a block maximum, and in how many frames R and G hold. */
#include <stdio.h>
#include <stdlib.h>
#include <string.h>

#include <trau_fr.h>

#include "ecu.h"

#define MOST_FRAMES 100000
#define MOST_IN_A_ROW 24

enum { OSMOCOM, TRAU, UNITS };
static const char *const names[UNITS] = {"osmocom", "trau"};

/* What a unit gives in place of lost frames. */
struct given {
    long frames, maxima, ratios, grids;
};

/* What it has given, by the number of frames lost in a row. */
static struct given sums[UNITS][MOST_IN_A_ROW + 1];

static struct given measured(const uint8_t octets[TRAU_FR_OCTETS], const struct trau_fr_params *last)
{
    struct trau_fr_params frame;
    struct given found = {.frames = 1};

    if (!trau_fr_unpack(octets, &frame))
        return found;
    for (int j = 0; j < 4; j++)
        found.maxima += frame.xmaxc[j];
    found.ratios = !memcmp(frame.larc, last->larc, sizeof frame.larc);
    found.grids = !memcmp(frame.mc, last->mc, sizeof frame.mc);
    return found;
}

static void add(struct given *sum, struct given one)
{
    sum->frames += one.frames;
    sum->maxima += one.maxima;
    sum->ratios += one.ratios;
    sum->grids += one.grids;
}

static void conceal(struct osmo_ecu_state *states[UNITS], const struct trau_fr_params *last, int row)
{
    uint8_t octets[TRAU_FR_OCTETS];

    for (int unit = 0; unit < UNITS; unit++) {
        osmo_ecu_frame_out(states[unit], octets);
        struct given found = measured(octets, last);
        printf("  %s %ld %c%c", names[unit], found.maxima, found.ratios ? 'R' : '-', found.grids ? 'G' : '-');
        add(&sums[unit][row], found);
    }
    printf("\n");
}

static void compare(struct osmo_ecu_state *states[UNITS], FILE *frames, const char *lost)
{
    struct trau_fr_params last = {0};
    uint8_t octets[TRAU_FR_OCTETS];
    int row = 0;

    for (long k = 0; lost[k] && fread(octets, sizeof octets, 1, frames) == 1; k++) {
        if (lost[k] == '1') {
            row += row < MOST_IN_A_ROW;
            printf("frame %ld lost %d:", k, row);
            conceal(states, &last, row);
        } else {
            row = 0;
            trau_fr_unpack(octets, &last);
            for (int unit = 0; unit < UNITS; unit++)
                osmo_ecu_frame_in(states[unit], false, octets, sizeof octets);
        }
    }
}

static void print_sums(void)
{
    for (int row = 1; row <= MOST_IN_A_ROW; row++) {
        if (!sums[TRAU][row].frames)
            continue;
        printf("lost in a row %2d%c of %3ld:", row, row == MOST_IN_A_ROW ? '+' : ' ', sums[TRAU][row].frames);
        for (int unit = 0; unit < UNITS; unit++) {
            const struct given *sum = &sums[unit][row];
            printf("  %s %4.1f R %3ld G %3ld", names[unit], (double)sum->maxima / (double)(4 * sum->frames), sum->ratios, sum->grids);
        }
        printf("\n");
    }
}

/* Registers the unit of ecu.c for a codec that has none, and returns that. */
static enum osmo_ecu_codec free_codec(void)
{
    static const enum osmo_ecu_codec codecs[] = {OSMO_ECU_CODEC_EFR, OSMO_ECU_CODEC_HR, OSMO_ECU_CODEC_AMR};

    for (size_t i = 0; i < sizeof codecs / sizeof *codecs; i++)
        if (!trau_ecu_register(codecs[i]))
            return codecs[i];
    fprintf(stderr, "ecu_compare: each codec has a unit\n");
    exit(2);
}

int main(int argc, char **argv)
{
    static char lost[MOST_FRAMES + 1];
    FILE *frames = argc == 3 ? fopen(argv[1], "rb") : NULL, *digits = argc == 3 ? fopen(argv[2], "r") : NULL;
    struct osmo_ecu_state *states[UNITS];

    if (!frames || !digits || fscanf(digits, "%100000[01]", lost) != 1) {
        fprintf(stderr, "usage: ecu_compare FRAMES.gsm LOST\n");
        return 2;
    }
    states[OSMOCOM] = osmo_ecu_init(NULL, OSMO_ECU_CODEC_FR);
    states[TRAU] = osmo_ecu_init(NULL, free_codec());
    compare(states, frames, lost);
    print_sums();
    for (int unit = 0; unit < UNITS; unit++)
        osmo_ecu_destroy(states[unit]);
    return 0;
}
