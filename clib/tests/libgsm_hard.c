/* libgsm_hard [frames]: encodes and decodes hard signals by libgsm's interface, to be compared with what another library made of them.
 *
 * The signals: noise of full scale and of each smaller one, square waves, impulses, steps of whole frames, saws, tones. Decoded are the
 * octets that encoding wrote, of WAV49 each half's 33 from the first on, and random octets, of which one in eight frames begins with any four bits. Prints a sum for each run of 500 frames; with the
 * word `frames` writes the frames themselves and no sums, so that those that differ can be counted. */
#include <math.h>
#include <stdint.h>
#include <stdio.h>
#include <string.h>

typedef struct gsm_state *gsm;
extern gsm gsm_create(void);
extern void gsm_destroy(gsm);
extern int gsm_option(gsm, int, int *);
extern void gsm_encode(gsm, short *, unsigned char *);
extern int gsm_decode(gsm, unsigned char *, short *);

enum { WAV49 = 4, SAMPLES = 160, OCTETS = 33, RUN = 500, RUNS = 60, KINDS = 8 };

static const char *const names[KINDS] = {"noise", "quiet", "square", "squares", "impulses", "steps", "saws", "tones"};

static uint64_t word = 88172645463325252u;

static unsigned random_word(void)
{
    word ^= word << 13;
    word ^= word >> 7;
    word ^= word << 17;
    return (unsigned)(word >> 20);
}

/* Sample k of a run. `part` counts the runs of its kind, so that scales and periods change. */
static short sample(int kind, int part, int frame, long k)
{
    int scale = 1 << (part % 8 + 4), period = 5 + part * 11;

    switch (kind) {
    case 0:
        return (short)random_word();
    case 1:
        return (short)((int)(random_word() % (2 * scale)) - scale);
    case 2:
        return k % SAMPLES / 7 % 2 ? 32767 : -32768;
    case 3:
        return k / period % 2 ? 32767 : -32768;
    case 4:
        return random_word() % 50 ? 0 : (short)random_word();
    case 5:
        return frame % 2 ? 32767 : -32768;
    case 6:
        return (short)(uint16_t)(k * (977 + 2 * part));
    default:
        /* An integer's sine, the same on each machine. */
        return (short)lround(32767 * sin((double)(k % 8000) * (part + 1) * 97 * 3.14159265358979323846 / 4000));
    }
}

static uint64_t added(uint64_t sum, const void *data, size_t size)
{
    const unsigned char *octets = data;

    for (size_t i = 0; i < size; i++)
        sum = (sum ^ octets[i]) * 1099511628211u;
    return sum;
}

static void work(int wav49, int writes_frames)
{
    gsm encoder = gsm_create(), decoder = gsm_create(), other = gsm_create();
    short samples[SAMPLES], heard[SAMPLES];
    unsigned char octets[OCTETS];

    gsm_option(encoder, WAV49, &wav49);
    gsm_option(decoder, WAV49, &wav49);
    gsm_option(other, WAV49, &wav49);
    for (int run = 0; run < RUNS; run++) {
        uint64_t frames = 14695981039346656037u, own = frames, any = frames;
        int refused = 0;

        for (int frame = 0; frame < RUN; frame++) {
            for (int k = 0; k < SAMPLES; k++)
                samples[k] = sample(run % KINDS, run / KINDS, frame, (long)frame * SAMPLES + k);
            memset(octets, 0, sizeof octets);
            gsm_encode(encoder, samples, octets);
            frames = added(frames, octets, sizeof octets);
            if (writes_frames)
                fwrite(octets, sizeof octets, 1, stdout);
            gsm_decode(decoder, octets, heard);
            own = added(own, heard, sizeof heard);
            for (int i = 0; i < OCTETS; i++)
                octets[i] = (unsigned char)random_word();
            if (frame % 8)
                octets[0] = (unsigned char)(0xD0 | (octets[0] & 15));
            if (gsm_decode(other, octets, heard))
                refused++;
            else
                any = added(any, heard, sizeof heard);
        }
        if (!writes_frames)
            printf("wav49 %d run %2d %-8s frames %016llx heard %016llx random %016llx refused %d\n", wav49, run, names[run % KINDS],
                (unsigned long long)frames, (unsigned long long)own, (unsigned long long)any, refused);
    }
    gsm_destroy(encoder);
    gsm_destroy(decoder);
    gsm_destroy(other);
}

int main(int argc, char **argv)
{
    int writes_frames = argc > 1 && !strcmp(argv[1], "frames");

    work(0, writes_frames);
    work(1, writes_frames);
    return 0;
}
