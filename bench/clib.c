/* clib libgsm|spandsp SAMPLES LOOPS: encodes and decodes the periods of a file of 16-bit samples, all in memory, so many times.
 *
 * Prints the least processor time of a frame, in nanoseconds, of encoding and of decoding, packing in 33 octets included, and a sum of
 * all that was made. spandsp is there where SPANDSP was defined. */
#include <stdint.h>
#include <stdio.h>
#include <stdlib.h>
#include <string.h>
#include <time.h>
#ifdef SPANDSP
#include <spandsp.h>
#endif

typedef struct gsm_state *gsm;
extern gsm gsm_create(void);
extern void gsm_encode(gsm, short *, unsigned char *);
extern int gsm_decode(gsm, unsigned char *, short *);

enum { SAMPLES = 160, OCTETS = 33 };

typedef void work(void *state, int16_t *samples, uint8_t *octets);

static void libgsm_encode(void *state, int16_t *samples, uint8_t *octets) { gsm_encode(state, samples, octets); }
static void libgsm_decode(void *state, int16_t *samples, uint8_t *octets) { gsm_decode(state, octets, samples); }
#ifdef SPANDSP
static void spandsp_encode(void *state, int16_t *samples, uint8_t *octets) { gsm0610_encode(state, octets, samples, SAMPLES); }
static void spandsp_decode(void *state, int16_t *samples, uint8_t *octets) { gsm0610_decode(state, samples, octets, OCTETS); }
#endif

static double now(void)
{
    struct timespec t;

    clock_gettime(CLOCK_PROCESS_CPUTIME_ID, &t);
    return t.tv_sec * 1e9 + t.tv_nsec;
}

static double nanoseconds(work *each, void *state, int16_t *samples, uint8_t *octets, long frames)
{
    double start = now();

    for (long i = 0; i < frames; i++)
        each(state, samples + SAMPLES * i, octets + OCTETS * i);
    return (now() - start) / (double)frames;
}

static void *new_state(int spandsp)
{
#ifdef SPANDSP
    if (spandsp)
        return gsm0610_init(NULL, GSM0610_PACKING_VOIP);
#endif
    return spandsp ? NULL : (void *)gsm_create();
}

int main(int argc, char **argv)
{
    int spandsp = argc == 4 && !strcmp(argv[1], "spandsp");
    work *encode = libgsm_encode, *decode = libgsm_decode;
    FILE *file = argc == 4 ? fopen(argv[2], "rb") : NULL;

#ifdef SPANDSP
    if (spandsp) {
        encode = spandsp_encode;
        decode = spandsp_decode;
    }
#endif
    if (!file || !new_state(spandsp)) {
        fprintf(stderr, "usage: clib libgsm|spandsp SAMPLES LOOPS\n");
        return 2;
    }
    fseek(file, 0, SEEK_END);
    long frames = ftell(file) / (2 * SAMPLES);
    rewind(file);
    int16_t *samples = malloc((size_t)frames * SAMPLES * 2), *heard = malloc((size_t)frames * SAMPLES * 2);
    uint8_t *octets = malloc((size_t)frames * OCTETS);
    double least[2] = {1e18, 1e18};
    unsigned long sum = 0;

    if (!samples || !heard || !octets || fread(samples, 2 * SAMPLES, (size_t)frames, file) != (size_t)frames)
        return 2;
    for (long loop = 0; loop < atol(argv[3]); loop++) {
        double a = nanoseconds(encode, new_state(spandsp), samples, octets, frames);
        double b = nanoseconds(decode, new_state(spandsp), heard, octets, frames);
        least[0] = a < least[0] ? a : least[0];
        least[1] = b < least[1] ? b : least[1];
    }
    for (long i = 0; i < frames * OCTETS; i++)
        sum = sum * 31 + octets[i];
    for (long i = 0; i < frames * SAMPLES; i++)
        sum = sum * 31 + (uint16_t)heard[i];
    printf("%.0f %.0f %lx\n", least[0], least[1], sum);
    return 0;
}
