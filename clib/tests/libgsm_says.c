/* Writes what a library with libgsm's interface does, to be compared with what another wrote: options, frames in both packings,
 * parameters both ways, prints, refusals, and edges. */
#include <stdio.h>
#include <string.h>

typedef struct gsm_state *gsm;
extern gsm gsm_create(void);
extern void gsm_destroy(gsm);
extern int gsm_print(FILE *, gsm, unsigned char *);
extern int gsm_option(gsm, int, int *);
extern void gsm_encode(gsm, short *, unsigned char *);
extern int gsm_decode(gsm, unsigned char *, short *);
extern int gsm_explode(gsm, unsigned char *, short *);
extern void gsm_implode(gsm, short *, unsigned char *);

/* Octets that are shown of a frame: more than are written of it. */
#define SHOWN 36

enum { WAV49 = 4, FRAME_INDEX = 5, FRAME_CHAIN = 6 };

static unsigned random_word(void)
{
    static unsigned long long state = 88172645463325252ull;

    state ^= state << 13;
    state ^= state >> 7;
    state ^= state << 17;
    return (unsigned)(state >> 20);
}

static void octets_out(const unsigned char *octets)
{
    for (int i = 0; i < SHOWN; i++)
        printf("%02x", octets[i]);
    printf("\n");
}

static void values_out(const short *values, int count)
{
    for (int i = 0; i < count; i++)
        printf("%d%c", values[i], i + 1 < count ? ' ' : '\n');
}

/* A frame of a tone, of noise or of steps. */
static void samples_of(int frame, short *samples)
{
    for (int i = 0; i < 160; i++) {
        int noise = (int)(random_word() % 4096) - 2048;

        samples[i] = (short)(frame % 3 == 0 ? frame * i * 337 % 20000 - 10000 : frame % 3 == 1 ? noise : i / 40 * 3000);
    }
}

static void options(void)
{
    int values[] = {1, 0, 5, 300, -1};
    gsm state = gsm_create();

    for (int option = 0; option < 9; option++) {
        printf("option %d: %d", option, gsm_option(state, option, NULL));
        for (int i = 0; i < 5; i++)
            printf(" %d", gsm_option(state, option, &values[i]));
        printf(" %d\n", gsm_option(state, option, NULL));
    }
    gsm_destroy(state);
}

/* Frames encoded, decoded, taken apart, put together and printed. */
static void frames(int wav49)
{
    gsm encoder = gsm_create(), decoder = gsm_create(), other = gsm_create();
    unsigned char octets[SHOWN];
    short samples[160], values[76];

    gsm_option(encoder, WAV49, &wav49);
    gsm_option(decoder, WAV49, &wav49);
    gsm_option(other, WAV49, &wav49);
    for (int frame = 0; frame < 30; frame++) {
        int first = frame % 3 == 0;

        gsm_option(other, FRAME_INDEX, &first);
        samples_of(frame, samples);
        memset(octets, 0xAA, sizeof octets);
        gsm_encode(encoder, samples, octets);
        octets_out(octets);
        printf("index %d chain %d\n", gsm_option(encoder, FRAME_INDEX, NULL), gsm_option(encoder, FRAME_CHAIN, NULL));
        /* Of a pair, the second half is read behind the octet that both share. */
        printf("decoded %d: ", gsm_decode(decoder, wav49 && frame % 2 ? octets + 1 : octets, samples));
        values_out(samples, 160);
        for (int i = 0; i < SHOWN; i++)
            octets[i] = (unsigned char)random_word();
        if (frame % 5)
            octets[0] = (unsigned char)(0xD0 | (octets[0] & 15));
        memset(values, 0, sizeof values);
        printf("explode %d: ", gsm_explode(other, octets, values));
        values_out(values, 76);
        for (int i = 0; i < 76; i++)
            values[i] = (short)random_word();
        memset(octets, 0xAA, sizeof octets);
        gsm_implode(other, values, octets);
        octets_out(octets);
        printf("index %d chain %d\n", gsm_option(other, FRAME_INDEX, NULL), gsm_option(other, FRAME_CHAIN, NULL));
        printf("print %d\n", gsm_print(stdout, other, octets));
    }
    gsm_destroy(encoder);
    gsm_destroy(decoder);
    gsm_destroy(other);
}

/* Halves of pairs with any index and any bits of the shared octet: of each, all four functions. */
static void halves(void)
{
    static const int indices[] = {0, 1, 2, 3, 128, 255, 256, 257, -1}, chains[] = {0, 5, 15, 16, 0xAF, 0xFF, 0x1A5, -2};
    gsm encoder = gsm_create(), decoder = gsm_create();
    unsigned char octets[SHOWN];
    short samples[160], values[76];
    int on = 1;

    gsm_option(encoder, WAV49, &on);
    gsm_option(decoder, WAV49, &on);
    for (int i = 0; i < 9; i++)
        for (int c = 0; c < 8; c++)
            for (int function = 0; function < 4; function++) {
                gsm state = function % 2 ? decoder : encoder;
                int index = indices[i], chain = chains[c];

                gsm_option(state, FRAME_INDEX, &index);
                gsm_option(state, FRAME_CHAIN, &chain);
                samples_of(i + c, samples);
                for (int k = 0; k < SHOWN; k++)
                    octets[k] = (unsigned char)random_word();
                for (int k = 0; k < 76; k++)
                    values[k] = (short)random_word();
                if (function == 0)
                    gsm_encode(state, samples, octets);
                else if (function == 1)
                    gsm_decode(state, octets, samples);
                else if (function == 2)
                    gsm_implode(state, values, octets);
                else
                    gsm_explode(state, octets, values);
                printf("half %d %d %d: ", index, chain, function);
                octets_out(octets);
                values_out(function == 1 ? samples : values, 76);
                printf("index %d chain %d\n", gsm_option(state, FRAME_INDEX, NULL), gsm_option(state, FRAME_CHAIN, NULL));
            }
    gsm_destroy(encoder);
    gsm_destroy(decoder);
}

/* A first frame whose lags are out of range, refused octets, and an option that is set again between two frames; with the samples that the
 * caller has afterwards. */
static void edges(void)
{
    gsm encoder = gsm_create(), decoder = gsm_create(), other = gsm_create();
    unsigned char octets[SHOWN];
    short samples[160], values[76];
    int off = 0;

    for (int frame = 0; frame < 3; frame++) {
        for (int i = 0; i < 76; i++)
            values[i] = (short)random_word();
        for (int block = 0; block < 4 && frame == 0; block++)
            values[8 + 17 * block] = block % 2 ? 0 : 127;
        gsm_implode(other, values, octets);
        printf("edge %d: ", gsm_decode(decoder, octets, samples));
        values_out(samples, 160);
        octets[0] ^= 0x80;
        printf("edge %d: ", gsm_decode(decoder, octets, samples));
        values_out(samples, 160);
    }
    for (int frame = 0; frame < 3; frame++) {
        samples_of(3 * frame + 1, samples);
        memset(octets, 0xAA, sizeof octets);
        gsm_option(encoder, WAV49, &off);
        gsm_encode(encoder, samples, octets);
        octets_out(octets);
        values_out(samples, 160);
    }
    gsm_destroy(encoder);
    gsm_destroy(decoder);
    gsm_destroy(other);
}

int main(void)
{
    options();
    frames(0);
    frames(1);
    halves();
    edges();
    return 0;
}
