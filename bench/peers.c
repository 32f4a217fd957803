/* Runs the full rate codec of libgsm or of spandsp over frames in memory.
 *
 *     peers libgsm|spandsp encode|decode INPUT OUTPUT
 *
 * reads the whole of INPUT, then works it frame by frame, then writes the whole of OUTPUT: between the
 * two there is the codec alone. Samples are of 16 bits, in the machine's order of octets. A frame is 33
 * octets: four bits 1101 and the 260 bits, each parameter's most significant first. */
#include <gsm.h>
#include <spandsp.h>
#include <stdint.h>
#include <stdio.h>
#include <stdlib.h>
#include <string.h>

enum { SAMPLES = 160, FRAME_OCTETS = 33 };

typedef void work(void *state, uint8_t *frame, int16_t *samples);

static void libgsm_encode(void *state, uint8_t *frame, int16_t *samples) {
    gsm_encode(state, samples, frame);
}

static void libgsm_decode(void *state, uint8_t *frame, int16_t *samples) {
    gsm_decode(state, frame, samples);
}

static void spandsp_encode(void *state, uint8_t *frame, int16_t *samples) {
    gsm0610_encode(state, frame, samples, SAMPLES);
}

static void spandsp_decode(void *state, uint8_t *frame, int16_t *samples) {
    gsm0610_decode(state, samples, frame, FRAME_OCTETS);
}

static void *libgsm_state(void) {
    return gsm_create();
}

static void *spandsp_state(void) {
    return gsm0610_init(NULL, GSM0610_PACKING_VOIP);
}

struct codec {
    const char *name;
    void *(*state)(void);
    work *encode, *decode;
};

static const struct codec CODECS[] = {
    {"libgsm", libgsm_state, libgsm_encode, libgsm_decode},
    {"spandsp", spandsp_state, spandsp_encode, spandsp_decode},
};

static void fail(const char *why) {
    fprintf(stderr, "peers: %s\n", why);
    exit(1);
}

static const struct codec *codec_named(const char *name) {
    for (size_t i = 0; i < sizeof CODECS / sizeof *CODECS; i++)
        if (strcmp(CODECS[i].name, name) == 0)
            return &CODECS[i];
    fail("no such codec");
    return NULL;
}

static void *room(size_t octets) {
    void *made = malloc(octets + 1);
    if (!made)
        fail("no memory");
    return made;
}

static uint8_t *read_whole(const char *name, size_t *octets) {
    FILE *file = fopen(name, "rb");
    if (!file || fseek(file, 0, SEEK_END) != 0)
        fail("the input can't be opened");
    *octets = (size_t)ftell(file);
    rewind(file);
    uint8_t *whole = room(*octets);
    if (fread(whole, 1, *octets, file) != *octets)
        fail("the input can't be read");
    fclose(file);
    return whole;
}

static void write_whole(const char *name, const void *octets, size_t count) {
    FILE *file = fopen(name, "wb");
    if (!file || fwrite(octets, 1, count, file) != count || fclose(file) != 0)
        fail("the output can't be written");
}

int main(int argc, char **argv) {
    if (argc != 5)
        fail("wants CODEC encode|decode INPUT OUTPUT");
    const struct codec *codec = codec_named(argv[1]);
    int is_encoding = strcmp(argv[2], "encode") == 0;
    size_t in_octets = is_encoding ? SAMPLES * sizeof(int16_t) : FRAME_OCTETS;
    size_t out_octets = is_encoding ? FRAME_OCTETS : SAMPLES * sizeof(int16_t);
    work *one = is_encoding ? codec->encode : codec->decode;
    size_t octets;
    uint8_t *input = read_whole(argv[3], &octets);
    size_t frames = octets / in_octets;
    uint8_t *output = room(frames * out_octets);
    void *state = codec->state();
    for (size_t k = 0; k < frames; k++) {
        uint8_t *in = input + k * in_octets, *out = output + k * out_octets;
        one(state, is_encoding ? out : in, (int16_t *)(void *)(is_encoding ? in : out));
    }
    write_whole(argv[4], output, frames * out_octets);
    return 0;
}
