/* sides WORK LINE LOOPS: the time of a period of one kind of work by libtrau_fr, over the A-law octets of a file, all in memory.
 *
 * Prints the least processor time of a period of all loops, in nanoseconds, and a sum of all that was made. Without words it prints the
 * kinds of work, one a line. */
#include <stdio.h>
#include <stdlib.h>
#include <string.h>
#include <time.h>

#include <trau_fr.h>

#define MOST_PERIODS 4000
#define LOUDEST 32767

struct call {
    struct trau_fr_encoder encoder;
    struct trau_fr_decoder decoder;
    struct trau_fr_sender sender;
    struct trau_fr_receiver receiver;
};

static uint8_t line[MOST_PERIODS][160], frames[MOST_PERIODS][TRAU_FR_OCTETS], sent[TRAU_FR_OCTETS], heard[160];

static void expand_encode_pack(struct call *call, long k)
{
    int16_t samples[160];

    trau_alaw_expand(line[k], samples);
    trau_fr_encode_octets(&call->encoder, samples, sent);
}

static void send_by(struct call *call, long k, int16_t level)
{
    int16_t samples[160];

    trau_alaw_expand(line[k], samples);
    trau_fr_send(&call->sender, samples, level, true, sent);
}

static void send_speech(struct call *call, long k) { send_by(call, k, 0); }
static void send_pauses(struct call *call, long k) { send_by(call, k, LOUDEST); }

static void decode_compress(struct call *call, long k)
{
    int16_t samples[160];

    trau_fr_decode_octets(&call->decoder, frames[k], samples);
    trau_alaw_compress(samples, heard);
}

static void receive_by(struct call *call, long k, uint32_t kind)
{
    int16_t samples[160];

    trau_fr_receive(&call->receiver, frames[k], kind, false, samples);
    trau_alaw_compress(samples, heard);
}

static void receive_good(struct call *call, long k) { receive_by(call, k, TRAU_FR_SPEECH); }
static void receive_lost(struct call *call, long k) { receive_by(call, k, k % 2 ? TRAU_FR_LOST : TRAU_FR_SPEECH); }
static void receive_noise(struct call *call, long k) { receive_by(call, k, k % 24 ? TRAU_FR_LOST : TRAU_FR_DESCRIPTOR); }
static void receive_quiet(struct call *call, long k) { receive_by(call, k, TRAU_FR_IDLE); }

static const struct work {
    const char *name;
    void (*period)(struct call *call, long k);
} works[] = {
    {"expand, encode", expand_encode_pack},
    {"expand, send: speech", send_speech},
    {"expand, send: pauses", send_pauses},
    {"decode, compress", decode_compress},
    {"receive, compress: good", receive_good},
    {"receive, compress: every second lost", receive_lost},
    {"receive, compress: noise", receive_noise},
    {"receive, compress: quiet", receive_quiet},
};
enum { WORKS = sizeof works / sizeof *works };

static double now(void)
{
    struct timespec t;

    clock_gettime(CLOCK_PROCESS_CPUTIME_ID, &t);
    return t.tv_sec * 1e9 + t.tv_nsec;
}

static struct call home(void)
{
    return (struct call){trau_fr_encoder_home(), trau_fr_decoder_home(), trau_fr_sender_home(), trau_fr_receiver_home(1)};
}

static double least_time(const struct work *work, long periods, long loops, unsigned long *sum)
{
    double least = 1e18;

    for (long loop = 0; loop < loops; loop++) {
        struct call call = home();
        double begun = now();
        for (long k = 0; k < periods; k++) {
            work->period(&call, k);
            *sum = *sum * 31 + sent[20] + heard[80];
        }
        double each = (now() - begun) / (double)periods;
        least = each < least ? each : least;
    }
    return least;
}

static const struct work *named(const char *name)
{
    for (int i = 0; i < WORKS; i++)
        if (!strcmp(works[i].name, name))
            return &works[i];
    return NULL;
}

int main(int argc, char **argv)
{
    const struct work *work = argc == 4 ? named(argv[1]) : NULL;
    FILE *file = work ? fopen(argv[2], "rb") : NULL;
    struct call call = home();
    unsigned long sum = 0;

    for (int i = 0; argc == 1 && i < WORKS; i++)
        printf("%s\n", works[i].name);
    if (argc == 1)
        return 0;
    long periods = file ? (long)fread(line, sizeof *line, MOST_PERIODS, file) : 0;
    if (!periods)
        return 2;
    for (long k = 0; k < periods; k++) {
        expand_encode_pack(&call, k);
        memcpy(frames[k], sent, sizeof sent);
    }
    double least = least_time(work, periods, atol(argv[3]), &sum);
    printf("%.0f %lx\n", least, sum);
    return 0;
}
