/* Plays a .gsm file, as RTP's packets would be heard: frames on standard input, 160 samples of 16 bits for each on standard output.
 *
 *     cc -o heard heard.c $(pkg-config --cflags --libs trau_fr) && ./heard <speech.gsm >speech.raw
 *
 * A frame that didn't come is a call of trau_fr_receive with TRAU_FR_LOST. */
#include <stdbool.h>
#include <stdint.h>
#include <stdio.h>
#include <trau_fr.h>

int main(void)
{
    struct trau_fr_receiver receiver = trau_fr_receiver_home(1);
    uint8_t frame[TRAU_FR_OCTETS];
    int16_t samples[TRAU_FR_SAMPLES];

    while (fread(frame, sizeof frame, 1, stdin) == 1) {
        trau_fr_receive(&receiver, frame, trau_fr_kind(frame), false, samples);
        fwrite(samples, sizeof samples, 1, stdout);
    }
    return 0;
}
