/* Carries a call: RTP of GSM full rate on one port of this host, of A-law on another one, and the side behind each port hears the other. The
 * ports of both sides are given too. The record of each period goes to standard output.
 *
 *     cc -o call call.c $(pkg-config --cflags --libs trau_call) && ./call 5004 6004 5006 6006 3000 >records
 *
 * Each period is a call of trau_call_packet for each datagram that came, and one of trau_call_turn. */
#include <arpa/inet.h>
#include <stdio.h>
#include <stdlib.h>
#include <sys/random.h>
#include <sys/socket.h>
#include <time.h>
#include <trau_call.h>

/* A socket on one port of this host, for the peer on another. */
static int between(const char *here, const char *there)
{
    struct sockaddr_in ends[2] = {{.sin_family = AF_INET}, {.sin_family = AF_INET}};
    int side = socket(AF_INET, SOCK_DGRAM, 0);

    ends[0].sin_addr.s_addr = ends[1].sin_addr.s_addr = htonl(INADDR_LOOPBACK);
    ends[0].sin_port = htons((uint16_t)atoi(here));
    ends[1].sin_port = htons((uint16_t)atoi(there));
    if (bind(side, (struct sockaddr *)&ends[0], sizeof ends[0]) < 0 || connect(side, (struct sockaddr *)&ends[1], sizeof ends[1]) < 0)
        exit(2);
    return side;
}

int main(int count, char **words)
{
    struct trau_call_settings settings = {.number = 1, .law = TRAU_CALL_ALAW, .depth = 2, .prime = 1, .gsm = 3, .pcm = 8};
    struct trau_call call;
    struct trau_record record;
    struct trau_datagrams datagrams;
    struct timespec next;
    uint8_t octets[9000];

    if (count != 6 || getrandom(settings.random, sizeof settings.random, 0) < 0 || trau_call_begin(&call, &settings) != TRAU_CALL_BEGUN)
        return 2;
    int sides[] = {[TRAU_CALL_GSM] = between(words[1], words[2]), [TRAU_CALL_PCM] = between(words[3], words[4])};
    clock_gettime(CLOCK_MONOTONIC, &next);
    for (uint32_t tick = 0; tick < (uint32_t)atoi(words[5]); tick++) {
        for (uint32_t side = TRAU_CALL_GSM; side <= TRAU_CALL_PCM; side++)
            for (ssize_t size; (size = recv(sides[side], octets, sizeof octets, MSG_DONTWAIT)) >= 0;)
                trau_call_packet(&call, side, octets, (size_t)size, tick, 0);
        if (trau_call_turn(&call, tick, 256, true, &record, &datagrams))
            send(sides[TRAU_CALL_GSM], datagrams.gsm, sizeof datagrams.gsm, 0);
        send(sides[TRAU_CALL_PCM], datagrams.pcm, sizeof datagrams.pcm, 0);
        fwrite(&record, sizeof record, 1, stdout);
        next.tv_sec += (next.tv_nsec + 20000000) / 1000000000;
        next.tv_nsec = (next.tv_nsec + 20000000) % 1000000000;
        clock_nanosleep(CLOCK_MONOTONIC, TIMER_ABSTIME, &next, NULL);
    }
    trau_call_end(&call);
    return 0;
}
