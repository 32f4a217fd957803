/* Sends GSM frames as a base station of Osmocom does, by the RTP sender of libosmotrau (libosmo-abis 1.3.0).
 *
 * Each line of standard input is a period of 20 ms: the payload in hexadecimal digits, `marked ` before it if the packet has the marker
 * bit; `empty` for a packet without payload; `skip` for a frame that isn't sent.
 *
 * cc osmo_sender.c -o osmo_sender $(pkg-config --cflags --libs libosmotrau libosmocore) && ./osmo_sender 5004 <osmo.txt
 */
#include <osmocom/core/application.h>
#include <osmocom/core/logging.h>
#include <osmocom/core/talloc.h>
#include <osmocom/core/utils.h>
#include <osmocom/trau/osmo_ortp.h>
#include <stdio.h>
#include <stdlib.h>
#include <string.h>
#include <unistd.h>

static const struct log_info no_log = {0};

int main(int count, char **words)
{
	char line[256];
	uint8_t payload[64];

	if (count != 2)
		return 2;
	void *context = talloc_named_const(NULL, 0, "sender");
	osmo_init_logging2(context, &no_log);
	osmo_rtp_init(context);
	struct osmo_rtp_socket *socket = osmo_rtp_socket_create(context, OSMO_RTP_F_POLL);
	osmo_rtp_socket_bind(socket, "127.0.0.1", 16384);
	osmo_rtp_socket_connect(socket, "127.0.0.1", atoi(words[1]));
	osmo_rtp_socket_set_pt(socket, RTP_PT_GSM_FULL);
	while (fgets(line, sizeof(line), stdin)) {
		bool marked = strncmp(line, "marked ", 7) == 0;
		line[strcspn(line, "\n")] = 0;
		if (strcmp(line, "skip") == 0)
			osmo_rtp_skipped_frame(socket, GSM_RTP_DURATION);
		else if (strcmp(line, "empty") == 0)
			osmo_rtp_send_frame_ext(socket, payload, 0, GSM_RTP_DURATION, false);
		else {
			int length = osmo_hexparse(line + (marked ? 7 : 0), payload, sizeof(payload));
			osmo_rtp_send_frame_ext(socket, payload, length, GSM_RTP_DURATION, marked);
		}
		usleep(20000);
	}
	return 0;
}
