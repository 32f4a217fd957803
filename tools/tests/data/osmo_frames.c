/* Writes lines of three uplink frames of each kind that libosmotrau (libosmo-abis 1.3.0) encodes at 16 kbit/s, in the order of its own numbers
 * of kinds, with data bits 1 and all control bits after C5 0. Idle frames of both ways get the downlink's C1 to C5 from it.
 *
 * cc osmo_frames.c -o osmo_frames $(pkg-config --cflags --libs libosmotrau libosmocore) && ./osmo_frames >osmo-kinds.up
 */
#include <osmocom/core/bits.h>
#include <osmocom/trau/trau_frame.h>
#include <stdio.h>
#include <string.h>

int main(void)
{
	for (int kind = OSMO_TRAU16_FT_FR; kind <= OSMO_TRAU16_FT_IDLE; kind++) {
		struct osmo_trau_frame frame = { .type = kind, .dir = OSMO_TRAU_DIR_UL };
		ubit_t bits[2 * 640];
		uint8_t octets[40];

		memset(frame.d_bits, 1, sizeof(frame.d_bits));
		memset(frame.t_bits, 1, sizeof(frame.t_bits));
		if (osmo_trau_frame_encode(bits, sizeof(bits), &frame) != 8 * sizeof(octets))
			return 1;
		osmo_ubit2pbit(octets, bits, 8 * sizeof(octets));
		for (int count = 0; count < 3; count++)
			fwrite(octets, sizeof(octets), 1, stdout);
	}
	return 0;
}
