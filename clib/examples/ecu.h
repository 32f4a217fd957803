/* An error concealment unit for Osmocom (ecu.c). */
#ifndef TRAU_ECU_H
#define TRAU_ECU_H

#include <osmocom/codec/ecu.h>

/* Registers the unit for a codec. 0, or -EBUSY if there is a unit for it: libosmocodec.so registers its own for OSMO_ECU_CODEC_FR when it
 * is loaded, so another one for full rate frames takes a codec that has none, as OSMO_ECU_CODEC_EFR, and is asked for by that. */
int trau_ecu_register(enum osmo_ecu_codec codec);

#endif
