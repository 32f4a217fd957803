"""Libraries of others as peers, by ctypes."""

import ctypes
from typing import Dict

from trau.suite.operations import DESCRIPTOR, GOOD, GSM_OCTETS, SAMPLE_OCTETS, units
from trau.suite.peers import Answer, Peer, library_of, version_of

WAV_OCTETS = 65
OPTION_WAV49 = 4  # of libgsm
PACKING_WAV49, PACKING_VOIP = 1, 2  # of spandsp
ECU_FULL_RATE = 1  # the codec of libosmocodec's error concealment units


def libgsm() -> Peer:
    """libgsm: a coder for each case."""
    library = library_of("gsm", "libgsm1")
    library.gsm_create.restype = ctypes.c_void_p

    def coder(is_wav: bool) -> ctypes.c_void_p:
        made = ctypes.c_void_p(library.gsm_create())
        library.gsm_option(made, OPTION_WAV49, ctypes.byref(ctypes.c_int(is_wav)))
        return made

    def turned(octets: bytes, size: int, is_wav: bool, is_encoding: bool) -> bytes:
        made, found = coder(is_wav), []
        # Of a block the first frame has 32 octets and a half: the second one begins at octet 32 to
        # be written, and at octet 33 to be read.
        parts = 2 if is_wav else 1
        for each in units(octets, size):
            frame = ctypes.create_string_buffer(each if not is_encoding else bytes(66), 66)
            sound = ctypes.create_string_buffer(each if is_encoding else bytes(640), 640)
            for part in range(parts):
                samples = ctypes.byref(sound, SAMPLE_OCTETS * part)
                if is_encoding:
                    library.gsm_encode(made, samples, ctypes.byref(frame, 32 * part))
                else:
                    library.gsm_decode(made, ctypes.byref(frame, 33 * part), samples)
            size_out = WAV_OCTETS if is_wav else GSM_OCTETS
            found.append(
                frame.raw[:size_out] if is_encoding else sound.raw[: SAMPLE_OCTETS * parts]
            )
        library.gsm_destroy(made)
        return b"".join(found)

    answers: Dict[str, Answer] = {
        "encode": lambda given: turned(given, SAMPLE_OCTETS, False, True),
        "decode": lambda given: turned(given, GSM_OCTETS, False, False),
        "encode-wav": lambda given: turned(given, 2 * SAMPLE_OCTETS, True, True),
        "decode-wav": lambda given: turned(given, WAV_OCTETS, True, False),
    }
    return Peer("libgsm", version_of("libgsm1"), answers)


def spandsp() -> Peer:
    """spandsp's GSM 06.10."""
    library = library_of("spandsp", "libspandsp2")
    library.gsm0610_init.restype = ctypes.c_void_p

    def turned(given: bytes, packing: int, is_encoding: bool) -> bytes:
        state = ctypes.c_void_p(library.gsm0610_init(None, packing))
        to = ctypes.create_string_buffer(10 * len(given) + SAMPLE_OCTETS)
        if is_encoding:
            count = library.gsm0610_encode(state, to, given, len(given) // 2)
        else:
            count = 2 * library.gsm0610_decode(state, to, given, len(given))
        library.gsm0610_free(state)
        return to.raw[:count]

    answers: Dict[str, Answer] = {
        "encode": lambda given: turned(given, PACKING_VOIP, True),
        "decode": lambda given: turned(given, PACKING_VOIP, False),
        "encode-wav": lambda given: turned(given, PACKING_WAV49, True),
        "decode-wav": lambda given: turned(given, PACKING_WAV49, False),
    }
    return Peer("spandsp", version_of("libspandsp2"), answers)


def libosmocodec() -> Peer:
    """libosmocodec of Osmocom: its error concealment unit, and how it finds descriptors. It
    makes no noise of them and knows no invalid ones, so these rules don't apply."""
    library = library_of("osmocodec", "libosmocodec0")
    library.osmo_ecu_init.restype = ctypes.c_void_p
    library.osmo_fr_check_sid.restype = ctypes.c_bool

    def conceal(given: bytes) -> bytes:
        unit = ctypes.c_void_p(library.osmo_ecu_init(None, ECU_FULL_RATE))
        found = []
        for each in units(given, 1 + GSM_OCTETS):
            is_lost, frame = chr(each[0]) != GOOD, each[1:]
            library.osmo_ecu_frame_in(unit, ctypes.c_bool(is_lost), frame, GSM_OCTETS)
            to = ctypes.create_string_buffer(GSM_OCTETS)
            if is_lost:
                library.osmo_ecu_frame_out(unit, to)
                frame = to.raw
            found.append(frame)
        library.osmo_ecu_destroy(unit)
        return b"".join(found)

    def kind(given: bytes) -> bytes:
        frames = units(given, GSM_OCTETS)
        is_descriptor = [library.osmo_fr_check_sid(each, GSM_OCTETS) for each in frames]
        return "".join(DESCRIPTOR if one else GOOD for one in is_descriptor).encode()

    answers: Dict[str, Answer] = {"conceal": conceal, "kind": kind}
    return Peer(
        "libosmocodec", version_of("libosmocodec0"), answers, lacks=("noise.", "kind.invalid")
    )
