"""The streams of a capture as rows of a scan."""

from typing import List, Tuple

from trau.recordings import rtp_packets, scan_rows
from trau.recordings.line_calls import KINDS_OF_CODES, kind_of_patterns, put_counts
from trau.recordings.rtp_packets import LEAST_OF_STREAM, READ_KINDS, TRAU_FRAMES
from trau.recordings.rtp_walk import CapturedStream, CaptureScan, Key, gsmtap_said
from trau.recordings.scan_rows import ScanRow, utc_of
from trau.recordings.udp_layers import key_said
from trau.rules.parameters import GSM_MAGIC, GSM_OCTETS
from trau.rules.payload_types import GSM, PCMA, PCMU

TWO_SENDERS = "two senders with one SSRC, as it seems"
KIND_WORDS = {GSM: scan_rows.GSM, PCMA: scan_rows.ALAW, PCMU: scan_rows.MULAW}


def is_listed(stream: CapturedStream) -> bool:
    """Whether a stream is one: a few packets of other kinds may look like RTP."""
    if any(kind in READ_KINDS for kind in stream.kinds):
        return True
    return stream.packets >= LEAST_OF_STREAM


def speech_type(stream: CapturedStream) -> int:
    """The payload type of a stream's speech, or that of most packets where it has none."""
    of_speech = {kind: count for kind, count in stream.kinds.items() if kind in READ_KINDS}
    return max(of_speech, key=lambda kind: of_speech[kind]) if of_speech else stream.kind()


def word_of(stream: CapturedStream, kind: int) -> str:
    """The kind of a row, of a stream whose packets have this type of speech, as it says, or
    another."""
    if 2 * stream.wrong > stream.kinds[kind]:
        return scan_rows.UNKNOWN
    if kind == TRAU_FRAMES:
        return kind_of_patterns(bytes(stream.codes))[0] or scan_rows.UNKNOWN
    return KIND_WORDS.get(kind, scan_rows.UNKNOWN)


def payload_detail(stream: CapturedStream, kind: int) -> str:
    """What the payloads of a stream seem to be that isn't speech by its type."""
    is_gsm = len(stream.sample) == GSM_OCTETS and stream.sample[0] >> 4 == GSM_MAGIC
    said = f"GSM as it seems, which --type {kind}=gsm takes"
    return f"payload type {kind}: {said if is_gsm else rtp_packets.payload_said(stream.sample)}"


def detail_of(key: Key, stream: CapturedStream, kind: int) -> str:
    """What else there is to say of a stream."""
    parts, wrong = [], {"no whole frames": stream.wrong}
    if kind == TRAU_FRAMES:
        parts += [gsmtap_said(key[1]), kind_of_patterns(bytes(stream.codes))[1]]
        wrong = {"no frame": stream.wrong}
    elif word_of(stream, kind) == scan_rows.UNKNOWN:
        parts.append(payload_detail(stream, kind))
        wrong = {}
    if stream.has_two_senders():
        parts.append(TWO_SENDERS)
    others = stream.packets - stream.kinds[kind]
    counts = {
        **{"of other types": others, "late": stream.late, "doubled": stream.doubled},
        **{"restarts": stream.restarts, "cut off": stream.cut, **wrong},
    }
    parts += [f"{word} {count}" for word, count in counts.items() if count]
    return "; ".join(filter(None, parts))


def row_of_stream(key: Key, stream: CapturedStream, begins: float) -> ScanRow:
    """A stream as a row; its times count from the capture's first packet."""
    kind = speech_type(stream)
    source, target = key_said(key[0])
    word = word_of(stream, kind)
    row = ScanRow(
        word,
        stream.first - begins,
        stream.last - begins,
        source=source,
        target=target,
        ssrc=f"0x{key[1]:08x}",
        detail=detail_of(key, stream, kind),
        utc=utc_of(stream.first),
        frames=stream.packets,
        descriptors=stream.descriptors if word == scan_rows.GSM else None,
        lost=None if kind == TRAU_FRAMES else stream.missing,
    )
    if kind == TRAU_FRAMES and word == scan_rows.UPLINK:
        put_counts(row, bytes(stream.codes).translate(KINDS_OF_CODES))
    return row


def listed_streams(scan: CaptureScan) -> List[Tuple[Key, CapturedStream]]:
    """The streams of a capture that are listed, in their order."""
    return [(key, stream) for key, stream in scan.streams.items() if is_listed(stream)]


def rows_of(scan: CaptureScan) -> List[ScanRow]:
    """The streams of a capture as rows."""
    return [row_of_stream(key, stream, scan.begins) for key, stream in listed_streams(scan)]


def unread_said(scan: CaptureScan) -> str:
    """What wasn't read of a capture, in words."""
    return ", ".join(f"{count} {why}" for why, count in scan.unread.items())
