"""Tests of whole calls: worked ones, and the calls of recorded farms."""

import unittest
from typing import Sequence, Tuple

from material import DOWN, IDLE_DOWN, IDLE_UP, QUIET, UP, line, sid, speech, with_maxima
from trau.rules.frame import bits_of
from trau.rules.g711 import Law, compress_all, expand_all
from trau.rules.parameters import SILENCE, bits_of_parameters
from trau.model.call import (
    Call,
    OutgoingLines,
    Setting,
    BridgeSpan,
    Uplink,
    handed,
    outgoing,
    uplink,
)
from trau.model.codec import FullRateDecoder, FullRateEncoder
from trau.model.transmit import Dtx

IDLE_PCM = b"\xd5" * 160  # of A-law; its samples aren't 0
ZEROS = b"\xff" * 160  # of mu-law; its samples are 0


def call(
    up: bytes,
    pcm: bytes,
    number: int = 7,
    law: Law = Law.A,
    settings: Sequence[Setting] = (),
    spans: Sequence[BridgeSpan] = (),
) -> OutgoingLines:
    """What a call of these lines gives, of as many periods as both have."""
    periods = min(len(up) // 40, len(pcm) // 160)
    return outgoing(Call(number, law, periods, uplink(number, up), pcm, settings, spans))


def decoded(frames: int, law: Law = Law.A) -> bytes:
    """The octets of so many frames of silence, from home."""
    decoder = FullRateDecoder()
    return b"".join(compress_all(law, decoder.decode(QUIET)) for _ in range(frames))


class Calls(unittest.TestCase):
    """Calls without bridges."""

    def test_an_uplink_without_frames(self) -> None:
        made = call(b"\0" * 120, IDLE_PCM * 3, number=1)
        self.assertEqual(made.out, IDLE_PCM * 3)
        self.assertEqual(made.down, b"\xff" * 40 + IDLE_DOWN * 2)
        self.assertEqual(made.counts, [0, 0, 0, 0, 0, 0, 0, 3, 3])

    def test_mu_law(self) -> None:
        made = call(b"\0" * 120, IDLE_PCM * 3, number=4096, law=Law.MU)
        self.assertEqual(made.out, b"\xff" * 480)

    def test_frames_five_bits_late(self) -> None:
        late = "00000" + bits_of(UP * 3)
        up = bytes(int(late[start : start + 8], 2) for start in range(0, 960, 8))
        made = call(up, IDLE_PCM * 3)
        self.assertEqual(made.out, IDLE_PCM + decoded(2))
        self.assertEqual(made.counts, [2, 0, 0, 0, 0, 0, 0, 1, 3])

    def test_shifts(self) -> None:
        up = line([speech(field=field) for field in (39, 0, 63, 40, 0)])
        made = call(up, ZEROS * 5, law=Law.MU)
        whole = "1" * 320 + bits_of(DOWN) + "1" * 312 + bits_of(DOWN)[:316] + bits_of(DOWN)
        self.assertEqual(bits_of(made.down), (whole + bits_of(DOWN))[:1600])
        self.assertEqual(made.counts[-1], 4)

    def test_the_encoder_takes_the_octets_of_its_frame(self) -> None:
        """After a shift of 156 the second frame begins at octet 316."""
        pcm = bytes((37 * k * k + k) % 251 for k in range(160 * 4))
        made = call(line([speech(field=39)] + [speech()] * 3), pcm)
        encoder = FullRateEncoder()
        wanted = [
            encoder.encode(expand_all(Law.A, pcm[start : start + 160])).parameters
            for start in (0, 316)
        ]
        down = bits_of(made.down)
        data = ["".join(map(str, bits_of_parameters(one))) for one in wanted]
        self.assertEqual(
            [down[320 + 33 : 320 + 48], down[952 + 33 : 952 + 48]], [one[:15] for one in data]
        )

    def test_quiet_calls_send_idle_frames_and_code_from_home(self) -> None:
        up = line([speech(), IDLE_UP, IDLE_UP, speech(), speech()])
        made = call(up, ZEROS * 5, law=Law.MU)
        self.assertEqual(made.down, b"\xff" * 40 + DOWN + IDLE_DOWN * 2 + DOWN)
        self.assertEqual(made.out, decoded(1, Law.MU) + ZEROS * 2 + decoded(2, Law.MU))

    def test_dtx_as_the_uplink_asks(self) -> None:
        """DTXd is that of the last speech frame; other frames don't change it."""
        for mode, dtxd, last in (
            (Dtx.UPLINK, True, 0),
            (Dtx.UPLINK, False, 1),
            (Dtx.ON, False, 0),
            (Dtx.OFF, True, 1),
        ):
            up = (
                line([speech(dtxd=dtxd)] + [speech(dtxd=dtxd)] * 4)
                + b"\0" * 40
                + line([speech(dtxd=dtxd)])
            )
            made = call(up, IDLE_PCM * 7, settings=[Setting(0, dtx=mode)])
            flags = [made.down[40 * k + 38] >> 1 & 1 for k in range(1, 7)]
            self.assertEqual(flags, [1, 1, 1, 1, last, last])

    def test_a_level_holds_from_the_next_frame_on(self) -> None:
        settings = [Setting(0, dtx=Dtx.ON), Setting(6, level=5), Setting(6, level=0)]
        made = call(UP * 9, IDLE_PCM * 9, settings=settings)
        self.assertEqual(
            [made.down[40 * k + 38] >> 1 & 1 for k in range(1, 9)], [1, 1, 1, 1, 0, 0, 1, 1]
        )


class Bridges(unittest.TestCase):
    """Two calls, bridged."""

    def pair(self, start: int, end: int) -> Tuple[OutgoingLines, OutgoingLines, Uplink]:
        """Calls 7 and 9 of twelve periods, bridged; the frame of period 3 of call 9 asks for a
        shift of 156."""
        ups = [
            line([speech(with_maxima(k)) for k in range(12)]),
            UP * 3 + line([speech(field=39)]) + UP * 8,
        ]
        seven, nine = uplink(7, ups[0]), uplink(9, ups[1])
        of_seven = outgoing(
            Call(
                7,
                Law.A,
                12,
                seven,
                IDLE_PCM * 12,
                (),
                [BridgeSpan(start, end, handed(nine, start, end))],
            )
        )
        of_nine = outgoing(
            Call(
                9,
                Law.MU,
                12,
                nine,
                IDLE_PCM * 12,
                (),
                [BridgeSpan(start, end, handed(seven, start, end))],
            )
        )
        return of_seven, of_nine, seven

    def test_a_frame_waits(self) -> None:
        of_seven, of_nine, _ = self.pair(4, 10)
        self.assertEqual((of_seven.sent, of_nine.sent), ([6], [6]))
        self.assertEqual((of_seven.counts[-1], of_nine.counts[-1]), (12, 11))
        down = bits_of(of_nine.down)[320 + 4 * 320 + 312 :]
        for number in range(6):
            self.assertEqual(
                down[320 * number + 33 :][:15], bits_of_parameters(with_maxima(4 + number))[:15]
            )
            self.assertEqual(down[320 * number + 310], "1")

    def test_out_is_idle_within(self) -> None:
        of_seven, of_nine, _ = self.pair(4, 10)
        self.assertEqual(of_seven.out[640:1600], IDLE_PCM * 6)
        self.assertEqual(of_nine.out[640:1600], b"\xff" * 960)

    def test_a_frame_is_lost_where_the_call_ends(self) -> None:
        up = UP * 3 + line([speech(field=39)]) + UP * 6
        items = [bits_of_parameters(QUIET)] * 6
        made = outgoing(
            Call(9, Law.A, 10, uplink(9, up), IDLE_PCM * 10, (), [BridgeSpan(4, 10, items)])
        )
        self.assertEqual(made.sent, [5])

    def test_decoding_begins_at_home_after_a_bridge_without_a_period(self) -> None:
        spans = [BridgeSpan(2, 2, [])]
        made = call(UP * 4, IDLE_PCM * 4, spans=spans)
        self.assertEqual(made.out, decoded(2) + decoded(2))

    def test_coding_begins_at_home_after_a_bridge_without_a_period(self) -> None:
        pcm = bytes((37 * k * k + k) % 251 for k in range(160 * 4))
        made = call(UP * 4, pcm, spans=[BridgeSpan(2, 2, [])])
        other = call(UP * 2, pcm[320:])
        self.assertEqual(made.down[120:160], other.down[40:80])

    def test_what_is_handed_over(self) -> None:
        up = uplink(7, line([IDLE_UP, speech(with_maxima(9)), IDLE_UP]))
        self.assertEqual(
            handed(up, 0, 3),
            [
                bits_of_parameters(SILENCE),
                bits_of_parameters(with_maxima(9)),
                bits_of_parameters(SILENCE),
            ],
        )

    def test_noise_is_handed_over(self) -> None:
        up = uplink(7, line([sid(20)]))
        self.assertEqual(handed(up, 0, 1), [bits_of_parameters(up.effective[0] or SILENCE)])


class Causality(unittest.TestCase):
    """The lines of the first periods don't depend on later ones."""

    def test_prefixes(self) -> None:
        up = line([speech(field=field, dtxd=True) for field in (5, 63, 62, 0, 39, 63, 63, 0, 1, 0)])
        pcm = bytes((37 * k * k + k) % 251 for k in range(1600))
        whole = call(up, pcm)
        for periods in range(11):
            part = outgoing(Call(7, Law.A, periods, uplink(7, up), pcm, (), ()))
            self.assertEqual(
                (part.out, part.down), (whole.out[: 160 * periods], whole.down[: 40 * periods])
            )


if __name__ == "__main__":
    unittest.main()
