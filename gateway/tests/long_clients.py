"""GStreamer and ffmpeg as the peers of live calls on the loopback interface: all that a client got is in the recording, and all that it
sent. Each where its programs are installed. A busy machine loses packets in the clients; so what they got is compared in its order."""

import contextlib
import re
import shutil
import subprocess
import time
import unittest
import wave

from live_support import LOOPBACK, WithLive, even_port
from support import LINE, SPEECH, cut, repeated, with_program

from trau import trau_fr
from spoiler import SAMPLES

PERIODS = 400


def has_elements(*names):
    """Whether GStreamer has all of these."""
    inspect = shutil.which("gst-inspect-1.0")
    quiet = {"stdout": subprocess.DEVNULL, "stderr": subprocess.DEVNULL}
    return bool(inspect) and all(
        subprocess.run([inspect, name], **quiet).returncode == 0 for name in names
    )


def in_order(got, wanted):
    """How many of the things that were got come in this order among the wanted ones, up to the first one that doesn't."""
    rest = iter(wanted)
    for number, one in enumerate(got):
        if not any(one == other for other in rest):
            return number
    return len(got)


def write_wav(path, samples):
    """A WAV file of 8000 Hz, 16 bits."""
    with wave.open(str(path), "wb") as file:
        file.setparams((1, 2, 8000, 0, "NONE", ""))
        file.writeframes(samples.tobytes())


@contextlib.contextmanager
def programs():
    """Starts programs; those that still run at the end are ended."""
    started = []

    def start(*words, **how):
        quiet = {
            "stdin": subprocess.DEVNULL,
            "stdout": subprocess.DEVNULL,
            "stderr": subprocess.DEVNULL,
            **how,
        }
        started.append(subprocess.Popen([str(word) for word in words], **quiet))
        return started[-1]

    try:
        yield start
    finally:
        for one in started:
            if one.poll() is None:
                one.terminate()
        for one in started:
            one.wait()


class Clients(WithLive):
    def setUp(self):
        super().setUp()
        self.ports = [even_port() for _ in range(4)]
        decoder = trau_fr.Decoder()
        write_wav(self.folder / "gsm.wav", decoder.decode(b"".join(repeated(SPEECH, PERIODS))))
        write_wav(self.folder / "line.wav", trau_fr.expand(b"".join(repeated(LINE, PERIODS))))

    def start(self, words):
        """A gateway with call 1."""
        live = self.live(self.folder / "rec")
        here, gsm, there, pcm = self.ports
        said = live.ask(f"open 1 gsm {here} {LOOPBACK}:{gsm} pcm {there} {LOOPBACK}:{pcm} {words}")
        self.assertTrue(said.startswith("ok"), said)
        return live

    def recorded(self, side, size):
        """The periods of a line of the recording."""
        return cut((self.folder / f"rec/1.{side}").read_bytes(), size)

    def down(self):
        """The frames of Down."""
        return [trau_fr.read_downlink(frame).octets for frame in self.recorded("down", 40)[1:]]

    def up(self):
        """The good frames of Up."""
        lines = [trau_fr.read_uplink(frame) for frame in self.recorded("up", 40)]
        return [line.octets for line in lines if line.kind == trau_fr.Kind.SPEECH]

    def assert_got(self, name, got, wanted, least):
        """All that was got is in the recording, in its order, and it isn't little."""
        print(f"{name}: {len(got)} of {len(wanted)}", flush=True)
        self.assertGreaterEqual(
            in_order(got, wanted), len(got) - 1
        )  # the last frame is sent, and not recorded
        self.assertGreater(len(got), least)


@with_program
class GStreamer(Clients):
    NEEDED = (
        "gsmenc",
        "rtpgsmpay",
        "rtpgsmdepay",
        "alawenc",
        "rtppcmapay",
        "rtppcmadepay",
        "rtpjitterbuffer",
        "udpsrc",
        "wavparse",
    )

    def receiver(self, start, port, name, kind, element, file):
        """A pipeline that writes what comes to a port."""
        caps = f"application/x-rtp,media=audio,clock-rate=8000,encoding-name={name},payload={kind}"
        words = f"udpsrc port={port} caps={caps} ! rtpjitterbuffer latency=100 ! {element} ! filesink buffer-mode=2"
        return start("gst-launch-1.0", "-q", *words.split(), f"location={self.folder / file}")

    def sender(self, start, file, chain, port):
        """A pipeline that sends a file."""
        words = f"wavparse ! {chain} ! udpsink host={LOOPBACK} port={port}"
        return start(
            "gst-launch-1.0", "-q", "filesrc", f"location={self.folder / file}", "!", *words.split()
        )

    def test_both_ends(self):
        if not has_elements(*self.NEEDED):
            self.skipTest("gstreamer1.0-tools or gstreamer1.0-plugins-bad isn't installed")
        live = self.start("strict off")
        here, gsm, there, pcm = self.ports
        with programs() as start:
            self.receiver(start, gsm, "GSM", 3, "rtpgsmdepay", "got.gsm")
            self.receiver(start, pcm, "PCMA", 8, "rtppcmadepay", "got.alaw")
            time.sleep(1)
            encode = ["gst-launch-1.0", "-q", "filesrc", f"location={self.folder / 'gsm.wav'}"]
            encode += f"! wavparse ! gsmenc ! filesink location={self.folder / 'sent.gsm'}".split()
            start(*encode).wait()
            senders = [
                self.sender(start, "gsm.wav", "gsmenc ! rtpgsmpay", here),
                self.sender(
                    start,
                    "line.wav",
                    "alawenc ! rtppcmapay min-ptime=20000000 max-ptime=20000000",
                    there,
                ),
            ]
            for one in senders:
                one.wait()
            self.assertEqual(live.end(), 0)
        print(*live.said[-2:], sep="\n")
        self.assert_replays(live.folder)
        self.assert_got(
            "GStreamer got frames of Down",
            cut((self.folder / "got.gsm").read_bytes(), 33),
            self.down(),
            300,
        )
        self.assert_got(
            "GStreamer got periods of Out",
            cut((self.folder / "got.alaw").read_bytes(), 160),
            self.recorded("out", 160),
            300,
        )
        sent = cut((self.folder / "sent.gsm").read_bytes(), 33)
        up = self.up()[1:]  # without the frame of silence
        self.assert_got("Up has frames of GStreamer", up, sent, 300)
        line = b"".join(self.recorded("pcm", 160))
        self.assertIn(b"".join(LINE[20:60]), line)


class Reports(Clients):
    """RTCP with GStreamer's rtpbin, which prints what it read of the gateway's reports."""

    def bin(self, start):
        """A base station that sends a tone, and reports."""
        here, gsm, _, _ = self.ports
        caps = "application/x-rtp,media=audio,clock-rate=8000,encoding-name=GSM,payload=3"
        words = "rtpbin name=b audiotestsrc samplesperbuffer=160 is-live=true ! audio/x-raw,rate=8000,channels=1 ! gsmenc ! rtpgsmpay"
        words += f" ! b.send_rtp_sink_0 b.send_rtp_src_0 ! udpsink host={LOOPBACK} port={here}"
        words += (
            f" b.send_rtcp_src_0 ! udpsink host={LOOPBACK} port={here + 1} sync=false async=false"
        )
        words += f" udpsrc address={LOOPBACK} port={gsm} caps={caps} ! b.recv_rtp_sink_0"
        words += f" udpsrc address={LOOPBACK} port={gsm + 1} ! b.recv_rtcp_sink_0 b. ! rtpgsmdepay ! fakesink"
        return start(
            "timeout",
            "120",
            "gst-launch-1.0",
            "-v",
            *words.split(),
            stdout=subprocess.PIPE,
            text=True,
        )

    def test_rtpbin_reads_the_reports(self):
        if not has_elements(*GStreamer.NEEDED, "rtpbin"):
            self.skipTest("gstreamer1.0-tools or gstreamer1.0-plugins-bad isn't installed")
        live, block = (
            self.start("strict off"),
            r"have-rb=.* rb-packetslost=\(int\)(-?\d+).* rb-round-trip=\(uint\)([1-9]\d*)",
        )
        with programs() as start, self.bin(start).stdout as said:
            read = next(
                filter(None, (re.search(block, line.replace("\\", "")) for line in said)), None
            )
        self.assertTrue(read, "no report with a round trip")
        lost, trip = map(int, read.groups())
        print(
            f"GStreamer's packets by the report: {lost} lost, round trip {1000 * trip / 65536:.1f} ms",
            flush=True,
        )
        self.assertLess(trip, 65536)
        self.assertEqual(live.end(), 0)
        self.assertRegex(live.said[-2], r" gsm-rtcp [1-9]\d* gsm-rtcp-sent [1-9]")


@with_program
class Ffmpeg(Clients):
    def description(self, name, port, kind):
        """A file that says what comes to a port."""
        path = self.folder / f"{name}.sdp"
        lines = (
            "v=0",
            f"o=- 0 0 IN IP4 {LOOPBACK}",
            "s=-",
            f"c=IN IP4 {LOOPBACK}",
            "t=0 0",
            f"m=audio {port} RTP/AVP {kind}",
        )
        path.write_text("\n".join((*lines, f"a=rtpmap:{kind} {name}/8000", "")))
        return path

    def receiver(self, start, name, port, kind, form, file):
        """An ffmpeg that writes what comes to a port."""
        words = "ffmpeg -nostdin -v error -y -protocol_whitelist file,udp,rtp -i".split()
        tail = f"-flush_packets 1 -t 6 -c copy -f {form}".split()
        return start(*words, self.description(name, port, kind), *tail, self.folder / file)

    def test_at_the_exchange_and_as_a_receiver_of_gsm(self):
        if not shutil.which("ffmpeg"):
            self.skipTest("ffmpeg isn't installed")
        live = self.start("strict off")
        here, gsm, there, pcm = self.ports
        with programs() as start:
            receivers = [
                self.receiver(start, "GSM", gsm, 3, "gsm", "got.gsm"),
                self.receiver(start, "PCMA", pcm, 8, "alaw", "got.alaw"),
            ]
            send = f"-c:a pcm_alaw -f rtp rtp://{LOOPBACK}:{there}".split()
            start(
                "ffmpeg", "-nostdin", "-v", "error", "-re", "-i", self.folder / "line.wav", *send
            ).wait()
            for one in receivers:
                one.wait(60)
            self.assertEqual(live.end(), 0)
        print(*live.said[-2:], sep="\n")
        self.assert_replays(live.folder)
        self.assert_got(
            "ffmpeg got frames of Down",
            cut((self.folder / "got.gsm").read_bytes(), 33),
            self.down(),
            200,
        )
        self.assert_got(
            "ffmpeg got periods of Out",
            cut((self.folder / "got.alaw").read_bytes(), 160),
            self.recorded("out", 160),
            200,
        )
        sent, line = b"".join(repeated(LINE, PERIODS)), b"".join(self.recorded("pcm", 160))
        loud = sent[30 * SAMPLES : 40 * SAMPLES]
        begins = max(0, line.find(loud) - 30 * SAMPLES)
        equal = sum(a == b for a, b in zip(sent, line[begins:]))
        print(f"Pcm has {equal} of {len(sent)} octets of ffmpeg")
        self.assertGreater(equal, len(sent) // 2)


if __name__ == "__main__":
    unittest.main()
