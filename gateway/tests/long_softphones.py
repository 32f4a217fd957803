"""SIPp's A-law and two baresip softphones (GSM and A-law) as the peers of live calls, and the kernel's own spoiler. It runs in a network
namespace of its own, with a veth pair, as baresip ignores the loopback interface; so it needs root, and each test its programs."""

import array
import os
import shutil
import subprocess
import sys
import unittest
import wave

from live_support import WithLive, playing, talk
from long_clients import Clients, programs
from support import LINE, cut, repeated, with_program

from trau import trau_fr
from spoiler import SAMPLES

ADDRESS = "10.9.9.1"
INSIDE = "TRAU_GATEWAY_NAMESPACE"
SET_UP = f"""
ip link set lo up
ip link add v0 type veth peer name v1
ip addr add {ADDRESS}/24 dev v0
ip link set v0 up
ip link set v1 up
exec "$@"
"""
MODULES = "/usr/lib/baresip/modules"
CODECS = {"gsm": (3, "GSM"), "pcma": (8, "PCMA")}

HEADERS = """[last_Via:]
[last_From:]
[last_To:];tag=1
[last_Call-ID:]
[last_CSeq:]
Contact: <sip:{address}:{port}>"""
ANSWERS = """<?xml version="1.0" encoding="UTF-8"?>
<scenario name="answers">
 <recv request="INVITE" crlf="true"/>
 <send><![CDATA[

SIP/2.0 200 OK
{headers}
Content-Type: application/sdp
Content-Length: [len]

v=0
o=gateway 1 1 IN IP4 {address}
s=-
c=IN IP4 {address}
t=0 0
m=audio {media} RTP/AVP {kind}
a=rtpmap:{kind} {name}/8000
a=ptime:20

 ]]></send>
 <recv request="ACK" optional="true" crlf="true"/>
 <recv request="BYE"/>
 <send><![CDATA[

SIP/2.0 200 OK
{headers}
Content-Length: 0

 ]]></send>
</scenario>
"""
REQUEST = """{method} sip:gw@[remote_ip]:[remote_port] SIP/2.0
Via: SIP/2.0/[transport] [local_ip]:[local_port];branch=[branch]
From: <sip:sipp@[local_ip]:[local_port]>;tag=2
To: <sip:gw@[remote_ip]:[remote_port]>{tag}
Call-ID: [call_id]
CSeq: {number}
Contact: sip:sipp@[local_ip]:[local_port]
Max-Forwards: 70"""
CALLS = """<?xml version="1.0" encoding="UTF-8"?>
<scenario name="calls">
 <send><![CDATA[

{invite}
Content-Type: application/sdp
Content-Length: [len]

v=0
o=sipp 1 1 IN IP4 [local_ip]
s=-
c=IN IP4 [local_ip]
t=0 0
m=audio [auto_media_port] RTP/AVP 8
a=rtpmap:8 PCMA/8000

 ]]></send>
 <recv response="200"/>
 <send><![CDATA[

{ack}
Content-Length: 0

 ]]></send>
 <nop><action><exec rtp_stream="line.al,1,8"/></action></nop>
 <pause milliseconds="9000"/>
 <send><![CDATA[

{bye}
Content-Length: 0

 ]]></send>
 <recv response="200"/>
</scenario>
"""
CONFIG = """poll_method epoll
sip_listen {address}:{sip}
audio_source aufile,{folder}/{file}
audio_srate 8000
audio_channels 1
rtp_ports {media}-{last}
jitter_buffer_type fixed
jitter_buffer_delay 3-10
net_interface v0
module_path {modules}
module stdio.so
module {module}.so
module aufile.so
module_tmp account.so
module_app menu.so
module sndfile.so
snd_path {folder}/{name}/dump
"""
ACCOUNT = "<sip:test@{address}>;regint=0;answermode=auto;audio_codecs={codec}\n"


def request(method, number, tag=""):
    """A request of SIPp's scenario."""
    return REQUEST.format(method=method, number=f"{number} {method}", tag=tag)


class Softphones(Clients):
    """The gateway's ports are 7000 and 7004; SIPp takes 6000 to 6003 for itself."""

    def open(self, gsm, pcm):
        """A gateway whose call 1 has these ports of the peers."""
        live = self.live(self.folder / "rec", address=ADDRESS)
        said = live.ask(f"open 1 gsm 7000 {ADDRESS}:{gsm} pcm 7004 {ADDRESS}:{pcm} strict off")
        self.assertTrue(said.startswith("ok"), said)
        return live

    def answer(self, start, codec, media, port):
        """A SIPp that answers a call with a port of the gateway."""
        kind, name = CODECS[codec]
        headers = HEADERS.format(address=ADDRESS, port=port)
        path = self.folder / f"answers_{codec}.xml"
        path.write_text(
            ANSWERS.format(headers=headers, address=ADDRESS, media=media, kind=kind, name=name)
        )
        words = f"-i {ADDRESS} -p {port} -mp {port + 1000} -m 1 -nostdin -timeout 40".split()
        return start("sipp", "-sf", path, *words, cwd=self.folder)


@with_program
class Sipp(Softphones):
    def test_alaw(self):
        if not shutil.which("sipp"):
            self.skipTest("sip-tester isn't installed")
        line = b"".join(repeated(LINE, 400))
        (self.folder / "line.al").write_bytes(line)
        tag = "[peer_tag_param]"
        scenario = CALLS.format(
            invite=request("INVITE", 1), ack=request("ACK", 1, tag), bye=request("BYE", 2, tag)
        )
        (self.folder / "calls.xml").write_text(scenario)
        live = self.open(7102, 7106)
        with programs() as start:
            answers = self.answer(start, "pcma", 7004, 5072)
            words = (
                f"-i {ADDRESS} -p 5082 -mp 7106 -m 1 -nostdin -timeout 40 {ADDRESS}:5072".split()
            )
            start("sipp", "-sf", self.folder / "calls.xml", *words, cwd=self.folder).wait(60)
            answers.wait(60)
        self.assertEqual(live.end(), 0)
        self.assert_replays(live.folder)
        heard = cut((self.folder / "rec/1.pcm").read_bytes(), 160)
        loud = [period for period in heard if period != b"\xd5" * 160]
        print(f"Pcm has {len(loud)} periods of SIPp's 400; {live.said[-1]}")
        octets = b"".join(heard)
        self.assertIn(line[160 * 40 : 160 * 60], octets)
        self.assertGreater(len(loud), 300)


@with_program
class Baresip(Softphones):
    def softphone(self, start, name, module, codec, ports, file):
        """A softphone that calls SIPp, which answers with the gateway's port. What it hears is written down, as WAV."""
        folder = self.folder / name
        (folder / "dump").mkdir(parents=True)
        sip, media, to = ports
        fields = {
            "address": ADDRESS,
            "sip": sip,
            "media": media,
            "last": media + 1,
            "folder": self.folder,
            "file": file,
        }
        (folder / "config").write_text(
            CONFIG.format(**fields, module=module, name=name, modules=MODULES)
        )
        (folder / "accounts").write_text(ACCOUNT.format(address=ADDRESS, codec=codec))
        (folder / "contacts").write_text("")
        return start("baresip", "-f", folder, "-t", "12", "-e", f"/dial sip:gw@{ADDRESS}:{to}")

    def heard(self, name):
        """The samples that a softphone heard."""
        path = next((self.folder / name / "dump").glob("*dec*.wav"))
        with wave.open(str(path)) as file:
            return array.array("h", file.readframes(file.getnframes()))

    def assert_heard(self, name, wanted):
        """Most of what is recorded was heard sample for sample; a busy machine makes a softphone lose packets."""
        heard = self.heard(name).tobytes()
        seconds = cut(wanted.tobytes(), 2 * SAMPLES * 10)
        loud = [part for part in seconds if max(map(abs, array.array("h", part))) > 500]
        found = sum(part in heard for part in loud)
        print(
            f"{name} heard {found} of {len(loud)} loud parts of 0.2 s as they are recorded",
            flush=True,
        )
        self.assertGreater(found, len(loud) // 2)

    def test_two_softphones(self):
        if not shutil.which("baresip") or not shutil.which("sipp") or not os.path.isdir(MODULES):
            self.skipTest("baresip-core or sip-tester isn't installed")
        live = self.open(7102, 7106)
        with programs() as start:
            self.answer(start, "gsm", 7000, 5071)
            self.answer(start, "pcma", 7004, 5072)
            phones = [
                self.softphone(start, "gsm", "gsm", "GSM/8000/1", (5061, 7102, 5071), "gsm.wav"),
                self.softphone(
                    start, "pcma", "g711", "PCMA/8000/1", (5065, 7106, 5072), "line.wav"
                ),
            ]
            for phone in phones:
                phone.wait(60)
        self.assertEqual(live.end(), 0)
        print(live.said[-1])
        self.assert_replays(live.folder)
        self.assert_heard("pcma", trau_fr.expand((self.folder / "rec/1.out").read_bytes()))
        self.assert_heard("gsm", trau_fr.Decoder().decode(b"".join(self.down())))


@with_program
class Netem(WithLive):
    def test_delay_loss_and_swaps(self):
        faults = "delay 40ms 20ms distribution normal loss 5% duplicate 5% reorder 10%".split()
        words = ["tc", "qdisc", "add", "dev", "lo", "root", "netem", *faults]
        if not shutil.which("tc") or subprocess.run(words, stderr=subprocess.DEVNULL).returncode:
            self.skipTest("the kernel has no netem")
        self.addCleanup(subprocess.run, ["tc", "qdisc", "del", "dev", "lo", "root"], check=True)
        live = self.live(self.folder / "rec")
        with playing([row for call in (1, 2, 3) for row in talk(live.open(call), call, 600)]):
            live.wait_for_periods(1, 500)
        self.assertEqual(live.end(), 0)
        print(*live.said[-4:], sep="\n")
        self.assert_replays(live.folder)


def enter():
    """Starts these tests again in a namespace, with its network."""
    words = ["unshare", "-n", "sh", "-eu", "-c", SET_UP, "sh", sys.executable, *sys.argv]
    return subprocess.run(words, env={**os.environ, INSIDE: "yes"}).returncode


if __name__ == "__main__":
    if os.environ.get(INSIDE):
        unittest.main()
    if (
        os.geteuid() != 0
        or subprocess.run(["unshare", "-n", "true"], stderr=subprocess.DEVNULL).returncode
    ):
        print("skipped softphones: a network namespace needs root")
        sys.exit(0)
    sys.exit(enter())
