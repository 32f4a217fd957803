"""clib/examples/gst_host.py on a port, in real time. A machine that stalls for half a second turns it red, so only
`checks/clib.sh --long` runs it."""

import signal
import socket
import struct
import subprocess
import time
import unittest
from pathlib import Path

import test_examples as hosts
from test_examples import LOST, trau_fr


def free_port() -> int:
    """A UDP port that nobody has just now."""
    with socket.socket(socket.AF_INET, socket.SOCK_DGRAM) as one:
        one.bind(("127.0.0.1", 0))
        return int(one.getsockname()[1])


def is_bound(port: int) -> bool:
    """Whether somebody has this UDP port."""
    return any(f":{port:04X} " in line for line in Path("/proc/net/udp").read_text().splitlines())


class Port(hosts.GStreamer):
    """What the host plays of packets that come to a port, beside what a run writes to Out for the same losses."""

    def test_sound_of_a_port(self) -> None:
        # The numbers of the packets begin anew in them, up to 20 are lost in a row, and one comes half a second late, within the latency. The sink
        # leaves out what comes 0.5 s too late by the pipeline's clock. An interrupt ends it.
        periods, port, sound = self.lossy(150), free_port(), self.folder / "sound"
        sink = f"filesink location={sound} buffer-mode=2 sync=true max-lateness=500000000"
        words = [*self.host, "--port", port, "--seed", "7", "--latency", "1000", "--sink", sink]
        pipe = subprocess.PIPE
        host = subprocess.Popen(
            [str(word) for word in words], env=self.environment, stdout=pipe, stderr=pipe, text=True
        )
        self.addCleanup(host.communicate)
        self.addCleanup(host.kill)
        end = time.monotonic() + 60
        while not is_bound(port) and host.poll() is None and time.monotonic() < end:
            time.sleep(0.01)
        time.sleep(1)
        came = [k for k, period in enumerate(periods) if period.kind != LOST]
        late = came[len(came) // 2]
        with socket.socket(socket.AF_INET, socket.SOCK_DGRAM) as sender:
            begun = time.monotonic()
            for k in sorted(came, key=lambda k: k + 25 * (k == late)):
                time.sleep(max(0, begun + 0.02 * (k + 25 * (k == late)) - time.monotonic()))
                sender.sendto(
                    struct.pack(">BBHII", 0x80, 3, (65500 + k) % 65536, 160 * k, 1)
                    + periods[k].octets,
                    ("127.0.0.1", port),
                )
        wanted = 320 * len(periods)
        while (
            (not sound.exists() or sound.stat().st_size < wanted)
            and host.poll() is None
            and time.monotonic() < end
        ):
            time.sleep(0.01)
        host.send_signal(signal.SIGINT)
        lost = len(periods) - len(came)
        self.assertEqual(
            (*host.communicate(timeout=60), host.returncode), (f"periods 150 lost {lost}\n", "", 0)
        )
        self.assertEqual(trau_fr.compress(sound.read_bytes()), self.out_line(periods, 7))


if __name__ == "__main__":
    unittest.main(argv=["long_port.py", "Port.test_sound_of_a_port"])
