"""The page of timeline.py in a browser: what is seen of a run if one zooms, moves and points. It needs chromium, a large package, which
checks/packages.txt doesn't list."""

import re
import shutil
import subprocess
import unittest

from support import InFolder
from test_timeline import lay

from trau.pictures import looks
from trau.pictures import timeline

CHROMIUM = shutil.which("chromium")

# Zooms, moves, and tells which periods are seen each time, what the pointer is told, and the colours of a row's pixels.
ZOOMING = """<script>
ready.then(() => {
  const told = [];
  const tellSeen = () => told.push(seen.first + " " + seen.last + " " + seen.top);
  tellSeen();
  canvas.dispatchEvent(new WheelEvent("wheel", { deltaY: -100, ctrlKey: true, clientX: 400, clientY: 400, cancelable: true }));
  tellSeen();
  document.dispatchEvent(new KeyboardEvent("keydown", { key: "ArrowRight" }));
  tellSeen();
  document.getElementById("whole").click();
  tellSeen();
  const pixel = pen.getImageData(x(95) + 3, AXIS + shape.marks + 5, 1, 1).data;
  told.push([...pixel.slice(0, 3)].map((part) => part.toString(16).padStart(2, "0")).join(""));
  const box = canvas.getBoundingClientRect();
  canvas.dispatchEvent(new PointerEvent("pointermove", { clientX: x(95) + 2, clientY: box.top + AXIS + shape.marks + 5 }));
  told.push(note.textContent);
  document.title = "seen " + told.join(" | ");
});
</script>"""


@unittest.skipUnless(CHROMIUM, "chromium isn't installed")
class Browser(InFolder):
    def page(self):
        lay("mixed", self.folder)
        status, _, err = self.run_tool(timeline.main, self.folder, self.folder / "run.html")
        self.assertEqual((status, err), (0, ""))
        return (self.folder / "run.html").read_text()

    def test_page_zooms(self):
        self.path("zoomed.html", self.page().replace("</body>", ZOOMING + "</body>").encode())
        words = [
            CHROMIUM,
            "--headless",
            "--no-sandbox",
            "--disable-gpu",
            f"--user-data-dir={self.folder / 'chromium'}",
        ]
        words += [
            "--virtual-time-budget=20000",
            "--dump-dom",
            (self.folder / "zoomed.html").as_uri(),
        ]
        # On a busy machine the browser may print the page before the data is unpacked.
        for _ in range(20):
            ran = subprocess.run(
                words, stdin=subprocess.DEVNULL, stdout=subprocess.PIPE, stderr=subprocess.DEVNULL
            )
            found = re.search("<title>seen (.*?)</title>", ran.stdout.decode())
            if found:
                break
        told = found[1].split(" | ")
        before, near, moved, whole = (
            [float(each) for each in seen.split(" ")] for seen in told[:4]
        )
        self.assertEqual((before, whole), ([0, 153, 0], [0, 153, 0]))
        self.assertAlmostEqual(near[1] - near[0], 153 / 1.25, places=3)
        self.assertAlmostEqual(moved[0] - near[0], min(153 / 1.25 / 8, 153 - near[1]), places=3)
        self.assertEqual(told[4], looks.UplinkLook.UNUSABLE.colour[1:].lower())
        self.assertRegex(
            told[5],
            r"^call 1, period 95 \(1.90 s\): uplink lost: unusable within speech; downlink speech - 18 of 49 periods",
        )


if __name__ == "__main__":
    unittest.main()
