"""Pictures of layouts in a browser, Chromium without a window, that prefers light pages and then dark ones.

    python3 picture_in_browser.py

Each text is measured as the browser draws it: it lies within the picture and, where it is a cell's, within its cell; it
overlaps no other text; and its colour is far enough from what lies behind it.
"""

import html
import json
import re
import shutil
import subprocess
import tempfile
import unittest
from pathlib import Path

from ndarray_layout import Layout

BROWSERS = ("chromium-headless-shell", "chromium", "chromium-browser", "google-chrome")
FLAGS = ("--headless", "--no-sandbox", "--disable-gpu", "--dump-dom", "--virtual-time-budget=2000")
SECONDS = 600
CONTRAST = 4.5
"""What the Web Content Accessibility Guidelines ask of text."""

LAYOUTS = (
    Layout.over(6, (2, 3), (-3, 1), writable=True),
    Layout.over(24, (2, 3, 4))[:, ::-1, ::2],
    Layout.over(64, (2,) * 6),
    Layout.over(5, 5).windows(3),
    Layout.over(1, ()),
    Layout.over(10**6, (1000, 1000))[::3, 5:90],
    Layout.over(bytes(3000), (10, 20, 15)),
    Layout.over(48, (6, 8)).windows((3, 4)),
    Layout.over(10**6, 10**6)[::12].broadcast_to((12, 83_334)),
    Layout.over(10**18, (100,) * 9),
    Layout.over(4096, (2,) * 12),
    Layout.over(5, (0, 3)),
    Layout.over(0, 0),
)

MEASURE = """
const within = (one, other) => one.left >= other.left - 1 && one.right <= other.right + 1
    && one.top >= other.top - 1 && one.bottom <= other.bottom + 1;
const apart = (one, other) => one.right <= other.left + 1 || other.right <= one.left + 1
    || one.bottom <= other.top + 3 || other.bottom <= one.top + 3;
const numbers = colour => colour.match(/[0-9.]+/g).map(Number);
const light = colour => colour.slice(0, 3).map(part => part / 255)
    .map(part => part <= 0.03928 ? part / 12.92 : ((part + 0.055) / 1.055) ** 2.4)
    .reduce((sum, part, at) => sum + part * [0.2126, 0.7152, 0.0722][at], 0);
const root = document.querySelector('svg'), box = root.getBoundingClientRect();
const behind = getComputedStyle(document.documentElement).backgroundColor, pageColour = numbers(behind);
const rects = [...root.querySelectorAll('rect')].map(rect => [rect.getBoundingClientRect(), getComputedStyle(rect)]);
const texts = [...root.querySelectorAll('text')].map(text => [text.getBoundingClientRect(), text]);
const wrong = [];
for (const [at, text] of texts) {
    if (!within(at, box)) wrong.push('outside: ' + text.textContent);
    const middle = [(at.left + at.right) / 2, (at.top + at.bottom) / 2];
    const cell = rects.find(([rect]) => rect.left < middle[0] && middle[0] < rect.right && rect.top < middle[1] && middle[1] < rect.bottom);
    if (cell && !within(at, cell[0])) wrong.push('past its cell: ' + text.textContent);
    const opacity = cell ? Number(cell[1].fillOpacity) : 0, fill = cell ? numbers(cell[1].fill) : [0, 0, 0];
    const ground = pageColour.slice(0, 3).map((part, k) => part * (1 - opacity) + fill[k] * opacity);
    const lights = [light(numbers(getComputedStyle(text).fill)), light(ground)].sort((one, other) => other - one);
    if ((lights[0] + 0.05) / (lights[1] + 0.05) < LEAST) wrong.push('too faint: ' + text.textContent);
}
texts.forEach(([one, text], k) => texts.slice(k + 1).forEach(([other, second]) => {
    if (!apart(one, other)) wrong.push('over each other: ' + text.textContent + ', ' + second.textContent);
}));
const found = {wrong, texts: texts.length, rects: rects.length, behind, text: getComputedStyle(root.querySelector('text')).fill};
document.documentElement.setAttribute('data-found', JSON.stringify(found));
""".replace("LEAST", str(CONTRAST))


def browser():
    found = [*filter(None, map(shutil.which, BROWSERS))]
    if not found:
        raise FileNotFoundError(f"none of the browsers {', '.join(BROWSERS)}")
    return found[0]


def opened(text, suffix, is_dark):
    """What the script finds in a file of this text, in a browser that prefers dark pages or light ones."""
    with tempfile.TemporaryDirectory() as folder:
        path = Path(folder, f"picture{suffix}")
        path.write_text(text, encoding="utf-8")
        flags = (*FLAGS, f"--user-data-dir={folder}/profile", f"--blink-settings=preferredColorScheme={int(not is_dark)}")
        done = subprocess.run([browser(), *flags, path.as_uri()], capture_output=True, text=True, timeout=SECONDS)
    found = re.search(r'data-found="([^"]*)"', done.stdout)
    if found is None:
        raise AssertionError(f"status {done.returncode}: {done.stdout[-500:]} {done.stderr[-2000:]}")
    return json.loads(html.unescape(found[1]))


class Pictures(unittest.TestCase):
    def assert_well_drawn(self, found):
        self.assertEqual(found["wrong"], [])
        self.assertGreater(found["texts"], 1)

    def test_files(self):
        """An SVG file of its own is light or dark, as its reader prefers."""
        for layout in LAYOUTS:
            for is_dark, behind in ((False, "rgb(255, 255, 255)"), (True, "rgb(22, 22, 22)")):
                with self.subTest(layout=layout, is_dark=is_dark):
                    script = f"<script><![CDATA[{MEASURE}]]></script></svg>"
                    found = opened(layout.to_svg().replace("</svg>", script), ".svg", is_dark)
                    self.assert_well_drawn(found)
                    self.assertEqual(found["behind"], behind)

    def test_pages(self):
        """In a page, as a notebook is, the picture has the page's colours, whatever the browser prefers."""
        for layout in LAYOUTS[:1] + LAYOUTS[5:7]:
            for text, behind in (("rgb(20, 20, 20)", "rgb(250, 250, 250)"), ("rgb(230, 230, 230)", "rgb(17, 17, 17)")):
                for is_dark in (False, True):
                    style = f"<style>html {{ color: {text}; background: {behind} }}</style>"
                    page = f"<!DOCTYPE html><meta charset=utf-8>{style}{layout._repr_html_()}<script>{MEASURE}</script>"
                    found = opened(page, ".html", is_dark)
                    self.assert_well_drawn(found)
                    self.assertEqual((found["text"], found["behind"]), (text, behind))

    def test_faults_are_seen(self):
        """A text that is larger than its cell, and one in the colour of the page, are found."""
        picture = LAYOUTS[0].to_svg()
        faults = ('font-size="11"', 'font-size="30"', "past its cell: "), ("#1b1b1b", "#fff", "too faint: ")
        for part, other, fault in faults:
            script = f"<script><![CDATA[{MEASURE}]]></script></svg>"
            found = opened(picture.replace(part, other).replace("</svg>", script), ".svg", False)
            self.assertTrue(any(text.startswith(fault) for text in found["wrong"]), found)


if __name__ == "__main__":
    unittest.main()
