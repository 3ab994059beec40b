"""What a reader sees of a page of tools/report, in chromium: on a telephone and at a desk, light and dark. A script
looks at each visible text, legend, mark and box; and pages with planted faults have to be found at fault."""
import tempfile
from pathlib import Path

from browser import DESK, TELEPHONE, Browser

LOOKS = [(width, is_dark) for width in (TELEPHONE, DESK) for is_dark in (False, True)]
FAULTS = """(() => {
for (const folded of document.querySelectorAll("details")) folded.open = true
const faults = [], width = document.documentElement.clientWidth, seen = element => element.getClientRects().length > 0
const told = (what, element) => faults.push(what + ": " + element.textContent.trim().slice(0, 60))
const light = colour => {
  const parts = colour.match(/[0-9.]+/g).slice(0, 3).map(part => part / 255)
    .map(part => part <= 0.03928 ? part / 12.92 : ((part + 0.055) / 1.055) ** 2.4)
  return 0.2126 * parts[0] + 0.7152 * parts[1] + 0.0722 * parts[2] }
const paper = light(getComputedStyle(document.body).backgroundColor)
const contrast = colour => (Math.max(light(colour), paper) + 0.05) / (Math.min(light(colour), paper) + 0.05)
if (width != WIDTH) faults.push("the window is " + width + " wide")
if (document.documentElement.scrollWidth > width) faults.push("the page is wider than the window")
if ((paper < 0.2) != IS_DARK) faults.push("the paper is of the other scheme")
for (const element of document.querySelectorAll("h1, h2, h3, p, .keys span, th, td, code")) {
  if (!seen(element)) continue
  const box = element.getBoundingClientRect(), style = getComputedStyle(element)
  const isOutside = box.right > width + 0.5 || box.left < -0.5 || element.scrollWidth > box.width + 1
  if (!element.closest(".scroll") && isOutside) told("cut off", element)
  if (parseFloat(style.fontSize) < 12) told("small", element)
  if (contrast(style.color) < 4.5) told("faint", element) }
for (const box of document.querySelectorAll(".scroll"))
  if (box.scrollWidth > box.clientWidth + 1 && getComputedStyle(box).overflowX != "auto") told("does not scroll", box)
for (const box of document.querySelectorAll(".scroll")) {
  if (box.tabIndex != 0 || !box.getAttribute("aria-label")) told("not for a keyboard", box)
  const isCut = box.scrollHeight > box.clientHeight + 1, before = box.previousElementSibling
  if (isCut && !(before && before.matches("p.count") && /[0-9]/.test(before.textContent))) told("no count", box) }
for (const head of document.querySelectorAll("th")) if (!head.getAttribute("scope")) told("no scope", head)
for (const svg of document.querySelectorAll(".scroll > svg")) {
  if (!seen(svg)) continue
  const frame = svg.getBoundingClientRect(), texts = [...svg.querySelectorAll("text")]
  const boxes = texts.map(text => text.getBoundingClientRect())
  const size = 12 * frame.width / svg.viewBox.baseVal.width
  if (size < 11.5) told("scaled down to " + size, svg)
  if (frame.right > width + 0.5) told("a plot beyond the window", svg)
  texts.forEach((text, at) => {
    const box = boxes[at]
    if (box.left < frame.left - 0.5 || box.right > frame.right + 0.5 || box.bottom > frame.bottom) told("cut off", text)
    if (contrast(getComputedStyle(text).fill) < 4.5) told("faint", text)
    boxes.slice(at + 1).forEach((other, more) => {
      const isBeside = box.left + 1 >= other.right || other.left + 1 >= box.right
      if (!isBeside && box.top + 3 < other.bottom && other.top + 3 < box.bottom)
        told("covers " + texts[at + 1 + more].textContent.slice(0, 40), text) }) })
  const marks = svg.querySelectorAll("path[fill]:not([fill=none])")
  for (const mark of marks) if (contrast(getComputedStyle(mark).fill) < 3) { told("a faint mark", svg); break }
  if (marks.length > MOST) told(marks.length + " marks", svg) }
return faults })()"""
MOST_MARKS = 3000  # of a plot

# A fault, where it is to be seen, and what is replaced in the text of a page.
PLANTED = [
    ("wider than the window", TELEPHONE, "body { font:",
     ".scroll { overflow: visible !important; } body { font:"),
    ("the window is", TELEPHONE, '<meta name="viewport" content="width=device-width, initial-scale=1">', ""),
    ("scaled down", TELEPHONE, "svg.wide { display: none; }\n  svg.narrow { display: block; }",
     "svg.wide { width: 100%; }"),
    ("of the other scheme", DESK, "prefers-color-scheme: dark", "prefers-color-scheme: light"),
    ("small", DESK, "table.sources, table.numbers { font-size: 13px; }", "table.sources { font-size: 9px; }"),
    ("not for a keyboard", DESK, 'tabindex="0"', ""),
    ("no scope", TELEPHONE, 'scope="row"', ""),
    ("no count", DESK, '<p class="count">', "<p>"),
    ("cut off", TELEPHONE, "p.keys { display: flex; flex-wrap: wrap;", "p.keys { display: flex; overflow: hidden;"),
    ("faint", DESK, "--faint: #5f6368;", "--faint: #aaa;"),
    ("covers", TELEPHONE, 'y="25.0"', 'y="42.0"'),
    ("cut off", DESK, "share: ", "the share of the bandwidth that is for all: "),
    ("marks", DESK, "</svg>", '<path d="M1 1h1v1z" fill="#000"/>' * (MOST_MARKS + 1) + "</svg>"),
]


def faults_of(browser, path, width, is_dark):
    """What is wrong with a page at this width and in this scheme."""
    browser.open(path, width, is_dark)
    loaded = browser.requests()
    script = FAULTS.replace("WIDTH", str(width)).replace("IS_DARK", str(is_dark).lower())
    script = script.replace("MOST", str(MOST_MARKS))
    more = [f"it loads {loaded[1:]}"] if len(loaded) != 1 else []
    return more + browser.run(script)


class Reader:
    """Looks at pages. With a folder it leaves a picture of each there."""

    def __init__(self, pictures=None):
        self.browser, self.pictures = Browser(), pictures
        self.room = tempfile.TemporaryDirectory(prefix="page")
        self.seen = self.planted = 0

    def look(self, name, text):
        """Looks at a page in each way. What is wrong with it."""
        path = self.written(text)
        found = []
        for width, is_dark in LOOKS:
            some = faults_of(self.browser, path, width, is_dark)
            found += [f"{width} px, {'dark' if is_dark else 'light'}: {fault}" for fault in some]
            if self.pictures:
                file = f"{name.replace(' ', '-')}-{width}-{'dark' if is_dark else 'light'}.png"
                self.browser.picture(Path(self.pictures) / file)
            self.seen += 1
        return found

    def written(self, text):
        path = Path(self.room.name) / "page.html"
        path.write_text(text)
        return path

    def miss(self, text):
        """Plants each fault into a page. Those that are not found."""
        missed = []
        for fault, width, old, new in PLANTED:
            if old not in text:
                missed.append(f"{old} is not in the page")
                continue
            path = self.written(text.replace(old, new))
            if not any(fault in found for found in faults_of(self.browser, path, width, False)):
                missed.append(f"{fault}, planted by {new[:60]!r}")
            self.planted += 1
        return missed

    def close(self):
        self.browser.close()
        self.room.cleanup()
