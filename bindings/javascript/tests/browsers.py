"""Headless browsers with the playground: what its tests and its benchmark share. The driver needs Python's selenium."""
import json
import shutil
import subprocess
import sys
import threading
from pathlib import Path

HERE = Path(__file__).resolve().parent
HOME = HERE.parents[2]
sys.path[:0] = [str(HOME), str(HOME / "tools")]
from serving import BUILT, MODULE, PAGE, Handler, Server, built_files  # noqa: E402, F401

SECONDS = 60

# What the tests are asked for: the module, the cases, and the folder for pictures.
GIVEN = {}

# For the root user, and for a machine without a screen.
CHROMIUM = ["--headless=new", "--no-sandbox", "--disable-gpu", "--disable-dev-shm-usage", "--no-first-run",
            "--disable-background-networking"]

# An instance of a list of persons, as a text of 100 KB, and a schema for it.
MANY = "[\n" + ",\n".join(json.dumps({"name": f"n{number}", "age": number}) for number in range(3600)) + "\n]"
MANY_SCHEMA = '{"items": {"properties": {"age": {"minimum": 0}, "name": {"maxLength": 9}}}}'

# An instance whose check takes longer than the page waits, on any machine: no name matches any of the patterns, and to
# find that takes 600,000,000 searches.
SLOW = json.dumps({f"y{number}": 0 for number in range(30_000)})
SLOW_SCHEMA = json.dumps({"patternProperties": {f"^x{number}$": False for number in range(20_000)}})

# Puts a text into one of the two text areas, as a paste does.
PASTE = """
const area = document.querySelector(arguments[0]);
area.value = arguments[1];
area.dispatchEvent(new Event("input"));
"""

# Milliseconds from a key press in the instance until the frame that shows its verdict. (A key press inserts into the
# text as `execCommand` does. Were the text replaced, a browser would lay out all of it anew.)
KEY_PRESS = """
const end = arguments[0];
const area = document.querySelector("#instance-text"), time = document.querySelector("#time");
area.focus();
area.setSelectionRange(1, 1);
const begin = performance.now();
new MutationObserver((_, observer) => {
  observer.disconnect();
  requestAnimationFrame(() => setTimeout(() => end(performance.now() - begin)));
}).observe(time, { childList: true });
document.execCommand("insertText", false, " ");
"""

# Milliseconds from the beginning of the page until a mark that it sets. (To ask again and again would take the page's
# processor.)
MARKED = """
const [name, end] = arguments;
const said = () => {
  const [first] = performance.getEntriesByName(name);
  if (first !== undefined) end(first.startTime);
  return first !== undefined;
};
if (!said()) new PerformanceObserver((_, observer) => said() && observer.disconnect()).observe({ type: "mark" });
"""

# Whether the page began to load the module before it was read to its end.
LOADED_EARLY = """
const [{ domInteractive }] = performance.getEntriesByType("navigation");
return performance.getEntriesByType("resource").filter((it) => it.name.endsWith("/jschema.wasm"))
  .map((it) => it.startTime < domInteractive);
"""

# The messages that go beyond the editor in which they are.
CUT = """
return Array.from(document.querySelectorAll(".drawing .message")).filter((it) =>
  it.getBoundingClientRect().right > it.closest(".text").getBoundingClientRect().right).map((it) => it.textContent);
"""

# What goes beyond the right edge of the window, without what scrolls by itself.
WIDER = """
if (document.scrollingElement.scrollWidth <= innerWidth) return [];
return Array.from(document.body.querySelectorAll("*")).filter((it) => it.getBoundingClientRect().right > innerWidth)
  .map((it) => it.outerHTML.slice(0, 100));
"""

# The texts and the edges of fields whose contrast with what is behind them is less than WCAG AA asks: each as text,
# colours and ratio.
CONTRAST = """
const channel = (it) => it <= 0.04045 ? it / 12.92 : ((it + 0.055) / 1.055) ** 2.4;
const canvas = document.createElement("canvas").getContext("2d", { willReadFrequently: true });
const colour = (text) => {
  canvas.clearRect(0, 0, 1, 1);
  canvas.fillStyle = text;
  canvas.fillRect(0, 0, 1, 1);
  return Array.from(canvas.getImageData(0, 0, 1, 1).data);
};
const luminance = ([r, g, b]) => 0.2126 * channel(r / 255) + 0.7152 * channel(g / 255) + 0.0722 * channel(b / 255);
const behind = (it) => {
  for (; it !== null; it = it.parentElement) {
    const found = colour(getComputedStyle(it).backgroundColor);
    if (found[3] === 255) return found;
  }
  return [255, 255, 255, 255];
};
const faults = [];
const judge = (text, front, back, least) => {
  const [dark, light] = [luminance(front), luminance(back)].sort((a, b) => a - b);
  const ratio = (light + 0.05) / (dark + 0.05);
  if (ratio < least) faults.push([text.slice(0, 40), String(front), String(back), ratio]);
};
const walker = document.createTreeWalker(document.body, NodeFilter.SHOW_TEXT);
while (walker.nextNode()) {
  const holder = walker.currentNode.parentElement;
  const text = walker.currentNode.textContent.trim();
  const isLeftOut = holder.closest("noscript, option, datalist, textarea, button:disabled");
  if (text === "" || isLeftOut || !holder.checkVisibility()) continue;
  judge(text, colour(getComputedStyle(holder).color), behind(holder), 4.5);
}
for (const it of document.querySelectorAll("button:enabled, select, input, .editor")) {
  const { borderTopWidth, borderTopColor } = getComputedStyle(it);
  if (borderTopWidth === "0px" || !it.checkVisibility()) continue;
  judge(`the edge of ${it.id || it.outerHTML}`, colour(borderTopColor), behind(it.parentElement), 3);
}
return faults;
"""


def python():
    """A Python that has selenium: this one, or Debian's. None where neither has."""
    for path in (sys.executable, "/usr/bin/python3"):
        if subprocess.run([path, "-c", "import selenium"], stderr=subprocess.DEVNULL).returncode == 0:
            return path
    return None


def missing():
    """What the driver needs that isn't installed."""
    found = [it for it in ("chromium", "chromedriver") if shutil.which(it) is None]
    return found if python() else [*found, "python3-selenium"]


class Listening(Handler):
    """Takes note of each request, and takes what a page posts."""

    def do_POST(self):  # noqa: N802
        self.server.posted.append(json.loads(self.rfile.read(int(self.headers["Content-Length"]))))
        self.reply(204, b"", {}, False)

    def answer(self, has_body):
        self.server.asked.append(self.path)
        super().answer(has_body)


def served(module, others=()):
    """A server in a thread, with other files by the paths under which they are served."""
    server = Server(0, module, others, Listening)
    server.asked, server.posted = [], []
    threading.Thread(target=server.serve_forever, daemon=True).start()
    return server


def built(module, folder):
    """Builds the page in a folder: its files by the paths under which they are served."""
    build = HOME / "tools" / "build-playground"
    subprocess.run([build, "--module", module, "--out", folder], check=True, stdout=subprocess.DEVNULL)
    return built_files(folder)


def ended(server):
    server.shutdown()
    server.server_close()


def chromium():
    """A driver of Chromium."""
    from selenium import webdriver
    options = webdriver.ChromeOptions()
    for word in [*CHROMIUM, "--window-size=1200,1000"]:
        options.add_argument(word)
    options.set_capability("goog:loggingPrefs", {"browser": "ALL"})
    driver = webdriver.Chrome(options=options)
    driver.set_script_timeout(SECONDS)
    return driver


def wait_for_verdict(driver, begin=""):
    """Waits until a verdict is shown, or one that begins so."""
    from selenium.webdriver.support.ui import WebDriverWait
    shown = "return document.querySelector('#verdict')?.textContent ?? 'Loading'"
    WebDriverWait(driver, SECONDS, 0.02).until(
        lambda _: (text := driver.execute_script(shown)).startswith(begin) and "Loading" not in text)
    return driver.execute_script(shown)


def milliseconds_to(driver, mark):
    """Waits for the first `verdict`, until that is `drawn`, or the page `complete`: milliseconds since it began."""
    return driver.execute_async_script(MARKED, mark)


def address(server, page=PAGE):
    """Where the playground is: its sources, or what was built of them."""
    return server.url + page
