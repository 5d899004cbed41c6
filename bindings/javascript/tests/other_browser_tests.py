"""The rows through the module, in Chromium and in Firefox; and that the playground works in Firefox too."""
import contextlib
import json
import os
import shutil
import signal
import subprocess
import tempfile
import time
import unittest
from pathlib import Path

from browsers import CHROMIUM, GIVEN, HERE, PASTE, SECONDS, address, ended, served
from marionette import Firefox


def texts_of(firefox, selector):
    return firefox.run("return Array.from(document.querySelectorAll(arguments[0]), it => it.textContent)", selector)


# Clicks the first element with a text.
CLICK = """
const [selector, text] = arguments;
Array.from(document.querySelectorAll(selector)).find((it) => it.textContent === text).click();
"""


@unittest.skipIf(shutil.which("firefox-esr") is None, "the playground in Firefox: firefox-esr isn't installed")
class InFirefox(unittest.TestCase):
    """That the page works there too."""

    def test_page(self):
        server = served(GIVEN["module"])
        with tempfile.TemporaryDirectory() as folder:
            try:
                firefox = Firefox(folder, 2 * SECONDS)
            except (TimeoutError, ConnectionError) as error:
                ended(server)
                self.skipTest(f"the playground in Firefox: Firefox doesn't start: {error}")
            try:
                self.judge(firefox, server)
            finally:
                firefox.end()
                ended(server)

    def judge(self, firefox, server):
        firefox.go(address(server))
        firefox.until(lambda: texts_of(firefox, "#verdict") == ["✗ Invalid: 1 error"])
        firefox.until(lambda: texts_of(firefox, "#instance-editor .underlined") == ["-1"])
        firefox.run("document.querySelector('#panel-condensing').click()")
        firefox.until(lambda: "0 steps taken" in "".join(texts_of(firefox, ".said")))
        firefox.run(CLICK, "#panel button", "End")
        self.assertIn("byte for byte the output detailed", texts_of(firefox, ".said")[0])
        firefox.run(PASTE, "#instance-text", '{"name": 1}')
        firefox.until(lambda: texts_of(firefox, "#instance-editor .underlined") == ["1"])
        asked = len(server.asked)
        self.assertEqual(firefox.run_until_called(
            "const end = arguments[0]; fetch('/').then(() => end('sent'), () => end('refused'))"), "refused")
        self.assertEqual(server.asked[asked:], [])


# Rows with results at the limits: more than their own formats would take a browser longer than all other rows.
LARGEST = ("doubling_references/", "widest_tree/")


def cases_of(line):
    """A line of the cases, of the largest with the row's own formats alone."""
    case = json.loads(line)
    if case["name"].startswith(LARGEST):
        case["expected"] = case["expected"][:case["own"]]
    return f"{json.dumps(case)}\n"


def end_group(job):
    """Ends a browser with the processes that it started, which would write into its folder while that is removed."""
    job.terminate()
    job.wait()
    with contextlib.suppress(ProcessLookupError):
        os.killpg(job.pid, signal.SIGKILL)


class Rows(unittest.TestCase):
    """Every row that is a check, in every format, byte for byte."""

    def result(self, words, folder):
        """What the page of the rows posts, opened by a browser that these words start."""
        cases = Path(folder, "cases.json")
        with open(GIVEN["cases"], encoding="utf-8") as file:
            cases.write_text("".join(map(cases_of, file)), encoding="utf-8")
        server = served(GIVEN["module"], {"/rows.html": HERE / "rows_page.html", "/rows_page.js": HERE / "rows_page.js",
                                          "/cases.json": cases})
        job = subprocess.Popen([*words, f"{server.url}/rows.html"], stdout=subprocess.DEVNULL,
                               stderr=subprocess.DEVNULL, start_new_session=True)
        try:
            end = time.monotonic() + 5 * SECONDS
            while not server.posted and job.poll() is None and time.monotonic() < end:
                time.sleep(0.05)
            self.assertTrue(server.posted, "the page posted nothing")
            return server.posted[0]
        finally:
            end_group(job)
            ended(server)

    def judge(self, *words):
        with tempfile.TemporaryDirectory(ignore_cleanup_errors=True) as folder:
            result = self.result([it.format(folder=folder) for it in words], folder)
        self.assertEqual(result["failed"], [])
        self.assertGreater(result["passed"], 1000)

    def test_chromium(self):
        self.judge("chromium", *CHROMIUM, "--user-data-dir={folder}")

    @unittest.skipIf(shutil.which("firefox-esr") is None, "the rows in Firefox: firefox-esr isn't installed")
    def test_firefox(self):
        self.judge("firefox-esr", "--headless", "--no-remote", "--profile", "{folder}")
