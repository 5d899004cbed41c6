"""The playground in headless Chromium, as a reader uses it; and the rows through the module, in each browser.

    browser_test.py MODULE CASES [SCREENSHOTS]

CASES are those that cases.py writes. Of the states of the page pictures go into the folder SCREENSHOTS. It needs
Chromium, its driver and Python's selenium. Where Firefox is installed, it takes part with most rows, and in short.
"""
import contextlib
import json
import os
import shutil
import sys
import tempfile
import time
import unittest
from pathlib import Path

sys.dont_write_bytecode = True
from browsers import (BUILT, CONTRAST, CUT, GIVEN, KEY_PRESS, LOADED_EARLY, MANY, MANY_SCHEMA, PAGE,  # noqa: E402
                      PASTE, SLOW, SLOW_SCHEMA, WIDER, address, built, ended, milliseconds_to, served)
from open_page import OpenPage  # noqa: E402
from other_browser_tests import InFirefox, Rows  # noqa: E402, F401

from selenium.webdriver.common.keys import Keys  # noqa: E402
from selenium.webdriver.support.ui import Select  # noqa: E402


class Page(OpenPage):
    """What a reader sees and does."""

    # ---- what is seen and done

    def test_first_screen(self):
        self.expect_verdict("✗ Invalid: 1 error")
        self.assertEqual(self.texts("#instance-editor .underlined"), ["-1"])
        self.assertEqual("".join(self.texts("#schema-editor .underlined")), '"minimum": 0')
        self.assertEqual(self.texts(".drawing .message"), ["less than 0", "less than 0"])
        self.assertEqual(self.texts(".errors .message"), ["less than 0"])
        self.assertEqual(self.faults(), [])
        self.picture("first")

    def test_the_first_verdict_needs_no_worker(self):
        server = served(GIVEN["module"], {f"{PAGE}worker.js": Path("/nowhere")})
        try:
            self.open(address(server))
            self.expect_verdict("✗ Invalid: 1 error")
            self.assertEqual(self.texts("#instance-editor .underlined"), ["-1"])
            self.assertIn("https://example.com/person",
                          [it.get_attribute("value") for it in self.all("#entries option")])
        finally:
            ended(server)

    def test_without_the_module(self):
        server = served(Path("/nowhere"))
        try:
            self.open(address(server))
            self.until(lambda: self.find("#schema-text").is_displayed())
            self.assertIn("The validator can't be loaded", self.verdict())
            self.assertEqual(self.texts("#instance-editor .line")[0], '{"name": "Ada", "age": -1}')
        finally:
            ended(server)

    def test_typing(self):
        self.write("#instance-text", '{"name": "Ada", "age": 36}')
        self.expect_verdict("✓ Valid")
        self.assertEqual(self.texts(".underlined"), [])
        self.write("#instance-text", '{"name": 1,\n"age": -3}')
        self.expect_verdict("✗ Invalid: 2 errors")
        self.assertEqual(self.texts("#instance-editor .underlined"), ["1", "-3"])
        self.picture("typed")
        self.write("#instance-text", '{"name": tru}')
        self.expect_verdict("Refused: instance: NotJson")
        self.assertEqual(self.texts("#instance-editor .underlined"), ["t"])
        self.assertEqual(self.texts(".drawing .message"), ["not a JSON text, or nested deeper than 127"])
        self.picture("refused")
        self.write("#instance-text", "{}")
        self.write("#schema-text", '{"type": "nul"}')
        self.expect_verdict("Refused: document https://example.com/person at /type: BadKeyword")
        self.assertEqual("".join(self.texts("#schema-editor .underlined")), '"type": "nul"')
        self.write("#schema-text", '{"type": "null"}')
        self.expect_verdict("✗ Invalid: 1 error")

    def test_a_check_that_takes_too_long_is_ended(self):
        """It is a worker's, so the page can be used meanwhile."""
        self.driver.execute_script(PASTE, "#schema-text", SLOW_SCHEMA)
        self.expect_verdict("✓ Valid")
        self.driver.execute_script(PASTE, "#instance-text", SLOW)
        begin = time.monotonic()
        self.choose_theme("dark")
        self.assertEqual(self.driver.execute_script("return document.documentElement.dataset.theme"), "dark")
        self.assertEqual(self.verdict(), "✓ Valid")
        self.assertLess(time.monotonic() - begin, 4)
        self.expect_verdict("Stopped: no answer after 5 s")
        self.assertIn("The check was ended", self.find(".hint").text)
        self.paste_until('{"x7": 0}', "✗ Invalid: 1 error")
        self.paste_until('{"y7": 0}', "✓ Valid")

    def test_indent(self):
        self.write("#instance-text", '{"name":"é😀","list":[1,{"a":[]}],"age":9007199254740993}')
        before = self.find("#instance-text").get_property("value")
        self.button("Indent", "#instance-editor").click()
        self.assertEqual(self.find("#instance-text").get_property("value"),
                         json.dumps(json.loads(before), indent=2, ensure_ascii=False) + "\n")
        self.find("#instance-text").send_keys(Keys.CONTROL, "z")
        self.assertEqual(self.find("#instance-text").get_property("value"), before)
        self.write("#instance-text", '{"a":')
        self.button("Indent", "#instance-editor").click()
        self.assertEqual(self.find("#instance-text").get_property("value"), '{"a":')

    def test_underlines_move_with_the_text(self):
        area = self.find("#instance-text")
        area.send_keys(Keys.CONTROL, Keys.HOME)
        area.send_keys("\n\n ")
        self.expect_verdict("✗ Invalid: 1 error")
        self.assertEqual(self.texts("#instance-editor .underlined"), ["-1"])
        self.until(lambda: "3:25" in self.find(".errors .where").text)

    def test_messages_are_seen_whole(self):
        for name in ("A person", "Folders in folders: a recursive schema", "One of two: anyOf, condensed"):
            self.choose_example(name)
            self.expect_verdict("✗ Invalid")
            self.until(lambda: self.all(".drawing .message"))
            self.assertEqual(self.driver.execute_script(CUT), [], name)

    def test_errors_lead_to_their_places(self):
        self.choose_example("Strict trees: $dynamicRef")
        self.expect_verdict("✗ Invalid: 2 errors")
        places = self.all(".errors .where button")
        self.find(".errors .message").click()
        self.assertEqual(self.texts("#instance-editor .selected"), ["1"])
        self.assertEqual("".join(self.texts("#schema-editor .selected")), '"unevaluatedProperties": false')
        self.picture("places")
        places[0].click()
        self.assertEqual(self.driver.switch_to.active_element.get_attribute("id"), "instance-text")
        self.assertIn("Line 3, column 14", self.find("#instance-text-caret").text)
        self.until(lambda: len(self.all(".errors .current")) == 1)
        self.all(".errors .where button")[1].click()
        self.assertEqual(self.driver.switch_to.active_element.get_attribute("id"), "schema-text")
        self.until(lambda: len(self.all(".errors .current")) == 2)

    def test_an_error_in_another_document_opens_its_tab(self):
        self.choose_example("Strict trees: $dynamicRef")
        self.write("#instance-text", '{"children": 1}')
        # (`$ref` fails at the root, and a failing keyword evaluates nothing.)
        self.until(lambda: self.texts(".errors .message") == ["type is integer", "false schema"])
        self.assertEqual([it.text for it in self.all("#documents [role=tab].marked")], ["strict-tree", "tree"])
        self.find(".errors .message").click()
        self.assertEqual(self.find("#documents [aria-selected=true]").text, "tree")
        self.assertEqual("".join(self.texts("#schema-editor .selected")), '"type": "array"')

    def test_documents(self):
        self.find("#add-document").click()
        self.write("#uri", "https://example.com/zip")
        self.write("#schema-text", '{"pattern": "^[0-9]{5}$"}')
        self.find("#document-0").click()
        self.write("#schema-text", '{"properties": {"zip": {"$ref": "zip"}}}')
        self.write("#instance-text", '{"zip": "1234"}')
        self.expect_verdict("✗ Invalid: 1 error")
        self.assertIn("https://example.com/zip#/pattern", self.find(".errors").get_attribute("innerHTML"))
        self.assertIn("https://example.com/zip", [it.get_attribute("value") for it in self.all("#entries option")])
        self.write("#entry", "https://example.com/zip")
        self.expect_verdict("✓ Valid")
        self.find("#document-1").click()
        self.find("#remove-document").click()
        self.expect_verdict("Refused: document https://example.com/person at /properties/zip/$ref: Unresolved")

    def test_tree(self):
        self.choose_example("Folders in folders: a recursive schema")
        self.open_panel("tree")
        self.until(lambda: self.all("[role=treeitem]"))
        root = self.find("[role=treeitem]")
        rows = len(self.all("[role=treeitem]"))
        self.assertEqual(root.get_attribute("aria-expanded"), "true")
        self.assertTrue(self.all(".row.valid") and self.all(".row.invalid"))
        self.picture("tree")
        root.send_keys(Keys.ARROW_LEFT)
        self.assertEqual(len(self.all("[role=treeitem]")), 1)
        self.driver.switch_to.active_element.send_keys(Keys.ARROW_RIGHT)
        self.assertEqual(len(self.all("[role=treeitem]")), rows)
        self.driver.switch_to.active_element.send_keys(Keys.ARROW_RIGHT)
        self.assertEqual(self.driver.switch_to.active_element.get_attribute("aria-level"), "2")
        self.button("Unfold all").click()
        self.assertGreater(len(self.all("[role=treeitem]")), rows)
        self.button("Fold all").click()
        self.assertEqual(len(self.all("[role=treeitem]")), 1 + len(self.all("[aria-level='2']")))
        self.find(".twistie").click()
        self.assertEqual(len(self.all("[role=treeitem]")), 1)

    def test_nodes_lead_to_their_places(self):
        self.choose_example("A person")
        self.expect_verdict("✗ Invalid: 1 error")
        self.open_panel("tree")
        self.until(lambda: self.all("[role=treeitem]"))
        next(it for it in self.all(".row") if "minimum" in it.text).click()
        self.assertEqual(self.texts("#instance-editor .selected"), ["-1"])
        self.assertEqual("".join(self.texts("#schema-editor .selected")), '"minimum": 0')
        self.assertEqual(self.faults(), [])

    def test_condensing(self):
        self.choose_example("One of two: anyOf, condensed")
        self.until(lambda: self.all(".history"))
        self.until(lambda: "0 steps taken" in self.find(".said").text)
        before = self.texts("[role=treeitem]")
        self.picture("condensing")
        self.button("Step").click()
        self.assertIn("1 step taken", self.find(".said").text)
        self.assertEqual(len(self.texts("[role=treeitem]")), len(before) - 1)
        self.find(".row .action").click()
        self.assertIn("2 steps taken", self.find(".said").text)
        self.button("Random step").click()
        self.button("Back").click()
        self.button("End").click()
        self.assertIn("byte for byte the output detailed", self.find(".said").text)
        self.assertFalse(self.all(".row .action"))
        end = self.texts("[role=treeitem]")
        self.picture("condensed")
        self.button("Start").click()
        self.assertEqual(len(self.texts("[role=treeitem]")), len(before))
        while (random := self.button("Random step")).is_enabled():
            random.click()
        self.assertEqual(self.texts("[role=treeitem]"), end)

    def test_merging(self):
        self.choose_example("One problem in several ways: merged")
        self.until(lambda: self.all("#panel input[type=checkbox]"))
        self.find("#panel input[type=checkbox]").click()
        self.until(lambda: self.all(".can-merge") or "0 steps" in self.find(".said").text)
        self.button("End").click()
        self.until(lambda: "byte for byte the output merged" in self.find(".said").text)
        self.assertTrue(any("equal to" in it for it in self.texts(".history li")))
        self.picture("merged")

    def test_output(self):
        self.open_panel("output")
        self.until(lambda: self.all("pre"))
        Select(self.find("#panel select")).select_by_visible_text("flag")
        self.until(lambda: json.loads(self.find("pre").text) == {"valid": False})
        self.picture("output")

    def test_examples(self):
        for name in [it.text for it in Select(self.find("#examples")).options][1:]:
            with self.subTest(name):
                self.choose_example(name)
                self.expect_verdict("Refused: walk: TooLarge" if "TooLarge" in name else "✗ Invalid")
        self.choose_example("A hostile pattern")
        self.expect_verdict("✗ Invalid: 1 error")
        self.assertRegex(self.find("#time").text, r"^in (less than 1|\d{1,3}) ms$")

    def test_link(self):
        self.choose_example("One of two: anyOf, condensed")
        self.write("#instance-text", '{"mail": 7, "other": "é😀"}')
        self.open_panel("output")
        self.find("#share").click()
        self.until(lambda: "link" in self.find("#notice").text)
        link = self.driver.current_url
        self.assertIn("#1.", link)
        shown = self.find("#schema-text").get_property("value"), self.find("#instance-text").get_property("value")
        asked = len(self.server.asked)
        self.open(link)
        again = self.find("#schema-text").get_property("value"), self.find("#instance-text").get_property("value")
        self.assertEqual(again, shown)
        self.assertEqual(self.find("#panel-output").get_attribute("aria-selected"), "true")
        self.assertFalse([it for it in self.server.asked[asked:] if "1." in it])
        self.open(address(self.server) + "#1.broken")
        self.assertIn("The link can't be read", self.find("#notice").text)
        self.expect_verdict("✗ Invalid: 1 error")

    def test_a_link_that_is_too_long(self):
        self.driver.execute_script(PASTE, "#instance-text", json.dumps(os.urandom(900_000).hex()))
        self.expect_verdict("✗ Invalid: 1 error")
        before = self.driver.current_url
        self.find("#share").click()
        self.until(lambda: "browsers don't take" in self.find("#notice").text)
        self.assertEqual(self.driver.current_url, before)

    def test_address_follows(self):
        self.write("#instance-text", '{"name": "Grace"}')
        self.until(lambda: "#1." in self.driver.current_url)
        self.driver.refresh()
        self.until(lambda: self.find("#instance-text").get_property("value") == '{"name": "Grace"}')

    def test_nothing_is_sent(self):
        milliseconds_to(self.driver, "complete")
        asked = len(self.server.asked)
        for example in ("A person", "Strict trees: $dynamicRef"):
            self.choose_example(example)
            self.write("#instance-text", "[1]")
            self.expect_verdict("✗ Invalid")
        self.find("#share").click()
        for panel in ("tree", "condensing", "output"):
            self.open_panel(panel)
        self.assertEqual(self.server.asked[asked:], [])
        for attempt in ("fetch('/')", "fetch('https://example.com/')",
                        "new Promise((done, refused) => { const it = new Image(); it.onload = done;"
                        " it.onerror = refused; it.src = '/x.png'; })"):
            said = self.driver.execute_async_script(
                f"const end = arguments[0]; ({attempt}).then(() => end('sent'), () => end('refused'))")
            self.assertEqual(said, "refused", attempt)
        self.driver.execute_script("try { navigator.sendBeacon('/x'); } catch { }")
        self.assertEqual(self.server.asked[asked:], [])

    # ---- for everyone

    def test_names_and_keyboard(self):
        for panel in ("errors", "tree", "condensing", "output"):
            self.open_panel(panel)
            time.sleep(0.1)
            for it in self.all("button, input, select, textarea, [role=tree], [role=treeitem], [role=tablist], pre"):
                if it.is_displayed():
                    self.assertTrue(it.accessible_name, it.get_attribute("outerHTML"))
        self.find("#panel-output").send_keys(Keys.ARROW_RIGHT)
        self.until(lambda: self.find("#panel-errors").get_attribute("aria-selected") == "true")
        self.assertEqual(self.driver.switch_to.active_element.get_attribute("id"), "panel-errors")
        reached = set()
        self.find("#examples").send_keys("")
        for _ in range(30):
            self.driver.switch_to.active_element.send_keys(Keys.TAB)
            reached.add(self.driver.switch_to.active_element.get_attribute("id"))
        self.assertLessEqual({"share", "theme", "add-document", "uri", "schema-text", "entry", "instance-text",
                              "panel-errors"}, reached)

    def test_contrast(self):
        for theme in ("light", "dark"):
            self.choose_theme(theme)
            for example, panel in (("Folders in folders: a recursive schema", "errors"),
                                   ("One problem in several ways: merged", "condensing"),
                                   ("Folders in folders: a recursive schema", "tree"),
                                   ("A reference without end: TooLarge", "errors"), ("A person", "output")):
                self.choose_example(example)
                self.open_panel(panel)
                time.sleep(0.2)
                if theme == "dark":
                    self.picture(f"dark-{panel}")
                self.assertEqual(self.driver.execute_script(CONTRAST), [], (theme, example))

    def test_theme_of_the_system(self):
        colour = "return getComputedStyle(document.body).backgroundColor"
        try:
            for wanted, other in (("dark", "light"), ("light", "dark")):
                self.driver.execute_cdp_cmd("Emulation.setEmulatedMedia", {
                    "features": [{"name": "prefers-color-scheme", "value": wanted}]})
                shown = self.driver.execute_script(colour)
                self.choose_theme(other)
                self.assertNotEqual(self.driver.execute_script(colour), shown)
                self.choose_theme(wanted)
                self.assertEqual(self.driver.execute_script(colour), shown)
                self.choose_theme("")
                self.assertEqual(self.driver.execute_script(colour), shown)
        finally:
            self.driver.execute_cdp_cmd("Emulation.setEmulatedMedia", {"features": []})

    def test_narrow(self):
        self.driver.set_window_size(500, 900)
        try:
            self.driver.execute_cdp_cmd("Emulation.setDeviceMetricsOverride", {
                "width": 340, "height": 800, "deviceScaleFactor": 1, "mobile": False})
            for panel in ("errors", "tree", "condensing", "output"):
                self.open_panel(panel)
                self.assertEqual(self.driver.execute_script(WIDER), [], panel)
                self.picture(f"narrow-{panel}")
        finally:
            self.driver.execute_cdp_cmd("Emulation.clearDeviceMetricsOverride", {})
            self.driver.set_window_size(1200, 1000)

    def test_a_large_instance(self):
        self.driver.execute_script(PASTE, "#schema-text", MANY_SCHEMA)
        self.driver.execute_script(PASTE, "#instance-text", MANY)
        self.expect_verdict("✓ Valid")
        took = self.driver.execute_async_script(KEY_PRESS)
        self.assertLess(took, 2000)
        print(f"a key press in {len(MANY):,} characters: {took:.0f} ms until the verdict is shown")

    # ---- what is published

    @contextlib.contextmanager
    def built(self):
        """A folder with what tools/build-playground makes, and its files by the paths under which they are served."""
        if shutil.which("esbuild") is None:
            self.skipTest("the playground as it is published: esbuild isn't installed")
        with tempfile.TemporaryDirectory() as folder:
            yield Path(folder), built(GIVEN["module"], folder)

    def judge_use(self):
        """The page checks what is typed, sends nothing, and comes back from its link."""
        self.expect_verdict("✗ Invalid: 1 error")
        self.assertEqual(self.texts("#instance-editor .underlined"), ["-1"])
        milliseconds_to(self.driver, "complete")
        self.write("#instance-text", '{"name": "Ada"}')
        self.expect_verdict("✓ Valid")
        self.open_panel("tree")
        self.until(lambda: self.all("[role=treeitem]"))
        self.assertEqual(self.faults(), [])
        said = self.driver.execute_async_script(
            f"const end = arguments[0]; fetch('{self.server.url}/').then(() => end('sent'), () => end('refused'))")
        self.assertEqual(said, "refused")
        self.find("#share").click()
        self.until(lambda: "link" in self.find("#notice").text)
        self.open(self.driver.current_url)
        self.assertEqual(self.find("#instance-text").get_property("value"), '{"name": "Ada"}')

    def test_one_file(self):
        with self.built() as (folder, _):
            self.open((folder / "playground.html").as_uri())
            self.judge_use()

    def test_page_of_a_site(self):
        with self.built() as (_, files):
            server = served(GIVEN["module"], files)
            try:
                self.open(address(server, BUILT))
                self.assertEqual(self.driver.execute_script(LOADED_EARLY), [True])
                self.judge_use()
                self.picture("published")
                self.assertEqual({*server.asked}, {BUILT, f"{BUILT}jschema.wasm"})
            finally:
                ended(server)


def main():
    GIVEN.update(zip(("module", "cases", "pictures"), sys.argv[1:]))
    only = [it for it in sys.argv[4:]]
    loader = unittest.defaultTestLoader
    tests = loader.loadTestsFromNames(only, sys.modules[__name__]) if only else loader.loadTestsFromModule(
        sys.modules[__name__])
    result = unittest.TextTestRunner(stream=sys.stdout, verbosity=0).run(tests)
    for _, reason in result.skipped:
        print(f"skipped: {reason}")
    failed = len(result.failures) + len(result.errors)
    print(f"{result.testsRun - failed - len(result.skipped)} passed, {failed} failed")
    return 1 if failed else 0


if __name__ == "__main__":
    sys.exit(main())
