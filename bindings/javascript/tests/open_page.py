"""What the tests of the playground do in headless Chromium."""
import contextlib
import os
import unittest

from browsers import GIVEN, PASTE, SECONDS, address, chromium, ended, served, wait_for_verdict

from selenium.common.exceptions import TimeoutException
from selenium.webdriver.common.by import By
from selenium.webdriver.common.keys import Keys
from selenium.webdriver.support.ui import Select, WebDriverWait


class OpenPage(unittest.TestCase):
    """The playground in a browser, which each test finds open."""

    @classmethod
    def setUpClass(cls):
        cls.server = served(GIVEN["module"])
        cls.driver = chromium()

    @classmethod
    def tearDownClass(cls):
        cls.driver.quit()
        ended(cls.server)

    def setUp(self):
        # (What other tests made the browser report is taken.)
        self.faults()
        self.open(address(self.server))

    # ---- words for what is done

    def open(self, url):
        self.driver.get("about:blank")
        self.driver.get(url)
        wait_for_verdict(self.driver)
        # (What is underlined is drawn with the next frame.)
        self.driver.execute_async_script("const [end] = arguments; requestAnimationFrame(() => setTimeout(end));")

    def until(self, is_so, what=None):
        WebDriverWait(self.driver, SECONDS, 0.05).until(lambda _: is_so(), what or "")

    def find(self, selector):
        return self.driver.find_element(By.CSS_SELECTOR, selector)

    def all(self, selector):
        return self.driver.find_elements(By.CSS_SELECTOR, selector)

    def texts(self, selector):
        return self.driver.execute_script(
            "return Array.from(document.querySelectorAll(arguments[0]), it => it.textContent)", selector)

    def verdict(self):
        return self.find("#verdict").text

    def expect_verdict(self, begin):
        self.until(lambda: self.verdict().startswith(begin), f"not {begin}: {self.verdict()}")

    def paste_until(self, instance, begin):
        """Pastes an instance, again while the limit of 5 s ends its check: on a busy machine it may end a short one."""
        for spaces in range(SECONDS // 10):
            self.driver.execute_script(PASTE, "#instance-text", instance + " " * spaces)
            with contextlib.suppress(TimeoutException):
                WebDriverWait(self.driver, 10, 0.05).until(lambda _: self.verdict().startswith(begin))
                return
        self.fail(f"not {begin}: {self.verdict()}")

    def write(self, selector, text):
        """Types a text in place of another."""
        area = self.find(selector)
        area.send_keys(Keys.CONTROL, "a")
        area.send_keys(text)

    def choose_example(self, name):
        Select(self.find("#examples")).select_by_visible_text(name)

    def choose_theme(self, name):
        Select(self.find("#theme")).select_by_value(name)

    def open_panel(self, name):
        self.find(f"#panel-{name}").click()
        self.until(lambda: self.find(f"#panel-{name}").get_attribute("aria-selected") == "true")

    def button(self, text, within="#panel"):
        return next(it for it in self.all(f"{within} button") if it.text == text)

    def picture(self, name):
        if GIVEN.get("pictures"):
            self.driver.save_screenshot(os.path.join(GIVEN["pictures"], f"{name}.png"))

    def faults(self):
        """What the browser's console reports."""
        return [it["message"] for it in self.driver.get_log("browser") if it["level"] == "SEVERE"]
