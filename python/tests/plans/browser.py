"""A headless Chromium that uses the page of a ward's folder, by mouse or by keyboard, as wide as a
screen or as a telephone."""

import re
import shutil
import subprocess
import sys
import time

from test_plans import FolderTest
from ward import ENOUGH, HELPERS

try:
    from selenium import webdriver
    from selenium.common.exceptions import StaleElementReferenceException, WebDriverException
    from selenium.webdriver.chrome.service import Service
    from selenium.webdriver.common.by import By
    from selenium.webdriver.common.keys import Keys
except ImportError:
    webdriver = None

HAS_BROWSER = webdriver is not None and all(map(shutil.which, ("chromium", "chromedriver")))
SCREEN = 1280
TELEPHONE = 390
# The most seconds until a page shows what it should, and the most stops of the key Tab to what is
# looked for.
_PATIENCE = ENOUGH
_MOST_STOPS = 60


class BrowserTest(FolderTest):
    """A ward's folder that `inrc2pb-plan` serves, and a browser that shows its page."""

    width = SCREEN
    by_keyboard = False

    def setUp(self):
        super().setUp()
        self.served = subprocess.Popen(
            [
                sys.executable,
                str(HELPERS / "inrc2pb-plan"),
                str(self.ward),
                "serve",
                "--time",
                str(ENOUGH),
            ],
            stdout=subprocess.PIPE,
            text=True,
        )
        self.addCleanup(self._end)
        self.address = re.search("http://[^ \n]*", self.served.stdout.readline())[0]
        options = webdriver.ChromeOptions()
        options.binary_location = shutil.which("chromium")
        for word in ("--headless=new", "--no-sandbox", "--disable-dev-shm-usage", "--disable-gpu"):
            options.add_argument(word)
        self.browser = webdriver.Chrome(
            service=Service(shutil.which("chromedriver")), options=options
        )
        self.addCleanup(self.browser.quit)
        size = {"width": self.width, "height": 900, "deviceScaleFactor": 1, "mobile": False}
        self.browser.execute_cdp_cmd("Emulation.setDeviceMetricsOverride", size)
        self.stops = 0
        self.clicks = 0

    def _end(self):
        self.served.terminate()
        self.served.wait()
        self.served.stdout.close()

    def opens(self):
        """Opens the page as a bookmark does."""
        self.browser.get(self.address)

    @property
    def text(self):
        """What the page says."""
        return self.browser.find_element(By.TAG_NAME, "body").text

    def waits_for(self, says):
        """Waits until the page says this, and no verb runs. A page that loads itself again is
        another one at any time."""
        limit = time.monotonic() + _PATIENCE
        shown = ""
        while time.monotonic() < limit:
            try:
                shown = self.text
                if (
                    re.search(says, shown)
                    and 'http-equiv="refresh"' not in self.browser.page_source
                ):
                    return shown
            except (StaleElementReferenceException, WebDriverException):
                pass
            time.sleep(0.1)
        self.fail(f"'{says}' is not on the page: {shown}")

    def found(self, path):
        """The first element of this path that is shown."""
        limit = time.monotonic() + _PATIENCE
        while time.monotonic() < limit:
            shown = [
                one for one in self.browser.find_elements(By.XPATH, path) if one.is_displayed()
            ]
            if shown:
                return shown[0]
            time.sleep(0.1)
        self.fail(f"nothing is shown at {path}: {self.text}")

    def presses(self, path):
        """A click, or Tab until it is reached and Enter."""
        target = self.found(path)
        self.clicks += 1
        if not self.by_keyboard:
            target.click()
            return
        self.reaches(target)
        self.browser.switch_to.active_element.send_keys(Keys.ENTER)

    def reaches(self, target):
        """The key Tab, until it is there."""
        for _ in range(_MOST_STOPS):
            if self.browser.switch_to.active_element == target:
                return
            self.browser.switch_to.active_element.send_keys(Keys.TAB)
            self.stops += 1
        self.fail(f"Tab does not reach {target.text}")

    def button(self, text):
        """Presses the first button whose text has this."""
        self.presses(f"//button[contains(., '{text}')]")

    def unfolds(self, text):
        """Opens a form that is folded."""
        self.presses(f"//summary[.='{text}']")

    def says_yes(self, question, says):
        """Answers the only question by its only Yes, and waits until the page says what was
        done."""
        self.waits_for(question)
        buttons = [
            one for one in self.browser.find_elements(By.TAG_NAME, "button") if "Yes" in one.text
        ]
        self.assertEqual(len(buttons), 1)
        self.clicks += 1
        if self.by_keyboard:
            # The question has the focus, so its Yes is the next stop.
            stops = self.stops
            self.reaches(buttons[0])
            self.assertEqual(self.stops, stops + 1)
            self.browser.switch_to.active_element.send_keys(Keys.ENTER)
        else:
            buttons[0].click()
        return self.waits_for(says)

    def opens_cell(self, nurse, day):
        """Opens a nurse's day: a click on its cell, or by keyboard her name, and then day after
        day."""
        if not self.by_keyboard:
            cells = self.browser.find_elements(By.XPATH, f"//tr[th//a[.='{nurse}']]/td/a")
            self.clicks += 1
            cells[day].click()
        else:
            self.presses(f"//tbody//th//a[.='{nurse}']")
            for _ in range(day):
                self.waits_for(f"(?m)^{nurse}, ")
                self.presses("//section[@id='cell']//a[contains(., '\u203a')]")
        self.waits_for(f"(?m)^{nurse}, ")

    def plans(self):
        """The verbs of the plans that hold, one after another."""
        return [
            path.name.rpartition("-")[2] for path in sorted((self.ward / "plans").glob("[0-9]*"))
        ]

    def fits(self):
        """The page is not wider than the screen: only its table is, and that can be moved."""
        wide = self.browser.execute_script("return document.documentElement.scrollWidth")
        self.assertLessEqual(wide, self.width)
        if not self.browser.find_elements(By.CLASS_NAME, "plan"):
            return
        # Names and days stay in view while the table is moved, and the panel is below it.
        script = (
            "const box = one => document.querySelector(one).getBoundingClientRect();"
            "document.querySelector('.plan').scrollTo(150, 60);"
            "return [box('.plan thead').top - box('.plan').top,"
            " box('.plan tbody th').left - box('.plan').left,"
            " box('.panel').top - box('.plan').bottom]"
        )
        top, left, below = self.browser.execute_script(script)
        self.assertLessEqual(max(abs(top), abs(left)), 2)
        self.assertGreaterEqual(below, 0)
