"""The operators' page in headless Chromium: force, change with preview, take back, a fault, keys and phone sizes."""
import contextlib
import os
from collections.abc import Iterator
from typing import Any
import pytest
from conftest import ACT, LOOK, Host, needs, wait_for

pytestmark = needs("aiohttp", "selenium", "chromium", "chromedriver")

class Page:
    """A page of a host in a browser."""
    def __init__(self, host: Host) -> None:
        from selenium import common, webdriver

        options = webdriver.ChromeOptions()
        options.binary_location = "/usr/bin/chromium"
        for word in ["--headless=new", "--disable-gpu", "--disable-dev-shm-usage"] + ["--no-sandbox"] * (os.geteuid() == 0):
            options.add_argument(word)

        def start() -> Any:
            with contextlib.suppress(common.exceptions.WebDriverException):  # on a busy machine it may end as it begins
                return webdriver.Chrome(service=webdriver.chrome.service.Service("/usr/bin/chromedriver"), options=options)

        self.host, self.browser = host, wait_for(start)
        self.browser.set_script_timeout(60)  # as long as `wait_for` waits
        self.run, self.actions = self.browser.execute_script, webdriver.ActionChains(self.browser)

    def open(self, token: str = ACT) -> None:
        self.browser.get(f"{self.host.url}/#{token}")
        self.sees("#state", "Running")

    def text(self, css: str) -> str:
        return self.run("return document.querySelector(arguments[0])?.innerText || ''", css)

    def sees(self, css: str, words: str) -> str:
        return wait_for(lambda: text if words in (text := self.text(css)) else "")

    def keys(self, *keys: str) -> None:
        self.run("document.activeElement.blur()")
        self.actions.send_keys(*keys).perform()

    def press(self, css: str) -> None:
        wait_for(lambda: self.run("const found = document.querySelector(arguments[0]);"
                                  "return found?.checkVisibility() && !found.disabled && (found.click(), true)", css))

    def check(self, old: str, new: str) -> None:
        """Checks the program with something in it replaced."""
        self.keys("4")
        self.press("#editor:not([open]) summary")
        self.run("$('text').value = $('text').value.replace(...arguments)", old, new)
        self.press("#check")

@pytest.fixture
def page(host: Host) -> Iterator[Page]:
    made = Page(host)
    yield made
    made.browser.quit()

def test_a_force_a_change_and_what_is_taken_back(page: Page) -> None:
    page.open()
    page.keys("/", "band")
    wait_for(lambda: page.text("#rows").startswith("Main.Band"))
    page.press("#rows tr")
    page.sees("#sheet-path", "Main.Band")
    page.actions.send_keys("55").perform()
    page.press("#sheet button[value=force]")
    page.sees("#answer", "force Main.Band 55: ok")
    page.sees("#rows", "forced")
    page.sees("#forces", "1 forced")
    page.check("Band : INT := 7;", "Other : INT;")
    seen = page.sees("#preview", "force lost: `Main.Band` = 55")
    assert "dropped: `Main.Band`" in seen and "new: `Main.Other`" in seen
    page.press("#do")
    page.sees("#log", "dropped 1 new 1")
    page.press("#log button")
    page.sees("#log", "taken back")
    page.keys("2")
    page.sees("#rows", "forced")
    assert page.host.console("show Main.Band").startswith("Main.Band = 55 forced")

def test_a_refused_text_and_a_fault_say_where(page: Page) -> None:
    page.open()
    page.check("10 / Z", "10 / Zz")
    assert "C1" in page.sees("#preview", "Q := 10 / Zz;") and page.run("return $('do').disabled")
    page.host.console("write Main.Z 0")
    seen = page.sees("#banner", "Q := 10 / Z;")
    assert "divided by zero" in seen and "line 16" in seen
    assert page.text("#state") == "Halted by a fault"
    page.press("#banner button")
    assert page.text("#program li.fault") == "Q := 10 / Z;"
    page.keys("1")
    page.sees("#outputs", "for the fault")

def test_undo_while_scans_are_held(page: Page) -> None:
    page.open()
    page.press("#hold")
    page.sees("#state", "Held")
    page.host.console("write Main.Band 3")
    page.sees("#undo", "Undo: write Main.Band 3")
    page.press("#undo")
    page.sees("#answer", "undo: ok")
    assert page.host.console("show Main.Band").startswith("Main.Band = 7")

def test_sizes_fit_and_charts_and_trends_are_drawn(page: Page) -> None:
    for width, height in ((1366, 800), (820, 1100), (360, 740)):
        size = {"width": width, "height": height, "deviceScaleFactor": 1, "mobile": width < 500}
        page.browser.execute_cdp_cmd("Emulation.setDeviceMetricsOverride", size)
        page.open(LOOK)
        assert not page.run("return $('hold').checkVisibility()")
        wait_for(lambda: page.run("return document.querySelectorAll('#plot path[d*=H]').length") == 1)
        for key in "12453":
            page.keys(key)
            assert page.run("return document.documentElement.scrollWidth <= innerWidth"), (key, width)
        page.sees("#view-charts h2", "Main.Cycle")
        wait_for(lambda: page.run("return document.querySelectorAll('.step.active').length") == 1)
    assert not [entry for entry in page.browser.get_log("browser") if entry["level"] == "SEVERE"]
