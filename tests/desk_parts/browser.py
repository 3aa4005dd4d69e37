"""A browser without a window, in which the tests look at the desk's pages."""

import contextlib
import os
import pathlib
import shutil

import pytest
from desk_parts.shared import until

WIDE, HIGH = 390, 844  # of a phone


@contextlib.contextmanager
def page(it, width, height):
    """The desk's page in a browser without a window, which must say nothing in its console."""
    with opened(f"http://127.0.0.1:{it.port}/", width, height) as browser:
        until(lambda: text_of(browser, "#status-text").startswith(("Ready", "Solving")), "the page is ready")
        yield browser
        said = browser.get_log("browser")
        assert said == [], said


@contextlib.contextmanager
def opened(address, width, height):
    """A browser without a window, on an address."""
    try:
        from selenium import webdriver
        from selenium.webdriver.chrome.service import Service
    except ImportError:
        pytest.skip("there is no Selenium: apt-get install python3-selenium chromium-driver")
    driver = shutil.which("chromedriver")
    if driver is None:
        pytest.skip("there is no browser: apt-get install chromium chromium-driver")
    options = webdriver.ChromeOptions()
    for word in ("headless=new", "no-sandbox", "disable-gpu", "disable-dev-shm-usage", f"window-size={width},{height}"):
        options.add_argument("--" + word)
    options.set_capability("goog:loggingPrefs", {"browser": "ALL"})
    browser = webdriver.Chrome(service=Service(driver), options=options)
    try:
        browser.execute_cdp_cmd("Emulation.setDeviceMetricsOverride", {
            "width": width, "height": height, "deviceScaleFactor": 1, "mobile": width < 500})
        browser.get(address)
        yield browser
    finally:
        browser.quit()


def text_of(browser, selector):
    """The text of the first element of a selector; empty where there is none."""
    return browser.execute_script("return (document.querySelector(arguments[0]) || {textContent: ''}).textContent", selector)


def clicked(browser, selector):
    """Clicks the first element of this selector; whether there was one."""
    return browser.execute_script("const found = document.querySelector(arguments[0]);"
                                  "if (found) found.click(); return Boolean(found)", selector)


def fits(browser):
    """Nothing may stand out to the side."""
    wide, inner = browser.execute_script("return [document.documentElement.scrollWidth, innerWidth]")
    assert wide <= inner, (wide, inner)


def keep_picture(browser, name):
    """Keeps a picture of the page where DESK_PICTURES names a folder."""
    if os.environ.get("DESK_PICTURES"):
        browser.save_screenshot(str(pathlib.Path(os.environ["DESK_PICTURES"]) / f"{name}.png"))
