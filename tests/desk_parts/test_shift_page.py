"""Tests of what a shift needs of the page: names, booked rides, search, breaks, totals, a box that stays, many tabs."""

import contextlib
import datetime
import os
import pathlib
import tempfile

from desk_parts.browser import fits, keep_picture, opened, page, text_of
from desk_parts.shared import LINE, LONG, inputs, until

TOKYO = datetime.timezone(datetime.timedelta(hours=9))


def test_a_shift_at_the_page(desk):
    with desk(*inputs(LINE), *LONG) as it, page(it, 1280, 800) as browser:
        from selenium.webdriver.common.action_chains import ActionChains
        from selenium.webdriver.common.by import By
        from selenium.webdriver.common.keys import Keys

        def fill(name, text):
            browser.find_element(By.ID, name).send_keys(text)

        for name, text in (("from", "2"), ("to", "4"), ("who", "Ada")):
            fill(name, text)
        browser.find_element(By.ID, "ask-button").click()
        until(lambda: text_of(browser, "#chosen h2") == "Rider 1, Ada: waiting", "the rider's name")
        for name, text in (("from", "3"), ("to", "5"), ("when", "+90")):
            fill(name, text)
        browser.find_element(By.ID, "ask-button").click()
        until(lambda: text_of(browser, "#count-booked") == "1", "a booked ride")
        until(lambda: text_of(browser, "#count-waiting") == "1", "one waits")
        until(lambda: "booked for" in text_of(browser, "#message"), "what is said of the booked ride")
        assert it.gives("GET", "/rides/2")["time"] > it.second() + 3600
        choose(browser, "filter-rides", "booked")
        until(lambda: count_of(browser, "#rides .list li") == 1, "one row")
        until(lambda: "booked, 3 → 5" in text_of(browser, "#rides .list li"), "the booked ride's row")
        choose(browser, "filter-rides", "aboard")
        until(lambda: text_of(browser, "#rides .empty") == "No ride is of this kind now.", "that there is none")
        until(lambda: text_of(browser, "#map-filter") == "Shown alone: riders: aboard", "what the map shows")
        choose(browser, "filter-rides", "all")
        until(lambda: not browser.find_element(By.ID, "map-filter").is_displayed(), "the map shows all")
        fill("search", "ada")
        until(lambda: "Rider 1, Ada: waiting" in text_of(browser, "#found li"), "Ada is found")
        fill("search", Keys.ENTER)
        until(lambda: "Rider 1, Ada" in text_of(browser, "#chosen h2"), "Ada is chosen")
        button(browser, "Telephone and note").click()
        until(lambda: browser.find_element(By.ID, "contact-phone").is_displayed(), "the question")
        fill("contact-phone", "+43 1 2" + Keys.ENTER)
        until(lambda: it.gives("GET", "/rides/1/contact") == {"who": "Ada", "phone": "+43 1 2", "note": None}, "the telephone")
        keep_picture(browser, "shift-1280")
        ActionChains(browser).double_click(button(browser, "Cancel this ride")).perform()
        button(browser, "Really cancel it")
        assert it.gives("GET", "/rides/1")["state"] == "waiting"
        button(browser, "Really cancel it").click()
        until(lambda: "cancelled" in text_of(browser, "#chosen h2"), "the ride is cancelled")
        browser.find_element(By.ID, "tab-day").click()
        until(lambda: "Cancelled1" in text_of(browser, "#day-totals"), "the day's totals")
        fits(browser)
        browser.execute_script("document.querySelector('#trouble .list').focus(); document.getElementById('tab-vehicles').click()")
        browser.execute_script("document.querySelector('#vehicle-1').click()")
        until(lambda: "Vehicle 1" in text_of(browser, "#chosen h2"), "vehicle 1 is chosen")
        button(browser, "Out of service").click()
        until(lambda: "out of service" in text_of(browser, "#vehicle-1"), "the break is shown")
        assert it.gives("GET", "/vehicles/1")["out"] is True
        button(browser, "Into service again").click()
        until(lambda: it.gives("GET", "/vehicles/1")["out"] is False, "the break is over")
        for name, number in (("from", "3"), ("to", "4")):
            fill("search", Keys.CONTROL + "a")
            fill("search", number)
            until(lambda: f"node {number}" in text_of(browser, "#found li:last-child"), "the place is found")
            browser.execute_script("document.querySelector('#found li:last-child').click()")
            until(lambda: browser.find_element(By.ID, name).get_attribute("value") == number, "the place is an end of the ride")


def choose(browser, name, value):
    """Chooses a value of a list of them."""
    browser.execute_script("const it = document.getElementById(arguments[0]); it.value = arguments[1];"
                           "it.dispatchEvent(new Event('change'))", name, value)


def count_of(browser, selector):
    """How many elements there are of a selector."""
    return browser.execute_script("return document.querySelectorAll(arguments[0]).length", selector)


def button(browser, text):
    """The button of the box with this text, which must stay the same for as long as a click takes."""
    return until(lambda: browser.execute_script(
        "return [...document.querySelectorAll('#chosen button')].find(it => it.textContent === arguments[0])", text), text)


def test_the_chosen_box_stays_under_the_pointer(desk):
    with desk(*inputs(LINE), *LONG, "speed=20", "silent=0") as it, page(it, 1280, 800) as browser:
        it.gives("POST", "/rides", {"from": 2, "to": 4, "time": 0})
        it.plan()
        browser.execute_script("document.getElementById('tab-rides').click()")
        until(lambda: browser.execute_script("return document.querySelector('#ride-1')"), "the rider's row")
        browser.execute_script("document.querySelector('#ride-1').click()")
        until(lambda: "is " in text_of(browser, "#chosen") and " late." in text_of(browser, "#chosen"), "the vehicle is late")
        kept = button(browser, "Cancel this ride")
        said = text_of(browser, "#chosen")
        until(lambda: text_of(browser, "#chosen") != said, "the time goes on")
        said = text_of(browser, "#chosen")
        until(lambda: text_of(browser, "#chosen") != said, "the time goes on")
        assert browser.execute_script("return arguments[0].isConnected", kept), "the box was built anew"


def test_ten_tabs_follow_one_stream(desk):
    with desk(*inputs(LINE)) as it, opened(f"http://127.0.0.1:{it.port}/", 1280, 800) as browser:
        tabs = [browser.current_window_handle]
        for _ in range(9):
            browser.switch_to.new_window("tab")
            browser.get(f"http://127.0.0.1:{it.port}/")
            tabs.append(browser.current_window_handle)
        it.gives("POST", "/rides", {"from": 2, "to": 4})
        for tab in tabs:
            browser.switch_to.window(tab)
            until(lambda: text_of(browser, "#count-waiting") == "1", "the ride is shown")
        for tab in tabs[1:]:
            browser.switch_to.window(tab)
            browser.close()
        browser.switch_to.window(tabs[0])
        it.gives("POST", "/rides", {"from": 2, "to": 4})
        until(lambda: text_of(browser, "#count-waiting") == "2", "the tab that is left goes on")


def test_times_are_those_of_the_desks_zone(desk):
    with desk_in(desk, "Asia/Tokyo") as it, page(it, 1280, 800) as browser:
        until(lambda: shown_hour(browser) in near_hours(), "the hour in Tokyo")
        assert "Asia/Tokyo" in browser.find_element("id", "clock").get_attribute("title")
        wanted = datetime.datetime.now(TOKYO) + datetime.timedelta(hours=2)
        for name, text in (("from", "2"), ("to", "4"), ("when", wanted.strftime("%H:%M"))):
            browser.find_element("id", name).send_keys(text)
        browser.find_element("id", "ask-button").click()
        until(lambda: f"booked for {wanted:%H:%M}:00" in text_of(browser, "#message"), "the time of day")
        until(lambda: f"not before {wanted:%H:%M}:00" in text_of(browser, "#chosen"), "the time of day in the box")
        until(lambda: text_of(browser, "#rides .when") == f"{wanted:%H:%M}:00", "the time of day in the list")


@contextlib.contextmanager
def desk_in(desk, zone):
    """A desk in a time zone, which the browser isn't in."""
    before = os.environ.get("TZ")
    os.environ["TZ"] = zone
    with contextlib.ExitStack() as stack:
        try:
            it = stack.enter_context(desk(*inputs(LINE), *LONG))
        finally:
            os.environ.pop("TZ")
            if before is not None:
                os.environ["TZ"] = before
        yield it


def shown_hour(browser):
    """The hour of the page's clock."""
    return text_of(browser, "#clock").split(":")[0]


def near_hours():
    """The hour in Tokyo, and that of a minute ago."""
    now = datetime.datetime.now(TOKYO)
    return {f"{now - datetime.timedelta(minutes=it):%H}" for it in (0, 1)}


def test_the_day_is_shown_and_saved(desk):
    with tempfile.TemporaryDirectory() as folder, desk(*inputs(LINE), "wait=700", "delay=7200") as it:
        for origin in (2, 3):
            it.gives("POST", "/rides", {"from": origin, "to": 5})
            it.plan()
        with page(it, 1280, 800) as browser:
            said = "return [...document.querySelectorAll('.wait-words')].map(it => it.textContent)"
            wanted = ["waits less than 1:40", "1:40 to 5:00", "5:00 to 8:20", "8:20 or more"]
            until(lambda: browser.execute_script(said) == wanted, "colours by the day's longest wait")
            browser.execute_cdp_cmd("Browser.setDownloadBehavior", {"behavior": "allow", "downloadPath": folder})
            browser.find_element("id", "tab-day").click()
            until(lambda: "half" in text_of(browser, "#day-waits"), "waits by quantile")
            until(lambda: count_of(browser, "#day-chart polyline") == 2, "the picture of two plans")
            fits(browser)
            browser.execute_script("document.querySelectorAll('#day-tables button').forEach(it => it.click())")
            for name, lines in (("rides.csv", 3), ("batches.csv", 3)):
                path = pathlib.Path(folder, name)
                until(lambda: path.exists() and path.read_text().count("\n") == lines, f"{name} is saved")


def test_a_vehicles_way_is_the_desks(desk):
    with desk(*inputs(LINE), *LONG) as it:
        it.gives("POST", "/rides", {"from": 2, "to": 4})
        it.plan()
        with page(it, 1280, 800) as browser:
            asked = "return performance.getEntriesByType('resource').filter(it => it.name.includes('/ways?pairs=')).length"
            until(lambda: browser.execute_script(asked) >= 1, "the page asks for ways")
