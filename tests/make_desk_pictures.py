#!/usr/bin/env python3
"""Makes the pictures of the desk's pages that the guide shows.

`make_desk_pictures.py PROGRAM [FOLDER]` opens the demo of the town with more riders, one driver who stands still, and
one vehicle out of service. When there is trouble of some kinds it keeps FOLDER/desk.png, desk-drive.png and desk-ride.png,
without FOLDER in docs/pictures. It needs the packages of tests/desk.py. Look at each picture before you commit it.
"""

import pathlib
import sys
import tempfile
import time

sys.dont_write_bytecode = True

from desk_parts import shared  # noqa: E402
from desk_parts.browser import HIGH, WIDE, fits, opened, page, text_of  # noqa: E402

STANDS, FROM = 6, 300  # the vehicle whose driver stands still from this second on, with passengers
RESTS, DRIVES = 10, (2, 3, 4, 5, 7, 8, 9)
AHEAD = 45  # seconds at least to the pickup that is shown
DEMO = f"""
from ridepool.desk import command, contacts, demo

NAMES = "Ada Ben Carla David Eva Franz Greta Hugo Ida Jonas Karin Leo Maria Nora Otto Paula Rosa Simon Tom Vera".split()
demo.SECONDS_BETWEEN_RIDERS = 12
go, report_one = demo.Drivers.go, demo.Drivers.report_one

def stands(self, driver, second):
    return driver.vehicle == {STANDS} and second >= {FROM} and self.state.vehicles[{STANDS}].aboard

async def goes(self, driver, now):
    if not stands(self, driver, now):
        await go(self, driver, now)

async def reports(self, driver, second):
    if not stands(self, driver, second):
        await report_one(self, driver, second)

def contact_of(self, ride):
    return {{"who": NAMES[ride % len(NAMES)], "phone": f"+43 1 {{2340 + ride}}", "note": None}}

demo.Drivers.go, demo.Drivers.report_one, contacts.Contacts.of = goes, reports, contact_of
command.main()
"""


def has_trouble(it):
    """Whether there is trouble of two kinds, a vehicle that is late among it."""
    kinds = {one["kind"] for one in it.gives("GET", "/trouble")["trouble"]}
    return "late-vehicle" in kinds and len(kinds) > 1


def next_pickup(it):
    """A vehicle that comes to a rider next, but not at once, and that rider; None where there is none."""
    for number in DRIVES:
        stops = it.gives("GET", f"/vehicles/{number}/stops")
        if len(stops) > 2 and stops[0]["kind"] == "pick" and stops[0]["second"] > it.second() + AHEAD:
            return number, stops[0]["ride"]
    return None


def is_kept(browser, address, selector, text, path):
    """Opens a page and keeps its picture. Gives whether an element had this text before and behind that."""
    browser.get(address)
    time.sleep(1)
    had = text in text_of(browser, selector)
    fits(browser)
    browser.save_screenshot(str(path))
    return had and text in text_of(browser, selector)


def keep_phones(it, folder):
    """Pictures of a driver's page and of the page of a rider, before a pickup."""
    place = f"http://127.0.0.1:{it.port}"
    for name, path, which, high, selector, text in (("ride", "/ride/", 1, HIGH // 3, "#state", "A vehicle comes to you"),
                                                    ("drive", "/drive?vehicle=", 0, HIGH, "#next-stop", "Pick up")):
        with opened(f"{place}{path}1", WIDE, high) as browser:
            shared.until(lambda: (found := next_pickup(it)) and is_kept(
                browser, f"{place}{path}{found[which]}", selector, text, folder / f"desk-{name}.png"), text)


def is_chosen(browser):
    """Clicks the late vehicle in the list of trouble; whether it stands there."""
    return browser.execute_script("const found = [...document.querySelectorAll('#trouble .list li')].find(it => "
                                  "it.textContent.includes(arguments[0])); if (found) found.click(); return Boolean(found)",
                                  f"Vehicle {STANDS} ")


def keep_page(it, folder):
    """A picture of the page, with the late vehicle chosen."""
    with page(it, 1280, 800) as browser:
        shared.until(lambda: is_chosen(browser), "the late vehicle's row")
        shared.until(lambda: text_of(browser, "#chosen h2").startswith(f"Vehicle {STANDS}"), "the vehicle is chosen")
        time.sleep(1)  # its way is drawn
        fits(browser)
        browser.save_screenshot(str(folder / "desk.png"))


def main():
    """Makes them."""
    program = str(pathlib.Path(sys.argv[1]).resolve())
    folder = pathlib.Path(sys.argv[2]) if len(sys.argv) > 2 else shared.TOP / "docs" / "pictures"
    with tempfile.TemporaryDirectory() as place:
        tool = pathlib.Path(place) / "demo.py"
        tool.write_text(DEMO)
        with shared.desk("demo", "speed=10", program=program, tool=tool, env=shared.WITH_PACKAGE, folder=pathlib.Path(place) / "day") as it:
            it.gives("POST", f"/vehicles/{RESTS}/break")
            shared.until(lambda: it.second() > FROM, "the driver stands still", 10 * shared.PATIENCE)
            shared.until(lambda: has_trouble(it), "trouble", 10 * shared.PATIENCE)
            keep_page(it, folder)
            keep_phones(it, folder)


if __name__ == "__main__":
    main()
