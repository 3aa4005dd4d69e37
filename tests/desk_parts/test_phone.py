"""Tests of the pages for phones in a browser: the driver's and the rider's, also on a line that is cut."""

import contextlib
import json
import pathlib
import socket
import tempfile
import threading

from desk_parts.browser import HIGH, WIDE, fits, keep_picture, opened, text_of
from desk_parts.shared import LINE, LONG, TOWN, inputs, until
from desk_parts.tokens import made


class Line:
    """A line to the desk that can be cut. `is_deaf`: what the page sends arrives, and the answers are lost."""

    def __init__(self):
        self.listener = socket.create_server(("127.0.0.1", 0))
        self.port, self.target = self.listener.getsockname()[1], None
        self.is_cut = self.is_deaf = False
        self.open = set()
        threading.Thread(target=self.accept, daemon=True).start()

    def accept(self):
        with contextlib.suppress(OSError):
            while True:
                caller, _ = self.listener.accept()
                if self.is_cut:
                    caller.close()
                    continue
                desk_side = socket.create_connection(("127.0.0.1", self.target))
                self.open |= {caller, desk_side}
                threading.Thread(target=self.carry, args=(caller, desk_side, False), daemon=True).start()
                threading.Thread(target=self.carry, args=(desk_side, caller, True), daemon=True).start()

    def carry(self, source, goal, is_answer):
        """Carries bytes until either side or the line ends."""
        with contextlib.suppress(OSError):
            while (data := source.recv(65_536)) and not self.is_cut and not (is_answer and self.is_deaf):
                goal.sendall(data)
        for side in (source, goal):
            with contextlib.suppress(OSError):
                side.shutdown(socket.SHUT_RDWR)

    def cut(self):
        """Cuts the line."""
        self.is_cut = True
        for side in list(self.open):
            with contextlib.suppress(OSError):
                side.shutdown(socket.SHUT_RDWR)

    def mend(self):
        """The line is whole again."""
        self.is_cut = self.is_deaf = False


@contextlib.contextmanager
def desk_on_a_line(desk, *words):
    """A desk with tokens, behind a line: the desk, the line, and the tokens of vehicle 1 and ride 1."""
    line = Line()
    with tempfile.TemporaryDirectory() as folder:
        path = pathlib.Path(folder) / "tokens"
        chief, driver, rider = made(path, "role=dispatcher"), made(path, "role=driver", "vehicle=1"), made(path, "role=rider", "ride=1")
        with desk(*words, *LONG, f"tokens={path}", f"name=127.0.0.1:{line.port}") as it:
            it.token, line.target = chief, it.port
            try:
                yield it, line, driver, rider
            finally:
                line.cut()
                line.listener.close()


def press(browser, text):
    """Presses the button with this text."""
    until(lambda: browser.execute_script(
        "const found = [...document.querySelectorAll('button')].find(it => it.textContent === arguments[0] && it.offsetParent);"
        "if (found) setTimeout(() => found.click()); return Boolean(found)", text), f"a button {text}")


def accept(browser):
    """Says yes to the question that is asked."""
    from selenium.common.exceptions import NoAlertPresentException

    def says_yes():
        with contextlib.suppress(NoAlertPresentException):
            browser.switch_to.alert.accept()
            return True

    until(says_yes, "a question")


def says(browser, selector, text):
    """Waits until an element has this text in it."""
    until(lambda: text in text_of(browser, selector), f"{selector} says {text}")


def log_of(it, path):
    """The statuses of the calls of this path in the log."""
    lines = map(json.loads, (it.folder / "access.log").read_text().splitlines())
    return [line["status"] for line in lines if line["path"] == path]


def test_a_driver_makes_a_whole_trip_on_a_line_that_is_cut_twice(desk):
    with desk_on_a_line(desk, *inputs(LINE)) as (it, line, driver, _):
        it.gives("POST", "/rides", {"from": 2, "to": 4, "persons": 2, "time": 0, "who": "Ada", "phone": "+43 1 2", "note": "a dog"})
        it.gives("POST", "/rides", {"from": 3, "to": 5, "time": 0})
        it.plan()
        with opened(f"http://127.0.0.1:{line.port}/drive#token={driver}", WIDE, HIGH) as browser:
            says(browser, "#title", "Vehicle 1")
            says(browser, "#next-stop", "Pick up rider 1, Ada")
            says(browser, "#next-stop", "2 persons")
            assert "Call +43 1 2" in text_of(browser, "#next-stop") and "a dog" in text_of(browser, "#next-stop")
            assert browser.execute_script("return location.hash") == "", "the token stays in the address"
            fits(browser)
            keep_picture(browser, "drive-390")
            line.cut()
            press(browser, "Picked up")
            says(browser, "#next-stop", "Pick up rider 2")
            says(browser, "#line", "No line. 1 press waits to be sent")
            assert it.gives("GET", "/rides/1")["state"] == "promised"
            line.mend()
            says(browser, "#message", "Rider 1 is aboard.")
            says(browser, "#line", "Connected")
            assert it.gives("GET", "/rides/1")["state"] == "aboard" and log_of(it, "/vehicles/1/pickup") == [200]
            line.is_deaf = True
            press(browser, "Picked up")
            until(lambda: it.gives("GET", "/rides/2")["state"] == "aboard", "the desk has heard of it")
            says(browser, "#line", "1 press waits to be sent")
            line.mend()
            says(browser, "#message", "Rider 2 is aboard.")
            statuses = log_of(it, "/vehicles/1/pickup")
            assert len(statuses) >= 3 and set(statuses) == {200}, statuses
            press(browser, "Dropped off")
            says(browser, "#message", "Rider 1 has arrived.")
            assert "Drop off rider 2" in text_of(browser, "#next-stop"), "what was pressed is shown again"
            press(browser, "Dropped off")
            says(browser, "#next-stop", "No stops ahead")
        assert [ride["state"] for ride in it.gives("GET", "/rides")] == ["delivered"] * 2
        text = (it.folder / "transcript").read_text()
        assert text.count(" pickup ") == text.count(" dropoff ") == 2 and " refused " not in text, text


def test_a_rider_who_is_not_there_is_cancelled_by_the_keyboard(desk):
    with desk_on_a_line(desk, *inputs(LINE)) as (it, line, driver, _):
        it.gives("POST", "/rides", {"from": 2, "to": 4, "time": 0})
        it.plan()
        with opened(f"http://127.0.0.1:{line.port}/drive", WIDE, HIGH) as browser:
            from selenium.webdriver.common.action_chains import ActionChains
            from selenium.webdriver.common.keys import Keys

            until(lambda: browser.execute_script("return !document.getElementById('login').hidden"), "a field for the token")
            fits(browser)
            until(lambda: browser.switch_to.active_element.get_attribute("id") == "token", "the field has the focus")
            ActionChains(browser).send_keys("wrong token", Keys.ENTER).perform()
            says(browser, "#message", "The token is wrong")
            ActionChains(browser).send_keys(driver, Keys.ENTER).perform()
            says(browser, "#next-stop", "Pick up rider 1")

            def tab_to(text):
                ActionChains(browser).send_keys(Keys.TAB).perform()
                return browser.switch_to.active_element.text == text

            until(lambda: tab_to("I am at second corner"), "the button of the place has the focus")
            ActionChains(browser).send_keys(Keys.ENTER).perform()
            says(browser, "#message", "You are at second corner.")
            assert it.gives("GET", "/vehicles/1")["node"] == 2
            until(lambda: tab_to("No-show"), "the button has the focus")
            ActionChains(browser).send_keys(Keys.ENTER).perform()
            accept(browser)
            says(browser, "#next-stop", "No stops ahead")
        assert it.gives("GET", "/rides/1")["state"] == "cancelled"
        it.refuses(409, "ended", "POST", "/vehicles/1/noshow", {"ride": 1})
        it.gives("POST", "/rides", {"from": 2, "to": 4, "time": 0})
        it.refuses(409, "not-promised", "POST", "/vehicles/1/noshow", {"ride": 2})


def test_a_phone_tells_where_it_is(desk):
    with desk(*inputs(TOWN), *LONG) as it, opened(f"http://127.0.0.1:{it.port}/drive?vehicle=3", WIDE, HIGH) as browser:
        says(browser, "#title", "Vehicle 3")
        browser.execute_cdp_cmd("Browser.grantPermissions", {"permissions": ["geolocation"]})
        browser.execute_cdp_cmd("Emulation.setGeolocationOverride", {"latitude": 47.2021, "longitude": 11.5083, "accuracy": 5})
        press(browser, "Send my position")
        until(lambda: it.gives("GET", "/vehicles/3")["place"] == [47.2021, 11.5083, 14], "the desk knows the place")
        press(browser, "Stop sending my position")
        assert browser.get_log("browser") == []


def test_a_rider_sees_the_vehicle_come_and_cancels(desk):
    with desk_on_a_line(desk, *inputs(TOWN)) as (it, line, _, rider):
        it.gives("POST", "/rides", {"from": 1, "to": 40, "persons": 2, "time": 0})
        with opened(f"http://127.0.0.1:{line.port}/ride/1#token={rider}", WIDE, HIGH) as browser:
            says(browser, "#state", "We look for a vehicle")
            says(browser, "#way", "2 persons, from 101 to ")
            fits(browser)
            it.plan()
            says(browser, "#state", "A vehicle comes to you")
            vehicle = it.gives("GET", "/rides/1")["vehicle"]
            says(browser, "#vehicle", f"Vehicle {vehicle} is near ")
            until(lambda: text_of(browser, "#when").startswith("in ") or text_of(browser, "#when").endswith("late"), "when")
            fits(browser)
            keep_picture(browser, "ride-390")
            line.cut()
            says(browser, "#line", "No line")
            line.mend()
            says(browser, "#line", "Connected")
            press(browser, "Cancel this ride")
            accept(browser)
            says(browser, "#state", "The ride is cancelled")
            assert browser.execute_script("return document.getElementById('cancel').hidden")
        with opened(f"http://127.0.0.1:{line.port}/ride/2#token={rider}", WIDE, HIGH) as browser:
            says(browser, "#message", "The token is wrong")
        assert it.gives("GET", "/rides/1")["state"] == "cancelled"


def test_riders_names_stand_in_no_row_and_are_deleted_by_a_call(desk, folder):
    with desk(*inputs(LINE), folder=folder) as it:
        it.gives("POST", "/rides", {"from": 2, "to": 4, "who": "Ada Lovelace", "note": "a \u2713"})
        it.gives("POST", "/rides", {"from": 2, "to": 4})
        assert it.gives("GET", "/rides/1/contact") == {"who": "Ada Lovelace", "phone": None, "note": "a \u2713"}
        assert it.gives("GET", "/rides/2/contact") == {"who": None, "phone": None, "note": None}
        it.gives("POST", "/rides/2/contact", {"phone": "+43 1 234"})
        assert it.call("POST", "/rides", {"from": 2, "to": 4, "who": "x" * 201})[0] == 422
        assert it.call("POST", "/rides/2/contact", {"phone": 7})[0] == 422
    with desk(folder=folder) as it:
        assert it.gives("GET", "/rides/1/contact")["who"] == "Ada Lovelace"
        assert it.gives("DELETE", "/rides/1/contact") == {"deleted": True}
        assert it.call("DELETE", "/rides/1/contact")[1] == {"deleted": False}
        assert it.gives("GET", "/rides/1/contact")["who"] is None
        assert it.gives("GET", "/rides/2/contact")["phone"] == "+43 1 234"
    found = [path.name for path in folder.iterdir() if "Lovelace" in path.read_text() or "+43 1 234" in path.read_text()]
    assert found == ["contacts.jsonl"] and "Lovelace" not in (folder / "contacts.jsonl").read_text(), found
    assert (folder / "contacts.jsonl").stat().st_mode & 0o077 == 0
