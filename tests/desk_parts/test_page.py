"""Tests of the desk's page in a browser."""

import concurrent.futures
import os
import signal
import time

from desk_parts.browser import clicked, fits, keep_picture, opened, page, text_of
from desk_parts.shared import LINE, LONG, PATIENCE, TOWN, inputs, until


def watched(browser, selector, seen):
    """The text of an element, which is put to those that were seen before where it is another."""
    text = text_of(browser, selector)
    if text and text != seen[-1]:
        seen.append(text)
    return text


def click_node(browser, share_x, share_y):
    """Clicks the map at shares of its width and height."""
    from selenium.webdriver.common.action_chains import ActionChains
    from selenium.webdriver.common.by import By

    element = browser.find_element(By.ID, "map")
    x, y = (round(element.size[side] * (share - 0.5)) for side, share in (("width", share_x), ("height", share_y)))
    ActionChains(browser).move_to_element_with_offset(element, x, y).click().perform()


def test_a_ride_asked_by_two_clicks_is_picked_up_and_delivered(desk, folder):
    with desk("demo", "riders=0", "every=20", folder=folder) as it:
        with page(it, 1280, 800) as browser:
            from selenium.webdriver.common.by import By

            browser.find_element(By.ID, "pick").click()
            click_node(browser, 0.2, 0.35)
            click_node(browser, 0.8, 0.75)
            ends = [browser.find_element(By.ID, name).get_attribute("value") for name in ("from", "to")]
            assert all(ends) and ends[0] != ends[1], ends
            browser.find_element(By.ID, "ask-button").click()
            until(lambda: text_of(browser, "#message").startswith("Rider 1 waits"), "the answer")
            states = ("waiting", "left out", "promised", "aboard", "delivered")
            until(lambda: any(state in text_of(browser, "#chosen h2") for state in states), "rider 1 is chosen")
            seen = [text_of(browser, "#chosen h2")]
            until(lambda: "delivered" in watched(browser, "#chosen h2", seen), "rider 1 is delivered")
            told = [text for text in seen if any(state in text for state in states)]
            places = [[state in text for state in states].index(True) for text in told]
            assert places == sorted(places), seen
            ride = it.gives("GET", "/rides/1")
            assert [str(ride["from"]), str(ride["to"]), ride["state"]] == [*ends, "delivered"], ride
            until(lambda: text_of(browser, "#count-delivered") == "1", "one is counted")


def test_the_page_works_by_the_keyboard(desk):
    with desk(*inputs(TOWN)) as it, page(it, 1280, 800) as browser:
        from selenium.webdriver.common.action_chains import ActionChains
        from selenium.webdriver.common.keys import Keys

        def press(*keys):
            actions = ActionChains(browser)
            for key in keys:
                actions.send_keys(key)
            actions.perform()

        press("m", Keys.ENTER)
        first = browser.find_element("id", "from").get_attribute("value")
        for _ in range(3):
            before = map_at(browser)
            press(Keys.ARROW_RIGHT)
            until(lambda: map_at(browser) != before, "the map moves")
            until(lambda: stands_still(browser), "the map stands still")
        press(Keys.ENTER)
        assert browser.find_element("id", "to").get_attribute("value") not in ("", first)
        assert browser.switch_to.active_element.get_attribute("id") == "ask-button"
        press(Keys.ENTER)
        until(lambda: text_of(browser, "#message").startswith("Rider 1 waits"), "the answer")
        press(Keys.ESCAPE, "2")
        browser.execute_script("document.querySelector('#vehicles .list').focus()")
        press(Keys.ARROW_DOWN, Keys.ARROW_DOWN)
        until(lambda: "Vehicle 2" in text_of(browser, "#chosen h2"), "vehicle 2 is chosen")
        press("3")
        until(lambda: browser.execute_script("return !document.getElementById('batches').hidden"), "the batches")


def map_at(browser):
    """Where the map's streets were moved to."""
    return browser.execute_script("return document.querySelector('.leaflet-map-pane').style.transform")


def stands_still(browser):
    """Whether the map moves no more."""
    before = map_at(browser)
    time.sleep(0.5)
    return map_at(browser) == before


def test_the_page_says_when_live_or_the_desk_ends(desk):
    with desk(*inputs(LINE)) as it:
        with page(it, 390, 844) as browser:
            for turn in range(4):
                os.kill(it.live(), signal.SIGKILL)
                if turn < 3:
                    until(lambda: it.call("GET", "/health")[1]["restarts"] == turn + 1, "a new start")
                    until(lambda: it.call("GET", "/health")[0] == 200, "ready again")
            until(lambda: "The dispatcher has ended" in text_of(browser, "#status-text"), "the end is shown")
            fits(browser)
            keep_picture(browser, "ended-390")
            until(lambda: browser.execute_script("return document.getElementById('ask-button').disabled"), "nobody can ask")
            assert it.child.wait(PATIENCE) == 3
            until(lambda: "Connection lost" in text_of(browser, "#status-text"), "the loss is shown")
            assert "3 times already" in text_of(browser, "#status-text")
            browser.get_log("browser")


def test_the_page_says_that_the_desk_starts(desk, held_desk, folder):
    with desk(*inputs(LINE), folder=folder) as it:
        it.gives("POST", "/rides", {"from": 2, "to": 4})
    with held_desk(folder) as (it, let_go), opened(f"http://127.0.0.1:{it.port}/", 390, 844) as browser:
        until(lambda: "MB of the day so far" in text_of(browser, "#status-text"), "the start is shown")
        fits(browser)
        let_go()
        until(lambda: text_of(browser, "#status-text").startswith("Ready"), "the page is ready")
        until(lambda: "1" in text_of(browser, "#rides .list"), "the ride is shown")


def test_trouble_stands_first_on_the_page(desk):
    with desk(*inputs(LINE), *LONG, "speed=10", "silent=0") as it:
        it.gives("POST", "/rides", {"from": 2, "to": 4, "time": 0})
        pickup = it.plan()["second"] + 60
        until(lambda: it.call("GET", "/health")[1]["second"] > pickup + 40, "40 s late")
        for width, height in ((1280, 800), (390, 844)):
            with page(it, width, height) as browser:
                late_vehicle_is_first(browser)
                keep_picture(browser, f"trouble-{width}")
                if width == 1280:
                    what_hangs_is_in_the_bar(it, browser)


def late_vehicle_is_first(browser):
    """The list, the bar and the title tell of the late vehicle, and the list leads to it."""
    until(lambda: text_of(browser, "#count-late") == "1", "the bar counts the late vehicle")
    until(lambda: browser.title == "(1) Dispatcher's desk", "the title counts it")
    row = "#trouble .list li"
    until(lambda: text_of(browser, f"{row} .when").endswith(" late"), "how late it is")
    until(lambda: text_of(browser, f"{row} .what") == "Vehicle 1 picks up rider 1 at 2", "what is late")
    colour = "return getComputedStyle(document.getElementById('count-late').parentElement).backgroundColor"
    assert browser.execute_script(colour) == "rgb(179, 38, 30)"
    tops = browser.execute_script("return ['trouble', 'panel', 'map-area'].map(it => "
                                  "document.getElementById(it).getBoundingClientRect().top)")
    assert tops[0] < tops[1] and tops[0] <= tops[2], tops
    fits(browser)
    until(lambda: clicked(browser, row), "the row")
    until(lambda: "Rider 1: promised" in text_of(browser, "#chosen h2"), "its rider is chosen")
    until(lambda: "Vehicle 1 is " in text_of(browser, "#chosen") and " late." in text_of(browser, "#chosen"), "how late it is")
    assert "in 0:00" not in browser.execute_script("return document.body.textContent")


def what_hangs_is_in_the_bar(it, browser):
    """A stopped `live` is in the bar and first in the list; the bar is ready again afterwards."""
    os.kill(it.live(), signal.SIGSTOP)
    until(lambda: "stopped by a signal" in text_of(browser, "#status-text"), "what hangs")
    until(lambda: "stopped by a signal" in text_of(browser, "#trouble .list li .what"), "what hangs stands first")
    os.kill(it.live(), signal.SIGCONT)
    until(lambda: text_of(browser, "#status-text").startswith("Ready"), "ready again")
    until(lambda: text_of(browser, "#trouble .list li .what").startswith("Vehicle 1 picks up"), "the late vehicle is first again")


def test_the_sound_is_heard_at_new_trouble_alone(desk):
    with desk(*inputs(LINE), *LONG, "speed=10", "silent=1") as it, page(it, 1280, 800) as browser:
        browser.execute_script("window.tones = 0; const start = OscillatorNode.prototype.start;"
                               "OscillatorNode.prototype.start = function (at) { window.tones++; start.call(this, at); }")
        until(lambda: text_of(browser, "#trouble-title") == "Trouble: 1", "a vehicle that hasn't reported")
        assert browser.execute_script("return window.tones") == 0
        browser.find_element("id", "sound").click()
        until(lambda: browser.execute_script("return window.tones") >= 2, "the sound is on")
        it.gives("POST", "/rides", {"from": 2, "to": 4})
        it.plan()
        late = "Vehicle 1 picks up rider 1"
        until(lambda: late in text_of(browser, "#trouble .list"), "a late vehicle")
        tones = browser.execute_script("return window.tones")
        assert tones >= 4 and tones % 2 == 0, tones  # a slow machine may have more trouble
        it.gives("DELETE", "/rides/1")
        until(lambda: late not in text_of(browser, "#trouble .list"), "no late vehicle")


def test_the_page_fits_both_widths(desk, folder):
    with desk("demo", "speed=60", folder=folder) as it:
        until(lambda: it.call("GET", "/health")[1]["batches"] >= 12, "twelve plans")
        for width, height in ((1280, 800), (390, 844)):
            with page(it, width, height) as browser:
                fits(browser)
                keep_picture(browser, f"desk-{width}")
                for tab in ("vehicles", "batches", "rides"):
                    browser.execute_script("document.getElementById(arguments[0]).click()", f"tab-{tab}")
                    fits(browser)
                until(lambda: clicked(browser, "#rides li"), "a ride in the list")
                until(lambda: text_of(browser, "#chosen h2"), "a rider is chosen")
                fits(browser)
                keep_picture(browser, f"chosen-{width}")


def test_five_hundred_vehicles_and_a_thousand_riders_at_one_update_a_second(desk, folder):
    folder.parent.mkdir(exist_ok=True)
    files = made_inputs(folder.parent)
    with desk(*files, "trip=1", folder=folder) as it, page(it, 1280, 800) as browser:
        browser.execute_script("document.getElementById('tab-vehicles').click()")
        with concurrent.futures.ThreadPoolExecutor(8) as pool:
            list(pool.map(lambda n: it.gives("POST", "/rides", {"from": 1 + n % 899, "to": 900}), range(1000)))
            until(lambda: text_of(browser, "#count-waiting") == "1000", "all riders are shown")
            waits = sorted(watched_round(it, browser, pool, turn) for turn in range(9))
        print(f"  the page showed the last of 500 places after {waits[4]:.2f} s, at most after {waits[-1]:.2f} s")
        assert waits[-1] < PATIENCE, waits


def made_inputs(place):
    """A square of 30 nodes a side with 500 vehicles, without the coordinates of a map."""
    rows = [(n, m) for n in range(1, 901) for m in (n + 1, n + 30) if m <= 900 and (m == n + 30 or n % 30)]
    arcs = "".join(f"{a},{b},40\n{b},{a},40\n" for a, b in rows)
    nodes = "".join(f"{n},{100 * ((n - 1) % 30)},{-100 * ((n - 1) // 30)},,,\n" for n in range(1, 901))
    fleet = "".join(f"{v},4,{v},0\n" for v in range(1, 501))
    for name, header, text in (("network", "from,to,seconds", arcs), ("nodes", "node,x,y,lon,lat,name", nodes),
                               ("fleet", "vehicle,seats,node,second", fleet)):
        (place / f"{name}.csv").write_text(f"{header}\n{text}")
    return inputs(place)


def watched_round(it, browser, pool, turn):
    """Places all vehicles within a second. Gives how long after the last answer the page shows the last of them."""
    began = time.monotonic()
    node = 100 + turn
    list(pool.map(lambda v: it.gives("POST", f"/vehicles/{v}/position", {"node": node}), range(1, 501)))
    placed = time.monotonic()
    until(lambda: f"stands at {node}" in text_of(browser, "#vehicle-500"), f"vehicle 500 at {node}")
    shown = time.monotonic() - placed
    time.sleep(max(0.0, began + 1 - time.monotonic()))
    return shown
