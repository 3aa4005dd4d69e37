#!/usr/bin/env python3
"""How long the tasks of the desk's page take on a day of 500 vehicles and 1,000 riders, with a plan every 30 seconds.

    bench/desk_page.py [seconds=90] [rides=1000] [placed=20] [words of the desk]

Opens the desk of bench/desk.py, has rides asked for, opens the page in Chromium, and places so many vehicles a second for so
many seconds. Prints the longest tasks of the page's thread, by the clock and by processor time. The status is 1 where one took
more than 300 ms of processor time. It needs chromium-driver and python3-selenium. Run it by hand; on a busy machine only the
processor time counts, and that is longer, too.
"""

import json
import pathlib
import re
import shutil
import subprocess
import sys
import tempfile
import threading
import time
from concurrent.futures import ThreadPoolExecutor

sys.dont_write_bytecode = True

from desk import TOP, VEHICLES, Caller, made_inputs  # noqa: E402

MOST = 300  # milliseconds
SHOWN = 5
CATEGORIES = "toplevel,blink.user_timing,__metadata"


def browser_of(address):
    """Chromium on a page, with a trace of its tasks."""
    from selenium import webdriver
    from selenium.webdriver.chrome.service import Service

    options = webdriver.ChromeOptions()
    for word in ("headless=new", "no-sandbox", "disable-gpu", "disable-dev-shm-usage", "window-size=1280,800"):
        options.add_argument("--" + word)
    options.set_capability("goog:loggingPrefs", {"performance": "ALL"})
    options.add_experimental_option("perfLoggingPrefs", {"enableNetwork": False, "enablePage": False, "traceCategories": CATEGORIES})
    browser = webdriver.Chrome(service=Service(shutil.which("chromedriver")), options=options)
    browser.get(address)
    return browser


def traced(browser):
    """The events of the trace so far."""
    messages = (json.loads(line["message"])["message"] for line in browser.get_log("performance"))
    return [it["params"] for it in messages if it["method"] == "Tracing.dataCollected"]


def tasks_of(events):
    """The tasks of the pages' main threads: milliseconds by the clock and of processor time."""
    main = {(it["pid"], it["tid"]) for it in events if it["name"] == "thread_name" and it["args"]["name"] == "CrRendererMain"}
    return [(it["dur"] / 1000, it["tdur"] / 1000) for it in events
            if (it["pid"], it["tid"]) in main and it["name"].endswith("RunTask") and "tdur" in it]


def keep_placing(port, placed, stop):
    """Places so many vehicles a second, each at a next node."""
    caller = Caller(port)
    for turn in range(10 ** 9):
        if stop.wait(1 / placed):
            return
        caller.call("POST", f"/vehicles/{1 + turn % VEHICLES}/position", {"node": 1 + (turn * 7) % 900})


def measure(port, seconds, rides, placed):
    """Asks for the rides, looks at the page, and prints its longest tasks. Gives whether none is too long."""
    with ThreadPoolExecutor(4) as pool:
        list(pool.map(lambda n: Caller(port).call("POST", "/rides", {"from": 1 + n % 899, "to": 1 + (7 * n + 450) % 900}), range(rides)))
    browser, stop, events = browser_of(f"http://127.0.0.1:{port}/"), threading.Event(), []
    placing = threading.Thread(target=keep_placing, args=(port, placed, stop))
    placing.start()
    end = time.monotonic() + seconds
    try:
        while time.monotonic() < end:
            time.sleep(5)
            events += traced(browser)
        said = browser.execute_script("return [...document.querySelectorAll('#bar, header')].map(it => it.innerText).join(' ')")
    finally:
        stop.set()
        placing.join()
        browser.quit()
    tasks = sorted(tasks_of(events), key=lambda it: -it[1])
    print(" ".join(said.split()))
    print(f"{len(tasks)} tasks\n| by the clock, ms | of processor time, ms |\n|---|---|")
    for task in tasks[:SHOWN]:
        print("| {:.0f} | {:.0f} |".format(*task))
    return bool(tasks) and tasks[0][1] <= MOST


def main():
    """Measures, and prints the table."""
    values = dict(word.split("=", 1) for word in sys.argv[1:])
    seconds, rides, placed = (int(values.pop(*it)) for it in (("seconds", 90), ("rides", 1000), ("placed", 20)))
    with tempfile.TemporaryDirectory() as place:
        words = [*made_inputs(pathlib.Path(place)), f"day={place}/day", "port=0", "every=30", "wait=7200", "delay=7200", "trip=1",
                 *(f"{key}={value}" for key, value in values.items())]
        desk = subprocess.Popen([sys.executable, TOP / "tools" / "desk.py", *words], stderr=subprocess.PIPE, text=True)
        port = next(int(found[1]) for line in desk.stderr if (found := re.search(r"http://.*:(\d+) keeps its day", line)))
        threading.Thread(target=desk.stderr.read, daemon=True).start()
        try:
            is_usable = measure(port, seconds, rides, placed)
        finally:
            desk.terminate()
            desk.wait()
    sys.exit(0 if is_usable else 1)


if __name__ == "__main__":
    main()
