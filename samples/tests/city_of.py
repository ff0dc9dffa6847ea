#!/usr/bin/env python3
"""What the hub and the pages say of the made-up city. Run by city_of.sh.

usage: city_of.py ORIGIN HUB STOPS FOLDER
"""
import csv
import json
import sys
import time
import urllib.request
from collections import Counter
from pathlib import Path

sys.path.insert(0, str(Path(__file__).resolve().parent))
from browser import Browser
from display import ROWS, Display

CENTRE = "central-station&stop=market&stop=town-hall"


def see_boards(display, hub, stops):
    """The boards of all stations, one after another: whatever the hour is, some trip is spoken of."""
    states, took = Counter(), []
    with open(stops, encoding="utf-8", newline="") as file:
        stations = [row["stop_id"] for row in csv.DictReader(file) if row["location_type"] == "1"]
    for station in stations:
        began = time.monotonic()
        with urllib.request.urlopen(f"http://{hub}/board/city/{station}?format=json&limit=1000", timeout=10) as answer:
            board = json.load(answer)
        took.append(time.monotonic() - began)
        states.update(row["state"] for row in board["rows"])
    took.sort()
    display.check(f"{len(stations)} stations have departures in the next hour: {dict(states)}",
                  states["live"] > 0 and len(stations) > 500)
    half, most = (round(seconds * 1000) for seconds in (took[len(took) // 2], took[-1]))
    print(f"        half of the boards took up to {half} ms, the slowest {most} ms")


def see_display(display):
    browser = display.browser
    display.open(CENTRE, more="&limit=8", width=1440, height=810, scheme="dark", still=True)
    browser.wait("document.querySelectorAll('.rows tr').length > 2")
    names = browser.value("[...document.querySelectorAll('h2.name')].map(name => name.textContent)")
    display.check(f"several stops on one display: {' | '.join(names)}", names == ["Central Station", "Market", "Town Hall"])
    display.check("with delays, and the minutes to go", browser.value(
        f"{ROWS}.some(row => row.dataset.state === 'live') && Boolean(document.querySelector('.near'))"))
    display.check("platforms by their own names", browser.value(
        "[...document.querySelectorAll('td.platform')].every(cell => /^[1-6A-D]$/.test(cell.lastChild.textContent))"))
    display.check("the lift is told", "the lift to platforms 1 and 2" in browser.value(
        "document.getElementById('alert-list').innerText"))
    display.keep("city")
    display.open("central-station", more="&language=de", width=390, height=844, scheme="light", still=True, phone=True)
    browser.wait("document.querySelector('.compact .rows tr')")
    display.check("on a phone, in German: nothing is wider than the screen", browser.value(
        "document.documentElement.scrollWidth <= innerWidth && document.documentElement.lang === 'de-DE'"))
    display.keep("city_phone")


def see_operators(display):
    browser = display.browser
    browser.shape(width=1280, height=720)
    browser.go(f"{display.origin}/operating/feeds.html?schedule=city&stop=central-station&stop=market")
    browser.wait("document.querySelectorAll('#feeds tr').length === 3")
    display.check("operators: three feeds speak, and the hub says its address", browser.value(
        """document.getElementById('summary').textContent === 'All hubs answer, and all feeds speak.'
           && /^1 \\(127\\.0\\.0\\.1:\\d+\\)$/.test(document.querySelector('#hubs th').innerText)"""))
    reasons = browser.value(
        "[...document.querySelectorAll('#unmatched tr')].map(row => row.cells[2].firstChild.textContent)")
    display.check(f"operators: updates are unmatched for three reasons: {', '.join(reasons)}",
                  {"notrip", "notactive", "relation"} <= set(reasons))
    display.keep("feeds")
    said = browser.complaints()
    display.check(f"the pages have no faults: {said}", not said)


def main():
    origin, hub, stops, folder = sys.argv[1:]
    Path(folder).mkdir(parents=True, exist_ok=True)
    with Browser() as browser:
        display = Display(browser, origin, folder)
        see_boards(display, hub, stops)
        see_display(display)
        see_operators(display)
    print(f"{display.failed} failed")
    return 1 if display.failed else 0


if __name__ == "__main__":
    sys.exit(main())
