#!/usr/bin/env python3
"""What the operators' page shows of two hubs. Run by operators.sh.

usage: operators.py message FILE   a message of the notices with many updates that no timetable has
       operators.py see ORIGIN FIRST SECOND SENDER_PROCESS SECOND_PROCESS NGINX_PROCESS FOLDER
"""
import os
import signal
import sys
import time
from pathlib import Path

sys.path[:0] = [str(Path(__file__).resolve().parent), str(Path(__file__).resolve().parent.parent / "serve")]
from browser import Browser
from display import AHEAD, Display
from wire import number, run

MARKUP = "<img src=x onerror=alert(1)>"
GHOSTS = [MARKUP, *(f"ghost-{count:02d}" for count in range(1, 12))]
SUMMARY = "document.getElementById('summary').textContent"


def message():
    """Changes (DIFFERENTIAL), so that the alert before them stays."""
    head = run(1, run(1, b"2.0") + number(2, 1) + number(3, int(time.time()) + 1))
    return head + b"".join(run(2, run(1, name.encode()) + run(3, run(1, run(1, name.encode())))) for name in GHOSTS)


def rows(display, table):
    """The texts of the rows of a table, by column."""
    return display.browser.value(
        f"[...document.querySelectorAll('#{table} tr')].map(row => [...row.cells].map(cell => cell.innerText.trim()))")


def open_page(display, more=""):
    display.browser.shape(width=1280, height=720)
    display.browser.go(f"{display.origin}/operating/feeds.html?silent=15&silent=notices=0{more}")
    display.browser.wait("document.querySelector('#feeds tr')")


def see_feeds(display, first, second):
    open_page(display, "&schedule=city&stop=ST")
    browser = display.browser
    hubs = rows(display, "hubs")
    display.check(f"both hubs answer, by their addresses: {hubs}", [row[:2] for row in hubs] ==
                  [[f"1 ({first})", "answers"], [f"2 ({second})", "answers"]] and all(int(row[4]) >= 2 for row in hubs))
    feeds = rows(display, "feeds")
    display.check(f"each feed of each hub: {feeds}", [row[:3] for row in feeds] == [
        ["notices", "1", "speaks"], ["notices", "2", "speaks"], ["trams", "1", "speaks"], ["trams", "2", "no message yet"]])
    entities = [row[5] for row in feeds]
    display.check("with what it holds", entities[0] == entities[1] == str(1 + len(GHOSTS)) and int(entities[2]) > 1)
    age = feeds[2][3]
    display.check(f"and the age of its last message by the hub's clock, where the device's is an hour ahead: {age}",
                  " s ago, " in age and int(age.split()[0]) <= 15
                  and browser.value("Date.now() / 1000 - hubs.get(1).moment") > 3500)
    display.check("what needs a look stands above: " + browser.value(SUMMARY),
                  browser.value(SUMMARY) == "Feeds that need a look: 1 of 2")


def see_lists(display):
    browser = display.browser
    unmatched = rows(display, "unmatched")
    told = [[row[1], row[2].split("\n")[0], row[3], row[5]] for row in unmatched]
    display.check(f"unmatched updates by feed and reason, and who says so: {told}",
                  told == [["notices", "notrip", "12", "1, 2"], ["trams", "notrip", "1", "1"]])
    display.check("with their ids", unmatched[1][4] == "ghost" and "ghost-05" in unmatched[0][4]
                  and "4 more" in unmatched[0][4])
    display.check("which are put in as text and never as HTML",
                  MARKUP in unmatched[0][4] and browser.value("!document.querySelector('img')"))
    alerts = rows(display, "alerts")
    display.check(f"alerts: {alerts}", len(alerts) == 1 and alerts[0][1:4] == ["ST", "notices", "lift"]
                  and alerts[0][4].startswith("The lift at Market") and alerts[0][5] == "1, 2")
    roles = browser.tree()
    display.check("a screen reader finds tables by their names, their titles, and a row's feed as its heading",
                  all(("table", name) in roles for name in ("Hubs", "Feeds", "Unmatched updates", "Alerts"))
                  and ("columnheader", "Last message") in roles and ("rowheader", "trams") in roles)
    browser.value("document.querySelector('summary').click()")
    asked = browser.value("hubs.get(1).heard")
    browser.wait(f"hubs.get(1).heard > {asked}", 30)
    display.check("what an operator has opened stays open", browser.value("document.querySelector('details').open"))
    said = browser.complaints()
    display.check(f"the page has no faults, and breaks no rule of what it may load: {said}", not said)


def see_questions(display):
    browser = display.browser
    open_page(display, "&schedule=nowhere")
    browser.wait(f"{SUMMARY}.includes('nowhere')")
    display.check("a timetable that isn't there is said: " + browser.value(SUMMARY),
                  "the hub answers 404: not found" in browser.value(SUMMARY))
    open_page(display)
    display.check("without one it asks for it", browser.value("document.getElementById('unmatched-none').textContent")
                  == "Name a timetable below.")
    browser.shape(width=390, height=844, phone=True)
    display.check("on a phone nothing is wider than the screen",
                  browser.value("document.documentElement.scrollWidth <= innerWidth"))


def see_gone(display, sender, second_process, nginx):
    browser = display.browser
    open_page(display, "&schedule=city&stop=ST")
    os.kill(sender, signal.SIGTERM)
    browser.wait("document.querySelectorAll('#feeds tr')[2].cells[2].innerText === 'silent'", 60)
    display.check("a sender that is gone: its feed is silent", browser.value(SUMMARY) == "Feeds that need a look: 1 of 2")
    os.kill(second_process, signal.SIGTERM)
    browser.wait(f"{SUMMARY}.startsWith('Hubs that do not answer: 1 of 2')", 60)
    hubs = rows(display, "hubs")
    display.check(f"a hub that is gone: {hubs[1][1:3]}", hubs[0][1] == "answers"
                  and hubs[1][1] == "does not answer: the server in front answers 502" and hubs[1][2].endswith("s ago"))
    display.check("what it said last stays, marked as old", browser.value(
        "document.querySelectorAll('#feeds tr.old').length") == 2 and rows(display, "unmatched")[0][5] == "1, 2")
    display.keep("feeds_gone")
    os.kill(nginx, signal.SIGTERM)
    browser.wait(f"{SUMMARY}.startsWith('Hubs that do not answer: 2 of 2')", 60)
    display.check("with nginx gone none answers", rows(display, "hubs")[0][1] == "does not answer: Failed to fetch")


def main():
    if sys.argv[1] == "message":
        Path(sys.argv[2]).write_bytes(message())
        return 0
    origin, first, second, sender, second_process, nginx, folder = sys.argv[2:]
    Path(folder).mkdir(parents=True, exist_ok=True)
    with Browser() as browser:
        display = Display(browser, origin, folder)
        browser.before(AHEAD)
        see_feeds(display, first, second)
        see_lists(display)
        see_questions(display)
        see_gone(display, int(sender), int(second_process), int(nginx))
    print(f"{display.failed} failed")
    return 1 if display.failed else 0


if __name__ == "__main__":
    sys.exit(main())
