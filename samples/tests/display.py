#!/usr/bin/env python3
"""What the display shows of a hub that is led through scenes. Run by display.sh, with its sender at descriptor 7.

usage: display.py ORIGIN HUB_PROCESS FOLDER
"""
import os
import shutil
import signal
import subprocess
import sys
from pathlib import Path

sys.path.insert(0, str(Path(__file__).resolve().parent))
from browser import Browser

TAB, ENTER = 9, 13
ROWS = "[...document.querySelectorAll('.rows tr')]"
LOOKED = "document.getElementById('age').textContent"
TROUBLE = "document.getElementById('trouble').textContent"


class Display:
    """A display of the city in a browser, and what is noted of it."""

    def __init__(self, browser, origin, folder):
        self.browser, self.origin, self.folder, self.failed = browser, origin, Path(folder), 0

    def check(self, what, holds):
        print(("ok      " if holds else "FAILED  ") + what, flush=True)
        self.failed += not holds

    def open(self, stop, more="", **shape):
        self.browser.shape(**{"width": 960, "height": 560, **shape})
        self.browser.go(f"{self.origin}/?schedule=city&stop={stop}{more}")
        self.browser.wait(f"{LOOKED} || {TROUBLE}")

    def keep(self, name):
        path = self.folder / f"{name}.png"
        self.browser.picture(path)
        if shutil.which("pngquant"):
            subprocess.run(["pngquant", "--force", "--skip-if-larger", "--strip", "--ext=.png", "64", path],
                           check=False)
        print(f"        picture {path.name}, {path.stat().st_size} bytes")

    def row(self, state):
        """The texts of the first departure in a state, by column, as they are seen."""
        return self.browser.value(f"""{ROWS}.filter(row => row.dataset.state === '{state}')
            .map(row => [...row.cells].map(cell => cell.innerText.trim()))[0]""")


def show_scene(*scenes):
    os.write(7, (" ".join(scenes) + "\n").encode())


def see_board(display):
    browser = display.browser
    display.open("ST")
    browser.wait("document.querySelector('.rows tr')")
    display.check("a board has the stop's name as its heading and title", browser.value(
        "document.querySelector('h1').textContent === 'Market' && document.title === 'Market – Departures'"))
    display.check("departures by the timetable say nothing of a delay", browser.value(
        f"{ROWS}.length >= 9 && "
        f"{ROWS}.every(row => row.dataset.state === 'scheduled' && row.cells[5].innerText === '')"))
    display.check("times are those of the schedule's zone, whatever the device's is", browser.value(
        """new Date(shown.places[0].board.rows[0].scheduled * 1000).toLocaleTimeString('en-GB',
               {hour: '2-digit', minute: '2-digit', timeZone: 'Europe/Berlin'})
           === document.querySelector('.rows time').textContent"""))
    display.check("it says how old its data are", "second" in browser.value(LOOKED))
    roles = browser.tree()
    display.check("a screen reader finds a table, its titles, and a row with its line as heading",
                  any(role == "table" for role, _ in roles) and ("columnheader", "Destination") in roles
                  and any(role == "rowheader" for role, _ in roles))
    display.keep("board")


def see_states(display):
    browser = display.browser
    for scene, state, remark in (("late", "live", "4 min late"), ("skipped", "skipped", "does not stop here"),
                                 ("canceled", "canceled", "cancelled"), ("added", "added", "extra service")):
        show_scene(scene)
        browser.wait(f"{ROWS}.some(row => row.dataset.state === '{state}' && row.innerText.includes('{remark}'))", 30)
        row = display.row(state)
        display.check(f"{scene}: {' | '.join(row)}", row[1] == "7" and row[3] in ("A", "B"))
        if state in ("skipped", "canceled"):
            display.check(f"{scene}: no expected time, and the scheduled one struck out", row[4] == "" and browser.value(
                f"Boolean(document.querySelector('[data-state={state}] s time'))"))
            display.check(f"{scene}: told to a screen reader",
                          remark in browser.value("document.getElementById('news').textContent"))
        browser.value("new Promise(done => setTimeout(done, 3200))")  # until the mark of news has faded
        if scene != "added":
            display.keep({"late": "live"}.get(scene, scene))


def see_alert(display):
    show_scene("late", "alert")
    display.browser.wait("!document.getElementById('alerts').hidden")
    display.check("alert: below the board, with its effect in words", display.browser.value(
        "document.getElementById('alert-list').innerText").startswith("Accessibility: The lift at Market"))
    display.browser.value("new Promise(done => setTimeout(done, 3200))")
    display.keep("alert")


def see_phone(display):
    show_scene("late", "skipped", "canceled", "added", "alert")
    display.open("ST", width=390, height=844, scheme="dark", still=True, phone=True)
    display.browser.wait("document.querySelector('[data-state=canceled]') && document.querySelector('[data-state=added]')")
    display.check("phone: nothing is wider than the screen",
                  display.browser.value("document.documentElement.scrollWidth <= innerWidth"))
    roles = display.browser.tree()
    display.check("phone: still a table for a screen reader",
                  any(role == "table" for role, _ in roles) and ("columnheader", "Expected") in roles)
    display.check("phone: nothing moves where less motion is wished",
                  display.browser.value("document.getAnimations().length === 0"))
    display.keep("phone")


def see_wall(display):
    display.open("ST", width=1920, height=1080, scheme="dark")
    display.browser.wait("document.querySelector('.rows tr')")
    display.keep("wall")


def see_no_service(display):
    display.open("S6")
    display.browser.wait("!document.querySelector('.empty').hidden")
    display.check("no service: said in words", display.browser.value("document.querySelector('.empty').innerText")
                  == "No departures in the next 60 minutes.")
    display.keep("no_service")


def see_questions(display):
    browser = display.browser
    display.open("NO%20%3Cb%3E")
    browser.wait("!document.getElementById('chooser').hidden")
    display.check("an unknown stop is said", browser.value(TROUBLE)
                  == "There is no stop “NO <b>” in the timetable “city”.")
    display.keep("unknown_stop")
    # By keyboard alone: the second field is the stop's.
    browser.value("document.activeElement.blur()")
    for _ in range(2):
        browser.press("Tab", TAB)
    browser.value("document.activeElement.select()")
    browser.call("Input.insertText", text="S3")
    browser.press("Enter", ENTER)
    browser.wait("document.querySelector('h1').textContent === 'Harbour'")
    display.check("another stop is chosen by keyboard alone", True)
    display.check("at a stop of one platform the column of platforms is left out", browser.value(
        "getComputedStyle(document.querySelector('th.platform')).display === 'none'"))
    display.open("ST", more="&limit=0")
    browser.wait(TROUBLE)
    display.check("a number that the hub doesn't take is said",
                  browser.value(TROUBLE).startswith("The hub does not take"))
    browser.go(f"{display.origin}/")
    browser.wait(TROUBLE)
    display.check("without a stop it asks for one", browser.value(TROUBLE) == "Which stop do you want to see?")


def see_names(display):
    """The timetable that display.sh hands to the hub has HTML in the name of a stop and in a headsign."""
    browser = display.browser
    display.open("S5")
    browser.wait("document.querySelector('.rows tr')")
    display.check("a name is put in as text and never as HTML", browser.value(
        "document.querySelector('h1').textContent === 'Botanical <b>Garden</b>' && !document.querySelector('b')"))
    display.check("and so is a headsign", browser.value(
        "!document.querySelector('img') && [...document.querySelectorAll('.destination')]"
        ".some(cell => cell.textContent === '<img src=x onerror=alert(1)>')"))


# A device whose clock is an hour ahead.
AHEAD = """{ const Right = Date; Date = class extends Right {
    constructor(...given) { if (given.length > 0) super(...given); else super(Right.now() + 3600000); }
    static now() { return Right.now() + 3600000; } }; }"""


def see_wrong_clock(display):
    browser = display.browser
    added = browser.before(AHEAD)
    display.open("ST")
    browser.wait("document.querySelector('.near .wait')")
    hub_clock, device_clock, waits = browser.value("""fetch('/status').then(response => {
        const moment = Number(response.headers.get('X-Hub-Moment'));
        const wait = document.querySelector('.near .wait');
        return [[clockOf(moment - 1), clockOf(moment), clockOf(moment + 1)], clockOf(Date.now() / 1000),
            [wait.textContent, ...[moment - 1, moment, moment + 1].map(now => minutesBetween(now, wait.dataset.at))]];
    })""")
    clock = browser.value("document.getElementById('clock').textContent")
    display.check(f"a device's clock says {device_clock}, and the page {clock}, as the hub does",
                  clock in hub_clock and device_clock not in hub_clock)
    told, *minutes = waits
    display.check(f"and the minutes are the hub's: {told}",
                  told in [f"in {count} min" if count > 0 else "now" for count in minutes])
    display.check("the nearest departures have their minutes in front of their clock", browser.value(
        """[...document.querySelectorAll('.near .when')].every(when => {
            const [wait, at] = ['.wait', '.at'].map(name => when.querySelector(name).getBoundingClientRect());
            return wait.right <= at.left; })"""))
    browser.forget(added)


def see_several(display):
    show_scene("late", "alert")
    browser = display.browser
    display.open("ST", more="&stop=S3&stop=S4", width=1280, height=720)
    browser.wait("[...document.querySelectorAll('.stop')].every(place => place.querySelector('tbody tr')) "
                 "&& !document.getElementById('alerts').hidden")
    names = browser.value("[...document.querySelectorAll('h1, h2.name')].map(name => name.textContent)")
    display.check(f"several stops: {' | '.join(names)}", names == ["Departures", "Market", "Harbour", "Hill"])
    display.check("each with its own departures, side by side", browser.value(
        """new Set([...document.querySelectorAll('.stop')].map(place => place.getBoundingClientRect().top)).size === 1"""))
    display.check("and a notice of all of them once",
                  browser.value("document.querySelectorAll('#alert-list li').length") == 1)
    display.open("ST", more="&stop=NO")
    browser.wait(TROUBLE)
    display.check("a stop among several that isn't there is said, and the others are shown", browser.value(
        f"{TROUBLE} === 'There is no stop “NO” in the timetable “city”.' && {ROWS}.length > 0 "
        "&& document.getElementById('chooser').hidden"))


def see_forms(display):
    browser = display.browser
    for form, width, compact in (("compact", 960, True), ("full", 390, False), ("", 390, True), ("", 960, False)):
        display.open("ST", more=f"&form={form}" if form else "", width=width)
        browser.wait("document.querySelector('.rows tr')")
        is_compact = browser.value("document.body.classList.contains('compact')")
        display.check(f"form '{form}' on {width} pixels: {'compact' if is_compact else 'full'}", is_compact == compact)


def see_two_lines(display):
    """In the compact form each departure has two lines, also on the narrowest phone and with the longest remark."""
    browser = display.browser
    states = ["live", "skipped", "canceled", "added"]
    show_scene("late", *states[1:])
    for language in ("en", "de", "fr"):
        for width in (320, 390):
            display.open("ST", more=f"&limit=30&language={language}", width=width, height=844, phone=True)
            browser.wait(f"{states}.every(state => document.querySelector(`[data-state=${{state}}]`))", 30)
            highest = browser.value(f"Math.max(...{ROWS}.map(row => row.getBoundingClientRect().height))")
            display.check(f"compact, {language}: on {width} pixels no departure is higher than {highest:.0f}", highest < 65)
            display.check("and nothing is wider than the screen", browser.value(
                "document.documentElement.scrollWidth <= innerWidth "
                "&& [...document.querySelectorAll('.remark, .expected')].every(cell => cell.scrollWidth <= cell.clientWidth)"))
    display.open("ST", width=390, height=844, phone=True)
    browser.wait("document.querySelector('.rows tr')")
    display.check("each tells its minutes or its clock, and not both", browser.value(
        f"{ROWS}.every(row => /^(in \\d+ min|now|was due|\\d\\d:\\d\\d)?$/.test(row.cells[4].innerText.trim()))"))


def see_languages(display):
    browser = display.browser
    show_scene("late")
    german, english = ("de-DE", "Abfahrten", "4 min später"), ("en-GB", "Departures", "4 min late")
    for language, (name, title, late) in (("de", german), ("fr", ("fr-FR", "Départs", "4 min de retard")),
                                          ("de-AT", german), ("xx", english)):
        display.open("ST", more=f"&language={language}")
        browser.wait(f"{ROWS}.some(row => row.innerText.includes('{late}'))", 30)
        display.check(f"language {language}: {name}, {title}, {late}", browser.value(
            f"document.documentElement.lang === '{name}' && document.title.endsWith('{title}')"))
    display.check("no language lacks a word", browser.value(
        """Object.values(WORDS).every(words => words.effects.length === 11
            && JSON.stringify(Object.keys(words)) === JSON.stringify(Object.keys(WORDS.en)))"""))


def see_hub_hang(display, hub_process):
    """A hub that takes questions and answers none, for a while."""
    browser = display.browser
    display.open("ST")
    browser.wait("document.querySelector('.rows tr')")
    os.kill(hub_process, signal.SIGSTOP)
    try:
        browser.wait("document.body.classList.contains('away')", 30)
        display.check("a hub that doesn't answer is told as one that is away", "be reached" in browser.value(TROUBLE))
    finally:
        os.kill(hub_process, signal.SIGCONT)
    browser.wait("!document.body.classList.contains('away')", 60)
    display.check(f"and when it is back, that is told: {browser.value(TROUBLE)}", "is back" in browser.value(TROUBLE))
    browser.wait(f"{TROUBLE} === ''", 30)


def see_hub_gone(display, hub_process):
    browser = display.browser
    show_scene("late", "skipped", "alert")
    display.open("ST")
    browser.wait("document.querySelector('[data-state=skipped]')")
    # Answers of 400 and 404, and of nginx while the hub hung, were asked for.
    said = [text for text in browser.complaints() if "responded with a status of" not in text]
    display.check(f"the page has no faults, and breaks no rule of what it may load: {said}", not said)
    os.kill(hub_process, signal.SIGTERM)
    browser.wait("document.body.classList.contains('away')", 30)
    display.check("hub gone: the last board stays, and it is said", browser.value(
        f"{ROWS}.length >= 9 && {TROUBLE}.includes('be reached')"))
    browser.wait("document.body.classList.contains('old')", 60)
    display.check(f"hub gone: {browser.value(LOOKED)}", "seconds ago" in browser.value(LOOKED))
    display.keep("hub_gone")


def main():
    origin, hub_process, folder = sys.argv[1:]
    Path(folder).mkdir(parents=True, exist_ok=True)
    with Browser() as browser:
        display = Display(browser, origin, folder)
        see_board(display)
        see_states(display)
        see_alert(display)
        see_no_service(display)
        see_phone(display)
        see_wall(display)
        see_questions(display)
        see_names(display)
        see_wrong_clock(display)
        see_several(display)
        see_forms(display)
        see_two_lines(display)
        see_languages(display)
        see_hub_hang(display, int(hub_process))
        see_hub_gone(display, int(hub_process))
    print(f"{display.failed} failed")
    return 1 if display.failed else 0


if __name__ == "__main__":
    sys.exit(main())
