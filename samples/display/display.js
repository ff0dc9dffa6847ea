// The departures of one stop or several, asked of a hub again and again: the schedule and the stops are those of the
// page's address, `?schedule=city&stop=S1&stop=S2`, which may also give `span`, `limit`, `language` and `form`. All that
// comes from the hub is put in as text.
"use strict";

const asked = new URLSearchParams(location.search);
const SCHEDULE = asked.get("schedule") ?? "";
const STOPS = [...new Set(asked.getAll("stop"))].filter((stop) => stop !== "");
const SPAN = Number(asked.get("span") ?? SETTINGS.span);
const LIMIT = Number(asked.get("limit") ?? SETTINGS.limit);
const FORM = asked.get("form") ?? SETTINGS.form;
// `de` for `de-AT` too.
const TEXTS = WORDS[(asked.get("language") ?? "").toLowerCase().split("-")[0]] ?? WORDS[SETTINGS.language];

const part = (id) => document.getElementById(id);

// What is shown now. Instants are in seconds since 1970; `heard` is when the last answers came by this page's own clock,
// which can't be set while it runs, and `ageThen` how old the oldest of them was when it came. `places` has each stop
// with its part of the page and its board.
const shown = { places: [], alerts: [], moment: 0, heard: 0, ageThen: 0, away: false };
const hasBoard = () => shown.places.some((place) => place.board);
let failures = 0;
let timer = 0;
let asking = false;

// ------------------------------------------------------------------------------------------------------------ times

function format(options) {
  const shape = { hourCycle: "h23", ...options };
  try {
    return new Intl.DateTimeFormat(TEXTS.locale, { ...shape, timeZone: SETTINGS.zones[SCHEDULE] });
  } catch (error) {
    console.warn(`settings.js: the zone of ${SCHEDULE} is none that this browser knows; its own is taken`, error);
    return new Intl.DateTimeFormat(TEXTS.locale, shape);
  }
}

const minuteClock = format({ hour: "2-digit", minute: "2-digit" });
const secondClock = format({ hour: "2-digit", minute: "2-digit", second: "2-digit" });
const clockOf = (instant) => minuteClock.format(new Date(instant * 1000));

// How old the boards are: their age when they came, and the time since.
const age = () => shown.ageThen + (performance.now() - shown.heard) / 1000;

// The present time by the hub's clock: that of this device may be wrong, and is never asked.
const present = () => shown.moment + age();

// By the minutes that are shown, so that the two times and the delay never disagree.
const minutesBetween = (from, to) => Math.floor(to / 60) - Math.floor(from / 60);

// ---------------------------------------------------------------------------------------------------------- asking

class Refused extends Error {
  constructor(status) {
    super(`status ${status}`);
    this.status = status;
  }
}

// One answer of the hub. An answer without the hub's numbers is one of something between, such as a server that says
// that the hub is away.
async function ask(kind, stop, signal) {
  const path = `/${kind}/${encodeURIComponent(SCHEDULE)}/${encodeURIComponent(stop)}`;
  const response = await fetch(`${path}?format=json&span=${SPAN}&limit=${LIMIT}`, { cache: "no-store", signal });
  const moment = Number(response.headers.get("X-Hub-Moment"));
  if (!response.ok) {
    throw moment > 0 && response.status < 500 ? new Refused(response.status) : new Error(`status ${response.status}`);
  }
  if (!(moment > 0)) throw new Error("this is no answer of a hub");
  return { moment, ageThen: ageOf(response, moment), body: await response.json() };
}

// How old an answer is when it comes: what lies between the hub's moment and the date of the server that handed it on,
// and what stores in between say of themselves.
function ageOf(response, moment) {
  const date = Date.parse(response.headers.get("Date") ?? "") / 1000;
  const waited = Number(response.headers.get("Age") ?? 0);
  return Math.max(0, Number.isFinite(date) ? date - moment : 0) + (Number.isFinite(waited) ? waited : 0);
}

// Board and alerts of a stop, or the status by which the hub refuses it.
async function askStop(stop, signal) {
  try {
    const [board, alerts] = await Promise.all([ask("board", stop, signal), ask("alerts", stop, signal)]);
    return { board, alerts, refused: 0 };
  } catch (error) {
    if (error instanceof Refused) return { refused: error.status };
    throw error;
  }
}

async function poll() {
  clearTimeout(timer);
  if (asking) return;
  asking = true;
  const seconds = await askAll();
  asking = false;
  if (document.hidden) return; // until it is seen again
  timer = setTimeout(poll, seconds * 1000 * (0.9 + 0.2 * Math.random()));
}

// Asks for all stops, shows what came of it, and returns how many seconds later to ask again. A stop that the hub hasn't
// is asked for again now and then, since another timetable may have it.
async function askAll() {
  const stop = new AbortController();
  const patience = setTimeout(() => stop.abort(), SETTINGS.patience * 1000);
  try {
    const answers = await Promise.all(STOPS.map((name) => askStop(name, stop.signal)));
    failures = 0;
    take(answers);
    return hasBoard() ? SETTINGS.poll : SETTINGS.pollAway;
  } catch (error) {
    stop.abort();
    console.warn("the hub is away:", error);
    away();
    failures += 1;
    return Math.min(SETTINGS.pollAway, SETTINGS.poll * 2 ** (failures - 1));
  } finally {
    clearTimeout(patience);
  }
}

// --------------------------------------------------------------------------------------------------------- showing

// A new element with texts and elements inside.
function make(name, attributes, ...inside) {
  const element = document.createElement(name);
  for (const [key, value] of Object.entries(attributes)) element.setAttribute(key, value);
  element.append(...inside);
  return element;
}

// The part of the page for a stop, out of the template.
function placeOf(stop) {
  const section = part("stop").content.cloneNode(true).firstElementChild;
  part("stops").append(section);
  return { stop, section, board: null, refused: 0 };
}

function take(answers) {
  const wasAway = shown.away;
  const told = answers.flatMap((answer) => (answer.refused ? [] : [answer.board]));
  const news = [];
  answers.forEach((answer, index) => {
    const place = shown.places[index];
    const before = place.board;
    Object.assign(place, { board: answer.board?.body ?? null, refused: answer.refused });
    place.section.hidden = !place.board;
    if (place.board) news.push(...showBoard(place, before));
  });
  const oldest = told.reduce((one, other) => (other.moment < one.moment ? other : one), told[0]);
  Object.assign(shown, { moment: oldest?.moment ?? 0, ageThen: oldest?.ageThen ?? 0, heard: performance.now(), away: false,
    alerts: answers.flatMap((answer) => answer.alerts?.body.alerts ?? []) });
  document.body.classList.remove("away");
  if (oldest) showTitle(); else setText(part("age"), "");
  showTrouble(wasAway);
  showAlerts();
  tellNews(news);
  tick();
}

// The hub is there and has no such stop, or doesn't take the numbers of the address: said for each stop. Where it has
// none of them the page asks for another.
function showTrouble(wasAway) {
  const texts = shown.places.filter((place) => place.refused).map((place) =>
    (place.refused === 404 ? TEXTS.unknown(SCHEDULE, place.stop) : TEXTS.refused));
  const bad = texts.length > 0;
  if (!bad && wasAway) texts.push(TEXTS.back);
  part("trouble").className = bad ? "bad" : wasAway ? "good" : "";
  setText(part("trouble"), [...new Set(texts)].join(" "));
  if (hasBoard()) part("chooser").hidden = true; else choose();
}

function away() {
  shown.away = true;
  document.body.classList.add("away");
  part("trouble").className = "bad";
  setText(part("trouble"), hasBoard() ? TEXTS.away(clockOf(shown.moment)) : TEXTS.awayEmpty);
  tick();
}

// Asks for a stop.
function choose() {
  if (!part("chooser").hidden) return;
  part("choose-schedule").value = SCHEDULE || Object.keys(SETTINGS.zones)[0] || "";
  part("choose-stop").value = STOPS[0] ?? "";
  part("chooser").hidden = false;
}

// Only where it changes: so that a screen reader says it once.
function setText(element, text) {
  if (element.textContent !== text) element.textContent = text;
}

// One stop's name is the page's heading; several have each its own.
function showTitle() {
  const names = shown.places.filter((place) => place.board).map((place) => place.board.name || place.board.stop);
  document.title = `${names.join(", ")} – ${TEXTS.title}`;
  setText(part("title"), STOPS.length === 1 ? names[0] : TEXTS.title);
}

const keyOf = (row) => [row.trip, row.date, row.platform, row.scheduled ?? ""].join("\t");

// Shows the board of a stop, and returns its rows that are news after the board before.
function showBoard({ section, board }, before) {
  const find = (name) => section.querySelector(`.${name}`);
  const name = board.name || board.stop;
  setText(find("name"), name);
  find("name").hidden = STOPS.length === 1;
  setText(find("caption"), TEXTS.caption(name));
  // At a stop of one platform its name in each row would say nothing.
  find("board").classList.toggle("one-platform", board.rows.every((row) => row.platform === board.stop));
  const remarks = before && new Map(before.rows.map((row) => [keyOf(row), remarkOf(row)]));
  const isNews = (row) => remarks !== null && remarkOf(row) !== (remarks.get(keyOf(row)) ?? "");
  find("rows").replaceChildren(...board.rows.map((row) => rowOf(row, isNews(row))));
  find("board").hidden = board.rows.length === 0;
  find("empty").hidden = board.rows.length > 0;
  setText(find("empty"), TEXTS.noService(Math.round(SPAN / 60)));
  return board.rows.filter(isNews);
}

// What is written at a platform: in many timetables an id ends in a colon and the platform's own name.
const platformOf = (id) => SETTINGS.platforms[SCHEDULE]?.[id] ?? id.slice(id.lastIndexOf(":") + 1);

function rowOf(row, isNews) {
  const stays = row.state === "skipped" || row.state === "canceled";
  const scheduled = make("time", {}, clockOf(row.scheduled ?? row.expected));
  const when = make("span", { class: "when" }, make("span", { class: "at" }, clockOf(row.expected)), " ",
    make("span", { class: "wait", "data-at": row.expected }));
  return make("tr", { role: "row", class: isNews ? "news" : "", "data-state": row.state },
    make("td", { role: "cell", class: "scheduled" }, stays ? make("s", {}, scheduled) : scheduled),
    make("th", { role: "rowheader", scope: "row", class: "line" }, make("span", { class: "badge" }, row.route || "–")),
    make("td", { role: "cell", class: `destination ${row.headsign ? "" : "unsaid"}` }, row.headsign || TEXTS.noHeadsign),
    make("td", { role: "cell", class: "platform" },
      make("span", { class: "label" }, `${TEXTS.platform} `), platformOf(row.platform)),
    make("td", { role: "cell", class: "expected" }, ...(stays ? [] : [when])),
    make("td", { role: "cell", class: `remark ${toneOf(row)}` }, remarkOf(row)));
}

function remarkOf(row) {
  if (row.state === "scheduled") return "";
  if (row.state !== "live") return TEXTS[row.state];
  const minutes = minutesBetween(row.scheduled, row.expected);
  if (minutes === 0) return TEXTS.onTime;
  return minutes > 0 ? TEXTS.late(minutes) : TEXTS.early(-minutes);
}

function toneOf(row) {
  if (row.state !== "live") return "";
  return minutesBetween(row.scheduled, row.expected) === 0 ? "good" : "bad";
}

// Says what became worse or was added since the boards before, and no more than three of it.
function tellNews(rows) {
  const worse = rows.filter((row) => (row.state === "live"
    ? minutesBetween(row.scheduled, row.expected) >= 3 : row.state !== "scheduled"));
  if (worse.length === 0) return;
  setText(part("news"), worse.slice(0, 3).map((row) => TEXTS.news(row.route, row.headsign || TEXTS.noHeadsign,
    clockOf(row.scheduled ?? row.expected), remarkOf(row))).join(" "));
}

// Those of all stops, each once.
function showAlerts() {
  const alerts = new Map(shown.alerts.map((alert) => [`${alert.feed}\t${alert.id}`, alert]));
  const items = [...alerts.values()].map((alert) =>
    [TEXTS.effects[alert.effect - 1] ?? TEXTS.notice, alert.header || "–"]);
  part("alerts").hidden = items.length === 0;
  const list = part("alert-list");
  // Left as it is where nothing changed, so that it isn't read out again.
  if (JSON.stringify(items) === list.dataset.items) return;
  list.dataset.items = JSON.stringify(items);
  list.replaceChildren(...items.map(([effect, header]) =>
    make("li", {}, make("strong", {}, `${effect}: `), make("span", {}, header))));
}

// What goes on by itself, each second: the clock, the waiting times, and how old it all is.
function tick() {
  if (!hasBoard()) return;
  const now = present();
  setText(part("clock"), clockOf(now));
  for (const wait of document.querySelectorAll(".wait")) {
    const minutes = minutesBetween(now, Number(wait.dataset.at));
    const row = wait.closest("tr");
    setText(wait, minutes < 0 ? TEXTS.due : minutes === 0 ? TEXTS.now : TEXTS.in(minutes));
    row.classList.toggle("gone", minutes < 0);
    row.classList.toggle("near", minutes <= SETTINGS.near);
  }
  const seconds = Math.floor(age());
  const told = seconds < 120 ? TEXTS.seconds(seconds) : TEXTS.minutes(Math.floor(seconds / 60));
  setText(part("age"), TEXTS.age(secondClock.format(new Date(shown.moment * 1000)), told));
  document.body.classList.toggle("old", seconds >= SETTINGS.old);
}

// ---------------------------------------------------------------------------------------------------------- begin

// The compact form where the address or the settings ask for it, and else where the screen is narrow or has several stops.
function shape() {
  const narrow = matchMedia("(max-width: 44rem)");
  const fit = () => document.body.classList.toggle("compact",
    FORM === "compact" || (FORM !== "full" && (narrow.matches || STOPS.length > 1)));
  narrow.addEventListener("change", fit);
  fit();
}

shape();
document.documentElement.lang = TEXTS.locale;
document.title = TEXTS.title;
setText(part("title"), TEXTS.title);
document.body.classList.toggle("several", STOPS.length > 1);
shown.places = STOPS.map(placeOf);
// What the address says of the page stays where another stop is chosen.
for (const [name, value] of asked) {
  if (name === "language" || name === "form") part("chooser").append(make("input", { type: "hidden", name, value }));
}
for (const element of document.querySelectorAll("[data-text]")) element.textContent = TEXTS[element.dataset.text];
if (SCHEDULE && STOPS.length > 0) {
  setInterval(tick, 1000);
  document.addEventListener("visibilitychange", () => (document.hidden ? clearTimeout(timer) : poll()));
  poll();
} else {
  setText(part("trouble"), TEXTS.none);
  choose();
}
