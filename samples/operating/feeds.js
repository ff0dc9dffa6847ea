// The feeds of a hub, or of each hub behind a web server, for operators: what `status`, `unmatched` and `alerts` say,
// asked next to this page. The page's address names timetables and stops, `?schedule=city&stop=ST`, each as often as
// one likes, and may say when a feed counts as silent, in the words of check_feeds.sh: `silent=120&silent=notices=0`. All
// that comes is put in as text.
//
// `hub=1`, `hub=2` and so on ask one hub each; the server in front answers 204 to a number that it hasn't, and says the
// address of the hub that answered (X-Hub-Address). Where it names none there is one hub.
"use strict";

const asked = new URLSearchParams(location.search);
const SCHEDULES = [...new Set(asked.getAll("schedule"))].filter((name) => name !== "");
const STOPS = [...new Set(asked.getAll("stop"))].filter((name) => name !== "");
// Seconds after which a feed counts as silent, by its name, and under "" for all others; 0 for never.
const SILENT = Object.fromEntries([["", 120], ...asked.getAll("silent").map((words) =>
  [words.slice(0, Math.max(0, words.lastIndexOf("="))), Number(words.slice(words.lastIndexOf("=") + 1))])]);
const MOST_HUBS = 8;
const AGAIN = 10; // seconds from one answer to the next question
const PATIENCE = 8; // seconds after which a question is given up
const OLD = 30; // seconds after which an answer counts as old
const FEW = 8; // ids that are shown without asking

const REASONS = {
  notrip: "the timetable has no such trip",
  noday: "no day of the timetable's window",
  notactive: "the trip doesn't run on that day",
  several: "two or more trips fit",
  relation: "of a kind that boards don't show",
  text: "its date or time is none",
};

const part = (id) => document.getElementById(id);

// What each hub said last, by its number: its address, the hub's moment, the time of the answer by this page's own clock,
// its lists, and why it doesn't answer where it doesn't.
const hubs = new Map();
const UNHEARD = { address: "", moment: 0, feeds: [], unmatched: [], alerts: [], wrong: [], trouble: "not asked yet" };

// ---------------------------------------------------------------------------------------------------------- asking

// One answer. Without the hub's moment it is one of the server in front.
async function ask(path, signal) {
  const response = await fetch(path, { cache: "no-store", signal });
  const moment = Number(response.headers.get("X-Hub-Moment"));
  const addresses = response.headers.get("X-Hub-Address") ?? "";
  return { status: response.status, moment, address: addresses.split(",").at(-1).trim(), text: await response.text(),
    sequence: Number(response.headers.get("X-Hub-Sequence")), late: lateness(response, moment) };
}

// The seconds by which the clock of the server in front is ahead of the hub's.
function lateness(response, moment) {
  const date = Date.parse(response.headers.get("Date") ?? "") / 1000;
  return Number.isFinite(date) && moment > 0 ? date - moment : 0;
}

// The rows of a list, once its first line has these names.
function rowsOf(answer, names) {
  const lines = answer.text.split("\n");
  const head = lines.indexOf(names.join("\t"));
  if (answer.status !== 200 || !(answer.moment > 0) || head < 0) throw new Error(reasonOf(answer));
  return lines.slice(head + 1, -1).map((line) => {
    const cells = line.split("\t");
    return Object.fromEntries(names.map((name, index) => [name, cells[index] ?? ""]));
  });
}

const reasonOf = (answer) => (answer.moment > 0 ? `the hub answers ${answer.status}: ${answer.text.trim()}`
  : `the server in front answers ${answer.status}`);

// All that one hub says. What is wrong with a timetable or a stop is said in its list, and the rest is shown.
async function listsOf(index, status, signal) {
  const feeds = rowsOf(status, ["feed", "accepted", "last", "entities"]);
  const lists = { unmatched: [], alerts: [], wrong: [] };
  const list = async (into, path, names, more) => {
    const answer = await ask(`${path}${path.includes("?") ? "&" : "?"}hub=${index}`, signal);
    try {
      lists[into].push(...rowsOf(answer, names).map((row) => ({ ...row, ...more })));
    } catch (error) {
      lists.wrong.push(`${Object.values(more).join(" ")}: ${error.message}`);
    }
  };
  await Promise.all(SCHEDULES.flatMap((schedule) => {
    const name = encodeURIComponent(schedule);
    return [list("unmatched", `unmatched/${name}`, ["feed", "id", "kind", "reason"], { schedule }),
      ...STOPS.map((stop) => list("alerts", `alerts/${name}/${encodeURIComponent(stop)}?span=86400&limit=1000`,
        ["feed", "id", "cause", "effect", "header"], { schedule, stop }))];
  }));
  return { feeds, ...lists };
}

const keep = (index, news) => hubs.set(index, { ...UNHEARD, ...hubs.get(index), ...news });

// What one hub says; null where the server in front has none of that number.
async function hear(index, signal) {
  const status = await ask(`status?hub=${index}`, signal);
  if (status.status === 204 && index > 1) return null;
  keep(index, { address: status.address });
  const lists = await listsOf(index, status, signal);
  return { ...lists, moment: status.moment, late: status.late, sequence: status.sequence, heard: performance.now(),
    trouble: "" };
}

// Asks hub by hub until the server in front has no more.
async function askAll() {
  for (let index = 1; index <= MOST_HUBS; index += 1) {
    const stop = new AbortController();
    const patience = setTimeout(() => stop.abort(), PATIENCE * 1000);
    try {
      const said = await hear(index, stop.signal);
      if (said === null) return void hubs.delete(index);
      keep(index, said);
      if (hubs.get(index).address === "") return;
    } catch (error) {
      if (index > 1 && !hubs.has(index)) return; // the server in front is away
      keep(index, { trouble: stop.signal.aborted ? `no answer in ${PATIENCE} seconds` : error.message });
    } finally {
      clearTimeout(patience);
    }
  }
}

async function poll() {
  await askAll();
  show();
  setTimeout(poll, AGAIN * 1000);
}

// --------------------------------------------------------------------------------------------------------- showing

// A new element with texts and elements inside.
function make(name, attributes, ...inside) {
  const element = document.createElement(name);
  for (const [key, value] of Object.entries(attributes)) element.setAttribute(key, value);
  element.append(...inside);
  return element;
}

const cell = (...inside) => make("td", {}, ...inside);
const amount = (value) => make("td", { class: "number" }, String(value));
const word = (tone, text) => make("span", { class: tone }, text);

function setText(element, text) {
  if (element.textContent !== text) element.textContent = text;
}

// Seconds in the two greatest units that they have.
function span(seconds) {
  const whole = Math.max(0, Math.floor(seconds));
  if (whole < 120) return `${whole} s`;
  if (whole < 7200) return `${Math.floor(whole / 60)} min ${whole % 60} s`;
  if (whole < 172800) return `${Math.floor(whole / 3600)} h ${Math.floor((whole % 3600) / 60)} min`;
  return `${Math.floor(whole / 86400)} days`;
}

const clock = new Intl.DateTimeFormat("en-GB", { hour: "2-digit", minute: "2-digit", second: "2-digit" });
const clockOf = (instant) => clock.format(new Date(instant * 1000));
const since = (hub) => (performance.now() - hub.heard) / 1000;
const isOld = (hub) => hub.trouble !== "" || since(hub) >= OLD;

// By the hub's own clock, counted on since it answered.
function stateOf(hub, feed) {
  if (isOld(hub)) return ["soft", "not known"];
  const age = hub.moment + since(hub) - Number(feed.last);
  if (Number(feed.last) === 0) return ["bad", "no message yet"];
  if (age < -5) return ["bad", `its clock is ${span(-age)} ahead`];
  const limit = SILENT[feed.feed] ?? SILENT[""];
  if (limit > 0 && age > limit) return ["bad", "silent"];
  if (Number(feed.entities) === 0) return ["good", "speaks, with nothing in it"];
  return ["good", "speaks"];
}

function hubRow(hub, index) {
  const heard = hub.moment > 0;
  const skew = heard && Math.abs(hub.late) > 5
    ? [word("bad", `, ${span(Math.abs(hub.late))} ${hub.late > 0 ? "behind" : "ahead of"} that of the server in front`)] : [];
  return make("tr", { class: isOld(hub) ? "old" : "" },
    make("th", { scope: "row" }, hub.address ? `${index} (${hub.address})` : String(index)),
    cell(hub.trouble ? word("bad", `does not answer: ${hub.trouble}`) : word("good", "answers")),
    cell(heard ? `${span(since(hub))} ago` : "never"), cell(heard ? clockOf(hub.moment) : "", ...skew),
    amount(heard ? hub.sequence : ""));
}

function feedRows() {
  const rows = [...hubs].flatMap(([index, hub]) => hub.feeds.map((feed) => ({ index, hub, feed })));
  const order = [...new Set(rows.map((row) => row.feed.feed))];
  rows.sort((one, other) => order.indexOf(one.feed.feed) - order.indexOf(other.feed.feed) || one.index - other.index);
  return rows.map(({ index, hub, feed }) => {
    const last = Number(feed.last);
    const told = last === 0 ? "" : `${span(hub.moment + since(hub) - last)} ago, ${clockOf(last)}`;
    return make("tr", { class: isOld(hub) ? "old" : "" }, make("th", { scope: "row" }, feed.feed), cell(String(index)),
      cell(word(...stateOf(hub, feed))), cell(told), amount(feed.accepted), amount(feed.entities));
  });
}

// Rows that several hubs say alike become one, with the numbers of these hubs.
function joined(list, keyOf) {
  const groups = new Map();
  for (const [index, hub] of hubs) {
    for (const row of hub[list]) {
      const key = JSON.stringify(keyOf(row));
      const group = groups.get(key) ?? groups.set(key, { ...row, rows: new Map(), by: new Set() }).get(key);
      group.rows.set(`${row.id} ${row.kind ?? ""}`, row);
      group.by.add(index);
    }
  }
  return [...groups.values()];
}

const saidBy = (group) => make("td", { class: "hub" }, [...group.by].join(", "));

function unmatchedRow(group) {
  const ids = [...group.rows.values()].map((row) => (row.kind === "vehicle" ? `${row.id} (vehicle)` : row.id));
  const listed = (some) => make("ul", {}, ...some.map((id) => make("li", {}, make("code", {}, id))));
  const shown = ids.length <= FEW ? [listed(ids)]
    : [listed(ids.slice(0, FEW)), make("details", { "data-key": `${group.schedule} ${group.feed} ${group.reason}` },
      make("summary", {}, `${ids.length - FEW} more`), listed(ids.slice(FEW)))];
  return make("tr", {}, cell(group.schedule), make("th", { scope: "row" }, group.feed),
    cell(group.reason, make("span", { class: "why" }, REASONS[group.reason] ?? "")), amount(ids.length),
    cell(...shown), saidBy(group));
}

function alertRow(group) {
  return make("tr", {}, cell(group.schedule), cell(group.stop), make("th", { scope: "row" }, group.feed),
    cell(make("code", {}, group.id)), cell(group.header || "–"), saidBy(group));
}

// Puts rows into a table, whose opened details stay open, or says in words that there are none.
function fill(id, rows, none) {
  const open = new Set([...part(id).querySelectorAll("details[open]")].map((details) => details.dataset.key));
  part(id).replaceChildren(...rows);
  for (const details of part(id).querySelectorAll("details")) details.open = open.has(details.dataset.key);
  part(id).closest("table").hidden = rows.length === 0;
  part(`${id}-none`).hidden = rows.length > 0;
  setText(part(`${id}-none`), none);
}

function show() {
  const none = [...hubs.values()].some((hub) => hub.moment > 0) ? "None" : "Not known";
  fill("unmatched", joined("unmatched", (row) => [row.schedule, row.feed, row.reason]).map(unmatchedRow),
    SCHEDULES.length > 0 ? `${none}.` : "Name a timetable below.");
  fill("alerts", joined("alerts", (row) => [row.schedule, row.stop, row.feed, row.id]).map(alertRow),
    STOPS.length > 0 ? `${none} at these stops.` : "Name a timetable and a stop below.");
  tick();
}

// What goes on by itself, each second: ages, and what they come to.
function tick() {
  if (hubs.size === 0) return;
  part("hubs").replaceChildren(...[...hubs].map(([index, hub]) => hubRow(hub, index)));
  part("feeds").replaceChildren(...feedRows());
  const all = [...hubs.values()];
  const away = all.filter(isOld).length;
  const feeds = new Set(all.flatMap((hub) => hub.feeds.map((feed) => feed.feed)));
  const bad = new Set(all.flatMap((hub) =>
    hub.feeds.filter((feed) => stateOf(hub, feed)[0] === "bad").map((feed) => feed.feed)));
  const told = [...new Set(all.flatMap((hub) => hub.wrong))];
  if (bad.size > 0) told.unshift(`Feeds that need a look: ${bad.size} of ${feeds.size}`);
  if (away > 0) told.unshift(`Hubs that do not answer: ${away} of ${all.length}`);
  part("summary").className = told.length > 0 ? "bad" : "good";
  setText(part("summary"), told.join("; ") || "All hubs answer, and all feeds speak.");
}

// ---------------------------------------------------------------------------------------------------------- begin

part("schedule").value = SCHEDULES[0] ?? "";
part("stop").value = STOPS[0] ?? "";
setText(part("zone"), `Times are those of this device's zone, ${clock.resolvedOptions().timeZone}; ages are counted by the `
  + `hub's clock. A feed is silent after ${SILENT[""]} seconds, where the page's address doesn't say another number.`);
setInterval(tick, 1000);
poll();
