#!/usr/bin/env bash
# shellcheck disable=SC1091,SC2154   # begin.sh sets work and hub
# Runs every benchmark next to it, and prints their figures as the tables of docs/PERFORMANCE.md and of docs/OPERATING.md
# ("What to plan for"). A figure that was not measured, since a tool is missing or its script failed, is '-'.
#   bench/all.sh [FOLDER]         FOLDER keeps what each script printed (none: it is thrown away)
#   bench/all.sh table FOLDER     runs nothing, and prints the tables of what is in FOLDER
# Needs python3, GNU time and the program, which ./hub builds where it is missing (HUB names another); for all figures also
# valgrind, wrk, nginx, protoc with libprotobuf-dev and g++, cargo with librust-csv-dev, and rt for bench_rates. Much of it
# runs under valgrind, so it takes long; leave the machine alone meanwhile.
set -u
bench=$(cd "$(dirname "$0")" && pwd)

# Says when each begins and how it ended; what it printed is in the folder under its name.
#   run NAME WORDS..
run() {
  local name=$1 began=$SECONDS status=0
  shift
  echo "all.sh: $name" >&2
  "$@" > "$said/$name" 2> "$said/$name.errors" || status=$?
  [ "$status" -eq 0 ] || echo "all.sh: $name ended with status $status: $(tail -n 1 "$said/$name.errors")" >&2
  echo "all.sh: $name took $((SECONDS - began)) s" >&2
}

# CPU seconds and peak memory of a check of 4,000,000 trips of one place.
short_trips() {
  python3 bench/make_timetable.py 4000000 "$work/short" 1
  /usr/bin/time -f "%U s user, %S s system, %M KiB" "$hub" check "$work/short.toml" 2>&1
  rm -r "$work/short"
}

# Instructions and peak memory of a replay of these messages and of the combined feed.
#   replays WHAT WORDS..
replays() {
  local what=$1 count=-
  shift
  python3 bench/make_messages.py "$@" | sed '$d' > "$work/script"
  printf 'O plain\nE\n' >> "$work/script"
  /usr/bin/time -f %M -o "$work/peak" "$hub" replay < "$work/script" > "$work/answers"
  if command -v valgrind > /dev/null; then
    count=$(valgrind --tool=callgrind --callgrind-out-file=/dev/null "$hub" replay < "$work/script" 2>&1 > "$work/answers" |
      sed -n 's/.*Collected : //p')
  fi
  echo "$what: $count instructions, $(cat "$work/peak") KiB"
}

if [ "${1:-}" = table ]; then
  said=${2:?"all.sh: table wants a folder"}
else
  . "$bench/begin.sh"
  said=${1:-$work/said}
  mkdir -p "$said"
  said=$(cd "$said" && pwd)
  export HUB=$hub
  run check bench/check.sh
  run slopes bench/slopes.sh
  run short_trips short_trips
  run decode bench/decode.sh
  run table bench/table.sh
  run replays_small replays "2,000 messages of 20 entities" small 2000 20
  run replays_full replays "4 whole data sets of 3,000 entities" full 4 3000
  run replays_large replays "a whole data set of 30,000 entities" full 1 30000
  run boards bench/boards.sh
  run combined bench/combined.sh
  run since bench/since.sh
  run gen bench/gen.sh
  run serve bench/serve.sh
  run ingest bench/running.sh ingest
  run whole bench/running.sh whole
  run load bench/running.sh load
  run cities bench/running.sh cities
  run memory bench/running.sh memory
  run unread bench/running.sh unread
  run sizes bench/running.sh sizes
  run looks bench/looks.sh 4000000 2000
  run intake bench/intake.sh
  run index bench/index.sh
  run frequencies bench/frequencies.sh
fi

python3 - "$said" <<'PY'
import os, re, sys

SAID = sys.argv[1]


def text(name):
    """What the script of that name printed; nothing where it was not run."""
    path = os.path.join(SAID, name)
    if not os.path.exists(path):
        return ""
    with open(path, encoding="utf-8") as file:
        return file.read()


def number(word):
    return float(word.replace(",", ""))


def found(name, pattern):
    """All that the pattern's group finds in what the script printed, as numbers."""
    return [number(word) for word in re.findall(pattern, text(name), re.M)]


def first(name, pattern):
    return found(name, pattern)[:1] or [None]


def shown(value, form=",.0f"):
    return "-" if value is None else format(value, form)


def joined(values, form=",.0f"):
    """The numbers as 'a, b and c'."""
    words = [shown(value, form) for value in values]
    return " and ".join([", ".join(words[:-1]), words[-1]] if words[1:] else words or ["-"])


def span(values, form=",.0f"):
    """From the least to the greatest of the numbers."""
    return f"{min(values):{form}} to {max(values):{form}}" if values else "-"


def cpu(name, before=""):
    """CPU seconds and MiB of a line of GNU time."""
    line = re.search(before + r"([\d.]+) s user, ([\d.]+) s system, (\d+) KiB", text(name), re.S)
    if not line:
        return "-"
    user, system, peak = map(float, line.groups())
    return f"{user + system:.2f} s of CPU, {peak / 1024:.0f} MiB"


def answers(pattern):
    """The rates of such lines of load.py, and the median and the 99th of the first."""
    lines = re.findall(pattern + r"([\d,]+) \((\S+) and (\S+) ms\)", text("load"))
    rates = joined([number(line[0]) for line in lines])
    return rates, f"{float(lines[0][1]):.2g} and {float(lines[0][2]):.2g} ms" if lines else "-"


def looks(threads, puts, how):
    """Looks a second in millions, of so many threads, with or without puts."""
    lines = re.findall(rf"threads {threads} \S+ (\d+): .*?{how} ([\d,]+)", text("looks"))
    rates = [number(rate) / 1e6 for put, rate in lines if (int(put) > 0) == puts]
    return rates[0] if rates else None


def replayed(name):
    line = re.search(r": (\S+) instructions, (\d+) KiB", text(name))
    if not line:
        return "-"
    count = "-" if line[1] == "-" else f"{number(line[1]) / 1e6:,.0f}"
    return f"{count} million instructions, {int(line[2]) / 1024:.0f} MiB"


def rows(script, *lines):
    for what, figures in lines:
        print(f"| {script} | {what} | {figures} |")
        script = ""


def decoded(after):
    return joined([(found("decode", rf"^{what}: {after} MB a second") or [None])[-1] for what in (
        "2,000 messages of 20 entities", "12 whole data sets of 3,000 entities", "2 whole data sets of 30,000 entities")])


def each(count, what):
    return first("slopes", rf"^{count} entities {what}: ([\d,]+) instructions")[0]


def stop_times(pattern):
    return joined([first("slopes", rf"^{count} stop times: {pattern}")[0] for count in ("1,000,000", "4,000,000")], "g")


print("| Script | What | Figures |\n|---|---|---|")
rows("`check.sh`",
     ("`hub check` of 1,000,000 stop times", cpu("check", r"1000000 stop times\nhub check: ")),
     ("counting the records alone, by Rust's crate csv", cpu("check", r"1000000 stop times\n.*?Rust's csv: ")))
rows("`slopes.sh`",
     ("`hub check` of 1,000,000 and of 4,000,000 stop times, in trips of 20 places",
      f"{stop_times('([0-9.]+) s of CPU')} s of CPU, {stop_times('.*?peak ([0-9]+) MiB')} MiB"),
     ("a stop time, of 100,000 and of 400,000",
      joined([first("slopes", rf"^{count} stop times: .*?([\d,]+) instructions each")[0]
              for count in ("100,000", "400,000")]) + " instructions"),
     ("an entity read, of 20 and of 30,000", joined([each("20", "read"), each("30,000", "read")]) + " instructions"),
     ("an entity of a combined feed put together and written, of 20 and of 30,000",
      joined([each("20", "written"), each("30,000", "written")]) + " instructions"))
rows("`all.sh`",
     ("`hub check` of 4,000,000 trips of one place", cpu("short_trips")),
     ("`hub replay` of 2,000 messages of 20 entities, and the combined feed", replayed("replays_small")),
     ("of 4 whole data sets of 3,000 entities, and the feed", replayed("replays_full")),
     ("of a whole data set of 30,000 entities, and the feed", replayed("replays_large")))
rows("`decode.sh`",
     ("reading messages of 20, 3,000 and 30,000 entities", decoded(r".*: (\d+)") + " MB a second"),
     ("the same by libprotobuf with fresh messages", decoded(r"libprotobuf ([\d.]+)") + " MB a second"))
grown = found("table", r"growth ([\d.]+)")
rows("`table.sh`",
     ("a differential message of 20 entities, two of them alerts, whose ids are spread over a table of 2,000 and of 20,000",
      joined(found("table", r"([\d,]+) instructions over")) + f" instructions, {shown(grown[1] if grown[1:] else None, '.2f')} times"),
     ("", joined(found("table", r"([\d,]+) microseconds over")) + f" microseconds, {shown(grown[0] if grown else None, '.1f')} times"))
rows("`boards.sh`",
     ("a board of 50 rows out of 20,000 trips and 2,000 updates, in a window of 7 and of 400 days",
      joined(found("boards", r"days: ([\d,]+)")) + " instructions"),
     ("a message of 20 updates of 20 places that say again what was said, into a feed of 2,000 and of 20,000",
      joined(found("boards", r"said, into a feed of [\d,]+: ([\d,]+)")) + " instructions"),
     ("the same where each changes the delays of its run",
      joined(found("boards", r"change, into a feed of [\d,]+: ([\d,]+)")) + " instructions"),
     ("a whole data set of 3,000 such updates; reading it alone",
      "; ".join(shown(first("boards", rf"{part}: ([\d,]+)")[0]) for part in ("read and taken in", "read alone")) + " instructions"),
     ("memory of a feed of these", joined(found("boards", r"MiB of .*: ([\d.]+)"), ".1f") + " MiB"))
rows("`index.sh`",
     ("the index of departures of 1,000,000 stop times, next to loading these", joined(found("index", r"instructions, ([\d.]+) of"), ".2f") + " of the instructions, "
      + joined(found("index", r"at most (\d+) MiB")) + " MiB at most, " + joined(found("index", r"MiB, (\d+) without")) + " without it"),
     ("a departure that it hands out, in a window of 7 and of 400 days", joined(found("index", r"days: (\d+)")) + " instructions"))
rows("`frequencies.sh`",
     ("a place of 100,000 trips of frequencies.txt checked, next to the same spelled out", joined(found("frequencies", r"patterns: (\d+) instructions")) + " instructions, "
      + joined(found("frequencies", r"place, ([\d.]+) of"), ".2f") + " times as many; at most " + joined(found("frequencies", r"at most (\d+) MiB")) + " MiB, and "
      + joined(found("frequencies", r"MiB, and (\d+)"))))
rows("`combined.sh`",
     ("the combined feed of 3,000 entities, without a prefix and with one", joined(found("combined", r": ([\d,]+) bytes")) + " bytes"),
     ("", joined(found("combined", r"bytes in ([\d,]+) microseconds")) + " microseconds, "
      + joined(found("combined", r"([\d,]+) MB a second")) + " MB a second"),
     ("times a copy of its bytes within memory", joined(found("combined", r"([\d,]+) times less"))),
     ("an entity of it", joined(found("combined", r"([\d,]+) instructions an entity")) + " instructions"))
rows("`since.sh`",
     ("what changed in a combined feed of 3,000 entities and of 30,000 since an earlier answer, 20 entities; the whole feeds",
      joined(found("since", r"^20 .*?: ([\d,]+) instructions, ")) + "; "
      + joined(found("since", r"feed ([\d,]+) instructions, ")) + " instructions"),
     ("next to the whole feed; of the larger next to the smaller", joined(found("since", r"([\d.]+) of its"), ".3f") + " of the instructions; "
      + joined(found("since", r"([\d.]+) times the instructions"), ".2f") + " times as many"))
boards = [number(board) / 1e6 for board in re.findall(r"boards: .*?([\d,]+) a board", text("gen"))]
rows("`gen.sh`",
     ("`hub gen` of 1,000 trips and 1,000 messages; 5,000 and 1,000; 20,000 and 200; 20,000 and 2,000",
      joined(found("gen", r"^  ([\d.]+) s of CPU"), ".2f") + " s of CPU; " + joined(found("gen", r"CPU, ([\d.]+) MiB")) + " MiB"),
     ("a stop time made and loaded", span(found("gen", r"([\d,]+) a stop time")) + " instructions"),
     ("a message of 20 entities made; offered", span(found("gen", r"making the messages: .*?([\d,]+) a message")) + "; "
      + span(found("gen", r"offering them: .*?([\d,]+) a message")) + " instructions"),
     ("a board of 1,000 trips and of 20,000", joined(boards[:1] + boards[-1:] if boards[1:] else [None], ".2g") + " million instructions"),
     ("slopes of a stop time and of a message", span(found("gen", r"slope ([\d.]+)"), ".2f")))
rows("`serve.sh`",
     ("responses a second of a processor, of one connection in memory: a board of one row, one as JSON, a stop that isn't there",
      joined(found("serve", r"s of a processor: ([\d,]+) a second"))),
     ("times as long as `cat` takes to copy them", joined(found("serve", r"([\d,]+) times less"))),
     ("a response; a connection with one request", joined(found("serve", r"([\d,]+) instructions a response")) + "; "
      + joined(found("serve", r"([\d,]+) a connection with one request")) + " instructions"))
rows("`looks.sh 4000000 2000`",
     ("looks a second of passes at a hub's snapshots, in one thread and in four",
      joined([looks(1, False, "cell"), looks(4, False, "cell")], ".0f") + " million"),
     ("the same while messages are published", joined([looks(1, True, "cell"), looks(4, True, "cell")], ".0f") + " million"),
     ("threads that take a lock round the view for each look; the same meanwhile",
      joined([looks(1, False, "mutex"), looks(4, False, "mutex")], ".0f") + "; "
      + joined([looks(1, True, "mutex"), looks(4, True, "mutex")], ".0f") + " million"))
rows("`intake.sh`",
     ("small messages a second, each made and taken in, by a hub that threads share; by one on one thread, which keeps them",
      joined(first("intake", r"ingest ([\d,]+)")) + "; " + joined(first("intake", r"offer ([\d,]+)"))))

print("\n| Script | What | Figures |\n|---|---|---|")
rows("`running.sh ingest`",
     ("messages of 20 entities a second over 2,000 trips, of 1, 2 and 4 streams on the loopback",
      joined(found("ingest", r"\d feeds? .*0 readers at work: ([\d,]+)"))),
     ("the same next to 4 readers at work", joined(found("ingest", r"\d feeds? .*4 readers at work: ([\d,]+)"))),
     ("`hub replay` of the messages of one feed", joined(first("ingest", r"hub replay, one feed: ([\d,]+)"))),
     ("of such a message: read and judged before the lock; under it the view made, and published",
      "; ".join(shown(first("ingest", rf"{part}.*: ([\d,]+)")[0]) for part in ("reading and judging", "making the view", "publishing it"))
      + " instructions"))
still, moving, nginx = answers("readers: "), answers("come in: "), answers("bytes: ")
rows("`running.sh whole`",
     ("ms from the last byte of a whole data set of 2,047 updates to its being published, of 2,048, 3,000, 10,000 and 30,000",
      joined(found("whole", r"([\d.]+) ms on all"), ".1f")),
     ("times as long on one processor", joined(found("whole", r"one, ([\d.]+) times"), ".2f")))
rows("`running.sh load`",
     ("answers a second, a board of five rows of a small city, of 1, 2 and 4 readers", still[0]),
     ("the same while 200 messages a second come in", moving[0]),
     ("nginx with a file of the same bytes, and as many workers", nginx[0]),
     ("the hub's next to nginx's, the median of rounds in turns", joined(found("load", r"the hub does ([\d.]+) \S+ to \S+ of that"), ".2f")),
     ("with messages next to without", joined(found("load", r"the hub does ([\d.]+) \S+ to \S+ of what"), ".2f")),
     ("the median and the 99th of a hundred for one reader; while messages come in; nginx", "; ".join((still[1], moving[1], nginx[1]))))
rows("`running.sh cities`",
     ("answers a second of two readers: a board of a city of 3 trips; of five rows of one of 20,000, 3,000 of them live",
      joined(found("cities", r"(?:trips|live): ([\d,]+)"))))
most = [[number(word) for word in line.split(", ")] for line in re.findall(r"at most: ([\d., ]+) MiB", text("memory"))]
heaps = [joined([tenths[0], tenths[-1]], ".1f") + " MiB" for tenths in most] + ["-", "-"]
rows("`running.sh memory`",
     ("two feeds of 3,000 entities, 360 whole data sets of each: the most of the first and of the last tenth, with one heap", heaps[0]),
     ("the same with a heap for each thread", heaps[1]))

rows("`running.sh unread`",
     ("whole data sets of 30,000 entities for two minutes, at most; next to 64 clients that ask for the feed and never read",
      joined(found("unread", r"at most ([\d,]+) MiB")) + " MiB"),
     ("the responses that these keep; a state of the feed",
      joined(found("unread", r"(?:responses have|state of the feed has) ([\d,]+) MiB")) + " MiB"))

print("\n| Stop times of the timetable, three days | Entities of the feed, each of a trip | Listens after | Memory then"
      " | At most | A whole data set, of one processor | A board of an hour, of one processor |\n|---|---|---|---|---|---|---|")
for line in re.findall(r"([\d,]+) stop times, +([\d,]+) entities: listens after (\S+) s with (\S+) MiB, at most (\S+); (\S+) ms"
                       r" a data set, (\S+) a board", text("sizes")):
    times, entities, after, alone, peak, taken, board = line
    print(f"| {times} | {entities} | {after} s | {alone} MiB | {peak} MiB | {taken} ms | {board} ms |")
PY
