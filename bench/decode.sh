#!/usr/bin/env bash
# Times how fast messages are read: 2,000 of 20 entities, and whole data sets of 3,000 and of 30,000 entities.
# Each is read whole and then refused as stale, so that nothing is kept. Prints MB a second of `hub replay`, less the
# time of a replay that only takes the same bytes in, and next to it those of libprotobuf with fresh messages, where
# protoc, libprotobuf-dev and g++ are installed.
# Needs python3 and the program, which ./hub builds where it is missing; or HUB, the path of another.
set -eu
. "$(dirname "$0")/begin.sh"

if command -v protoc > /dev/null && command -v g++ > /dev/null \
    && protoc --proto_path=samples/serve --cpp_out="$work" gtfs_realtime.proto > "$work/log" 2>&1 \
    && g++ -O2 -I"$work" bench/decode.cc "$work/gtfs_realtime.pb.cc" -lprotobuf -o "$work/decode" >> "$work/log" 2>&1; then
  echo "libprotobuf: $(protoc --version)"
else
  echo "libprotobuf: not measured, since protoc, libprotobuf-dev or g++ is not installed"
fi

# one measurement: what it is, then the words for make_messages.py
measure() {
  python3 bench/make_messages.py stale "${@:2}" > "$work/script"
  python3 bench/make_messages.py passed "$work/script" > "$work/passed"
  python3 - "$hub" "$work/script" "$work/passed" "$1" <<'PY'
import os, subprocess, sys, time
program, script, passed, what = sys.argv[1:]

def seconds(path):
    best = None
    for _ in range(5):
        with open(path, "rb") as given:
            began = time.monotonic()
            done = subprocess.run([program, "replay"], stdin=given, stdout=subprocess.PIPE, stderr=subprocess.DEVNULL)
            took = time.monotonic() - began
        best = took if best is None else min(best, took)
    return best, done.stdout

read, answers = seconds(script)
taken, _ = seconds(passed)
size = os.path.getsize(script) / 1e6
count = answers.count(b"refused stale")
print(f"{what}: {count} read, {size:.1f} MB, hub replay {read:.3f} s, of which {taken:.3f} s to take the bytes in: "
      f"{size / max(read - taken, 1e-6):.0f} MB a second")
PY
  [ ! -x "$work/decode" ] || echo "$1: libprotobuf $("$work/decode" "$work/script") MB a second"
}

measure "2,000 messages of 20 entities" small 2000 20
measure "12 whole data sets of 3,000 entities" full 12 3000
measure "2 whole data sets of 30,000 entities" full 2 30000
