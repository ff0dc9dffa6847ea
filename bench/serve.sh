#!/usr/bin/env bash
# Times how fast requests are answered: scripts with 20 connections of 1,000 requests each, for a board of one row, for
# one as JSON, and for what isn't there. Prints responses and MB a second of `hub replay`, less the time of a script that
# ends at once, and next to it how long `cat` takes to copy what was written. Seconds are those of a processor, so that
# waiting for one counts for nothing. Where valgrind is there to count them, also instructions of a response, and of a
# connection with one request.
# Needs python3 and the program, which ./hub builds where it is missing; or HUB, the path of another.
set -eu
. "$(dirname "$0")/begin.sh"

# one measurement: what it is, and the target of its requests
measure() {
  python3 - "$hub" "$work" "$1" "$2" <<'PY'
import os, re, shutil, subprocess, sys
program, work, what, target = sys.argv[1:]
connections, requests = 20, 1000
request = f"GET {target} HTTP/1.1\r\nHost: hub\r\n\r\n".encode()


def served(requests):
    """The record of a connection with so many requests."""
    return b"Q 1743314000 %d\n" % (len(request) * requests) + request * requests + b"\n"


def seconds(words, given, keep):
    """Seconds of a processor, of the best of five runs."""
    path = f"{work}/given"
    with open(path, "wb") as file:
        file.write(given)
    best = None
    for _ in range(5):
        with open(path, "rb") as file, open(keep, "wb") as out:
            process = subprocess.Popen(words, stdin=file, stdout=out, stderr=subprocess.DEVNULL)
            _, status, used = os.wait4(process.pid, 0)
            took = used.ru_utime + used.ru_stime
        process.returncode = os.waitstatus_to_exitcode(status)
        if process.returncode != 0:
            sys.exit(f"serve.sh: status {process.returncode}")
        best = took if best is None else min(best, took)
    return best


def instructions(given):
    """Instructions of a replay of these records."""
    count = ["valgrind", "--tool=callgrind", "--callgrind-out-file=/dev/null"]
    done = subprocess.run(count + replay, input=given + b"E\n", stdout=subprocess.DEVNULL, stderr=subprocess.PIPE)
    return int(re.search(rb"Collected : (\d+)", done.stderr).group(1))


replay = [program, "replay", "samples/city.toml"]
start = seconds(replay, b"E\n", f"{work}/none")
took = seconds(replay, served(requests) * connections + b"E\n", f"{work}/answers") - start
answers = open(f"{work}/answers", "rb").read()
count = answers.count(b"\nX-Hub-Sequence: ")
if count != connections * requests:
    sys.exit(f"serve.sh: {count} responses")
copied = seconds(["cat"], answers, f"{work}/copy")
print(f"{what}: {count} responses, {len(answers) / 1e6:.1f} MB, in {took:.3f} s of a processor: {count / took:.0f} "
      f"a second, {len(answers) / took / 1e6:.0f} MB a second; cat copies them in {copied:.4f} s, {took / copied:.0f} times less")
if shutil.which("valgrind"):
    more, few = instructions(served(requests)), instructions(served(100))
    short, fewer = instructions(served(1) * 1000), instructions(served(1) * 100)
    print(f"{what}: {(more - few) / (requests - 100):.0f} instructions a response, "
          f"{(short - fewer) / 900:.0f} a connection with one request")
PY
}

measure "a board of one row" "/board/city/S3?limit=1"
measure "a board as JSON" "/board/city/ST?format=json"
measure "a stop that isn't there" "/board/city/NO"
