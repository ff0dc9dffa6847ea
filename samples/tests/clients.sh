#!/usr/bin/env bash
# Tries clients that a hub meets in the open: as many silent connections as it has readers, clients that send a byte now
# and then, clients that go away in the midst of their answers, clients that send more than is read, clients that speak
# TLS; senders that don't answer, and such that send what is no message; a spool with a file that can't be read; a hub
# that has no descriptors for longer than a minute; one whose standard error is closed, is full, or has no reader; and
# how a hub ends by itself, with its lines. Ends by itself, with status 0 exactly where all was as it should be. HUB
# names the program, where it is not ./hub. Needs curl, prlimit and python3.
set -euo pipefail
top=$(cd "$(dirname "$0")/../.." && pwd)
. "$top/samples/serve/functions.sh"
. "$top/samples/tests/front.sh"
needs curl prlimit python3
cd "$top"
build_hub

# show: shows what a command printed, and keeps it in the file `said`.
show() { "$@" > "$work/said"; sed 's/^/        /' "$work/said"; }

# within SECONDS: whether the last answer came in less.
within() {
  awk -v most="$1" '/answered/ { sub(/.*after /, ""); exit !($1 < most) }' "$work/said"
}

# start_bad NAME COUNT EACH: a sender of so many messages that are none, at `bad_address`. What it says is in NAME of
# `work`.
start_bad() {
  samples/tests/clients.py bad "$2" "$3" > "$work/$1" 2> "$work/$1.place" 7>&- &
  bad_process=$!
  started+=("$bad_process")
  bad_address=$(wait_line "$work/$1.place" 'clients.py: bad at ' "$bad_process")
}

start_sender
show_scene late
samples/serve/send.py samples/serve/hub.toml spool "$work/spool" alert
feeds=("$(notices_from "$work/spool")" "$(trams_from "$sender_address")")

# Read at the end: what is told of a sender for longer than a minute.
start_bad slow 4 21
slow_process=$bad_process
start_hub slow "${feeds[0]}" "$(trams_from "$bad_address")"
slow_hub=$hub_process

echo "== silent clients"
start_hub many "${feeds[@]}" 's/^readers = .*/readers = 64/'
wait_for has_accepted "$hub_address" notices trams
show samples/tests/clients.py silent "$hub_address" 64
check "the next one is answered once the first is dropped, after ten seconds" within 15
check "and all are dropped" grep -q '^64 of them were closed' "$work/said"

echo "== clients that send a byte now and then"
for seconds in 1 9; do
  show samples/tests/clients.py drip "$hub_address" "$seconds"
  check "others are answered meanwhile" within 2
  check "and it is let go after ten seconds" grep -Eq 'closed with 0 bytes of answer after (10|11) s' "$work/said"
done

echo "== clients that send more than is read"
show samples/tests/clients.py post "$hub_address"
check "a POST of 1 MB gets its answer" grep -q '^1 whole answer: HTTP/1.1 405 ' "$work/said"
show samples/tests/clients.py last "$hub_address"
check "and so do a thousand requests, the last one too" grep -q '^1000 whole answers' "$work/said"
check "without a reset" is "$(grep -c '^reset' "$work/said")" 0

echo "== clients that speak TLS"
show samples/tests/clients.py hello "$hub_address"
check "are answered once their first line is over" \
  grep -Eq "with a line feed: 'HTTP/1.1 400 Bad Request' and closed after [01] s" "$work/said"
check "and let go after ten seconds where it has no end" grep -Eq "no line feed: '.*' and closed after (9|10|11) s" "$work/said"

echo "== clients that go away"
stop_process "$hub_process"
start_hub one "${feeds[@]}" 's/^readers = .*/readers = 1/'
wait_for has_accepted "$hub_address" notices trams
show samples/tests/clients.py gone "$hub_address" 20
check "the only reader goes on" within 5
stop_process "$hub_process"

echo "== senders that don't answer"
samples/tests/clients.py deaf 2> "$work/deaf" &
deaf_process=$!
started+=("$deaf_process")
deaf_address=$(wait_line "$work/deaf" 'clients.py: deaf at ' "$deaf_process")
cp "$model" "$work/deaf.toml"
for number in $(seq 12); do
  # Two spaces after `place`, so that the edits of the example's feeds leave it.
  printf '\n[[feed]]\nname = "deaf%s"\nschedule = "city"\nkind = "stream"\nplace  = "%s"\n' "$number" \
    "$deaf_address" >> "$work/deaf.toml"
done
example=$model
model=$work/deaf.toml
began=$(date +%s)
start_hub patient "${feeds[@]}"
model=$example
check "twelve of them delay the start by less than three seconds" [ $(($(date +%s) - began)) -lt 3 ]
check "the other feeds go on" wait_for has_accepted "$hub_address" notices trams
sleep 6
sed 's/^/        /' "$work/patient.err"
check "and each is told" is "$(grep -c "can't connect to $deaf_address: no answer in time" "$work/patient.err")" 12
stop_process "$hub_process"
stop_process "$deaf_process"

echo "== a sender of messages that are none"
start_bad bad 5 0
start_hub told "${feeds[0]}" "$(trams_from "$bad_address")"
check "is told to the last one" wait_for grep -qx 'hub: feed trams has ended' "$work/told.err"
sed 's/^/        /' "$work/told.err"
check "the first at once" grep -q '^hub: feed trams: 1 refused, the last one: a malformed message: ' "$work/told.err"
check "the others when it ends" grep -qx 'hub: feed trams: 4 refused' "$work/told.err"
check "and no more" is "$(grep -c '^hub: feed trams: ' "$work/told.err")" 2
check "while the hub goes on" curl -fsS --max-time 5 -o "$work/answer" "http://$hub_address/status"
stop_process "$hub_process"

echo "== a spool with a file that can't be read"
mkdir -p "$work/barred/000001.pb"
start_hub barred "$(notices_from "$work/barred")" "$no_trams"
check "is told with its cause" \
  wait_for grep -qx "hub: feed notices can't read $work/barred/000001.pb: it is a folder" "$work/barred.err"
check "and ends with a fault" wait_for grep -qx 'hub: feed notices has failed' "$work/barred.err"
stop_process "$hub_process"

echo "== a hub without descriptors"
start_hub poor "${feeds[0]}" "$no_trams" 's/^readers = .*/readers = 1/'
wait_for has_accepted "$hub_address" notices
sleep 0.5
prlimit --pid "$hub_process" --nofile=3:1024
# The reader waits with a descriptor that it has already, so one more client is answered.
curl -fsS --max-time 5 -o "$work/answer" "http://$hub_address/status"
curl -fsS --max-time 90 -o "$work/answer" "http://$hub_address/status" &
client=$!
sleep 65
check "a client is not answered for more than a minute" kill -0 "$client"
check "the cause is told at once" grep -q "^hub: can't accept a connection: too many open files" "$work/poor.err"
check "and after a minute how often" grep -q "^hub: can't accept a connection: [0-9]* times, the last one: " "$work/poor.err"
check "and no more" is "$(grep -c "^hub: can't accept a connection: " "$work/poor.err")" 2
prlimit --pid "$hub_process" --nofile=1024:1024
status=0
wait "$client" || status=$?
check "and is once there are some again" is "$status" 0
stop_process "$hub_process"

echo "== a hub that has served its connections"
start_hub served "${feeds[@]}" 's/^readers = .*/readers = 1/' '1iconnections = 1'
curl -fsS --max-time 5 -o "$work/answer" "http://$hub_address/status"
status=0
curl -sS --max-time 5 -o "$work/answer" "http://$hub_address/status" 2> "$work/refused" || status=$?
check "refuses the next one, while its feeds go on" is "$status" 7
check "and runs" kill -0 "$hub_process"
stop_process "$hub_process"

echo "== a hub that can't tell"
# A pipe that is open for writing, whose reader is gone.
mkfifo "$work/no_reader" "$work/full"
exec 8<> "$work/no_reader" 9> "$work/no_reader" 8>&-
# One that is full, whose reader doesn't read.
exec 8<> "$work/full"
timeout 1 cat /dev/zero >&8 || true
for how in closed no_reader full; do
  start_bad "bad_$how" 3 1
  # It can't say where it listens.
  hub_address=127.0.0.1:$(free_port)
  sed "s/^listen = .*/listen = \"$hub_address\"/" "$work/many.toml" > "$work/$how.toml"
  printf '\n[[feed]]\nname = "bad"\nschedule = "city"\nkind = "stream"\nplace  = "%s"\n' "$bad_address" >> "$work/$how.toml"
  case $how in
    closed) "$hub" serve "$work/$how.toml" 2>&- 7>&- 8>&- 9>&- & ;;
    no_reader) "$hub" serve "$work/$how.toml" 2>&9 7>&- 8>&- & ;;
    full) "$hub" serve "$work/$how.toml" 2>&8 7>&- 9>&- & ;;
  esac
  hub_process=$!
  started+=("$hub_process")
  wait_for curl -fs --max-time 5 -o "$work/answer" "http://$hub_address/status"
  wait_for has_accepted "$hub_address" notices trams
  check "standard error, $how: it goes on" kill -0 "$hub_process"
  check "and answers" curl -fsS --max-time 5 -o "$work/answer" "http://$hub_address/board/city/ST"
  check "and reads a sender of messages that are none, to which nothing is sent" \
    wait_for grep -qx '0 bytes came from the hub' "$work/bad_$how"
  stop_process "$hub_process"
done
exec 8>&- 9>&-

echo "== a sender that ends"
start_hub left "${feeds[@]}"
wait_for has_accepted "$hub_address" notices trams
stop_process "$sender_process"
check "is told" wait_for grep -qx 'hub: feed trams has ended' "$work/left.err"
sed 's/^/        /' "$work/left.err"
check "and so is the spool, once each" is "$(grep -c ' has ended$' "$work/left.err")" 2
check "while the hub goes on" curl -fsS --max-time 5 -o "$work/answer" "http://$hub_address/status"
stop_process "$hub_process"

echo "== a sender that is told once a minute"
wait "$slow_process" || true
check "and ends" wait_for grep -qx 'hub: feed trams has ended' "$work/slow.err"
sed 's/^/        /' "$work/slow.err"
check "the first at once" grep -q '^hub: feed trams: 1 refused, the last one: ' "$work/slow.err"
check "and three more after a minute" grep -q '^hub: feed trams: 3 refused, the last one: ' "$work/slow.err"
check "with no line between" is "$(grep -c '^hub: feed trams: ' "$work/slow.err")" 2
stop_process "$slow_hub"

echo "== a hub that ends by itself"
start_hub ends "${feeds[0]}" "$no_trams" 's/^readers = .*/readers = 2/' '1iconnections = 2'
for _ in 1 2 3 4; do curl -fsS --max-time 5 -o "$work/answer" "http://$hub_address/board/city/ST"; done
status=0
wait "$hub_process" || status=$?
sed 's/^/        /' "$work/ends.out"
check "after two connections of each reader, with status 0" is "$status" 0
check "and a line for each feed" is "$(grep -c '^feed ' "$work/ends.out")" 2
check "and one for the readers" grep -q '^readers 2 connections 4 responses 4 starved 0$' "$work/ends.out"
end_checks
