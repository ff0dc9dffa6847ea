#!/usr/bin/env bash
# Tries more than one hub: a first one with the example's feeds, a second that asks the first one for its combined feed, a
# third that asks the second, and nginx in front of the first two, of which one is ended under way, and starts again. Ends
# by itself, with status 0 exactly where all was as it should be.
# HUB names the program, where it is not ./hub. Needs curl, python3, nginx and openssl.
set -euo pipefail
top=$(cd "$(dirname "$0")/../.." && pwd)
. "$top/samples/serve/functions.sh"
. "$top/samples/tests/front.sh"
needs curl python3 nginx openssl
cd "$top"
build_hub

# has_row ADDRESS PATTERN: whether the board of Market has such a row there.
has_row() {
  curl -fsS --max-time 5 "http://$1/board/city/ST" | grep -qP "$2"
}

sequence_of() {
  curl -fsS --max-time 5 -D - -o "$work/body" "http://$1/status" | sed -n 's/^X-Hub-Sequence: //p' | tr -d '\r'
}

start_sender
show_scene late
samples/serve/send.py samples/serve/hub.toml spool "$work/spool" alert
start_hub first "$(notices_from "$work/spool")" "$(trams_from "$sender_address")"
first=$hub_address first_process=$hub_process
wait_for has_accepted "$first" trams notices

start_hub second "$(notices_polled "$first/feed/city")" "$no_trams"
second=$hub_address
start_hub third "$(notices_polled "$second/feed/city")" "$no_trams"
third=$hub_address

has_alert() {
  curl -fsS --max-time 5 "http://$1/alerts/city/ST" | grep -q 'The lift at Market'
}

for hub_address in "$first" "$second" "$third"; do
  wait_for has_row "$hub_address" '\t240\tlive\t7\t'
  wait_for has_alert "$hub_address"
done
echo "ok      a second and a third hub show the first one's delays and alerts"
show_scene late canceled
for hub_address in "$first" "$second" "$third"; do wait_for has_row "$hub_address" '\tcanceled\t7\t'; done
echo "ok      and what comes later"
echo "        messages accepted: $(sequence_of "$first"), $(sequence_of "$second") and $(sequence_of "$third")," \
  "which say nothing of each other"

start_nginx two_hubs.conf "s|127.0.0.1:8080|$first|" "s|127.0.0.1:8081|$second|"
lift_limits

# ask_round: asks for eight boards through nginx, and keeps the statuses.
ask_round() {
  local limit
  for limit in 11 12 13 14 15 16 17 18; do
    curl -ks --max-time 5 -o "$work/body" -w '%{http_code}\n' "https://$front_address/board/city/ST?limit=$limit" >> "$work/codes" || true
  done
}
for _ in 1 2 3; do ask_round; sleep 1.1; done
stop_process "$first_process"
for _ in 1 2 3; do ask_round; sleep 1.1; done
sort "$work/codes" | uniq -c | sed 's/^ */        answers: /'
[ "$(sort -u "$work/codes")" = 200 ] || fail "an answer was lost while one hub of two was ended"
echo "ok      no answer was lost while one hub of two was ended"
sleep 2
has_row "$second" '\tcanceled\t7\t' || fail "the second hub has lost what it knew"
echo "ok      the second hub keeps what it knew last"

start_hub first "$(notices_from "$work/spool")" "$(trams_from "$sender_address")" "s|^listen = .*|listen = \"$first\"|"
show_scene late skipped
for hub_address in "$second" "$third"; do wait_for has_row "$hub_address" '\tskipped\t7\t'; done
echo "ok      once the first one is back, the second goes on, and so does the third"
