#!/usr/bin/env bash
# A made-up city of about 2,000 stops and 20,000 trips a week, live: a sender with three feeds, a hub, and the pages over
# it, whose addresses it prints. Open them in a browser of this machine. It runs for so many SECONDS, or until it is ended
# (Ctrl-C), and a month at most, the window of its timetable. The pages are served by front.py, which needs no nginx and
# no certificate; what faces the world is nginx (docs/OPERATING.md).
# HUB names the program, where it is not ./hub. Needs curl and python3.
#
# usage: run.sh [SECONDS]
set -euo pipefail
top=$(cd "$(dirname "$0")/../.." && pwd)
. "$top/samples/serve/functions.sh"
needs curl python3
cd "$top"
build_hub

here=samples/city_of
"$here/make.py" "$work/city"
"$here/send.py" "$here/hub.toml" "$work/city" 127.0.0.1:0 127.0.0.1:0 127.0.0.1:0 2> "$work/sender" &
sender_process=$!
started+=("$sender_process")
edits=("s|^folder = .*|folder = \"$work/city\"|" 's/^days = .*/days = 32/')
ports=(9101 9102 9103) feeds=(metro trams buses)
for i in 0 1 2; do
  address=$(wait_line "$work/sender" "send.py: ${feeds[i]} at " "$sender_process")
  edits+=("s|^place = \"127.0.0.1:${ports[i]}\"|place = \"$address\"|")
done
model=$here/hub.toml
start_hub hub "${edits[@]}"
wait_for has_accepted "$hub_address" "${feeds[@]}"
"$here/front.py" 127.0.0.1:0 "$hub_address" 2> "$work/front" &
front_process=$!
started+=("$front_process")
page=http://$(wait_line "$work/front" 'front.py: listening on ' "$front_process")

cat <<PAGES
the hub         $hub_address
one stop        $page/?schedule=city&stop=central-station
several stops   $page/?schedule=city&stop=central-station&stop=market&stop=town-hall
on a phone      $page/?schedule=city&stop=market&form=compact&language=de
for operators   $page/operating/feeds.html?schedule=city&stop=central-station&stop=market
PAGES

# Until the time is over, or one of the three has ended.
sleep "${1:-infinity}" &
over=$!
started+=("$over")
wait -n "$over" "$sender_process" "$hub_process" "$front_process" || true
for process in "$sender_process" "$hub_process" "$front_process"; do
  kill -0 "$process" 2> "$work/kill" || fail "the sender, the hub or the server of the pages has ended"
done
curl -fsS --max-time 5 "http://$hub_address/status"
