#!/usr/bin/env bash
# Tries the display over a running hub behind nginx, in Chromium without a window: what it shows of each state, what a
# screen reader finds, that it says how old its data are and when the hub is away, that it goes by the hub's clock, several
# stops at once, its forms and its languages. With a folder it leaves pictures there, made small by pngquant where that is
# installed. Ends by itself, with status 0 exactly where all was as it should be. HUB names the program, where it is not
# ./hub. Needs curl, python3, nginx, openssl and chromium.
#
# usage: display.sh [FOLDER]
set -euo pipefail
top=$(cd "$(dirname "$0")/../.." && pwd)
. "$top/samples/serve/functions.sh"
. "$top/samples/tests/front.sh"
needs curl python3 nginx openssl chromium
cd "$top"
build_hub

start_sender
show_scene calm
mkdir "$work/spool" "$work/city"
cp samples/serve/city/*.txt "$work/city/"
# Names that would be HTML where they were put in as that; they show at the Botanical Garden alone.
sed -i 's|,Botanical Garden,|,Botanical <b>Garden</b>,|' "$work/city/stops.txt"
for hour in $(seq -w 0 23); do
  echo "R12,DAILY,X$hour,<img src=x onerror=alert(1)>,1" >> "$work/city/trips.txt"
  printf '%s\n' "X$hour,$hour:30:00,$hour:30:00,S5,1" "X$hour,$hour:45:00,$hour:45:00,S6,2"
done >> "$work/city/stop_times.txt"
start_hub hub "$(notices_from "$work/spool")" "$(trams_from "$sender_address")" "s|^folder = .*|folder = \"$work/city\"|"
wait_for has_accepted "$hub_address" trams
start_nginx one_hub.conf "s|127.0.0.1:8080|$hub_address|"
python3 samples/tests/display.py "https://$front_address" "$hub_process" "${1:-$work}" >&1
