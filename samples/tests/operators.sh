#!/usr/bin/env bash
# Tries the operators' page over two hubs behind nginx, in Chromium without a window: which of them says what, feeds that
# speak and feeds that don't, unmatched updates with their ids, alerts, and what it says when a hub, and then nginx, is
# gone. With a folder it leaves a picture there, made small by pngquant where that is installed. Ends by itself, with
# status 0 exactly where all was as it should be. HUB names the program, where it is not ./hub. Needs curl, python3,
# nginx, openssl and chromium.
#
# usage: operators.sh [FOLDER]
set -euo pipefail
top=$(cd "$(dirname "$0")/../.." && pwd)
. "$top/samples/serve/functions.sh"
. "$top/samples/tests/front.sh"
needs curl python3 nginx openssl chromium
cd "$top"
build_hub

start_sender
show_scene late unmatched
samples/serve/send.py samples/serve/hub.toml spool "$work/spool" alert
python3 samples/tests/operators.py message "$work/spool/000002.pb"
start_hub first "$(notices_from "$work/spool")" "$(trams_from "$sender_address")"
first=$hub_address
wait_for has_accepted "$first" trams notices
# The second hub has the notices alone.
start_hub second "$(notices_from "$work/spool")" "$no_trams"
wait_for has_accepted "$hub_address" notices
start_nginx two_hubs.conf "s|127.0.0.1:8080|$first|" "s|127.0.0.1:8081|$hub_address|"
python3 samples/tests/operators.py see "https://$front_address" "$first" "$hub_address" \
  "$sender_process" "$hub_process" "$nginx_process" "${1:-$work}" >&1
