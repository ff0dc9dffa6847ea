#!/usr/bin/env bash
# Tries what docs/OPERATING.md says: the check for silent feeds, what a hub says and answers when it can't start, how a
# timetable is changed by a second hub, and that the service's file is one. Ends by itself, with status 0 exactly where
# all was as it should be. HUB names the program, where it is not ./hub. Needs curl, python3, nginx, openssl and wrk;
# where systemd-analyze is installed, the service's file is read by it.
set -euo pipefail
top=$(cd "$(dirname "$0")/../.." && pwd)
. "$top/samples/serve/functions.sh"
. "$top/samples/tests/front.sh"
needs curl python3 nginx openssl wrk
cd "$top"
build_hub

# feeds_are STATUS WORD ..: whether the check of the first hub's feeds ends so; what it says is shown.
feeds_are() {
  local wanted=$1 got=0
  shift
  samples/operating/check_feeds.sh "$first" "$@" > "$work/said" 2> "$work/fault" || got=$?
  sed 's/^/        /' "$work/said" "$work/fault"
  [ "$got" = "$wanted" ]
}

echo "== a hub that can't start"
status_of() {
  local status=0
  (cd "$top" && timeout 20 "$hub" serve "$@" > "$work/said" 2> "$work/fault" 7>&-) || status=$?
  echo "$status $(head -n 1 "$work/said")"
}
check "a configuration that isn't there" is "$(status_of "$work/none.toml")" "3 hub: config absent"
echo 'readers = ' > "$work/bad.toml"
check "one that is no TOML" is "$(status_of "$work/bad.toml")" "3 hub: config toml"
check "no configuration" is "$(status_of)" "2 hub: usage"

echo "== silent feeds"
start_sender
show_scene late
samples/serve/send.py samples/serve/hub.toml spool "$work/spool" alert
start_hub first "$(notices_from "$work/spool")" "$(trams_from "$sender_address")"
first=$hub_address first_process=$hub_process
wait_for has_accepted "$first" notices trams
check "both have spoken" feeds_are 0 30
check "a feed that the hub hasn't" feeds_are 1 30 buses=60
stop_process "$sender_process"
sleep 4
check "trams that end are reported" feeds_are 1 3 notices=0
check "and are not while they may be silent for longer" feeds_are 0 60
hub_lines=$(sort "$work/first.err")
check "the hub said so on standard error, and nothing else" is "$hub_lines" \
  "$(printf '%s\n' 'hub: feed notices has ended' 'hub: feed trams has ended' "hub: listening on $first")"
check "and nothing on standard output" is "$(cat "$work/first.out")" ""

echo "== a hub that can't listen, or can't connect"
sed "s/^listen = .*/listen = \"$first\"/" "$work/first.toml" > "$work/taken.toml"
(cd "$top" && exec timeout 3 "$hub" serve "$work/taken.toml" > "$work/said" 2> "$work/fault" 7>&-) || true
sed 's/^/        /' "$work/fault"
check "an address that is taken is reported" grep -q "^hub: can't listen on $first: " "$work/fault"
check "and a stream that nobody sends" grep -q "^hub: feed trams can't connect to $sender_address: " "$work/fault"

echo "== another timetable"
mkdir "$work/new"
cp samples/serve/city/*.txt "$work/new/"
sed -i 's/,Harbour,/,New Harbour,/' "$work/new/stops.txt"
start_nginx one_hub.conf "s|127.0.0.1:8080|$first|"
lift_limits
start_hub second "$(notices_from "$work/spool")" "s|^folder = .*|folder = \"$work/new\"|" "$no_trams"
wait_for has_accepted "$hub_address" notices
wrk -t 1 -c 10 -d 6s "https://$front_address/board/city/S3" > "$work/wrk" 7>&- &
asking=$!
started+=("$asking")
sleep 2
sed -i "s|$first|$hub_address|" "$work/nginx/hub_upstream.conf"
nginx -p "$work/nginx" -c "$work/nginx/nginx.conf" -s reload 2> "$work/reload"
sleep 1
stop_process "$first_process"
wait "$asking"
grep -E 'requests in|Non-2xx|Socket errors' "$work/wrk" | sed 's/^ */        /'
echo "        (read errors are kept connections of clients that nginx closes when it is reloaded: browsers ask again)"
check "nothing but 200 while nginx moves to the second hub" is "$(grep -c 'Non-2xx' "$work/wrk" || true)" 0
sleep 1.1
check "which has the new timetable" grep -q 'New Harbour' <<< "$(curl -ks "https://$front_address/board/city/S3")"
check "the hub that is gone is reported" feeds_are 2 30

echo "== the service's file"
if command -v systemd-analyze > "$work/found"; then
  sed 's|/usr/local/bin/hub|/bin/true|' 'samples/operating/hub@.service' > "$work/hub@8080.service"
  check "systemd reads it" systemd-analyze verify "$work/hub@8080.service"
else
  echo "not tried: systemd-analyze is not installed"
fi

end_checks
