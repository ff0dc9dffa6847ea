#!/usr/bin/env bash
# A consumer that keeps the combined feed by what changes in it: a hub with a notice and with a sender of trams, whose scene
# changes RATE times a second, by default 5, and follow.py for so many SECONDS, by default 60. It compares what it keeps
# with the whole feed each ten seconds and at the end; what is printed is its last line. Ends by itself, with status 0
# exactly where nothing differed and most answers were differences. HUB names the program, where it is not ./hub. Needs
# curl and python3.
#
# usage: run.sh [SECONDS [RATE]]
set -euo pipefail
top=$(cd "$(dirname "$0")/../.." && pwd)
. "$top/samples/serve/functions.sh"
needs curl python3
cd "$top"
seconds=${1:-60}
rate=${2:-5}
build_hub

# change_scenes: from scene to scene, so that trams come, go and change. With each a message is sent, and the next one when
# it is due, however long this one took.
change_scenes() {
  local scenes=("late" "late added" "late skipped" "calm" "late canceled unmatched" "skipped added") count=0
  local begin=${EPOCHREALTIME/[.,]/} ahead silent pause
  # Nothing ever comes of it: to read from it is to wait, without the process that `sleep` would be.
  exec {silent}<> <(:)
  while true; do
    ahead=$((begin + count * 1000000 / rate - ${EPOCHREALTIME/[.,]/}))
    if [ "$ahead" -gt 0 ]; then
      printf -v pause '%d.%06d' "$((ahead / 1000000))" "$((ahead % 1000000))"
      read -r -t "$pause" -u "$silent" || true
    fi
    show_scene "${scenes[count % ${#scenes[@]}]}"
    count=$((count + 1))
  done
}

samples/follow/follow.py --check > "$work/check"
samples/serve/send.py samples/serve/hub.toml spool "$work/spool" alert
start_sender
show_scene late
start_hub hub "$(notices_from "$work/spool")" "$(trams_from "$sender_address")"
wait_for has_accepted "$hub_address" notices trams
change_scenes &
started+=("$!")

# accepted_trams: how many messages of the trams the hub has accepted.
accepted_trams() {
  curl -fsS --max-time 5 "http://$hub_address/status" | awk -F '\t' '$1 == "trams" { print $2 }'
}

status=0
before=$(accepted_trams)
samples/follow/follow.py --seconds "$seconds" --compare 10 "$hub_address" city > "$work/lines" 2> "$work/told" || status=$?
cat "$work/told" >&2
accepted=$(($(accepted_trams) - before))
tail -n 1 "$work/lines"
echo "the hub accepted $accepted messages meanwhile, $((accepted / seconds)) a second"
[ "$status" = 0 ] || fail "follow.py ended with status $status"
tail -n 1 "$work/lines" | awk '{ gsub(",", ""); exit !(2 * $3 > $1) }' || fail "most answers were no differences"
