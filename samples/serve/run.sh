#!/usr/bin/env bash
# The example as a whole: a sender of trams, a folder with a notice, a hub that takes both, and what it answers; at the
# end the sender falls silent, and its delays go away in a quarter of a minute. Ends by itself, with status 0 exactly
# where each answer is as it should be. HUB names the program, where it is not ./hub. Needs curl and python3; where
# protoc is installed, the combined feed is read by it.
set -euo pipefail
top=$(cd "$(dirname "$0")/../.." && pwd)
. "$top/samples/serve/functions.sh"
needs curl python3
cd "$top"
build_hub

samples/serve/send.py samples/serve/hub.toml spool "$work/spool" alert
start_sender
show_scene late skipped canceled added unmatched
start_hub hub "$(notices_from "$work/spool")" "$(trams_from "$sender_address")" 's/^max_age = .*/max_age = 15/'
echo "the hub listens on $hub_address"
wait_for has_accepted "$hub_address" notices trams

# ask PATH: prints what the hub answers, and keeps it in the file `answer`.
ask() {
  printf '\n== GET %s\n' "$1"
  curl -fsS --max-time 5 -o "$work/answer" "http://$hub_address$1"
}

# has PATTERN: whether the last answer has such a line.
has() {
  grep -qP -- "$1" "$work/answer" || fail "the answer has no line '$1'"
}

ask /board/city/ST && cat "$work/answer"
has '^stop\tST\tMarket$'
has '^\d+\t\d+\t240\tlive\t7\t(Hill|Harbour)\t7[HP]\d{4}\t\d{8}\tS[12]$'
has '\t-\tskipped\t7\t'
has '\t-\tcanceled\t7\t'
has '\t-\tscheduled\t12\t'
has '^\d+\t-\t-\tadded\t7\t\textra\t\tS1$'

ask '/board/city/S3?limit=2&format=json' && cat "$work/answer" && echo
has '^{"name":"Harbour","rows":\[{"date":.*}\],"stop":"S3"}$'

ask /alerts/city/ST && cat "$work/answer"
has '^notices\tlift\t9\t11\tThe lift at Market is out of order'

ask /unmatched/city && cat "$work/answer"
has '^trams\tghost\ttrip\tnotrip$'

ask /status && cat "$work/answer"
has '^notices\t1\t\d+\t1$'
has '^trams\t[1-9]\d*\t\d+\t[1-9]\d*$'

ask /feed/city && wc -c < "$work/answer"
if command -v protoc > "$work/found"; then
  protoc --proto_path=samples/serve --decode=transit_realtime.FeedMessage gtfs_realtime.proto < "$work/answer" > "$work/text"
  grep -q '^  id: "notices:lift"$' "$work/text" || fail "the combined feed has no alert"
  grep -q '^  id: "trams:extra"$' "$work/text" || fail "the combined feed has no added tram"
  echo "protoc reads $(grep -c '^entity {' "$work/text") entities"
fi

printf '\n== GET /board/city/NO\n'
curl -sS --max-time 5 -w '%{http_code}\n' "http://$hub_address/board/city/NO" | tee "$work/answer"
has '^404$'

# has_aged: whether the board of Market, which is kept in the file `answer`, has nothing of what the sender said.
has_aged() {
  curl -fsS --max-time 5 -o "$work/answer" "http://$hub_address/board/city/ST" || return 1
  ! grep -qP '\t(live|skipped|canceled|added)\t' "$work/answer"
}

stop_process "$sender_process"
wait_for has_aged
printf '\n== GET /board/city/ST, once the sender was silent for 15 seconds\n' && cat "$work/answer"
has '^\d+\t\d+\t-\tscheduled\t7\t'

kill -0 "$hub_process" || fail "the hub has ended"
printf '\nall came back as it should\n'
