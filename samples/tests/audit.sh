#!/usr/bin/env bash
# Tries the audit: a hub with two feeds, whose messages come by way of samples/audit/record.py, is asked a hundred times
# while they come, and samples/audit/audit.py computes each answer again. Each second answer has a status next to it, the
# others have none. Ends by itself, with status 0 exactly where all was as it should be. HUB names the program, where it
# is not ./hub. Needs curl and python3.
#
# usage: audit.sh [SECONDS [ANSWERS]]   how long the hub runs, 60 seconds where it is left out, and how many answers are
#                                       saved meanwhile, 100 where it is left out
set -euo pipefail
top=$(cd "$(dirname "$0")/../.." && pwd)
. "$top/samples/serve/functions.sh"
. "$top/samples/tests/front.sh"
needs curl python3
cd "$top"
build_hub
seconds=${1:-60}
answers=${2:-100}

# start_recorder NAME FEED SOURCE: a recorder of a feed, at `recorder_address`.
start_recorder() {
  samples/audit/record.py "$work/records" "$2" 127.0.0.1:0 "$3" 2> "$work/$1" 7>&- 8>&- &
  started+=("$!")
  recorder_address=$(wait_line "$work/$1" 'record.py: listening on ' "$!")
}

# audit WORD ..: audit.py of the hub's answers; what it says is in the file `said`.
audit() { HUB=$hub samples/audit/audit.py "$work/hub.toml" "$work/records" "$@" > "$work/said" 2>&1; }

echo "== a hub with two feeds"
start_sender
mkfifo "$work/scenes2"
samples/serve/send.py samples/serve/hub.toml stream 127.0.0.1:0 < "$work/scenes2" 2> "$work/sender2" 7>&- &
started+=("$!")
exec 8> "$work/scenes2"
second_sender=$(wait_line "$work/sender2" 'send.py: listening on ' "$!")
start_recorder trams trams "$sender_address"
trams=$recorder_address
start_recorder notices notices "$second_sender"
show_scene late
echo alert >&8
streams='s/^kind = "spool"/kind = "stream"/'
start_hub hub "$streams" "$(trams_from "$trams")" "$(notices_from "$recorder_address")" 8>&-
wait_for has_accepted "$hub_address" notices trams

# Scenes change each second or so in either feed, and a message comes with each change.
scenes=(late skipped canceled 'late added' calm 'late unmatched' 'skipped canceled' 'alert late')
while :; do
  show_scene "${scenes[RANDOM % 8]}"
  sleep 0.$((RANDOM % 9 + 1))
  echo "${scenes[RANDOM % 8]}" >&8
  sleep 0.$((RANDOM % 9 + 1))
done &
started+=("$!")

# seconds_to_next COUNT: how long it is until the next answer is asked for, after so many.
seconds_to_next() {
  awk -v began="$began" -v now="$EPOCHREALTIME" -v all="$seconds" -v of="$answers" -v count="$1" \
    'BEGIN { rest = began + count * all / of - now; print (rest > 0 ? rest : 0) }'
}

echo "== $answers answers in $seconds seconds"
paths=('/board/city/ST' '/board/city/S3?span=7200' '/board/city/S1?limit=3&format=json' '/alerts/city/ST' '/unmatched/city'
  '/board/city/ST?span=86400&limit=1000' '/feed/city' '/board/city/S2' '/board/city/NO')
began=$EPOCHREALTIME
for count in $(seq "$answers"); do
  path=${paths[count % ${#paths[@]}]}
  # Each third answer is asked for while messages of both feeds are on their way.
  if [ $((count % 3)) = 0 ]; then
    show_scene late
    echo 'late canceled' >&8
  fi
  echo "$path" > "$work/answer.$count.target"
  if [ $((count % 2)) = 0 ]; then
    curl -sS -i --max-time 5 "http://$hub_address$path" -o "$work/answer.$count" \
      "http://$hub_address/status" -o "$work/answer.$count.status"
  else
    curl -sS -i --max-time 5 "http://$hub_address$path" -o "$work/answer.$count"
  fi
  sleep "$(seconds_to_next "$count")"
done
curl -fsS --max-time 5 "http://$hub_address/status" | sed 's/^/        /'
(cd "$work/records" && wc -c -- * | sed 's/^/        bytes kept: /')

echo "== each computed again"
same=0 heads=0 later=0 began=$SECONDS
for count in $(seq "$answers"); do
  if audit "$work/answer.$count" "$(cat "$work/answer.$count.target")"; then
    same=$((same + 1))
    ! grep -q 'so is the head$' "$work/said" || heads=$((heads + 1))
    grep -q 'found by try 1$' "$work/said" || later=$((later + 1))
  else
    sed 's/^/        /' "$work/said"
  fi
done
echo "        $(((SECONDS - began) * 1000 / answers)) ms each; $later of them were found by a further try"
check "$same of $answers answers have the same bytes" is "$same" "$answers"
check "with their heads" is "$heads" "$answers"

echo "== what it says of one"
show_scene 'late added'
sleep 2
curl -sS -i --max-time 5 "http://$hub_address/board/city/ST" -o "$work/last" "http://$hub_address/status" -o "$work/last.status"
check "an answer with delays" audit "$work/last" /board/city/ST
sed 's/^/        /' "$work/said"
check "each row that isn't the timetable's has its message" is "$(grep -c ', message [0-9]* that came ' "$work/said")" \
  "$(grep -cP '\t(live|skipped|canceled|added)\t' "$work/last")"

echo "== what isn't so"
sed 's/Market/market/' "$work/last" > "$work/forged"
check "an answer that the hub never gave is found out" is "$(audit "$work/forged" /board/city/ST; echo $?)" 1
sed 's/^/        /' "$work/said"

echo "== a hub that took messages in another order than that in which they came"
mkdir "$work/turned"
samples/tests/audit.py "$hub" "$work/hub.toml" "$work/turned"
turned() { HUB=$hub samples/audit/audit.py "$work/hub.toml" "$work/turned/records" "$work/turned/answer" /feed/city > "$work/said" 2>&1; }
check "its answer is found by its status" turned
sed 's/^/        /' "$work/said"
rm "$work/turned/answer.status"
check "and without" turned
sed 's/^/        /' "$work/said"
check "by a further try" grep -q '^accepted before it: notices 1, trams 4; found by try [2-9]$' "$work/said"

echo "== a spool by way of the recorder"
samples/serve/send.py samples/serve/hub.toml spool "$work/spool" alert
stop_process "$hub_process"
start_recorder spooled notices "$work/spool"
start_hub hub "$no_trams" "$streams" "$(notices_from "$recorder_address")" 8>&-
wait_for has_accepted "$hub_address" notices
curl -sS -i --max-time 5 "http://$hub_address/alerts/city/ST" -o "$work/spooled"
check "an answer of a hub with a spool is computed again" audit "$work/spooled" /alerts/city/ST
sed 's/^/        /' "$work/said"
end_checks
