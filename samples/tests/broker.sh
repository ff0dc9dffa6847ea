#!/usr/bin/env bash
# Tries many hubs behind a broker: mosquitto, a producer of 200 messages a second, samples/broker/bridge.py, three hubs
# that take their trams from it, with nginx in front, and a fourth one that is held for a while. Meanwhile a hub starts
# late, one is ended and started, and so is the broker. At the end each holds what a hub holds that was offered the
# messages one by one. Then the bridge is ended and started, under a second one and its hub. Ends by itself, with status 0
# exactly where all was as it should be. HUB names the program, where it is not ./hub. Needs curl, python3, mosquitto,
# mosquitto-clients, nginx, openssl and wrk.
#
# usage: broker.sh [SECONDS [READERS]]   how long it publishes, 60 seconds where it is left out, and how many further
#                                        readers one bridge has at the end, 50 where it is left out
set -euo pipefail
top=$(cd "$(dirname "$0")/../.." && pwd)
. "$top/samples/serve/functions.sh"
. "$top/samples/tests/front.sh"
PATH=$PATH:/usr/sbin
needs curl python3 mosquitto mosquitto_sub nginx openssl wrk
cd "$top"
build_hub
seconds=${1:-60}
readers=${2:-50}
rate=200
stamp=$(($(date +%s) - 43200))

run_broker() {
  mosquitto -c "$work/broker.conf" > "$work/broker.log" 2>&1 7>&- &
  broker_process=$!
  started+=("$broker_process")
}

# start_bridge NAME ADDRESS SOURCE ..: a bridge, at `bridge_address`; what it says is in the file NAME.
start_bridge() {
  samples/broker/bridge.py "${@:2}" 2> "$work/$1" 7>&- &
  bridge_process=$!
  started+=("$bridge_process")
  bridge_address=$(wait_line "$work/$1" 'bridge.py: listening on ' "$bridge_process")
}

# start_taker NAME ADDRESS LISTEN: a hub that takes its trams from a bridge, and listens there.
start_taker() {
  start_hub "$1" "$(trams_from "$2")" "$(notices_from "$work/spool")" "s/^listen = .*/listen = \"$3\"/" \
    's/^max_age = .*/max_age = 0/'
}

# publish COUNT: publishes so many messages more, in the background, by the process `producer`.
publish() {
  samples/tests/broker.py publish "127.0.0.1:$port" city/trams "$rate" "$1" "$stamp" "$work/offered" > "$work/told" &
  producer=$!
  started+=("$producer")
  stamp=$((stamp + $1))
}

# trams_of: the line of the trams in a status, without the number of messages, which a late or slow hub takes fewer of.
trams_of() { awk -F '\t' '$1 == "trams" { print $3, $4 }'; }
trams_at() { curl -fsS --max-time 5 "http://$1/status" | trams_of; }
messages_at() { curl -fsS --max-time 5 "http://$1/status" | awk -F '\t' '$1 == "trams" { print $2 }'; }
has_last() { [ "$(trams_at "$1" | cut -d ' ' -f 1)" = "$((stamp - 1))" ]; }
processor_of() { awk '{ print ($14 + $15) / 100 }' "/proc/$1/stat"; }
memory_of() { awk '$1 == "VmHWM:" { print int($2 / 1024) }' "/proc/$1/status"; }

# holds_all ADDRESS: whether a hub holds what `hub replay` holds that was offered all messages: stamps, entities, and the
# bytes of the combined feed.
holds_all() {
  [ "$(trams_at "$1")" = "$(trams_of < "$work/replayed")" ] || return 1
  curl -fsS --max-time 5 -o "$work/feed" "http://$1/feed/city"
  python3 - "$work/replayed" "$work/feed" <<'PY'
import sys
replayed, feed = (open(path, "rb").read() for path in sys.argv[1:])
sys.exit(not replayed.endswith(b"feed %d\n%s\n" % (len(feed), feed)))
PY
}

# replay_all: what a script says at its end that offers all messages.
replay_all() {
  { cat "$work/offered" && printf 'S\nO city\nE\n'; } > "$work/script"
  "$hub" replay "$work/first.toml" < "$work/script" | sed -n '/^status /,$p' > "$work/replayed"
}

port=$(free_port)
mkdir "$work/kept" "$work/spool"
sed -e "s|^listener .*|listener $port 127.0.0.1|" -e "s|^persistence_location .*|persistence_location $work/kept/|" \
  samples/broker/mosquitto.conf > "$work/broker.conf"
echo "user $(id -un)" >> "$work/broker.conf"
source=(mqtt -h 127.0.0.1 -p "$port" -t city/trams -c -i trams)

echo "== hubs, bridge and broker start in any order"
start_bridge bridge --state "$work/state" 127.0.0.1:0 "${source[@]}"
bridge=$bridge_address bridge_first=$bridge_process
start_taker first "$bridge" 127.0.0.1:0
first=$hub_address first_process=$hub_process
start_taker second "$bridge" 127.0.0.1:0
second=$hub_address second_process=$hub_process
start_taker held "$bridge" 127.0.0.1:0
held=$hub_address held_process=$hub_process
run_broker
third=127.0.0.1:$(free_port)
start_nginx two_hubs.conf "s|127.0.0.1:8080|$first|" "s|server 127.0.0.1:8081 \(.*\)|server $second \1 server $third \1|"
lift_limits
wait_for grep -q ' as trams ' "$work/broker.log"
publish $((rate * seconds))
wait_for has_accepted "$first" trams
wait_for has_accepted "$second" trams

# What passengers ask meanwhile: ten boards a second by way of nginx, not two alike.
while :; do
  for limit in $(seq 100 109); do
    curl -ks --max-time 5 -o "$work/body" -w '%{http_code}\n' "https://$front_address/board/city/ST?limit=$limit" || true
  done
  sleep 1
done > "$work/codes" 7>&- &
asking=$!
started+=("$asking")

sleep $((seconds / 6))
start_taker third "$bridge" "$third"
third_process=$hub_process
echo "        a hub starts after $(messages_at "$first") messages; it was sent $(messages_at "$third")"
sleep $((seconds / 6))
echo "== a hub ends and starts, and another is held meanwhile"
kill -STOP "$held_process"
stop_process "$second_process"
start_taker second "$bridge" "$second"
second_process=$hub_process
sleep $((seconds / 6))
kill -CONT "$held_process"
echo "== the broker ends and starts"
stop_process "$broker_process"
sleep 2
run_broker

wait "$producer"
sed 's/^/        /' "$work/told"
for address in "$first" "$second" "$third" "$held"; do wait_for has_last "$address"; done
stop_process "$asking"
replay_all
for address in "$first" "$second" "$third" "$held"; do
  check "a hub holds what all messages add up to, by $(messages_at "$address") of them: stamp and entities $(trams_at "$address")" \
    holds_all "$address"
done
sort "$work/codes" | uniq -c | sed 's/^ */        answers of nginx: /'
check "nginx answered 200 alone, with a hub of three away" is "$(sort -u "$work/codes")" 200
echo "        the bridge took $(processor_of "$bridge_first") s of a processor, and $(memory_of "$bridge_first") MiB;" \
  "the third hub $(processor_of "$third_process") s, and $(memory_of "$third_process") MiB"

echo "== a bridge ends and starts, under another one"
start_bridge under 127.0.0.1:0 tcp "$bridge"
start_taker fourth "$bridge_address" 127.0.0.1:0
fourth=$hub_address
wait_for has_last "$fourth"
stop_process "$bridge_first"
publish $((rate * 2))
wait "$producer"
[ -s "$work/state" ] || fail "the bridge has left no state"
start_bridge bridge --state "$work/state" "$bridge" "${source[@]}"
wait_for has_last "$fourth"
replay_all
check "the hub of the other bridge has what was published meanwhile" holds_all "$fourth"
check "and those of the one that ended need a start" is "$(trams_at "$first" | cut -d ' ' -f 1)" "$((stamp - rate * 2 - 1))"

stop_process "$bridge_process"
start_bridge bridge --state "$work/state" "$bridge" "${source[@]}"
start_taker fifth "$bridge" 127.0.0.1:0
wait_for has_last "$hub_address"
check "a hub that starts after a bridge has all, by $(messages_at "$hub_address") messages" holds_all "$hub_address"
stop_process "$hub_process"

echo "== $readers readers of one bridge"
began=$(processor_of "$bridge_process")
publish $((rate * 10))
samples/tests/broker.py readers "$bridge" "$readers" $((stamp - 1)) > "$work/read" &
reading=$!
started+=("$reading")
wait "$producer"
wait "$reading"
sed 's/^/        /' "$work/read"
echo "        the bridge took $(awk -v now="$(processor_of "$bridge_process")" -v then="$began" 'BEGIN { print now - then }') s of a processor" \
  "for $((rate * 10)) messages"

echo "== boards of three hubs"
stop_process "$first_process"
stop_process "$second_process"
stop_process "$third_process"
for name in first second third; do start_taker "$name" "$bridge" "${!name}"; done
for address in "$first" "$second" "$third"; do wait_for has_last "$address"; done
sed -i '/hub_cache.conf/d' "$work/nginx/hub.conf"
end_nginx
run_nginx
publish $((rate * 8))
for limit in 100 101 102 103 104 105; do
  wrk -t 1 -c 4 -d 6s "https://$front_address/board/city/ST?limit=$limit" > "$work/wrk.$limit" 7>&- &
  started+=("$!")
  asked[limit]=$!
done
for limit in "${!asked[@]}"; do wait "${asked[limit]}"; done
wait "$producer"
cat "$work"/wrk.* | awk '/Requests\/sec/ { sum += $2 } END { printf "        %d boards a second by way of nginx, none of them kept, while 200 messages a second come in\n", sum }'
check "and nothing but 200" is "$(grep -c 'Non-2xx' "$work"/wrk.* | grep -cv ':0$' || true)" 0
for address in "$first" "$second" "$third"; do wait_for has_last "$address"; done
replay_all
for address in "$first" "$second" "$third"; do check "a hub holds what all messages add up to" holds_all "$address"; done
end_checks
