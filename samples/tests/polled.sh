#!/usr/bin/env bash
# Tries feeds of kind "poll": for two minutes a hub asks nginx for two files each second. They change, one of them is gone
# for a while, and nginx ends and starts again; of the two feeds one may fail often, the other a few times. Ends by itself,
# with status 0 exactly where the board followed, and the hub's lines at the end say what failed. HUB names the program,
# where it is not ./hub. Needs curl, python3 and nginx.
set -euo pipefail
top=$(cd "$(dirname "$0")/../.." && pwd)
. "$top/samples/serve/functions.sh"
. "$top/samples/tests/front.sh"
needs curl python3 nginx
cd "$top"
build_hub

agency=127.0.0.1:$(free_port) folder=$work/agency polls=100
mkdir -p "$folder/files"
cat > "$folder/agency.conf" <<CONF
log_format asked "\$uri \$status";
server {
    listen $agency;
    root $folder/files;
    access_log $folder/asked asked;
}
CONF
prepare_nginx "$folder" agency.conf

# put FEED SCENE ..: what the agency says of a feed from now on. Its stamp is greater than that of before.
put() {
  sleep 1.1
  samples/serve/send.py samples/serve/hub.toml message "${@:2}" > "$work/message"
  mv "$work/message" "$folder/files/$1"
  counts[$1]=$((${counts[$1]:-0} + 1))
}
declare -A counts=()

has_row() { curl -fsS --max-time 5 "http://$hub_address/board/city/ST" | grep -qP "\t$1\t"; }
has_alert() { curl -fsS --max-time 5 "http://$hub_address/alerts/city/ST" | grep -qP '^notices\tlift\t'; }
follows() { wait_for has_row "$1"; }

# polled: how often the trams were asked for, with an answer.
polled() { grep -c '^/trams ' "$folder/asked"; }

# told FEED NUMBER: that number of the feed's line at the end.
told() { sed -n "s/^feed $1 .*\b$2 \([0-9]*\).*/\1/p" "$work/hub.out"; }

put trams late
put notices alert
launch_nginx "$folder"
start_hub hub "$(trams_polled "$agency/trams" "tries = 1000\npolls = $polls")" "$(notices_polled "$agency/notices" 'tries = 5')" \
  '/^max_age/d' 's/^readers = .*/readers = 1\nconnections = 1000/'

echo "== an agency that says something new now and then"
check "its delays are on the board" follows 240
check "and its notice is there" wait_for has_alert
put trams canceled
check "the trip that it cancels is" follows canceled

echo "== whose file is gone for five seconds"
rm "$folder/files/trams"
sleep 5
check "the board stays as it was" has_row canceled
put trams skipped
check "and follows the next one" follows skipped

echo "== that is away for fifteen seconds"
away=$(date +%s)
stop_process "$nginx_process"
sleep 15
check "the board stays as it was" has_row skipped
put trams added
put notices calm
launch_nginx "$folder"
check "and follows once it is back" follows added
check "the feed that may fail five times is over, and its notice stays" has_alert
check "which the hub has told" grep -qx 'hub: feed notices has failed' "$work/hub.err"
check "and nothing of the other one" is "$(grep -c '^hub: feed trams ' "$work/hub.err" || true)" 0

echo "== until it was asked $polls times"
while [ "$(polled)" -lt $((polls - 20)) ]; do
  put trams late
  follows 240
  put trams canceled
  follows canceled
done
check "the board follows" has_row canceled
# The hub ends once its reader has served a thousand connections, too.
curl -s --max-time 60 -H 'Connection: close' -o "$work/body" "http://$hub_address/status?[1-1000]" || true
status=0
wait "$hub_process" || status=$?
sed 's/^/        /' "$work/hub.out"
sort "$folder/asked" | uniq -c | sed 's/^ */        polls: /'
check "the hub ends by itself, with the status of a feed that failed" is "$status" 1
check "of that feed it took what came before" is "$(told notices accepted)" 1
check "nothing since nginx ended" test "$(told notices last)" -le "$away"
check "of the other one each of ${counts[trams]} new messages" is "$(told trams accepted)" "${counts[trams]}"
check "and it refused what it had" is "$(told trams refused)" $(($(grep -cx '/trams 200' "$folder/asked") - counts[trams]))
end_checks
