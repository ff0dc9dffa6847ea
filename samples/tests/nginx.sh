#!/usr/bin/env bash
# Tries nginx, with the files of samples/nginx, in front of a running hub: TLS, compression, the cache of a second, kept
# connections, limits, only GET, the page, the public feed, and what is said when the hub is gone; and how much it
# answers, by wrk. Ends by itself, with status 0 exactly where all was as it should be. HUB names the program, where it
# is not ./hub. Needs curl, python3, nginx, openssl and wrk.
set -euo pipefail
top=$(cd "$(dirname "$0")/../.." && pwd)
. "$top/samples/serve/functions.sh"
. "$top/samples/tests/front.sh"
needs curl python3 nginx openssl wrk
cd "$top"
build_hub

# get PATH [WORD ..]: the answer of nginx in the files `head` and `body`; its status in `status`.
get() {
  local path=$1
  shift
  status=$(curl -ks --max-time 10 -D "$work/head" -o "$work/body" -w '%{http_code}' "$@" "https://$front_address$path") \
    || true
}

has_field() { grep -qiP "^$1\r?$" "$work/head"; }
lacks_field() { ! grep -qiP "^$1" "$work/head"; }
field() { sed -n "s/^$1: //Ip" "$work/head" | tr -d '\r'; }

# see_wrk WHAT: what wrk said last, and how often the hub was asked meanwhile.
see_wrk() {
  grep -E 'Requests/sec|99%|Non-2xx|Socket errors' "$work/wrk" | sed 's/^ */        /'
  echo "        the hub was asked $(grep -c ' MISS\| EXPIRED' "$work/nginx/access.log" || true) times"
  check "$1: nothing but 200" is "$(grep -cE 'Non-2xx|Socket errors' "$work/wrk" || true)" 0
}

# kept_connections: how many connections to the hub are open.
kept_connections() {
  python3 - "${hub_address##*:}" <<'PY'
import sys
port = int(sys.argv[1])
with open("/proc/net/tcp") as table:
    rows = [line.split() for line in list(table)[1:]]
print(sum(int(row[2].split(":")[1], 16) == port and row[3] == "01" for row in rows))
PY
}

start_sender
show_scene late skipped canceled added
mkdir "$work/spool"
start_hub hub "$(notices_from "$work/spool")" "$(trams_from "$sender_address")"
wait_for has_accepted "$hub_address" trams
start_nginx one_hub.conf "s|127.0.0.1:8080|$hub_address|"

echo "== what comes back"
plain=$(curl -s -o "$work/body" -w '%{http_code}' "http://$plain_address/board/city/ST")
check "without TLS one is sent to TLS" is "$plain" 301
get /board/city/ST
check "a board through TLS" is "$status" 200
check "with the hub's two numbers" has_field 'X-Hub-Sequence: [0-9]+'
check "and its moment" has_field 'X-Hub-Moment: [0-9]+'
check "browsers keep nothing of it" has_field 'Cache-Control: no-store'
direct=$(curl -s -D "$work/straight" "http://$hub_address/board/city/ST" | tail -n +3)
check "the rows are those of the hub itself" is "$(tail -n +3 "$work/body")" "$direct"
get '/board/city/ST?format=json' --compressed
check "JSON comes compressed" has_field 'Content-Encoding: gzip'
check "and reads as JSON" python3 -c 'import json, sys; json.load(open(sys.argv[1]))' "$work/body"
get /board/city/NO
check "an unknown stop is 404" is "$status $(cat "$work/body")" "404 not found"
get '/board/city/ST?limit=0'
check "a limit of 0 is 400" is "$status $(cat "$work/body")" "400 bad request"
get /status
check "the status, asked from this machine" is "$status" 200
get '/operating/status?hub=1'
check "for the operators' page, with the address of the hub that said so" is "$status $(field X-Hub-Address)" "200 $hub_address"
get '/operating/status?hub=2'
check "and nothing for a hub that there isn't" is "$status" 204
get /operating/feeds.html
check "the operators' page" is "$status $(field Content-Type)" "200 text/html"
get '/gtfs-rt/city.pb?made=up'
check "the feed under its public name" is "$status $(field Content-Type)" "200 application/x-protobuf"
curl -s -o "$work/straight" "http://$hub_address/feed/city"
check "is the hub's feed, byte for byte" cmp "$work/body" "$work/straight"
get /
check "the page" is "$status $(field Content-Type)" "200 text/html"
check "may load from its own place alone" has_field "Content-Security-Policy: default-src 'none';.*"
get /display.js --compressed
check "its script comes compressed" is "$status $(field Content-Encoding)" "200 gzip"

echo "== what is refused"
for method in POST PUT DELETE HEAD OPTIONS; do
  if [ "$method" = HEAD ]; then get /board/city/ST -I; else get /board/city/ST -X "$method"; fi
  check "$method is 405 and says what is allowed" is "$status $(field Allow)" "405 GET"
done
# Each at a target of its own, so that no kept answer takes the hub's place.
get '/board/city/ST?limit=31' -X GET --data body
check "a body is not passed on" is "$status" 200
get '/board/city/ST?limit=32' -X GET -H 'Transfer-Encoding: chunked' --http1.1 --data body
check "nor is one in chunks" is "$status" 200
get '/board/city/ST?limit=33' -H "X-Long: $(head -c 3000 /dev/zero | tr '\0' x)"
check "a long field of the client is not passed on" is "$status" 200
get "/board/city/$(head -c 6000 /dev/zero | tr '\0' x)" --http1.1
check "a target of 6,000 bytes is refused" is "$status" 414
get /nothing/here
check "what isn't there is 404" is "$status" 404
slow=$(python3 - "$front_address" <<'PY'
import socket, ssl, sys, time
host, port = sys.argv[1].rsplit(":", 1)
context = ssl.create_default_context()
context.check_hostname, context.verify_mode = False, ssl.CERT_NONE
with context.wrap_socket(socket.create_connection((host, int(port)), timeout=20)) as link:
    link.sendall(b"GET /board/city/ST HTTP/1.1\r\nHost: h\r\n")
    began = time.monotonic()
    try:
        while link.recv(4096):
            pass
    except OSError:
        pass
print(round(time.monotonic() - began))
PY
)
check "a client that doesn't end its head is dropped after $slow seconds" test "$slow" -le 8

echo "== one answer for equal requests of a second"
sleep 1.1
cut_log() { wc -l < "$work/nginx/access.log"; }
line=$(cut_log)
for _ in 1 2 3 4 5 6 7 8 9 10; do
  curl -ks -o "$work/body" "https://$front_address/board/city/S3?limit=3" &
  burst+=("$!")
done
wait "${burst[@]}"
asked=$(tail -n +"$((line + 1))" "$work/nginx/access.log" | grep -c ' MISS\| EXPIRED' || true)
check "ten at once ask the hub once, or twice where a second ends: $asked" grep -qE '^[12]$' <<< "$asked"

echo "== who asks too much"
line=$(cut_log)
seq -f "url = \"https://$front_address/board/city/S3?limit=%g\"
output = \"$work/body\"" 200 > "$work/urls"
curl -ks --no-progress-meter --parallel --parallel-max 15 -K "$work/urls" -w '%{http_code}\n' > "$work/codes" || true
sort "$work/codes" | uniq -c | sed 's/^ */        /'
check "of 200 different requests at once some are answered by 200" grep -q '^200$' "$work/codes"
check "and some by 429" grep -q '^429$' "$work/codes"
check "and none otherwise" is "$(grep -cvE '^(200|429)$' "$work/codes" || true)" 0
check "the hub's kept connections leave a reader free: $(kept_connections) of 8" test "$(kept_connections)" -le 7
sleep 6
check "and are closed when they were idle: $(kept_connections)" is "$(kept_connections)" 0

echo "== how much it answers, without the limits"
lift_limits
wrk -t 2 -c 20 -d 5s --latency "https://$front_address/board/city/ST?format=json" > "$work/wrk"
see_wrk "20 connections for one board"
cat > "$work/each.lua" <<'LUA'
local count = 0
request = function()
  count = count + 1
  return wrk.format("GET", "/board/city/ST?format=json&limit=" .. (1 + count % 1000))
end
LUA
: > "$work/nginx/access.log"
wrk -t 2 -c 20 -d 5s --latency -s "$work/each.lua" "https://$front_address" > "$work/wrk"
see_wrk "20 connections for a thousand different boards"

echo "== the hub gone"
stop_process "$hub_process"
sleep 1.1
get '/board/city/ST?format=json'
check "it is said, and no old board goes out: $status" grep -qE '^50[234]$' <<< "$status"
check "and not by the hub" lacks_field X-Hub-Moment
get /
check "the page still comes" is "$status" 200

end_checks
