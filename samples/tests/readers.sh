#!/usr/bin/env bash
# Shows why the connections that nginx keeps open must leave a reader of the hub free: the slowest of three hundred
# requests, sixteen at once, to a hub of three readers, where nginx keeps as many as the rule of
# samples/nginx/one_hub.conf says, and where it keeps more. Ends by itself, with status 0 where by the rule all were
# answered, and within two seconds.
# HUB names the program, where it is not ./hub. Needs curl, python3, nginx and openssl.
set -euo pipefail
top=$(cd "$(dirname "$0")/../.." && pwd)
. "$top/samples/serve/functions.sh"
. "$top/samples/tests/front.sh"
needs curl python3 nginx openssl
cd "$top"
build_hub

# ask_much KEPT: asks three times with a second between. The answers that aren't 200 are counted in `unanswered`, and
# what the slowest took, in milliseconds, is left in `slowest`.
ask_much() {
  end_nginx
  sed -i "s/^    keepalive .*/    keepalive $1;/" "$work/nginx/hub_upstream.conf"
  run_nginx
  for round in 1 2 3; do
    seq -f "url = \"https://$front_address/board/city/S3?limit=%g\"
output = \"$work/body\"" "$((round * 100))" "$((round * 100 + 99))" > "$work/urls"
    curl -ks --no-progress-meter --http1.1 --parallel --parallel-immediate --parallel-max 16 -K "$work/urls" \
      -w '%{http_code} %{time_total}\n' || true
    sleep 1
  done > "$work/times"
  unanswered=$(grep -cv '^200 ' "$work/times" || true)
  slowest=$(sort -k 2 -n "$work/times" | tail -n 1 | awk '{ printf "%d\n", $2 * 1000 }')
  echo "three readers, two workers of nginx that keep $1 connections each: of 300 requests" \
    "the slowest took $slowest ms, and $unanswered got no answer of the hub"
}

start_sender
mkdir "$work/spool"
start_hub hub "$(notices_from "$work/spool")" "$(trams_from "$sender_address")" 's/^readers = .*/readers = 3/'
wait_for has_accepted "$hub_address" trams
start_nginx one_hub.conf "s|127.0.0.1:8080|$hub_address|"
lift_limits
ask_much 1
if [ "$slowest" -ge 2000 ] || [ "$unanswered" != 0 ]; then fail "by the rule it should not be so slow"; fi
ask_much 4
