#!/usr/bin/env bash
# Tries nginx between agencies and what takes their feeds (samples/nginx/agencies.conf), with another nginx as the agency:
# the key, the certificate, compression, one question for several clients, an answer that hasn't changed, and an agency
# that is slow, silent, away, overloaded, or ends in the midst of its answer. The client asks as a hub would, by HTTP/1.0.
# Ends by itself, with status 0 exactly where all was as it should be. Needs curl, python3, nginx and openssl; no hub.
set -euo pipefail
top=$(cd "$(dirname "$0")/../.." && pwd)
. "$top/samples/serve/functions.sh"
. "$top/samples/tests/front.sh"
needs curl python3 nginx openssl
cd "$top"

files=$work/agency/files
mkdir -p "$files/zipped"
samples/serve/send.py samples/serve/hub.toml message late alert > "$files/trips.pb"
gzip -k -c "$files/trips.pb" > "$files/zipped/trips.pb.gz"
head -c 20000000 /dev/zero > "$files/large.pb"
message_bytes=$(stat -c %s "$files/trips.pb")

python3 samples/tests/agencies.py agency "$files/trips.pb" 2> "$work/acts" &
started+=("$!")
acts=$(wait_line "$work/acts" 'acts at ' "$!")
names=$(wait_line "$work/acts" 'names at ' "$!")

openssl req -x509 -newkey rsa:2048 -nodes -days 2 -subj /CN=Authority -keyout "$work/agency/authority.key" \
  -out "$work/agency/authority.crt" 2> "$work/agency/openssl.log"
# sign NAME: a certificate for NAME, signed by the authority that is trusted here.
sign() {
  openssl req -newkey rsa:2048 -nodes -subj "/CN=$1" -addext "subjectAltName=DNS:$1" \
    -keyout "$work/agency/$1.key" -out "$work/agency/$1.csr" 2> "$work/agency/openssl.log"
  openssl x509 -req -in "$work/agency/$1.csr" -CA "$work/agency/authority.crt" -CAkey "$work/agency/authority.key" \
    -CAcreateserial -days 2 -copy_extensions copy -out "$work/agency/$1.crt" 2> "$work/agency/openssl.log"
}
sign agency.example
sign other.example
samples/nginx/certificate.sh "$work/agency" agency.example # hub.crt, which nobody trusts

# start_agency: nginx as an agency at the port `right`, and at two others with a certificate that is of another name, or
# signed by nobody. What it is asked is in the file `asked`.
right=$(free_port) other=$(free_port) untrusted=$(free_port) asked=$work/agency/asked
start_agency() {
  local port name
  {
    echo 'log_format asked "$uri $status key=$http_x_api_key name=$ssl_server_name agent=$http_user_agent";'
    for port in "$right agency.example" "$other other.example" "$untrusted hub"; do
      read -r port name <<< "$port"
      cat <<CONF
server {
    listen 127.0.0.1:$port ssl;
    ssl_certificate $work/agency/$name.crt;
    ssl_certificate_key $work/agency/$name.key;
    access_log $asked asked;
    root $files;
    if (\$http_x_api_key != 1234) { return 403; }
    if (-f $files/overloaded) { return 503; }
    if (-f $files/refusing) { return 401; }
    location /zipped/ { gzip_static always; }
    location /acts/ { proxy_pass http://$acts; proxy_read_timeout 60s; }
}
CONF
    done
  } > "$work/agency/agency.conf"
  prepare_nginx "$work/agency" agency.conf
  launch_nginx "$work/agency"
  agency_process=$nginx_process
  wait_for curl -ks --max-time 2 -o "$work/front" "https://127.0.0.1:$right/"
}

# place PATH AGENCY TARGET [KEY]: the file's own example with this path, this agency and this target there.
place() {
  sed -n '/^    location = /,/^    }/p' samples/nginx/agencies.conf \
    | sed -e "s|/trams|/$1|" -e "s|agency\.example|$2|" -e "s|/trip-updates.pb|$3|" -e "s|1234|${4:-1234}|"
}

# start_between: nginx with samples/nginx/agencies.conf, but for ports, folders and places, at `between`. The interval is
# two seconds, and it is patient for four.
start_between() {
  between=127.0.0.1:$(free_port)
  local folder=$work/between
  mkdir -p "$folder"
  {
    for path in trams again; do place "$path" "agency.example:$right" /trips.pb; done
    place wrong_key "agency.example:$right" /trips.pb 4321
    place other_name "agency.example:$other" /trips.pb
    place untrusted "agency.example:$untrusted" /trips.pb
    place nowhere "nowhere.example:$right" /trips.pb
    place zipped "agency.example:$right" /zipped/trips.pb
    place large "agency.example:$right" /large.pb
    for path in chunked slow silent cut; do place "$path" "agency.example:$right" "/acts/$path"; done
  } > "$folder/places"
  sed -e "s|listen 127.0.0.1:8100|listen $between|" -e "s|resolver 127.0.0.53|resolver $names|" \
    -e "s|/var/lib/nginx/agencies|$folder/cache|" -e "s|/var/log/nginx/agencies.log|$folder/failed|" \
    -e "s|/etc/ssl/certs/ca-certificates.crt|$work/agency/authority.crt|" -e 's|proxy_read_timeout 8s|proxy_read_timeout 4s|' \
    -e '/^    location = /,/^    }/d' -e "/^    resolver /r $folder/places" samples/nginx/agencies.conf \
    | sed 's|proxy_cache_valid 200 10s|proxy_cache_valid 200 2s|' > "$folder/agencies.conf"
  prepare_nginx "$folder" agencies.conf
  launch_nginx "$folder"
  wait_for curl -s --max-time 2 -o "$work/front" "http://$between/"
}

# ask PATH: what a client gets there, and in `seconds` how long that took. Its body is in the file `body`.
ask() {
  read -r said seconds <<< "$(python3 samples/tests/agencies.py ask "$between" "/$1" "$work/body" | sed 's/ \([0-9]*\)$/:\1/; s/ /_/g; s/:/ /')"
}
asked_for() { grep -c "^$1 " "$asked" || true; }
good=good_$message_bytes
past_interval() { sleep 3.2; }

: > "$asked"
start_agency
start_between

echo "== a right answer"
ask trams
check "a client gets the agency's bytes" is "$said" "$good"
check "each of them" cmp "$work/body" "$files/trips.pb"
check "the agency got the key, its own name, and nothing of the client" \
  grep -qx "/trips.pb 200 key=1234 name=agency.example agent=hub" "$asked"
ask trams
check "within the interval the agency isn't asked again" is "$said $(asked_for /trips.pb)" "$good 1"
past_interval
ask trams
check "after it, it says that nothing has changed, and the client gets the answer: $said" \
  is "$said $(grep -c '^/trips.pb 304 ' "$asked")" "$good 1"
ask zipped
check "what the agency compresses without being asked is undone: $said" is "$said" "$good"
check "and is the same" cmp "$work/body" "$files/trips.pb"
ask zipped
check "and so is what is kept of it" cmp "$work/body" "$files/trips.pb"
ask chunked
check "what it sends in chunks comes without: $said" is "$said" "$good"
ask large
check "an answer of 20,000,000 bytes comes with its length: $said" is "$said" good_20000000

echo "== several clients at once"
# ask_thrice: three clients that ask for /slow at once; what each got is in the files said1 to said3.
ask_thrice() {
  local clients=() client
  for client in 1 2 3; do
    python3 samples/tests/agencies.py ask "$between" /slow "$work/body$client" > "$work/said$client" &
    clients+=("$!")
  done
  wait "${clients[@]}"
}
ask_thrice
check "of three that come before there is an answer each gets it" is "$(cut -d ' ' -f 1-2 "$work"/said? | sort | uniq -c | xargs)" \
  "3 good $message_bytes"
check "and the agency was asked once" is "$(asked_for /acts/slow)" 1
past_interval
ask_thrice
check "of three that come after the interval each gets an answer" is "$(cut -d ' ' -f 1-2 "$work"/said? | sort | uniq -c | xargs)" \
  "3 good $message_bytes"
check "and the agency was asked once more" is "$(asked_for /acts/slow)" 2
check "by one of them; the others had the answer of before at once: after $(cut -d ' ' -f 3 "$work"/said? | sort | xargs) s" \
  is "$(cut -d ' ' -f 3 "$work"/said? | sort | xargs)" "0 0 2"

echo "== keys and certificates"
ask wrong_key
check "a wrong key: $said" grep -q '^status_403' <<< "$said"
ask wrong_key
check "is not kept" is "$(grep -c '^/trips.pb 403 key=4321' "$asked")" 2
before=$(wc -l < "$asked")
ask other_name
check "a certificate of another name: $said" grep -q '^status_502' <<< "$said"
ask untrusted
check "a certificate that nobody signed: $said" grep -q '^status_502' <<< "$said"
check "neither has got the key" is "$(wc -l < "$asked")" "$before"
check "and the error log says why" test \
  "$(grep -cE 'SSL certificate verify error|SSL certificate does not match' "$work/between/error.log")" = 2
ask nowhere
check "an agency whose name isn't known: $said" grep -q '^status_502' <<< "$said"

echo "== an agency in trouble"
ask cut
check "an answer that is cut is seen to be: $said" grep -q '^cut_' <<< "$said"
ask cut
check "and is not kept" is "$(asked_for /acts/cut)" 2
ask silent
check "a silent one, with no answer kept: $said after $seconds s" grep -q '^status_504' <<< "$said"
touch "$files/overloaded"
ask again
check "an overloaded one, with no answer kept: $said" grep -q '^status_503' <<< "$said"
past_interval
before=$(asked_for /trips.pb)
ask trams
check "with one: $said" is "$said" "$good"
check "and it was asked" test "$(asked_for /trips.pb)" -gt "$before"
rm "$files/overloaded"
touch "$files/refusing"
past_interval
ask trams
check "one that no longer takes the key isn't hidden by an answer that is kept: $said" grep -q '^status_401' <<< "$said"
rm "$files/refusing"
stop_process "$agency_process"
ask trams
check "one that is gone, with an answer kept: $said" is "$said" "$good"
ask again
check "with none: $said" grep -q '^status_502' <<< "$said"
check "each question that came to nothing has a line: $(tail -n 1 "$work/between/failed")" grep -q ' /again 502 after ' "$work/between/failed"
start_agency
ask again
check "and it is back: $said" is "$said" "$good"

end_checks
