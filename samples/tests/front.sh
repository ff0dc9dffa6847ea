# shellcheck shell=bash disable=SC2034,SC2154
# Functions for trials of nginx in front of a hub. To be sourced after samples/serve/functions.sh.

failed=0

# check WHAT COMMAND ..: says whether the command answers 0, and counts it where it doesn't.
check() {
  local what=$1
  shift
  if "$@"; then echo "ok      $what"; else echo "FAILED  $what"; failed=$((failed + 1)); fi
}

is() { [ "$1" = "$2" ]; }

# end_checks: the status of the script, by the checks.
end_checks() {
  echo "$failed failed"
  [ "$failed" = 0 ]
}

# free_port: a TCP port of this machine that nothing listens on.
free_port() {
  python3 -c 'import socket; s = socket.socket(); s.bind(("127.0.0.1", 0)); print(s.getsockname()[1])'
}

# prepare_nginx FOLDER FILE: what nginx needs in that folder of `work`, next to FILE, which is for its http { }.
prepare_nginx() {
  local folder=$1
  mkdir -p "$folder/cache" "$folder/temporary"
  cat > "$folder/nginx.conf" <<CONF
daemon off;
worker_processes 2;
pid $folder/nginx.pid;
error_log $folder/error.log notice;
events { worker_connections 512; }
http {
    include /etc/nginx/mime.types;
    default_type application/octet-stream;
    log_format trial "\$status \$request_time \$upstream_cache_status";
    access_log $folder/access.log trial;
    client_body_temp_path $folder/temporary/body;
    proxy_temp_path $folder/temporary/proxy;
    fastcgi_temp_path $folder/temporary/fastcgi;
    uwsgi_temp_path $folder/temporary/uwsgi;
    scgi_temp_path $folder/temporary/scgi;
    include $2;
}
CONF
  # Workers of a master that is started by root run as another user, who must come to these folders.
  chmod 755 "$work" "$folder"
  chmod 777 "$folder/cache" "$folder/temporary"
}

# launch_nginx FOLDER: nginx with what is there, in `nginx_process`.
launch_nginx() {
  nginx -t -p "$1" -c "$1/nginx.conf" 2> "$1/test.log" || fail "$(cat "$1/test.log")"
  nginx -p "$1" -c "$1/nginx.conf" 2> "$1/start.log" 7>&- &
  nginx_process=$!
  started+=("$nginx_process")
}

# start_nginx UPSTREAM EDIT ..: nginx with the files of samples/nginx as they are, but for ports and folders, and for
# what sed's EDITs change in the file UPSTREAM, one_hub.conf or two_hubs.conf. It listens for TLS at `front_address`,
# and at `plain_address` without.
start_nginx() {
  local upstream=$1 edits=() edit plain_port tls_port
  shift
  for edit in "$@"; do edits+=(-e "$edit"); done
  tls_port=$(free_port)
  plain_port=$(free_port)
  front_address=127.0.0.1:$tls_port
  plain_address=127.0.0.1:$plain_port
  local folder=$work/nginx
  mkdir -p "$folder"
  "$top/samples/nginx/certificate.sh" "$folder"
  cp "$top/samples/nginx/hub_proxy.conf" "$top/samples/nginx/hub_cache.conf" "$folder/"
  sed "${edits[@]}" "$top/samples/nginx/$upstream" > "$folder/hub_upstream.conf"
  sed -e "s|listen 443 |listen 127.0.0.1:$tls_port |" -e "s|listen 80;|listen 127.0.0.1:$plain_port;|" \
    -e '/listen \[::\]/d' -e "s|/etc/nginx/|$folder/|" -e "s|/var/lib/nginx/hub|$folder/cache|" \
    -e "s|/usr/share/hub/display|$top/samples/display|" -e "s|root /usr/share/hub;|root $top/samples;|" \
    "$top/samples/nginx/hub.conf" > "$folder/hub.conf"
  prepare_nginx "$folder" hub.conf
  run_nginx
}

# run_nginx: nginx with the files that start_nginx left, as they are at that moment.
run_nginx() {
  launch_nginx "$work/nginx"
  wait_for curl -ks --max-time 2 -o "$work/front" "https://$front_address/"
}

# end_nginx: ends it, so that run_nginx can start it again.
end_nginx() {
  stop_process "$nginx_process"
}

# lift_limits: nginx again, without what it limits of requests and connections, for a client that asks much.
lift_limits() {
  end_nginx
  sed -i -e '/limit_req zone/d' -e '/limit_conn hub/d' "$work/nginx/hub.conf"
  : > "$work/nginx/access.log"
  run_nginx
}
