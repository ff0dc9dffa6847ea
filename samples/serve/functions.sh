# shellcheck shell=bash disable=SC2034,SC2154
# Functions for scripts that run hubs and their feeds: to be sourced by bash, with `top` set to the repository's top.
# All that is started here is ended when the script exits, by its process id; `work` is a folder of the script's own,
# removed then too. HUB names the program; without it that is ./hub, which is built first where it is missing. The build
# says on standard error how far it is.

hub=$top/hub
[ -z "${HUB:-}" ] || hub=$(realpath "$HUB")
work=$(mktemp -d)
started=()

end_all() {
  for process in "${started[@]}"; do kill "$process" 2> "$work/kill" || true; done
  for process in "${started[@]}"; do wait "$process" 2> "$work/wait" || true; done
  rm -rf "$work"
}
trap end_all EXIT
trap 'exit 130' INT
trap 'exit 143' TERM

fail() {
  echo "${0##*/}: $*" >&2
  exit 1
}

# needs PROGRAM ..: ends the script, with status 77 for "not tried", where one of these programs is not installed.
needs() {
  local program
  for program in "$@"; do
    if ! command -v "$program" > "$work/found"; then
      echo "not tried: $program is not installed"
      exit 77
    fi
  done
}

# build_hub: has the program built where it is missing. Without words it prints its usage and ends.
build_hub() {
  "$hub" > "$work/usage" < /dev/null || true
}

# wait_line FILE START PROCESS: the rest of the first line of FILE that begins with START, written by a process that
# has not ended. It is waited for up to a minute.
wait_line() {
  local rest
  for _ in $(seq 600); do
    rest=$(sed -n "s/^$2//p" "$1" | head -n 1)
    if [ -n "$rest" ]; then
      echo "$rest"
      return
    fi
    kill -0 "$3" 2> "$work/kill" || break
    sleep 0.1
  done
  cat "$1" >&2
  fail "there is no line '$2..'"
}

# wait_for WORDS ..: until the command answers 0, up to half a minute.
wait_for() {
  for _ in $(seq 150); do
    if "$@"; then return; fi
    sleep 0.2
  done
  fail "waited in vain for: $*"
}

# start_sender: a sender of the trams, at `sender_address`. It sends the scene of the last line of file descriptor 7.
start_sender() {
  mkfifo "$work/scenes"
  "$top/samples/serve/send.py" "$top/samples/serve/hub.toml" stream 127.0.0.1:0 < "$work/scenes" 2> "$work/sender" &
  sender_process=$!
  started+=("$sender_process")
  exec 7> "$work/scenes"
  sender_address=$(wait_line "$work/sender" 'send.py: listening on ' "$sender_process")
}

# show_scene SCENE ..: what the sender sends from now on.
show_scene() {
  echo "$*" >&7
}

# notices_from FOLDER, trams_from ADDRESS: the edits by which the example's feeds come from there.
notices_from() { echo "s|^place = \"samples.*|place = \"$1\"|"; }
trams_from() { echo "s|^place = \"127.*|place = \"$1\"|"; }

# notices_polled PLACE [KEYS], trams_polled PLACE [KEYS]: the edits by which the hub asks for them there each second. KEYS
# are further lines of the feed, with \n between them; without them the address may be away for long.
notices_polled() { printf '%s\n' "s|^kind = \"spool\"|kind = \"poll\"\\nevery = 1\\n${2:-tries = 1000}|; $(notices_from "$1")"; }
trams_polled() { printf '%s\n' "s|^kind = \"stream\"|kind = \"poll\"\\nevery = 1\\n${2:-tries = 1000}|; $(trams_from "$1")"; }

# The edit by which no trams come.
no_trams='s/^kind = "stream"/kind = "none"/'

# start_hub NAME [EDIT ..]: the hub of the configuration `model`, which is the example's, changed by sed's EDITs, on a
# port that is free and with a window that begins yesterday. Its address is in `hub_address`, its process in
# `hub_process`, its standard output and standard error in the files NAME.out and NAME.err of `work`.
model=$top/samples/serve/hub.toml
start_hub() {
  local name=$1 edits=() edit
  shift
  for edit in "$@"; do edits+=(-e "$edit"); done
  sed -e 's/^listen = .*/listen = "127.0.0.1:0"/' \
    -e "s/^first = .*/first = \"$(date -d yesterday +%Y%m%d)\"/" -e 's/^days = .*/days = 3/' "${edits[@]}" \
    "$model" > "$work/$name.toml"
  : > "$work/$name.err"
  (cd "$top" && exec "$hub" serve "$work/$name.toml" > "$work/$name.out" 2> "$work/$name.err" 7>&-) &
  hub_process=$!
  started+=("$hub_process")
  hub_address=$(wait_line "$work/$name.err" 'hub: listening on ' "$hub_process")
}

# stop_process PROCESS: ends one of those that were started.
stop_process() {
  kill "$1"
  wait "$1" 2> "$work/wait" || true
}

# has_accepted ADDRESS FEED ..: whether the hub has accepted a message of each of these feeds.
has_accepted() {
  local address=$1 status feed
  shift
  status=$(curl -fsS --max-time 5 "http://$address/status") || return 1
  for feed in "$@"; do
    awk -F '\t' -v feed="$feed" '$1 == feed && $2 > 0 { found = 1 } END { exit !found }' <<< "$status" || return 1
  done
}
