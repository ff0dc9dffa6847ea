#!/bin/sh
# What would this message do? Has it judged by `hub replay`: whether it is accepted, or refused and where its fault is; which
# updates stay unmatched, and why; and what it changes on the boards and alerts of the stops that it touches.
#
# usage: judge.sh CONFIG FEED MESSAGE.pb [EARLIER.pb ..]
#
# CONFIG is the hub's configuration, FEED the name of a feed in it, and MESSAGE.pb a message as its producer sends it.
# EARLIER.pb .. are messages that the feed has sent before, the oldest first: by them a message may be stale, and a
# differential one changes what they said. Boards are those of a day from the message's stamp on.
#
# HUB names the program, where it is not `hub` on the PATH; paths in CONFIG are relative to the folder in which this is
# started. Status 0: it is accepted; 1: it is refused; 2: it could not be judged. Needs python3.
set -eu
if [ $# -lt 3 ]; then
    sed -n 's/^# \(usage: .*\)/\1/p' "$0" >&2
    exit 2
fi
HUB=${HUB:-hub}
if ! command -v "$HUB" > /dev/null; then
    echo "judge.sh: there is no program $HUB; the variable HUB names it" >&2
    exit 2
fi
export HUB
exec python3 "$(dirname "$0")/judge.py" "$@"
