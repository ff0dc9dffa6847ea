#!/bin/sh
# Asks a hub for its status and says which feeds are silent: whose last accepted message has a stamp that is further back
# than some seconds, by the hub's own clock, or that had none yet.
#
# usage: check_feeds.sh ADDRESS SECONDS [FEED=SECONDS ..]
#
# ADDRESS is the hub's, as 127.0.0.1:8080; SECONDS holds for each feed but those that are named with their own. 0 means that
# a feed may be silent for ever. One line for each feed. Status 0: none is silent; 1: one is; 2: the hub does not
# answer, or not as a hub does. The question takes a reader of the hub for a moment. Needs curl and awk.
set -eu
address=$1
seconds=$2
shift 2

answer=$(curl -fsS -i --http1.1 -H 'Connection: close' --max-time 10 "http://$address/status") || exit 2
printf '%s\n' "$answer" | tr -d '\r' | awk -F '\t' -v seconds="$seconds" -v named="$*" '
    BEGIN {
        count = split(named, words, " ")
        for (i = 1; i <= count; i++) {
            split(words[i], parts, "=")
            limits[parts[1]] = parts[2]
        }
    }
    /^X-Hub-Moment: [0-9]+$/ { now = substr($0, 15) + 0 }
    $1 == "feed" && $2 == "accepted" && $3 == "last" && $4 == "entities" { feeds = 1; next }
    feeds && NF == 4 {
        known[$1] = 1
        limit = $1 in limits ? limits[$1] : seconds
        if ($3 == 0) { told = "no message yet" } else { told = "last message of " (now - $3) " s ago" }
        silent = limit > 0 && ($3 == 0 || now - $3 > limit)
        print (silent ? "silent" : "ok") "\t" $1 "\t" told "\t" $2 " accepted\t" $4 " entities"
        if (silent) { status = 1 }
    }
    END {
        if (!now || !feeds) { print "this is no status of a hub"; exit 2 }
        for (name in limits) if (!(name in known)) { print "silent\t" name "\tthe hub has no such feed"; status = 1 }
        exit status
    }'
