#!/usr/bin/env bash
# Tries the made-up city (samples/city_of) as its script runs it: asks for the boards of all its stations, and looks at
# the display and the operators' page over it in Chromium without a window. With a folder it leaves the pictures there,
# made small by pngquant where that is installed. Ends by itself, with status 0 exactly where all was as it should be.
# HUB names the program, where it is not ./hub. Needs curl, python3 and chromium.
#
# usage: city_of.sh [FOLDER]
set -euo pipefail
top=$(cd "$(dirname "$0")/../.." && pwd)
. "$top/samples/serve/functions.sh"
needs curl python3 chromium
cd "$top"
build_hub

samples/city_of/make.py "$work/city" # the same that the script makes for itself
samples/city_of/run.sh 600 > "$work/said" 2> "$work/fault" &
city_process=$!
started+=("$city_process")
page=$(wait_line "$work/said" 'for operators   ' "$city_process")
cat "$work/said" "$work/fault"
python3 samples/tests/city_of.py "${page%%/operating/*}" "$(sed -n 's/^the hub  *//p' "$work/said")" \
  "$work/city/stops.txt" "${1:-$work}" >&1
stop_process "$city_process"
